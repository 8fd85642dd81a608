"""The toolchain's own command as a module: so an edit is checked as `rt ci` checks one, in the same lanes."""
import copy
import os
import shutil
import tempfile
from importlib import machinery, util

ALONE = ["--jobs", "1"]


def load_rt():
    loader = machinery.SourceFileLoader("rt", os.path.realpath(shutil.which("rt")))
    module = util.module_from_spec(util.spec_from_loader("rt", loader))
    loader.exec_module(module)
    os.environ.pop(module.rtlib.ALLOW_C, None)
    module.rtlib.guarded()
    return module


def left_by_ci(crates):
    """Whether each library is as rt ci leaves it: newer than what it is made from, and without a stamp."""
    for crate in (it for it in crates if it.makes_rlib()):
        if not os.path.isdir(crate.rlib) or os.path.exists(f"{os.path.dirname(crate.rlib)}/stamp"):
            return False
        files = [file for it in [*crate.below(), crate] for file in rt.rtlib.files_of(it.folder)]
        if os.path.getmtime(crate.rlib) < max(map(os.path.getmtime, files)):
            return False
    return True


def told(crate, call):
    """What a call of the toolchain's answers for a crate, and what it prints."""
    crate = copy.copy(crate)
    with tempfile.TemporaryFile("w+", errors="replace") as crate.out:
        status = call(crate)
        crate.out.seek(0)
        return status, crate.out.read()


rt = load_rt()
