#!/usr/bin/env python3
"""Proves and builds again the object of each program of which rt ci left none: of what it kept of an earlier run it gives
the program alone, and packaging/link.sh links an object. It does so in a copy, over the libraries that rt ci left."""
import concurrent.futures
import pathlib
import shutil
import sys
import tempfile

sys.path += map(str, pathlib.Path(__file__).resolve().parents[1].iterdir())  # the other folders of tests/
from toolchain import ALONE, rt, told
from tree import TOP


def build(crate, room):
    """The status of building a crate's object, and what is said."""
    out = pathlib.Path(crate.folder, "out")
    crate.folder = shutil.copytree(crate.folder, f"{room}/{crate.name}", ignore=shutil.ignore_patterns("incremental"))
    status, said = told(crate, lambda it: it.compile([*ALONE, "--cpu", "x86-64-v2"], f"out/{crate.name}.o"))
    if status == 0:
        shutil.copy2(f"{crate.folder}/out/{crate.name}.o", out)
    return status, said[-2000:]


PROGRAMS = [it for it in rt.rtlib.crates_below(f"{TOP}/crates") if it.is_program]
LACKING = [it for it in PROGRAMS if not pathlib.Path(it.folder, f"out/{it.name}.o").is_file()]
with tempfile.TemporaryDirectory(prefix="objects-") as room, concurrent.futures.ThreadPoolExecutor(rt.processors()) as pool:
    answers = [*pool.map(lambda it: build(it, room), LACKING)]
print(*(said for _, said in answers), sep="\n")
sys.exit(max((status for status, _ in answers), default=0))
