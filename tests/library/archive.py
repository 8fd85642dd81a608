#!/usr/bin/env python3
"""Proves and builds the library for C over the libraries that rt ci left: crates/pikhsen_c/out/libpikhsen_c.a. It does so in a
copy, since trials of wrong bodies may be at work in the crate's out/. A static library keeps no compiled code that can be
read, so over what that proof kept it is built as a library of Rattle's, too: tests/sources/calls.py reads bin/pikhsen_c.rlib."""
import pathlib
import shutil
import sys
import tempfile

sys.path += map(str, pathlib.Path(__file__).resolve().parents[1].iterdir())  # the other folders of tests/
from toolchain import ALONE, rt, told
from tree import TOP

CRATE = next(it for it in rt.rtlib.crates_below(f"{TOP}/crates") if it.is_static)
OUT = pathlib.Path(CRATE.folder, "out")
OUT.mkdir(exist_ok=True)
with tempfile.TemporaryDirectory(prefix="archive-") as room:
    CRATE.folder = shutil.copytree(CRATE.folder, f"{room}/copy", ignore=shutil.ignore_patterns("incremental", "*.a"))
    status, said = told(CRATE, lambda it: it.build_static([*ALONE, "--cpu", "x86-64-v2"]))
    print(said[-2000:])
    if status == 0:
        shutil.copy2(f"{room}/copy/out/lib{CRATE.name}.a", OUT)
        CRATE.is_static, CRATE.rlib = False, f"{room}/copy/out/rlib/{CRATE.name}.rlib"
        status, said = told(CRATE, lambda it: it.build_rlib(ALONE, anew=False))
        print(said[-300:])
    if status == 0:
        shutil.rmtree(kept := TOP / f"bin/{CRATE.name}.rlib", ignore_errors=True)
        for part in ("toolchain", "lang/src"):
            shutil.copytree(f"{CRATE.rlib}/{part}", kept / part, ignore=shutil.ignore_patterns("made.json"))
sys.exit(status)
