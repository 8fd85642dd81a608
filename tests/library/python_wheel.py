#!/usr/bin/env python3
"""The wheel: the same bytes each time and under each umask, its files and what it says of itself, and that its libraries
are for all systems of its tag; and how pip installs it in a new environment of Python, without a network. There the page's login runs, over the library inside that is for the
processor's level.

    tests/library/python_wheel.py FOLDER      the folder in which libpikhsen.so.0 lies
"""
import email
import importlib.util
import os
import pathlib
import re
import subprocess
import sys
import zipfile

sys.path += map(str, pathlib.Path(__file__).resolve().parents[1].iterdir())  # the other folders of tests/
from binaries import runs_v3
from checking import left_out, over_library, ran, said
from packages import EPOCH, HIGHER, LOADED, newest_libc
from shown import shown
from tree import TOP, VERSION

# The version of glibc that the wheel asks for; manylinux_2_17 is the oldest tag of PEP 600 that its libraries meet.
GLIBC = (2, 17)
TAG = f"py3-none-manylinux_{GLIBC[0]}_{GLIBC[1]}_x86_64"
NAME = f"pikhsen-{VERSION}-{TAG}.whl"
ABOUT = f"pikhsen-{VERSION}.dist-info"
LIBRARY_AND_VERSION = LOADED % "importlib.metadata, pikhsen" + 'print(importlib.metadata.version("pikhsen"))'


def made(lib, out, umask):
    """Status and output of packaging/wheel.sh, which makes the wheel in a folder that is made for it."""
    os.mkdir(out)
    pathlib.Path(out, f"pikhsen-0.0.1-{TAG}.whl").touch()
    return ran(TOP / "packaging/wheel.sh", lib, out, env={**os.environ, "SOURCE_DATE_EPOCH": f"{EPOCH}"}, umask=umask)


def contents(checks, wheel, lib):
    """The module and the libraries are there as they are in the tree, for all to read; and what the wheel says of itself."""
    libraries = {f"pikhsen/{it}": pathlib.Path(lib, it) for it in ("libpikhsen.so.0", HIGHER) if pathlib.Path(lib, it).is_file()}
    modules = {f"pikhsen/{it}": TOP / "python/pikhsen" / it for it in ("__init__.py", "_files.py")}
    sources = {**modules, "pikhsen/py.typed": pathlib.Path("/dev/null"), **libraries}
    with zipfile.ZipFile(wheel) as packed:
        files = {it.filename: oct(it.external_attr >> 16 & 0o777) for it in packed.infolist()}
        read = {it: packed.read(it) for it in files}
    named = [*sources, *(f"{ABOUT}/{it}" for it in ("METADATA", "WHEEL", "RECORD", "top_level.txt"))]
    checks.that("wheel: files", sorted(files), sorted(named))
    checks.that("wheel: permissions", {files[it] for it in sources if it in files}, {"0o644"})
    other = [it for it, source in sources.items() if read.get(it) != source.read_bytes()]
    checks.that("wheel: files that are others", other, [])
    about, tags = (email.message_from_bytes(read[f"{ABOUT}/{it}"]) for it in ("METADATA", "WHEEL"))
    checks.that("wheel: its tag", [tags.get_all(it) for it in ("Tag", "Root-Is-Purelib")], [[TAG], ["false"]])
    for_all_systems(checks, libraries.values())
    fields = [about[it] for it in ("Name", "Version", "Requires-Python", "License", "Requires-Dist")]
    checks.that("wheel: its fields", fields, ["pikhsen", VERSION, ">=3.9", None, None])
    text = " ".join(about.get_payload().split())
    for phrase in ("No licence has been chosen yet", f"glibc {GLIBC[0]}.{GLIBC[1]} or later", "level x86-64-v2 and above"):
        checks.that(f"wheel: what is said of it: {phrase}", phrase in text, True)


def for_all_systems(checks, libraries):
    """What auditwheel asks of a library under a tag of glibc: no other library than that, no newer version of it, and no
    note that asks for more than every x86-64 processor has."""
    for library in libraries:
        asked, notes = (said("readelf", it, str(library)) for it in ("-dVW", "-nW"))
        newest = tuple(map(int, newest_libc([library]).split(".")))
        found = re.findall(r"\(NEEDED\).*\[(.*)\]", asked), {*re.findall(r"Name: ([A-Z]+)_\d\S*  Flags", asked)}, newest <= GLIBC, "ISA" in notes
        checks.that(f"wheel: what {library.parent.name}/{library.name} asks for", found, (["libc.so.6"], {"GLIBC"}, True, False))


def installed(checks, folder, wheel, lib):
    """What pip installs runs by itself, finds the library inside, or that which is named, and goes again."""
    lacks = [it for it in ("venv", "ensurepip") if not importlib.util.find_spec(it)]
    if lacks:
        left_out(f"{', '.join(lacks)} is not installed", "the wheel is not installed")
        return
    there = pathlib.Path(folder, "environment")
    subprocess.run([sys.executable, "-m", "venv", there], check=True)
    python, pip = there / "bin/python", [there / "bin/python", "-m", "pip", "--disable-pip-version-check", "--quiet"]
    found = ran(*pip, "install", "--no-index", "--no-build-isolation", wheel)
    checks.that("pip install", found, (0, ""))
    site = next(there.glob("lib/python*/site-packages"))
    is_higher = pathlib.Path(lib, HIGHER).is_file() and runs_v3()
    inside, named = site / "pikhsen" / (HIGHER if is_higher else "libpikhsen.so.0"), f"{lib}/libpikhsen.so.0"
    for name, variables, library in (("inside", {}, inside), ("that is named", {"PIKHSEN_LIBRARY": named}, named)):
        found = ran(python, "-c", LIBRARY_AND_VERSION, env=variables, cwd=folder)
        checks.that(f"a wheel, installed: the library {name}", found, (0, f"{library}\n{VERSION}\n"))
    program, _, printed = shown("python")
    checks.that("LIBRARY's login.py, over the wheel", ran(python, "-c", program, env={}, cwd=folder), (0, printed))
    checks.that("pip uninstall", ran(*pip, "uninstall", "--yes", "pikhsen"), (0, ""))
    checks.that("what pip leaves", [it.name for it in site.glob("pikhsen*")], [])


def all_of(checks, folder, lib):
    both = [pathlib.Path(folder, it) for it in ("wheel", "same wheel")]
    status, said = made(lib, both[0], 0o077)
    if "no Python has" in said:
        left_out(f"{said.rstrip()}: what makes wheels is not installed", "the wheel is not made")
        return
    checks.that("wheel.sh", [(status, said), made(lib, both[1], 0o002)], [(0, "")] * 2)
    checks.that("wheels", [[it.name for it in each.iterdir()] for each in both], [[NAME]] * 2)
    checks.that("wheel, made twice, under two umasks", (both[0] / NAME).read_bytes() == (both[1] / NAME).read_bytes(), True)
    contents(checks, both[0] / NAME, lib)
    installed(checks, folder, both[0] / NAME, lib)
    status, _ = ran(TOP / "packaging/wheel.sh", folder, both[1])
    checks.that("wheel.sh without a library", (status != 0, [*both[1].iterdir()]), (True, []))


if __name__ == "__main__":
    over_library(all_of)
