#!/usr/bin/env python3
"""Calls the heap, packaging/heap.c, as the toolchain's compiler makes it for programs and library: blocks of each kind of
size, given, refused, grown, shrunk and freed, by heap_calls.c, over other heaps than the C library's, and under valgrind.
And each of some wrong heaps is found."""
import os
import pathlib
import shutil
import signal
import sys

sys.path += map(str, pathlib.Path(__file__).resolve().parents[1].iterdir())  # the other folders of tests/
from checking import HEAPS, is_there, left_out, over_programs, ran
from tree import TOP

WARNED = ["-std=c99", "-pedantic", "-Wall", "-Wextra", "-Werror"]
WRAPPED = [f"-Wl,--wrap={it}" for it in ("malloc", "free", "madvise")]
# What stands in heap.c, and what makes it a wrong heap.
WRONG = (
    ("size ? size : 1", "size"),
    ("size ? size : 1, 16", "size ? size : 1, 8"),
    ("rounded_up(size ? size : 1, 16)", "(size ? size : 16)"),
    ("rounded_up(size ? size : 1, 16)", "rounded_up(size / 2 + 1, 16)"),
    (".ok = block != 0", ".ok = 1"),
    (".block = block ? block : &nothing", ".block = block"),
    ("!block || (unsigned long)block % HUGE_PAGE != 0", "1"),
    ("!block || (unsigned long)block % HUGE_PAGE != 0", "(unsigned long)block % HUGE_PAGE != 0"),
    ("        free(block);\n    }\n    size", "    }\n    size"),
    ("size = rounded_up(size, PAGE)", "(void)PAGE"),
    ("malloc(size + HUGE_PAGE)", "malloc(size)"),
    ("    if (!start)\n        return tried(start);\n", ""),
    ("/ HUGE_PAGE + 1) * HUGE_PAGE", "/ PAGE + 1) * PAGE"),
    ("{.start = start, ", "{.start = block, "),
    ("{.start = start, .size = size}", "{.start = start, .size = PAGE}"),
    ("    madvise(block, size, MADV_HUGEPAGE);\n", ""),
    ("madvise(block, size, MADV_HUGEPAGE)", "madvise(block, HUGE_PAGE, MADV_HUGEPAGE)"),
    ("MADV_HUGEPAGE = 14", "MADV_HUGEPAGE = 15"),
    ("    madvise(block, size, MADV_DONTDUMP);\n", ""),
    ("madvise(block, size, MADV_DONTDUMP)", "madvise(block, HUGE_PAGE, MADV_DONTDUMP)"),
    ("MADV_DONTDUMP = 16", "MADV_DONTDUMP = 18"),
    ("        madvise(block, it->size, MADV_DODUMP);\n", ""),
    ("        block = it->start;\n", ""),
    ("        it->start = 0, it->size = 0;\n", ""),
    ("    free(block);\n}", "    (void)block;\n}"),
    ("        memcpy(new.block, old, kept);\n", "        (void)kept;\n"),
    ("        rattle_dealloc(old);\n", ""),
    ("    if (new.ok) {\n", "    {\n"),
)


def made(folder, source, out, *flags):
    """Compiles a heap as packaging/heap.sh does, and heap_calls.c over it."""
    packaging = pathlib.Path(folder, "packaging")
    packaging.mkdir(exist_ok=True)
    shutil.copy2(TOP / "packaging/heap.sh", packaging)
    (packaging / "heap.c").write_text(source, encoding="utf-8")
    status, said = ran(packaging / "heap.sh", f"{out}.o")
    words = [*WARNED, "-D_DEFAULT_SOURCE", "-D_ISOC11_SOURCE", "-O1", *WRAPPED, *flags]
    return (status, said) if status or said else ran("gcc", *words, TOP / "tests/library/heap_calls.c", f"{out}.o", "-o", out)


def cored(checks, folder, program):
    """A core file has the small block, and not the large one."""
    room = pathlib.Path(folder, "core")
    room.mkdir()
    status, _ = ran("sh", "-c", 'ulimit -c unlimited; exec "$0" core', program, cwd=room)
    checks.that("ended by SIGABRT", status, -signal.SIGABRT)
    cores = list(room.iterdir())
    if cores:
        content = cores[0].read_bytes()
        checks.that("in the core file: small, large", [it * 4000 in content for it in (b"S", b"L")], [True, False])
    else:
        left_out("core files go elsewhere here", "none is looked at", 1)


def main(checks, folder):
    if not is_there("gcc", "the heap is not called"):
        return
    source, refusing, plain = (TOP / "packaging/heap.c").read_text(encoding="utf-8"), f"{folder}/refusing", f"{folder}/plain"
    checks.that("heap.c under gcc", ran("gcc", *WARNED, "-fsyntax-only", TOP / "packaging/heap.c"), (0, ""))
    for program, *flags in ((refusing, "-DREFUSE"), (plain,)):
        checks.that("heap_calls.c, compiled", made(folder, source, program, *flags), (0, ""))
        status, said = ran(program)
        checks.that(f"heap_calls.c: {said.partition(chr(10))[0]}", (status, said), (0, ""))
    for package, file in HEAPS.items():
        if os.path.exists(file):
            checks.that(f"heap_calls.c over {package}", ran(plain, "other", env={"LD_PRELOAD": file, "EF_DISABLE_BANNER": "1"}), (0, ""))
        else:
            left_out(f"{package} is not installed", "the heap is not called over it", 1)
    cored(checks, folder, plain)
    for right, wrong in WRONG:
        status, said = made(folder, source.replace(right, wrong), f"{folder}/wrong", "-DREFUSE")
        checks.that(f"a wrong heap, compiled: {wrong}", (status, said, source.count(right)), (0, "", 1))
        checks.that(f"a wrong heap is found: {wrong}", ran(f"{folder}/wrong")[0] != 0, True)
    if is_there("valgrind", "the heap is not called under it"):
        watched = ["valgrind", "-q", "--error-exitcode=9", "--leak-check=full", "--show-mismatched-frees=yes"]
        checks.that("heap_calls.c under valgrind", ran(*watched, plain, "other"), (0, ""))


over_programs(main, __doc__)
