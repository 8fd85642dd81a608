#!/usr/bin/env python3
"""Runs the tests of programs that nobody here wrote over a built library, by the adapters in tests/library/clients/:
the test program of the reference implementation of Argon2 (src/test.c), and the tests of argon2-cffi and python-scrypt.

    tests/library/clients.py FOLDER DIR      FOLDER has libpikhsen.so.0, as bin/lib

Of tests in Python it shows what pytest says. Fails where one of the three is not there, where a test fails but those of
DIFFERENCES, or where one of these ends as it was written. Those of Argon2 call libargon2.so.1 of compat/, but for two
answers that the adapter makes.

Takes the sources and packages that are unpacked in DIR, and the modules of the Python that runs it. It installs nothing
and uses no network. Debian has them all, some of them in its newer suites alone:

    apt-get source --download-only argon2 python-argon2 python-scrypt
    apt-get download python3-cffi python3-cffi-backend python3-pycparser python3-ply python3-pytest python3-hypothesis \\
        python3-attr python3-iniconfig python3-pluggy python3-packaging python3-sortedcontainers
    for it in *.orig.tar.*; do tar -xf $it; done; for it in *.deb; do dpkg-deb -x $it .; done

Not in the gate, since none of this is there. It takes some minutes and 1.5 GB.
"""
import os
import pathlib
import subprocess
import sys
import tempfile

TOP = pathlib.Path(__file__).resolve().parents[2]
ADAPTERS = TOP / "tests/library/clients"

# Tests of argon2-cffi that end in another way over this library, with the reason. Those of their examples that are
# within the limits of pikhsen.h must pass.
DIFFERENCES = {"tests/test_low_level.py::test_argument_ranges": "a salt of more than 255 bytes is refused"}
# Those that never come to the library.
LEFT_OUT = {"tests/test_packaging.py": "it reads what pip notes of an installed package"}


def tree_with(sources, *files):
    """Of the folders below this one that have these files the one with the last name: the newest version."""
    trees = [it.parents[files[0].count("/")] for it in sources.rglob(files[0])]
    trees = [it for it in trees if all((it / file).is_file() for file in files)]
    return max(trees) if trees else sys.exit(f"{files[0]} is not below {sources}")


def compiled(words, out):
    """A program or library of C, with the library in FOLDER beside it."""
    flags = ["-std=c99", "-D_DEFAULT_SOURCE", "-O1", "-Wall", "-Wextra", "-Werror", "-I", str(TOP / "include")]
    subprocess.run(["cc", *flags, *words, "-o", out], check=True)
    return out


def of_test_program(tree, adapter, link, work):
    """Whether the lines of the program end in PASS; assert is ours, which goes on after a failure."""
    words = ["-w", "-I", ADAPTERS, "-I", tree / "include", tree / "src/test.c", adapter, *link, f"-Wl,-rpath,{work}"]
    ran = subprocess.run([compiled(words, work / "test")], stdout=subprocess.PIPE, text=True)
    *tests, rest = ran.stdout.split("PASS\n")
    failed = [it.strip().rpartition("\n")[2] for it in tests if "FAILED" in it]
    print(f"{len(tests) - len(failed)} passed, {len(failed)} failed, status {ran.returncode} {rest.strip()}")
    print("".join(f"  FAILED {it}\n" for it in failed), end="")
    return tests and not failed and not rest.strip() and not ran.returncode


def of_argon2_cffi(adapter, header, suite, tree):
    """Whether all its tests pass but those that differ, and these do within the limits alone."""
    print(f"left out: {LEFT_OUT}; they differ, and then pass within the limits: {DIFFERENCES}", flush=True)
    others = [f"--ignore={it}" for it in LEFT_OUT] + [f"--deselect={it}" for it in DIFFERENCES]
    runs = [("whole", 0, "tests", *others)]
    for it in DIFFERENCES:
        runs += [("whole", 1, it), ("within", 0, it)]
    return all(suite(tree, "argon2-cffi", adapter, header, how, *words) == status for how, status, *words in runs)


def main():
    if len(sys.argv) != 3:
        raise SystemExit(__doc__)
    lib, sources = (pathlib.Path(it).resolve() for it in sys.argv[1:])
    with tempfile.TemporaryDirectory() as work:
        work = pathlib.Path(work)
        link = ["-L", lib, "-l:libpikhsen.so.0", f"-Wl,-rpath,{lib}"]
        environment = {**os.environ, "PYTHONPATH": ":".join(map(str, sources.rglob("dist-packages"))),
                       "PYTHONDONTWRITEBYTECODE": "1", "HYPOTHESIS_STORAGE_DIRECTORY": str(work / "hypothesis")}

        def suite(tree, *words):
            """The status of a client's tests in Python, over an adapter."""
            return subprocess.run([sys.executable, ADAPTERS / "suites.py", *words], cwd=tree, env=environment).returncode

        adapter = compiled(["-shared", "-fPIC", ADAPTERS / "argon2.c", *link], work / "libargon2.so")
        tree = tree_with(sources, "src/test.c", "include/argon2.h")
        right = {tree.name: of_test_program(tree, adapter, link, work)}
        header, tree = tree / "include/argon2.h", tree_with(sources, "tests/test_low_level.py", "src/argon2/low_level.py")
        right[tree.name] = of_argon2_cffi(adapter, header, suite, tree)
        adapter = compiled(["-shared", "-fPIC", ADAPTERS / "scrypt.c", *link], work / "_scrypt.so")
        tree = tree_with(sources, "scrypt/tests/test_scrypt.py")
        right[tree.name] = suite(tree, "python-scrypt", adapter, "scrypt/tests") == 0
    print(f"passed: {right}")
    sys.exit(not all(right.values()))


if __name__ == "__main__":
    main()
