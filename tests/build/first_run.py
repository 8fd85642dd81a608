#!/usr/bin/env python3
"""Runs make run and make check in a copy of the tree, over a stand-in for rt that proves nothing.

    tests/build/first_run.py

Each crate is begun once, and only after all that it stands on; each has its line when it is proved. A failure stops
what stands on it alone, is told with its last lines, and leaves no program of older sources, nor does a run that is
stopped, which ends all that it began.
"""
import os
import pathlib
import re
import shutil
import signal
import subprocess
import sys
import time

sys.path += map(str, pathlib.Path(__file__).resolve().parents[1].iterdir())  # the other folders of tests/
sys.dont_write_bytecode = True
from checking import over_programs  # noqa: E402
from tree import PROGRAMS as TOOLS, TOP, prove  # noqa: E402

LINE = re.compile(r"^ ?(\d+ of \d+) (\w+), (\d+ s|as it was proved before)(?:; under way: (.*))?$", re.MULTILINE)
LEVEL = "x86-64-v2"
# Where the programs are once they are chosen, and where they are built.
CHOSEN, BUILT = [f"bin/{it}" for it in TOOLS], [f"bin/{LEVEL}/{it}" for it in TOOLS]
PROGRAMS = [*CHOSEN, *BUILT]
IN_MEMORY = ["memory_host", "memory_system"]
OF_PROGRAMS = [it for it in prove.listed() if it not in ("pikhsen_c", "command", *IN_MEMORY) and not it.endswith("_tests")]
# What is begun where the run of scrypt changed: programs are begun each time.
SCRYPT = ["scrypt_run", "scrypt_command", "scrypt_program", *TOOLS.values()]
APART = "command_tests", "test"
# Says that a crate is proved whose text has not the word "broken", after a minute where it has the word "slow". Like rt
# it lets no other run work in the crate and in what it stands on, keeps a library, and then says nothing.
STAND_IN = f"#!{sys.executable} -IS" + r'''
import fcntl, os, shutil, sys, time
words, crates, name = sys.argv[1:], *os.path.split(os.getcwd())
text_of = lambda path: open(path).read() if os.path.isfile(path) else ""
def write(path, text):
    os.makedirs(os.path.dirname(path), exist_ok=True)
    open(path, "w").write(text)
def note(what):
    open(os.environ["JOURNAL"], "a").write(f"{what} {name} {os.getpid()} {' '.join(words)}\n")
lines = [it.partition(":") for it in text_of(crates + "/../crates.txt").splitlines()]
uses = {it.split()[0]: others.split() for it, _, others in lines}
def below(crate):
    return {it for other in uses[crate] if other in uses for it in [other, *below(other)]}
for it in sorted(below(name) | {name}):
    fcntl.flock(os.open(f"{crates}/{it}", os.O_RDONLY), fcntl.LOCK_EX | fcntl.LOCK_NB)
is_program, stamp = os.path.isfile("src/main.rt"), "out/rlib/stamp"
source = text_of("src/main.rt") + text_of("src/lib.rt")
libraries = [text_of(f"{crates}/{it}/{stamp}") for it in sorted(below(name))]
text, is_library = source + "".join(libraries), not is_program and name != "pikhsen_c"
if words[0] == "lib" and is_library and text_of(stamp) == text:
    note("kept")
    sys.exit()
write(f"out/incremental/{words[0]}", text)
note("begin")
if not all(libraries):
    sys.exit("a library below is not there")
time.sleep(60 if "slow" in source else 0.06)
if "broken" in source:
    print("\n".join(f"line {at}" for at in range(100)), flush=True)
    sys.exit(f"{name}::there: no proof")
print("logic=proved")
if words[0] == "lib":
    write(stamp, text) if is_library else shutil.copy(os.environ["ARCHIVE"], f"out/lib{name}.a")
if words[0] == "run":
    write(f"out/{name}.o", f"#!/bin/sh\necho {name} {len(text)}\nexit\n")
    parts = [f"out/{name}.o", *(f"{os.path.dirname(__file__)}/../c/{it}" for it in ("libos_c.a", "liblibc_c.a"))]
    write(f"out/{name}", "".join(map(text_of, parts)))
    os.chmod(f"out/{name}", 0o755)
note("end")
sys.exit(words[0] == "run")
'''
# The kit: it links files by putting their texts one after the other, and compiles a file in C to its name; and what it links
# beside that.
KIT = {
    "bin/rt": STAND_IN,
    "bin/rattle-link": '#!/bin/sh\nwhile test "$1" != -o; do shift; done\nto=$2\nshift 2\ncat "$@" >"$to" && chmod 755 "$to"\n',
    "toolchain/bin/clang": '#!/bin/sh\nwhile test "$1" != -o; do shift; done\necho "${3##*/}" >"$2"\n',
    "c/libos_c.a": "calls of the system\n", "c/liblibc_c.a": "the heap of the kit\n",
}
# Scripts that make check runs.
SCRIPTS = dict.fromkeys(("tests/sources/sources.sh", "tests/sources/calls.py", "tests/pages/documents.py"), "#!/bin/sh\n")


def put(path, text):
    """Writes a file that may be run."""
    path.parent.mkdir(parents=True, exist_ok=True)
    path.write_text(text, encoding="utf-8")
    path.chmod(0o755)


class Tree:
    """A copy of the tree with one line of text in each of these crates."""

    def __init__(self, folder, crates):
        self.top, self.journal, self.kit = (pathlib.Path(folder, it) for it in ("tree", "journal", "kit"))
        self.journal.touch()
        shutil.copytree(TOP / "packaging", self.top / "packaging", ignore=shutil.ignore_patterns("__pycache__"))
        for name in ("Makefile", "VERSION", "tests/build/changed.py"):
            put(self.top / name, (TOP / name).read_text(encoding="utf-8"))
        for folder, texts in (self.top, {**SCRIPTS, "crates.txt": crates}), (self.kit, KIT):
            for name, text in texts.items():
                put(folder / name, text)
        for name in re.findall(r"^\w+", crates, re.MULTILINE):
            self.write(name, "as it was\n")
        path = f"{self.kit}/bin:{os.environ['PATH']}"
        self.environment = {"PATH": path, "JOURNAL": str(self.journal), "HOME": str(self.top.parent)}

    def source(self, crate):
        is_program = (TOP / "crates" / crate / "src/main.rt").is_file()
        return self.top / "crates" / crate / "src" / ("main.rt" if is_program else "lib.rt")

    def write(self, crate, text):
        put(self.source(crate), text)

    def older(self, names):
        """Puts older files where these are made."""
        for name in names:
            put(self.top / name, f"older {name}")

    def start(self, *words, umask=0o022, **environment):
        self.journal.write_text("")
        how = {"cwd": self.top, "env": {**self.environment, **environment}, "text": True, "start_new_session": True, "umask": umask}
        # a shell has what runs in its background ignore ctrl-C
        how["preexec_fn"] = lambda: signal.signal(signal.SIGINT, signal.SIG_DFL)
        return subprocess.Popen(words, stdout=subprocess.PIPE, stderr=subprocess.STDOUT, **how)

    def start_at(self, crate, *words):
        """What runs with these words, once it has begun this crate."""
        running, until = self.start(*words), time.monotonic() + 30
        while time.monotonic() < until and crate not in self.begun():
            time.sleep(0.02)
        return running

    def run(self, *words, **how):
        """The status of what runs with these words, and what it said."""
        running = self.start(*words, **how)
        said, _ = running.communicate(timeout=60)
        return running.returncode, said

    def make(self, *words):
        """The status of make with these words, and the lines that it said."""
        status, said = self.run("make", *words)
        return status, said.splitlines()

    def noted(self, what=None):
        """Of each line of the journal what came to pass, the crate, and the words after rt."""
        lines = [it.split() for it in self.journal.read_text().splitlines()]
        return [(it[0], it[1], it[3:]) for it in lines if what in (None, it[0])]

    def begun(self):
        return sorted(it[1] for it in self.noted("begin"))

    def there(self, names):
        return [it for it in names if (self.top / it).exists()]


def look_at_order(checks, name, tree, crates, most):
    """Each crate was begun once, after the end of all that it stands on, and at most so many were under way."""
    uses, ended, early, under_way, largest = prove.uses_of(), set(), [], 0, 0
    checks.that(f"{name}: each crate, once", tree.begun(), sorted(crates))
    for what, crate, _ in tree.noted():
        if what == "begin":
            early += [crate] * (not ended.issuperset(uses[crate]))
        else:
            ended.add(crate)
        under_way += {"begin": 1, "end": -1}.get(what, 0)
        largest = max(largest, under_way)
    checks.that(f"{name}: before what they stand on", early, [])
    checks.that(f"{name}: under way at a time", largest <= most, True)


def look_at_lines(checks, name, said, total, kept=0):
    """There is a line for each crate, numbered, with what is under way, which is nothing at the end."""
    numbers, crates, how, under_way = zip(*LINE.findall("\n".join(said)))
    checks.that(f"{name}: numbers", [*numbers], [f"{at} of {total}" for at in range(1, total + 1)])
    checks.that(f"{name}: kept", how.count("as it was proved before"), kept)
    named = {it for line in under_way for it in line.split(", ") if it}
    checks.that(f"{name}: what is under way", (bool(named), named <= {*crates}, under_way[-1]), (True, True, ""))


def shares(checks):
    """A crate gets more processes the fewer others run or could, and the one that leads goes first."""
    for processors, found in (("1", [1, 1, 1, 1, 1]), ("2", [2, 1, 1, 1, 1]), ("4", [4, 2, 1, 1, 2]), ("64", [4, 4, 4, 4, 4])):
        os.environ["JOBS"] = processors
        beside = [prove.jobs_for(*it) for it in ((0, 0), (1, 0), (2, 0), (3, 0), (3, 0.9))]
        checks.that(f"processes, of {processors}", beside, found)
    step = prove.Step("scrypt_tool", ["run", "--", "-h"])
    checks.that("the one that leads", step.command(4, True), ["rt", "run", "--jobs", "4", "--", "-h"])
    checks.that("one beside it", step.command(2, False), ["nice", "-n", "10", "rt", "run", "--jobs", "2", "--", "-h"])


def succeeds(checks, tree):
    status, said = tree.make("run", f"CPU={LEVEL}", "JOBS=2")
    checks.that("make run", (status, tree.there(PROGRAMS)), (0, PROGRAMS))
    checks.that("make run: its end", said[-1].split()[0], "argon_tool")
    look_at_order(checks, "make run", tree, OF_PROGRAMS, 2)
    look_at_lines(checks, "make run", said, len(OF_PROGRAMS))
    words = {crate: words for _, crate, words in tree.noted("begin")}
    checks.that("the level", (words["scrypt_tool"][0], words["scrypt_tool"][3:5]), ("run", ["--cpu", LEVEL]))
    checks.that("no tests", any("test" in it for it in words.values()), False)
    checks.that("processes for a crate", words["romix"][:2], ["lib", "--jobs"])
    tree.make("run", f"CPU={LEVEL}")
    checks.that("nothing changed", tree.noted(), [])
    tree.write("scrypt_run", "other\n")
    status, said = tree.make("run", f"CPU={LEVEL}", "JOBS=3")
    checks.that("a change", status, 0)
    look_at_order(checks, "a change", tree, SCRYPT, 3)
    look_at_lines(checks, "a change", said, len(OF_PROGRAMS), kept=len(OF_PROGRAMS) - len(SCRYPT))


def fails(checks, tree):
    older = [*PROGRAMS, "bin/x86-64-v3/scrypt"]
    tree.older(older[-1:])
    checks.that("older programs", tree.there(older), older)
    tree.write("scrypt_run", "broken\n")
    tree.write("tools", "other\n")
    status, said = tree.make("run", f"CPU={LEVEL}")
    checks.that("a failure", (status != 0, tree.there([*older, "bin/level"])), (True, []))
    checks.that("a failure: begun", tree.begun(), [
        "argon2_program", "argon2_verify_program", "argon2_verify_tool", "argon_tool", "scrypt_run", "system_calls", "tools"])
    checks.that("a failure: why", "| scrypt_run::there: no proof" in said and "| line 99" in said, True)
    checks.that("a failure: no more than its end", "| line 10" in said, False)
    checks.that("a failure: the log", "scrypt_run FAILED. The end of bin/logs/scrypt_run:" in said, True)
    left = "Left out, since they stand on it: scrypt_command, scrypt_program, scrypt_tool."
    checks.that("a failure: the last line", any(it.startswith(f"Failed: scrypt_run. {left}") for it in said), True)
    status, said = tree.make("install", f"CPU={LEVEL}", f"PREFIX={tree.top}/to")
    checks.that("a failure: nothing is installed", (status != 0, tree.there(["to"])), (True, []))
    tree.write("scrypt_run", "mended\n")
    status, said = tree.make("run", f"CPU={LEVEL}")
    checks.that("mended", (status, tree.begun(), tree.there(PROGRAMS)), (0, sorted(SCRYPT), PROGRAMS))


def is_stopped(checks, tree):
    """Ctrl-C reaches all that runs; a signal to end comes to the one process that it is sent to."""
    for name, words, send, number in (("ctrl-C", ["make", "run", f"CPU={LEVEL}"], os.killpg, signal.SIGINT),
                                      ("a signal", ["packaging/prove.py", "host"], os.kill, signal.SIGTERM)):
        tree.write("host", f"slow, {name}\n")
        running = tree.start_at("host", *words)
        checks.that(f"{name}: programs under way", tree.there(PROGRAMS), [])
        pids = [int(it.split()[2]) for it in tree.journal.read_text().splitlines() if it.startswith("begin")]
        send(running.pid, number)
        said, _ = running.communicate(timeout=30)
        checks.that(name, (running.returncode != 0, "Stopped. What was proved is kept." in said), (True, True))
        checks.that(f"{name}: what was begun", [it for it in pids if os.path.exists(f"/proc/{it}")], [])
        checks.that(f"{name}: programs", tree.there(PROGRAMS), [])
        kept = "crates/host/out/incremental/lib"
        checks.that(f"{name}: what was kept", tree.there([kept, "bin/rooms"]), [kept])


def checks_what_changed(checks, tree):
    """What differs from the last commit is proved, with what stands on it, and tested, also where its tests stand apart."""
    git = ["git", "-c", "user.name=A", "-c", "user.email=a@localhost"]
    put(tree.top / ".gitignore", "out/\n/bin/\n__pycache__/\n")
    tree.write("host", "as it was\n")
    tree.older(["crates/command_tests/src/tests/of_scrypt_command.rt"])
    tree.run(*git, "init", "-q")
    programs = ["argon2_program", "argon2_verify_program"]
    touched = {**dict.fromkeys(["argon_text", "argon2_command", "argon2_verify", "command", *programs], "lib"),
               **dict.fromkeys(["argon_tool", "argon2_verify_tool", "pikhsen_c"], "check")}
    for name, texts, begun, line in (
        ("make check", {"argon_text": "changed", "argon_tool": "changed"}, [
            *touched.items(), (IN_MEMORY[0], "lib"), ("argon_text_tests", "test")], "9 crates to prove"),
        ("make check, tests apart", {"scrypt_command": "changed"}, [
            ("command", "lib"), ("scrypt_command", "lib"), ("scrypt_program", "lib"), APART, ("scrypt_tool", "check")], "4 crates to prove"),
        ("make check, tests alone", {"command_tests": "changed"}, [APART], "1 to test: command_tests."),
        ("make check fails", {"argon_text": "broken"}, [("argon_text", "lib")], "Failed: argon_text."),
    ):
        tree.run(*git, "add", "-A")
        tree.run(*git, "commit", "-q", "-m", name)
        for crate, text in texts.items():
            tree.write(crate, f"{text}\n")
        status, said = tree.make("check")
        checks.that(name, (status != 0, any(it.startswith(line) for it in said)), (name == "make check fails", True))
        checks.that(f"{name}: begun", sorted((it[1], it[2][0]) for it in tree.noted("begin")), sorted(begun))
        if name == "make check":
            checks.that(f"{name}: the lines", len(LINE.findall("\n".join(said))), 29)


def main(checks, folder):
    shares(checks)
    tree = Tree(folder, (TOP / "crates.txt").read_text(encoding="utf-8"))
    for test in (succeeds, fails, is_stopped, checks_what_changed):
        test(checks, tree)


if __name__ == "__main__":
    over_programs(main, __doc__)
