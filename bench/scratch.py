"""What the scripts of bench/ share: a small program over crates of this repository; what a run of a program, or a call, uses,
and the least of several."""
import argparse
import collections
import math
import os
import pathlib
import resource
import shutil
import subprocess
import tempfile
import time

TOP = pathlib.Path(__file__).resolve().parent.parent
ROOM = tempfile.TemporaryDirectory(prefix="pikhsen-bench-")  # for a copy of the crates; it is deleted when Python ends
Used = collections.namedtuple("Used", "cpu elapsed made")


def built(name, crates, source):
    """The program of this name over these crates, of a file of Rattle, built in a copy of the crates, proved as all is."""
    room = pathlib.Path(ROOM.name)
    folder = shutil.copytree(TOP / "crates", room / "crates", symlinks=True) / name
    listed = (TOP / "crates.txt").read_text(encoding="utf-8")
    (room / "crates.txt").write_text(f"{listed}\n{name}: {crates}\n", encoding="utf-8")
    (folder / "src").mkdir(parents=True)
    shutil.copy(source, folder / "src/main.rt")
    subprocess.run(["rt", "run"], cwd=folder, stdin=subprocess.DEVNULL, capture_output=True)
    return folder / "out" / name


def asked(doc):
    """The reader of words of a script over folders of programs."""
    reader = argparse.ArgumentParser(description=doc, formatter_class=argparse.RawDescriptionHelpFormatter)
    reader.add_argument("folders", nargs="+", metavar="FOLDER", type=lambda it: pathlib.Path(it).resolve())
    reader.add_argument("--rounds", type=int, default=5)
    return reader


def used(words, given=b"", wanted=0, **more):
    """User and system time and elapsed time of a run that ends with the status that is wanted, and what it printed."""
    began = time.monotonic()
    with tempfile.TemporaryFile() as source:
        source.write(given)
        source.seek(0)
        how = {"stdin": source, "stdout": subprocess.PIPE, "stderr": subprocess.DEVNULL, **more}
        running = subprocess.Popen(words, env={**os.environ, "PW": "pw"}, **how)
        printed = running.stdout.read()
        _, status, usage = os.wait4(running.pid, 0)
    running.returncode = os.waitstatus_to_exitcode(status)
    if running.returncode != wanted:
        raise SystemExit(f"{words} ended with {running.returncode}")
    return Used(usage.ru_utime + usage.ru_stime, time.monotonic() - began, printed)


def spent(work):
    """User and system time of a call, and what it answered."""
    before, began = resource.getrusage(resource.RUSAGE_SELF), time.monotonic()
    answer, after = work(), resource.getrusage(resource.RUSAGE_SELF)
    return Used(after.ru_utime + after.ru_stime - before.ru_utime - before.ru_stime, time.monotonic() - began, answer)


def in_turn(name, works, rounds):
    """Does each of these works once in each round, in turn: by its name the least processor time and the least elapsed
    time. All make the same."""
    least, made = dict.fromkeys(works, (math.inf, math.inf)), set()
    for key, work in [*works.items()] * rounds:
        ran = work()
        least[key] = tuple(map(min, least[key], ran))
        made.add(ran.made)
    if len(made) != 1:
        raise SystemExit(f"{name}: {', '.join(map(str, works))} differ in what they make")
    return least


def peak(words, *given, **more):
    """The greatest resident size in MiB of such a run, by GNU time; None without it: what this process starts has at
    least its own."""
    timing = shutil.which("time")
    with tempfile.NamedTemporaryFile("r") as told:
        used([timing, "-q", "-f", "%M", "-o", told.name, *words] if timing else words, *given, **more)
        return int(told.read().split()[-1]) / 1024 if timing else None


def circumstances():
    """For what Linux gives huge pages here: always, madvise (where a program asks for them) or never; and the load."""
    setting = pathlib.Path("/sys/kernel/mm/transparent_hugepage/enabled")
    pages = setting.read_text(encoding="ascii").partition("[")[2].partition("]")[0] if setting.is_file() else "never"
    return f"huge pages: {pages}; load {os.getloadavg()[0]:.1f}"
