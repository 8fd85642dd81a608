#!/usr/bin/env python3
"""Proves crates with all that they stand on, side by side, and says a line for each when it is proved.

    packaging/prove.py [--cpu LEVEL] CRATE..

With a LEVEL, as x86-64-v2, a program among them is built for it, crates/CRATE/out/CRATE, and a static library,
crates/CRATE/out/libCRATE.a; without one they are only proved. An older one is taken away before.

A crate starts once all below it are proved; of several first the one with the longest chain of others above it. As many
run side by side as there are processors, or as JOBS says, with 3 GB of free memory for each. A crate that starts where
fewer can run shares its work among several processes, and so does one that nearly holds up most others. The crate that
holds up most others goes first: the others are nice to it. What stands on a crate that is not proved is left out.

The toolchain lets one run at a time work in a crate and in what it stands on. So each crate is proved in a folder of
its own below bin/rooms, with links to its files and to the libraries below it; its out/ moves there, and back.
"""
import argparse
import contextlib
import fcntl
import os
import pathlib
import re
import shutil
import signal
import subprocess
import sys
import time

TOP = pathlib.Path(__file__).resolve().parent.parent
CRATES, ROOMS, LOGS = TOP / "crates", TOP / "bin/rooms", TOP / "bin/logs"
MEMORY = 3 << 20  # KiB for a check: few take more
MOST = 4  # processes that share the work of one crate: each loads the libraries anew, so more gain little
NEAR = 0.8  # the part of the longest chain that begins with a crate, from which on it gets two processes
NICE = ["nice", "-n", "10"]  # to the crate that holds up most others

# The seconds of the processor for a check of each crate, if the table is there. Only the order rests on them.
TABLE = TOP / "docs/crates.tsv"
SECONDS = dict(re.findall(r"(?m)^(\w+)\t(\d+)$", TABLE.read_text(encoding="utf-8"))) if TABLE.is_file() else {}


class Step:
    """A run of rt in a crate: the words after rt, and what file it makes there."""

    def __init__(self, crate, words, makes=None):
        self.crate, self.words, self.makes = crate, words, makes
        self.waits = uses_of()[crate]
        self.weight = int(SECONDS.get(crate, 60)) * (3 if "test" in words else 1)
        self.room, self.log = ROOMS / crate, LOGS / crate

    def command(self, jobs, leads):
        verb, *words = self.words
        return [*([] if leads else NICE), "rt", verb, "--jobs", str(jobs), *words]

    def start(self, jobs, leads):
        """Starts the run, in a room of its own."""
        if self.makes:
            (CRATES / self.crate / self.makes).unlink(missing_ok=True)
        furnish(self.room)
        with open(self.log, "wb") as log:
            streams = {"stdin": subprocess.DEVNULL, "stdout": log, "stderr": log}
            self.running = subprocess.Popen(self.command(jobs, leads), cwd=self.room / "crates" / self.crate, **streams)
        self.began, self.jobs = time.monotonic(), jobs
        return self.running.pid

    def end(self, status, used):
        """Clears the room, notes what the run used, and says whether all is well: of a program, whatever it answered,
        that it was built."""
        self.running.returncode, self.seconds = status, time.monotonic() - self.began
        clear(self.room)
        with open(LOGS / "seconds", "a", encoding="utf-8") as noted:
            noted.write(f"{self.crate}: {self.seconds:.0f} s, {used.ru_utime + used.ru_stime:.0f} s of the processor, "
                        f"{used.ru_maxrss >> 10} MiB in the largest process, --jobs {self.jobs}\n")
        made = not self.makes or (CRATES / self.crate / self.makes).is_file()
        return made and (status == 0 or self.words[0] == "run")

    def why(self):
        """The last lines of what a run said that did not end well, and where the others are."""
        last = [f"| {it}" for it in self.log.read_text(encoding="utf-8", errors="replace").splitlines()[-20:]]
        failed = f"{self.crate} FAILED"
        return "\n".join([f"{failed}. The end of {self.log.relative_to(TOP)}:", *last, failed])


def listed():
    """The crates of crates.txt, each with its line."""
    lines = [it.partition("#")[0].strip() for it in (TOP / "crates.txt").read_text(encoding="utf-8").splitlines()]
    return {it.partition(":")[0].split()[0]: it for it in lines if it}


def uses_of():
    """The crates, lowest first, each with all crates of this repository that it stands on, lowest first."""
    lines = listed()

    def below(name):
        direct = [it for it in lines[name].partition(":")[2].split() if it in lines]
        return list(dict.fromkeys(it for other in direct for it in [*below(other), other]))

    found = {name: below(name) for name in lines}
    return {it: found[it] for name in lines for it in [*found[name], name]}


def step_of(crate, level=None):
    """The step that proves a crate: it makes a library, and a program or a static library only for a level."""
    is_program = (CRATES / crate / "src/main.rt").is_file()
    if not is_program and "staticlib" not in listed()[crate].partition(":")[0].split():
        return Step(crate, ["lib"])
    if not level:
        return Step(crate, ["check"])
    if not is_program:
        return Step(crate, ["lib", "--cpu", level], f"out/lib{crate}.a")
    # rt builds a program to run it: it is asked for its help, which needs nothing
    return Step(crate, ["run", "--cpu", level, "--", "-h"], f"out/{crate}")


def steps_for(names, level=None):
    """The steps that prove these crates and all that they stand on, lowest first."""
    uses = uses_of()
    wanted = {it for name in names for it in [name, *uses[name]]}
    return [step_of(name, level) for name in uses if name in wanted]


def linked(source, to):
    try:
        os.link(source, to)
    except OSError:
        shutil.copy2(source, to)


def furnish(room):
    """Makes the room in which the crate of its name can be proved: a repository of links to it and to what it stands
    on, with the libraries, and with the crate's out/ itself, which has what earlier proofs kept."""
    own, names, lines = room / "crates" / room.name / "out", [*uses_of()[room.name], room.name], listed()
    own.parent.mkdir(parents=True)
    (CRATES / room.name / "out").mkdir(exist_ok=True)
    (CRATES / room.name / "out").rename(own)
    how = {"copy_function": linked, "ignore": shutil.ignore_patterns("incremental"), "dirs_exist_ok": True}
    for name in names:
        shutil.copytree(CRATES / name, room / "crates" / name, **how)
    (room / "crates.txt").write_text("".join(f"{lines[name]}\n" for name in names), encoding="utf-8")


def clear(room):
    """Puts the out/ of the room's crate in its place, and takes the room away."""
    made, to = room / "crates" / room.name / "out", CRATES / room.name / "out"
    if made.is_dir():
        shutil.rmtree(to, ignore_errors=True)
        made.rename(to)
    shutil.rmtree(room)


def clear_all():
    """Clears the rooms that a run left which was stopped or killed."""
    hold(ROOMS.glob("*/crates/*"))
    for room in ROOMS.glob("*"):
        clear(room)
    shutil.rmtree(ROOMS, ignore_errors=True)


def processors():
    return int(os.environ.get("JOBS") or len(os.sched_getaffinity(0)))


def places():
    """How many checks may run side by side."""
    free = re.search(r"MemAvailable: +(\d+)", pathlib.Path("/proc/meminfo").read_text(encoding="utf-8"))
    return max(1, min(processors(), int(free[1]) // MEMORY))


def hold(folders):
    """Keeps other runs of rt out of these folders until this one ends, as rt does, once those that work there end."""
    for folder in folders:
        held = os.open(folder, os.O_RDONLY)
        try:
            fcntl.flock(held, fcntl.LOCK_EX | fcntl.LOCK_NB)
        except BlockingIOError:
            say(f"Waiting for another run in {folder}.")
            fcntl.flock(held, fcntl.LOCK_EX)
        except OSError:
            pass  # a file system without locks


def say(text):
    print(text, file=sys.stderr, flush=True)


def chains(steps):
    """By each step's crate the seconds of the longest chain that begins with it, of steps that wait for another."""
    longest = {}
    for step in reversed(steps):  # each stands after those that it waits for
        behind = [longest[it.crate] for it in steps if step.crate in it.waits]
        longest[step.crate] = step.weight + max(behind, default=0)
    return longest


def jobs_for(others, part):
    """How many processes prove a crate beside so many others that run or could: its share of the processors, or two where
    the chain that begins with it is nearly the longest. More would do the same work twice where no processor is idle."""
    least = 2 if part >= NEAR and processors() > 2 else 1
    return min(MOST, max(least, processors() // (others + 1)))


def stop(running):
    """Tells each of these runs, by the number of its process, to end."""
    for pid in list(running):
        with contextlib.suppress(ProcessLookupError):
            os.kill(pid, signal.SIGTERM)


def run_all(steps, running, told):
    """Runs the steps, each once those that it waits for ended well, until it is told to stop. Keeps what is running by
    the number of its process, and gives the crates that are not proved, and those that were left out."""
    longest, most, proved, failed, came = chains(steps), places(), set(), [], ""
    left = sorted(steps, key=lambda it: -longest[it.crate])
    while True:
        ready = [it for it in left if proved.issuperset(it.waits)]
        while ready and len(running) < most and not told:
            step = ready.pop(0)
            part = longest[step.crate] / max(longest[it.crate] for it in [*left, *running.values()])
            left.remove(step)
            running[step.start(jobs_for(len(running) + len(ready), part), leads=part == 1)] = step
        if told:
            stop(running)  # also what was just being started
        elif came:
            under_way = ", ".join(it.crate for it in running.values())
            say(came + (f"; under way: {under_way}" if under_way else ""))
        if not running:
            return failed, [it.crate for it in left]
        ended, status, used = os.wait3(0)
        step = running.pop(ended)
        if step.end(os.waitstatus_to_exitcode(status), used):
            proved.add(step.crate)
            # a library that is as it was proved before has nothing to say
            took = f"{step.seconds:.0f} s" if step.log.stat().st_size else "as it was proved before"
            came = f"{len(proved):2d} of {len(steps)} {step.crate}, {took}"
        else:
            failed.append(step.crate)
            came = step.why()


def prove(steps):
    """Runs the steps, and ends this process where one of them does not end well, or where it is told to stop."""
    if not shutil.which("rt"):
        sys.exit("There is no rt on the path: the toolchain has it.")
    running, told = {}, []
    hold([CRATES, *sorted(CRATES / it.crate for it in steps)])
    clear_all()
    for number in (signal.SIGINT, signal.SIGTERM, signal.SIGHUP):
        if signal.getsignal(number) != signal.SIG_IGN:
            signal.signal(number, lambda *why: (told.append(why), stop(running)))
    LOGS.mkdir(parents=True, exist_ok=True)
    (LOGS / "seconds").write_text("")
    try:
        failed, left = run_all(steps, running, told)
    finally:
        stop(running)
        clear_all()
    if told:
        say("Stopped. What was proved is kept.")
        sys.exit(130)
    if failed:
        above = f" Left out, since they stand on it: {', '.join(left)}." if left else ""
        sys.exit(f"Failed: {', '.join(failed)}.{above} bin/logs has what was said of each.")


def main():
    parser = argparse.ArgumentParser(description="Proves crates with all that they stand on, side by side.")
    parser.add_argument("--cpu", metavar="LEVEL", help="what programs and static libraries are built for")
    parser.add_argument("crates", nargs="+", metavar="CRATE", choices=listed())
    given = parser.parse_args()
    steps = steps_for(given.crates, given.cpu)
    say(f"{len(steps)} crates, side by side on {processors()} processors. The first time this takes some minutes.")
    prove(steps)


if __name__ == "__main__":
    main()
