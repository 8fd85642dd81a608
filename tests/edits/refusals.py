#!/usr/bin/env python3
"""Tries wrong bodies, several of one crate in one check: each must be refused at its goal.

    tests/edits/refusals.py                                  every one, as in the gate
    tests/edits/refusals.py [--told] CRATE | CRATE/NAME ..   these; with --told, what refused each is written as its goal

What a refusal is, says body_trial.py; how edits are written, edits.py. One that is not refused has
failed, and so has one that is refused at another goal than the one below its lines, unless with --told.

Of each crate of which a body is tried, the functions that these edits change are checked first as they are, without the search,
over the libraries that rt ci left, or that are built where there are none. What stands below stays in out/incremental.
"""
import argparse
import os
import pathlib
import sys
import tempfile
import threading
import time

sys.path += map(str, pathlib.Path(__file__).resolve().parents[1].iterdir())  # the other folders of tests/
import body_trial
from edits import BODIES, edits_of, write_goal
from toolchain import left_by_ci, rt, told
from tree import TOP


class Crate:
    """The edits of a crate that are tried."""

    def __init__(self, crate, asked):
        self.crate, self.name, self.known = crate, crate.name, {}
        self.edits = [it for it in edits_of(crate.name, BODIES) if not asked or {crate.name, it.name} & {*asked}]


class Run:
    """Trials side by side: what came of them."""

    def __init__(self, crates, asked, room):
        self.crates, self.asked, self.room = {it.name: it for it in crates}, asked, room
        self.passed, self.failed, self.done, self.lock = 0, [], 0, threading.RLock()
        self.all = sum(len(it.edits) for it in crates)

    def say(self, text, failed=None):
        """Prints a text, and notes what has failed."""
        with self.lock:
            print(text, flush=True)
            self.failed += [failed] if failed else []

    def build(self, crate, jobs):
        """Whether the library is built, over those below it."""
        status, said = told(crate, lambda it: it.build_rlib(["--jobs", str(jobs)], anew=False))
        if status:
            self.say(f"{crate.name} is not built:\n{said[-2000:]}", crate.name)
        return status == 0

    def over_kept(self, name, call):
        """What a call answers that gets a folder and what the crate keeps, by links: a check replaces such a file, and changes none."""
        with tempfile.TemporaryDirectory(dir=self.room) as room:
            kept = f"{self.crates[name].crate.folder}/out/incremental"
            if os.path.isdir(kept):
                rt.linked(kept, f"{room}/kept")
            return call(f"{room}/sources", f"{room}/kept")

    def look(self, name):
        """Whether it is known what the search closes of what a crate's edits change; the check of it leaves what stands below."""
        it, begun = self.crates[name], time.monotonic()
        it.known = body_trial.closed_by_search(it.crate, it.edits, f"{self.room}/{name}/sources", f"{it.crate.folder}/out/incremental")
        is_read = it.known is not None
        self.say(f"{name}: {'seen' if is_read else 'not read'} as it is, {time.monotonic() - begun:.0f} s", None if is_read else name)
        return is_read

    def attempt(self, name, group):
        """Tries a group over what the crate keeps, and judges what came of it."""
        it, begun = self.crates[name], time.monotonic()
        verdicts, left = self.over_kept(name, lambda *room: group.verdicts(*room, it.known))
        with self.lock:
            for place, goals in left.items():
                self.say(f"{name}::{place}, as it is, leaves open: {goals}", f"{name}::{place}")
            for verdict in verdicts:
                self.judge(*verdict)
            self.done += len(verdicts)
            self.say(f"{name}: {len(verdicts)} tried, {time.monotonic() - begun:.0f} s ({self.done} of {self.all})")

    def judge(self, edit, goal, said=""):
        """Whether an edit is refused at its goal; with --told the goal that refuses it becomes that."""
        if goal and goal != edit.goal and self.asked.told:
            write_goal(edit, goal)
        if goal and goal == edit.goal:
            self.passed += 1
            if self.asked.told:
                self.say(f"{edit.name}: refused at {goal}")
        else:
            self.say(f"{edit.name}: {f'refused at {goal}, and its line says: refused: {edit.goal}' if goal else said}", edit.name)

    def tasks(self, crates):
        """What is done, for the toolchain's scheduler: proofs after the libraries below them, bodies after the proof."""
        needed = [it for it in crates if it.name in self.crates]
        below = [it for it in crates if any(it in other.below() for other in needed)]
        built, found = [] if left_by_ci(below) else below, {}

        def put(key, crate, parts, waits, call):
            found[key] = waits, parts * crate.count(b"\n"), rt.need(crate), lambda given, jobs: (
                all(given[it] for it in waits) and call(jobs))

        for crate in built:
            waits = [(it.name, "library") for it in crate.below()]
            put((crate.name, "library"), crate, 9, waits, lambda jobs, it=crate: self.build(it, jobs))
        for crate in needed:
            it, name, first = self.crates[crate.name], crate.name, (crate.name, "proof")
            waits = [(made.name, "library") for made in [*crate.below(), crate] if made in built]
            if body_trial.changed(it.edits):  # none is, where the types refuse each
                put(first, crate, 9, waits, lambda jobs, name=name: self.look(name))
            for at, group in enumerate(body_trial.in_groups(crate, it.edits)):
                put((name, "edits", at), crate, len(group.tried), [first] if first in found else waits,
                    lambda jobs, name=name, group=group: self.attempt(name, group))
        return found


def main():
    parser = argparse.ArgumentParser()
    parser.add_argument("--told", action="store_true")
    parser.add_argument("asked", nargs="*")
    asked, begun = parser.parse_args(), time.monotonic()
    every = rt.rtlib.crates_below(f"{TOP}/crates")
    crates = [it for it in (Crate(crate, asked.asked) for crate in every) if it.edits]
    unknown = {*asked.asked} - {name for it in crates for edit in it.edits for name in (it.name, edit.name)}
    if unknown:
        sys.exit(f"no crate has these edits: {', '.join(sorted(unknown))}")
    with tempfile.TemporaryDirectory(prefix="refusals-") as room:
        run = Run(crates, asked, room)
        rt.in_lanes(run.tasks(every))
    print(f"{run.all} tried, in {time.monotonic() - begun:.0f} s")
    print("".join(f"FAILED: {name}\n" for name in run.failed) + f"{run.passed} passed, {len(run.failed)} failed")
    return 1 if run.failed or run.passed + len(run.failed) < run.all else 0


if __name__ == "__main__":
    os.chdir(TOP)
    sys.exit(main())
