#!/usr/bin/env python3
"""Proves what changed and runs the tests of the crates that changed: for the daily loop, not for the gate.

What differs from the last commit, files that are not committed too, names the crates that changed. They are proved, with
each crate that stands on one of them, and their own tests are proved and run: side by side, as packaging/prove.py does it.
No wrong body or definition is tried; that the text which each replaces stands in its file once is checked.
"""
import pathlib
import subprocess
import sys

TOP = pathlib.Path(__file__).resolve().parents[2]
sys.path.insert(0, str(TOP / "packaging"))
sys.dont_write_bytecode = True
import prove  # noqa: E402


def main():
    words = ["diff", "--name-only", "HEAD"], ["ls-files", "--others", "--exclude-standard"]
    lines = [line for it in words for line in subprocess.check_output(["git", *it], cwd=TOP, text=True).splitlines()]
    paths = [pathlib.PurePath(line).parts for line in lines]
    inside = [parts for parts in paths if parts[0] == "crates" and len(parts) > 2]
    named = {name for _, name, part, *_ in inside if part != "wrong-bodies"}
    uses = prove.uses_of()
    touched = [name for name in uses if named & {name, *uses[name]} and not name.endswith("_tests")]
    # a crate of tests is of the crate of its name, and of each CRATE of which it has a module of_CRATE
    modules = {it: (prove.CRATES / it / "src/tests").glob("of_*.rt") for it in uses if it.endswith("_tests")}
    tested = [it for it, of in modules.items() if named & {it, it.removesuffix("_tests"), *(path.stem[3:] for path in of)}]
    if touched or tested:
        below = [it for name in tested for it in uses[name]]
        steps = [*prove.steps_for([*touched, *below]), *(prove.Step(it, ["test"]) for it in tested)]
        prove.say(f"{len(touched)} crates to prove, changed since the last commit or above one that is: {', '.join(touched)}.")
        prove.say(f"{len(tested)} to test: {', '.join(tested)}. With what all of these stand on, {len(steps)} steps:")
        prove.prove(steps)
    for script in ("tests/sources/sources.sh", "tests/sources/calls.py", "tests/pages/documents.py"):
        if subprocess.run([script], cwd=TOP).returncode != 0:
            sys.exit(f"{script} failed")
    prove.say(f"{len(touched)} crates are proved, the tests of {len(tested)} pass, and sources and pages agree.")


main()
