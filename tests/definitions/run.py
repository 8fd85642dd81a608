#!/usr/bin/env python3
"""Runs the definitions of crates/*/specs/, by a reader of its own (antt.py) over the toolchain's words as kit.py has them.

    tests/definitions/run.py TEXT ..    prints what each text comes to: tests/definitions/run.py 'salsa20_8 (replicate 16 0)'
    tests/definitions/run.py            as in the gate: both sides of each equation of src/vectors.rt, which the checker proves,
                                        are the same; and an equation refuses each mutant of a definition (mutants.py), but
                                        those of survivors.tsv
    tests/definitions/run.py --mutants MODULE ..    prints those of modules, as romix.specs.Costs, that none refuses

A name in a text is that of the one definition of this name; of several it is CRATE/NAME.
"""
import collections
import concurrent.futures
import multiprocessing
import pathlib
import re
import sys
import threading

sys.path += map(str, pathlib.Path(__file__).resolve().parents[1].iterdir())  # the other folders of tests/
from antt import Definitions, Module, Unreadable
from mutants import Mutants
from specs import CRATES, folder_of_tests
from tree import prove
from values import shown
from vectors import equations_in

MOST = 1 << 40  # steps, where they are not bounded
SURVIVORS = pathlib.Path(__file__).with_name("survivors.tsv")
ENOUGH = 700_000  # steps of equations, for a mutant
NAME = re.compile(r"(?:(\w+)/)?([^\s(){}\[\],;.λ]+)")


def deeply(call):
    """What a call answers that goes deep: a definition calls itself once for each byte."""
    answers = []
    sys.setrecursionlimit(1 << 20)
    threading.stack_size(900 << 20)
    thread = threading.Thread(target=lambda: answers.append(call()))
    thread.start()
    thread.join()
    return answers[0] if answers else None


def value_of(definitions, text):
    """What a text comes to, over all definitions by their names."""
    given = {}
    for crate, name in NAME.findall(re.sub('"[^"]*"', "", text)):
        places = [it for it in definitions.modules.values() if name in it.clauses and it.name.startswith(crate or "")]
        if len(places) > 1:
            sys.exit(f"{name} is one of {', '.join(it.name.split('.')[0] + '/' + name for it in places)}")
        given |= {name: (it.name, name) for it in places}
    module = Module("a text", "")
    module.imports = given
    return definitions.value_in(module, re.sub(r"\b\w+/", "", text))


class Equation:
    """An equation of a crate's vectors: what its sides come to, and what that took."""

    def __init__(self, definitions, module, crate, name, sides):
        self.name, self.definitions = f"{crate}: {' '.join(name)}", definitions
        self.sides = [definitions.program_of(module, it) for it in sides[:2]]
        self.assumed = None  # a call, and the value that it has by assumption
        if sides[2:]:
            self.assumed = *definitions.call_in(module, sides[2]), definitions.program_of(module, sides[3])
        self.steps, self.asked = 0, frozenset()  # of definitions; and the clauses that were asked for

    def measured(self):
        """What is wrong with it as it stands, or nothing; its steps, and the clauses that it asks for."""
        all_of_them = self.definitions
        for it in all_of_them.found.values():
            it.values.clear()
        all_of_them.asked.clear()
        all_of_them.steps = MOST
        left, right = self.values()
        fault = "" if left == right else f"{self.name}: {shown(left)} is not {shown(right)}"
        return fault, MOST - all_of_them.steps, frozenset(all_of_them.asked)

    def values(self):
        """What the sides come to."""
        if not self.assumed:
            return [it() for it in self.sides]
        definition, given, value = self.assumed
        given = tuple(it() for it in given)
        definition.values[given] = value()
        try:
            return [it() for it in self.sides]
        finally:
            definition.values.pop(given, None)

    def refuses(self):
        """Whether its sides differ, or one has no value in twice the steps."""
        self.definitions.steps = 2 * self.steps + 1000
        try:
            left, right = self.values()
            return left != right
        except (ArithmeticError, AttributeError, LookupError, MemoryError, RecursionError, TypeError, Unreadable, ValueError):
            return True


def equations_of(definitions):
    """The equations of all crates."""
    for crate in prove.listed():
        path = folder_of_tests(CRATES / crate) / "src/vectors.rt"
        if path.is_file() and not crate.endswith("_tests"):
            text = path.read_text(encoding="utf-8")
            module = Module(f"{crate}.vectors", text)
            yield from (Equation(definitions, module, crate, *it) for it in equations_in(text))


class Trial:
    """All equations, over one reading of all definitions, and the mutants of these."""

    def __init__(self):
        self.definitions = Definitions()
        self.equations = [*equations_of(self.definitions)]
        self.mutants = Mutants(self.definitions)

    def measure(self, number):
        return self.equations[number].measured()

    def survivors(self, key):
        """How many mutants of a definition are tried, and those that no equation refuses."""
        for it in self.definitions.found.values():
            it.values.clear()
        tried, left = 0, []
        definition = self.definitions.meaning_in(*key)
        for kind, said, changed, places in self.mutants.of(*key):
            tried += 1
            self.put(definition, changed)
            if not self.is_refused({(*key, place) for place in places}):
                left.append((kind, said))
        self.put(definition, definition.module.clauses[definition.name])
        return tried, left

    def is_refused(self, clauses):
        """Whether an equation that asks for one of these clauses refuses them as they stand: the cheapest is the first, and none
        is tried after ENOUGH steps."""
        steps = 0
        for it in self.equations:
            if it.asked & clauses and it.steps < ENOUGH and steps < ENOUGH:
                if it.refuses():
                    return True
                steps += it.steps
        return False

    def put(self, definition, changed):
        """Puts clauses in the place of a definition's; what was kept of others that ask for it goes."""
        definition.put(changed)
        found, left = {definition}, [definition]
        for it in left:
            it.values.clear()
            for other in self.definitions.found.values():
                if it in other.uses and other not in found:
                    found.add(other)
                    left.append(other)


def of_pool(trial, call, items):
    """What a call of a trial answers for each item, by as many processes as there are processors."""
    with concurrent.futures.ProcessPoolExecutor(mp_context=multiprocessing.get_context("fork"), initializer=Worker.begin,
                                                initargs=(trial, call)) as pool:
        yield from pool.map(Worker.answer, items)


def table():
    """The rows of the table of survivors: the module, the definition and the mutants, of a kind or one, that each is about; how
    many these are, and the reason."""
    lines = SURVIVORS.read_text(encoding="utf-8").splitlines()
    for line in filter(lambda it: it and not it.startswith("#"), lines):
        module, name, what, count, why = line.split("\t")
        yield (module, name, what), int(count), why


def unexpected(survivors):
    """What is wrong with the table, by the survivors: their module, definition, kind, and what they put for what."""
    known, met = {row: count for row, count, _ in table()}, collections.Counter()
    for *definition, kind, said in survivors:
        rows = [row for row in ((*definition, "*"), (*definition, kind), (*definition, f"{kind}: {said}")) if row in known]
        met.update(rows[-1:])
        if not rows:
            yield "{}: {}: no equation refuses {}: {}".format(*definition, kind, said)
    yield from (f"survivors.tsv: {' '.join(row)}: {met[row]}, and not {count}" for row, count in known.items() if met[row] != count)


def main(words):
    if words and words[0] != "--mutants":
        definitions = Definitions()
        print(*(shown(deeply(lambda it=it: value_of(definitions, it))) for it in words), sep="\n")
        return 0
    trial, faults, survivors, tried = deeply(Trial), [], [], 0
    for it, found in zip(trial.equations, of_pool(trial, "measure", range(len(trial.equations)))):
        fault, it.steps, it.asked = found or (f"{it.name}: a side of it has no value", MOST, frozenset())
        faults += filter(None, [fault])
    trial.equations.sort(key=lambda it: it.steps)
    keys = [it for it in trial.mutants.keys() if not words or it[0] in words]
    for key, found in zip(keys, of_pool(trial, "survivors", keys)):
        count, left = found or (0, [("all", "they are not made")])
        tried += count
        survivors += [(*key, *it) for it in left]
    if words:
        print("".join("\t".join(it) + "\n" for it in survivors), end="")
        return 0
    faults += unexpected(survivors)
    print("".join(f"FAILED: {it}\n" for it in faults), end="")
    print(f"{tried} mutants, {tried - len(survivors)} refused, {len(survivors)} in the table")
    print(f"{len(trial.equations) + tried - len(faults)} passed, {len(faults)} failed")
    return 1 if faults else 0


class Worker:
    """A process of the pool: the call of its copy of a trial."""

    @classmethod
    def begin(cls, trial, call):
        cls.call = getattr(trial, call)

    @classmethod
    def answer(cls, item):
        return deeply(lambda: cls.call(item))


if __name__ == "__main__":
    sys.exit(main(sys.argv[1:]))
