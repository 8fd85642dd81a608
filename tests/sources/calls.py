#!/usr/bin/env python3
"""What no contract sees, by rules over the calls of the compiled code (tests/shared/compiled.py), which a layout, a name or
a macro cannot hide from:

memory      only a source takes memory, be it by a list that grows: a method of one of four traits, which takes that of which it
            is given the number or the bytes, in one place, in no loop; and who asks a source has a row
heap        what has the heap passes it on: it has no loop, and names no function of ours twice
system      only system_calls comes to a function of C, but to those that take and free memory; and nothing is called by
            a table or a pointer to a function
counter     on no way through a function are two counters made; what does the work that they count is reached only
            through what ticks, which does so in one place, in no loop
begins      on no way is a hash or a derivation, whose first steps are not counted, begun twice, nor H0 or first columns made twice
bytes       no branch, and no yes or no, depends on a byte that is loaded or given, nor does what the toolchain compares; the row
            of what may branch so tells of a loop
makes       no refusal for want of memory is made, but of one that the heap gave
raw         nothing is dropped by code of ours, forgotten, leaked or made of a pointer, nor a block kept by a stream
stack       no function calls itself, and all values of the functions that are at work at once have less than 72 KiB
turns       no loop stands beside a number from 2^20 up
last        in a function for C nothing comes after the zeros over the stack, or after another one
unseen      every file that was compiled is one that readers of sources see

What is excepted from a rule stands in tests/sources/calls.tsv, each with its reason.

    tests/sources/calls.py [FOLDER..]   compares with that; FOLDER is a library more, NAME.rlib, or a tree where some are built
    tests/sources/calls.py --told ..    prints what is excepted now, for want of a rule that allows it
"""
import collections
import functools
import hashlib
import json
import pathlib
import re
import sys

sys.path += map(str, pathlib.Path(__file__).resolve().parents[1].iterdir())  # the other folders of tests/
import contracts
from compiled import Code, nodes, types_in
from tree import TOP, prove

EXCEPTED = TOP / "tests/sources/calls.tsv"
OTHERS = re.compile(r"\w+_tests|memory_host|memory_system|command")  # have no part in a program
TAKES = {("C", "rattle_alloc"), ("C", "rattle_realloc"), *(("?", f"core::alloc::Allocator::{it}") for it in ("allocate", "grow"))}
HEAP_OF_C = TAKES | {("C", "rattle_dealloc")}
SPARE = re.compile(r"reserve|with_capacity|grow")  # takes more than it holds
SOURCES = {"argon::matrix_memory::MatrixMemory", "argon_text::decode_memory::DecodeMemory", "argon_text::text_memory::TextMemory",
           "romix::reservation::WorkspaceMemory"}
HANDS_ON = {"Opd", "AddrOf", "Repeat", "Aggregate"}  # what makes a value of others without computing
HEAP = "std_heap::Global"
SYSTEM = "system_calls::"
COUNTS = frozenset({"counter::Count::new"})
BEGINS = [frozenset(it) for it in (
    ["argon::matrix::Matrix::start", "encfile::enc::Enc::start", "encfile::dec::Dec::open"],
    ["argon::first_columns::first_hash"], ["argon::first_columns::fill_first_two_columns"])]
MIXES = re.compile(r"Wrap(Add|Mul)")  # of the work that is counted
COMPARES = re.compile(r"\W*(Eq|Ne|Lt|Le)")
SHOWS = re.compile(r"(Debug|Display)::fmt$|PartialEq::eq$")  # derived, of values that are no bytes
RAW = re.compile(r".*::(forget|leak|into_raw\w*|from_raw\w*|ManuallyDrop::\w+)$|pikhsen_c::(stream::PikhsenStream::begin|heap::Heap::take)$")
FOR_C, WIPES = re.compile(r"pikhsen_c::.*::pikhsen_\w+$"), "pikhsen_c::wiping::wipe_stack"
DEEP, LONG = 72 << 10, 1 << 20
NEVER = {"system", "counter", "begins", "stack"}  # the rules from which nothing is excepted


@functools.lru_cache(maxsize=None)
def wants_of_memory():
    """What speaks of want of memory: types, each with the number of its case."""
    found = {"core::alloc::AllocError": None}
    for crate, it in ((crate, it) for crate in prove.listed() for it in contracts.items(crate)):
        cases = re.findall(r"^    (\w+)", it.text, re.M)
        if it.what == "enum" and "OutOfMemory" in cases:
            module = it.path.relative_to(contracts.CRATES / crate / "src").with_suffix("").parts
            found["::".join([crate, *(it for it in module if it != "lib"), it.name])] = cases.index("OutOfMemory")
    return found


def operands(node):
    """The places that an operation copies from."""
    return [it["Copy"] for it in nodes(node) if isinstance(it.get("Copy"), dict)]


def is_byte(place):
    """Whether a place is a byte, or some, in memory."""
    last = place["steps"][-1].get("Deref") if place["steps"] else None
    return isinstance(last, dict) and {"Int": 8} in [last, *(last[it][0] for it in ("Array", "Vector") if it in last)]


def by_bytes(function, others):
    """What depends on a byte that a function loads, or is given: a branch, a yes or no that it answers, or what it
    returns; by others of ours, too, that return such."""
    kinds = [it["ty"] for it in function["locals"]]
    loaded, before = {it for it in range(1, function["params"] + 1) if kinds[it] == {"Int": 8}}, -1
    stored = set()  # the types of what is in memory and has come from a byte: all of such a type may be that

    def behind(place):
        return json.dumps(place["steps"][-1]) if place["steps"] and "Deref" in place["steps"][-1] else None

    def depends(part):
        return any(is_byte(it) or it["local"] in loaded or behind(it) in stored for it in operands(part))

    def counts(value):
        """Whether this lends a range, say, that depends on a byte, to what counts by it."""
        at = value["AddrOf"]
        return not at["steps"] and at["local"] in loaded and "Named" in kinds[at["local"]]

    def is_lent(part):
        """Whether this hands on where a byte stands, as a turn of a loop over bytes has it."""
        lent = (kinds[it["local"]] for it in operands(part) if not it["steps"])
        return any("Ref" in it and it["Ref"][2] == {"Int": 8} for it in lent)

    while before != len(loaded) + len(stored):
        before = len(loaded) + len(stored)
        for it in nodes(function["body"]):
            if "Assign" in it:
                to, value = it["Assign"]
                if counts(value) if "AddrOf" in value else depends(value):
                    loaded.add(to["local"])
                    stored |= {behind(to)} - {None}
            elif "Call" in it and (depends(it["Call"][1]) or is_lent(it["Call"][1]) or (it["Call"][0].get("Fn") or [None])[0] in others):
                loaded.add(it["Call"][2]["local"])
    if any(depends(it.get("If") or it["Switch"][0]) for it in nodes(function["body"]) if "If" in it or "Switch" in it):
        yield "branches"
    if 0 in loaded:
        yield "answers" if kinds[0] == "Bool" else "returns" if isinstance(kinds[0], dict) and "Int" in kinds[0] else ""


def hands_on(function, given):
    """Whether what is given to a call is what the function was given itself, or stands in its text: nothing that it computed, or
    that another call may have changed."""
    made, of, left = collections.defaultdict(list), set(), [given]
    for it in nodes(function["body"]):
        if "Assign" in it or "Call" in it:
            to, value = it["Assign"] if "Assign" in it else (it["Call"][2], it)
            made[to["local"]].append(value)
    while left:
        part = left.pop()
        for local in {it["local"] for it in nodes(part) if "local" in it} - of:
            of.add(local)
            left += made[local]
            if len(made[local]) != (local > function["params"]) or any(HANDS_ON.isdisjoint(it) for it in made[local]):
                return False
    lent = [(to, it["AddrOf"]) for to, values in made.items() for it in values if "AddrOf" in it]
    return all(to in of for to, place in lent if place["local"] in of and not any("Deref" in it for it in place["steps"]))


@functools.lru_cache(maxsize=None)
def compares_bytes(code, name):
    """Whether a function of the toolchain's compares two bytes, neither of which is in its text."""
    function = code.at(name)

    def is_of_bytes(place):
        return is_byte(place) or not place["steps"] and function["locals"][place["local"]]["ty"] == {"Int": 8}

    pairs = (it["Op2"][1:] for it in nodes(function["body"]) if "Op2" in it and COMPARES.match(json.dumps(it["Op2"][0])))
    return any(all("Copy" in it for it in pair) and any(is_of_bytes(it["Copy"]) for it in pair) for pair in pairs)


def all_called(names, called):
    """These functions, and all that they come to."""
    found, left = {*names}, [*names]
    while left:
        new = {*called(left.pop())} - found
        found |= new
        left += new
    return found


class Rules:
    """What the rules find in some code, of all functions of ours or of these: what is excepted, if a row says so, and what
    never is."""

    def __init__(self, code, names=None):
        self.code, self.rows, self.wrong, self.wants = code, [], [], wants_of_memory()
        self.names = [it for it in sorted(names or code.ours) if code.is_own(it) and not it.startswith(SYSTEM)]
        self.called = functools.lru_cache(maxsize=None)(lambda name: {it for it, _ in code.reached(name) if it in code.ours})

    def memory(self, name, function, reached):
        taking = [it for it in self.code.calls(self.code.open(name))
                  if it in TAKES or not self.code.is_own(it[0]) and TAKES & self.code.beyond(it)]
        is_source = self.is_source(name)
        given = [it["Call"][1] for it in nodes(function["body"]) if "Call" in it and self.code.callee(it["Call"][0], self.code.open(name)[1]) in taking]
        takes_given = len(taking) == len(given) == 1 and hands_on(function, given[0]) and "Loop" not in function["body"]
        if not (is_source and takes_given and not SPARE.search(taking[0][0])):
            yield from sorted({kind if kind not in ("C", "?") else of for kind, of in taking})
        asked = {other if kind == "?" else kind for kind, other in self.code.calls(self.code.open(name))}
        yield from sorted(f"asks {it}" for it in asked if self.is_source(it))

    def is_source(self, name):
        return self.code.traits_of.get(name, name).rpartition("::")[0] in SOURCES

    def heap(self, name, function, reached):
        if any(HEAP in types_in(it["ty"]) for it in function["locals"]):
            yield from sorted(it for (it, _), times in reached.items() if it in self.code.ours and times > 1)
            yield from ["a loop"] * ("Loop" in function["body"])

    def system(self, name, function, reached):
        yield from sorted(f"comes to {other}" for kind, other in {*reached} - HEAP_OF_C
                          if kind == "C" or kind == "?" and other.startswith("dyn "))
        if any("CallV" in it for it in nodes(function["body"])):
            yield "calls what no name says"

    def counter(self, name, function, reached):
        tick = frozenset({f"{name.split('::')[0]}::ticks::Ticks::tick"})
        if self.first(name, COUNTS) or tick & self.called(name) and self.first(name, tick):
            yield "makes a second counter, or ticks twice"

    def first(self, name, wanted):
        """Whether a function comes to some of these twice, and nothing that it calls does."""
        return self.code.most(name, wanted) > 1 and all(self.code.most(it, wanted) < 2 for it in self.called(name))

    def begins(self, name, function, reached):
        if any(self.first(name, it) for it in BEGINS):
            yield "begins a hash or a derivation twice"

    def bytes(self, name, function, reached):
        if not SHOWS.search(name):
            by = [it for it in by_bytes(function, self.returning) if it in ("branches", "answers")]
            yield from by + ["a loop"] * ("branches" in by and "Loop" in function["body"])
            passed = self.code.through(self.code.open(name))[0][1:]  # of the toolchain's, through no other function of ours
            yield from ["compares"] * any(compares_bytes(self.code, it) for it, _ in passed)

    def makes(self, name, function, reached):
        made = collections.Counter()
        for it in nodes(function["body"]):
            to, value = it.get("Assign", (None, None))
            if isinstance(value, dict) and "Aggregate" in value and not to["steps"]:
                kind, parts = next(types_in(function["locals"][to["local"]]["ty"]), None), value["Aggregate"]
                case = int(parts[0]["Int"]["value"]) if parts and "Int" in parts[0] else None
                made[kind] += kind in self.wants and self.wants[kind] in (case, None)
        yield from (f"{kind} {times}" for kind, times in made.items() if times)

    def raw(self, name, function, reached):
        if name.endswith("::drop"):
            yield hashlib.sha256(json.dumps(function["body"], sort_keys=True).encode()).hexdigest()[:16]
        kept = collections.Counter(it for it, _ in self.code.calls(self.code.open(name)) if RAW.match(it))
        yield from (f"{it} {kept[it]}" for it in sorted(kept))

    def stack(self, name, function, reached):
        if name in all_called(self.called(name), self.called):
            yield "calls itself"
        deep, names = self.code.deepest(self.code.open(name))
        if DEEP <= deep < DEEP + int(names[0].split()[-1]):  # the first from which it is too deep
            yield f"{deep} bytes: {', '.join(names)}"

    def turns(self, name, function, reached):
        numbers = [int(it["Int"]["value"]) for it in nodes(function["body"]) if isinstance(it.get("Int"), dict)]
        if "Loop" in function["body"] and max(numbers, default=0) >= LONG:
            yield str(max(numbers))

    def last(self, name, function, reached):
        if FOR_C.match(name):
            yield from (it for it in sorted(self.code.last(name)) if it != WIPES and not FOR_C.match(it))

    def work(self):
        """What does the work that is counted, and can be called by another way than through what ticks."""
        for crate in ("argon", "romix"):
            ours = {it: self.called(it) for it in self.code.ours if it.startswith(f"{crate}::") and self.code.is_own(it)}
            ticking = {it for it, to in ours.items() if f"{crate}::ticks::Ticks::tick" in to}
            mixing = {it for it in ours if MIXES.search(json.dumps(self.code.ours[it]["body"]))}
            # what is called by these alone
            past = {**ours, **dict.fromkeys(ticking, ())}
            below = all_called({it for tick in ticking for it in ours[tick]}, lambda name: past.get(name, ()))
            for name in sorted(set(ours) - ticking - below):
                for it in sorted(ours[name] & (below - ticking) | {name} & mixing):
                    if mixing & all_called({it}, lambda name: ours.get(name, ())):
                        self.wrong.append(f"counter\t{name}\tdoes by {it} what is counted, and does not tick")

    @functools.cached_property
    def returning(self):
        """The functions of ours that return a number that depends on a byte."""
        numbers = {name: it for name, it in self.code.ours.items() if "Int" in it["locals"][0]["ty"] and not name.startswith(SYSTEM)}
        found, before = set(), None
        while before != found:
            before = {*found}
            found |= {name for name, it in numbers.items() if "returns" in by_bytes(it, before)}
        return found

    def run(self):
        for name in self.names:
            function, reached = self.code.ours[name], self.code.reached(name)
            for rule in (self.memory, self.heap, self.system, self.counter, self.begins, self.bytes, self.makes, self.raw,
                         self.stack, self.turns, self.last):
                if said := [*rule(name, function, reached)]:
                    found = self.wrong if rule.__name__ in NEVER else self.rows
                    found.append("\t".join([rule.__name__, name, ", ".join(said)]))
        self.work()
        return self


def libraries(others):
    """The libraries that programs and the library for C are made of, as far as they are built here, or else there."""
    built = [it for folder in [*map(pathlib.Path, others), TOP] for it in sorted(folder.glob("crates/*/out/rlib/*.rlib"))]
    built += [pathlib.Path(it) for it in others if it.endswith(".rlib")]
    return [it for it in {it.stem: it for it in built}.values() if not OTHERS.fullmatch(it.stem)]


def unseen_in(folder):
    """The files that a library was compiled of, but that no reader of sources sees, as those in a folder out."""
    source, compiled = TOP / "crates" / folder.stem / "src", folder / "lang/src"
    files = sorted(it.relative_to(compiled) for it in compiled.rglob("*.rt"))
    return [f"unseen\t{source / it}" for it in files if "out" in it.parts or not (source / it).is_file()]


def differing(rules, text, lacking=()):
    """What is excepted by the rows of a text, of crates that are built, and how what the rules find differs from that."""
    rows = [it.rsplit("\t", 1) for it in text.splitlines()[1:]]
    then = [row for row, reason in rows if reason and row.split("\t")[1].split("::")[0] not in lacking]
    wrong = [f"{it}: refused" for it in sorted(rules.rows) if it not in then]
    return then, wrong + [f"{it}: excepted, and is not there" for it in then if it not in rules.rows]


def main():
    words = [it for it in sys.argv[1:] if it != "--told"]
    built = libraries(words)
    rules = Rules(Code(built)).run()
    if "--told" in sys.argv:
        print("\n".join(sorted(rules.rows)))
        return 0
    # in a folder where not all is built, as after make check, rows of what is built count
    wanted = {it for it in prove.listed() if not OTHERS.fullmatch(it) and not (TOP / "crates" / it / "src/main.rt").is_file()}
    lacking = sorted(wanted - {it.stem for it in built})
    then, differs = differing(rules, EXCEPTED.read_text(encoding="utf-8"), lacking)
    wrong = [it for folder in built for it in unseen_in(folder)] + rules.wrong + differs
    wrong += ["not all is built"] * (lacking != [] and any(it.endswith(".rlib") for it in words))  # as in the gate
    deep = max((rules.code.deepest(rules.code.open(name))[0] for name in rules.names), default=0)
    print("\n".join(wrong) or f"functions: {len(rules.names)}; excepted: {len(then)}; bytes of values at once: {deep}")
    if lacking:
        print("not built, and not looked at:", *lacking)
    return 1 if wrong else 0


if __name__ == "__main__":
    sys.exit(main())
