"""The calls and clauses that carry the promises of docs/PROMISES.md, looked for in the sources; and whether an edit, by its
line `holds:`, or a type holds each, so that none is one that nothing broke.
"""
import re

import contracts
import prove
import specs
from edits import BODIES, edits_of
from tree import tables

# What the types hold, which refuse each body that breaks it: a `Count` has one value and no bytes.
BY_TYPES = {("counter", "Count::new", "zero"), ("counter", "Count::plus_one", "one_more")}
IN_BACKTICKS = re.compile(r"`([^`]+)`")
# The fields of the records that each crate defines.
FIELDS = {(module.split(".")[0], name, field) for module, file in specs.all_files().items()
          for name, lines in file.items.items() for field in re.findall(r"(?m)^  pub (\w+) :", "\n".join(lines))}


def functions(crate):
    """The functions of a crate, by their names: behind that of their type or trait, or, where several modules have one
    of this name, of their module. And its types, which are none."""
    found, items = {}, contracts.without_tests(crate)
    free = [it.name for it in items if it.what == "fn" and not it.block]
    for it in items:
        if it.what in ("impl", "trait", "struct"):
            found.setdefault(it.name, [])
        elif it.what == "fn":
            module = "::".join(it.path.relative_to(contracts.CRATES / crate / "src").with_suffix("").parts)
            above = it.block.name if it.block else module if free.count(it.name) > 1 else ""
            found.setdefault(f"{above}::{it.name}".lstrip(":"), []).append(it)
    return found


CRATES = {name: line.partition(":")[2].split() for name, line in prove.listed().items()}  # with what each stands on
FUNCTIONS = {crate: functions(crate) for crate in CRATES}
for each, below in CRATES.items():
    # functions of other crates that it hands on as its own
    for owner, name in contracts.root_of(each)[2] if each in contracts.libraries() else ():
        if name[0].islower() and name in FUNCTIONS[owner]:
            FUNCTIONS[each][name] = FUNCTIONS[owner][name]
    if each.removesuffix("_tests") in CRATES:  # program_tests are of several
        FUNCTIONS[each.removesuffix("_tests")].update(FUNCTIONS[each])
    FUNCTIONS[each].update({trait: [] for owner, trait in (("host", "Host"), ("tools", "System")) if owner in below})


def calls_named(name, crate, owner=""):
    """The functions, or the type, of this name, which may lack its type where that is the one named last; or none, where
    several modules have one of this name."""
    there = FUNCTIONS[crate]
    exact = [each for each in (owner + name, name) if each in there][:1]
    hits = exact or [each for each in there if "::" not in name and each.endswith("::" + name)]
    return [] if len([each for each in hits if each[0].islower() and "::" in each]) > 1 else hits


def parts(crate, promise, cell):
    """The parts of a row's last cell, `CALLS: CLAUSES` or `law: LAWS`: the calls that are not there, those that are, and the
    clauses. Where a part names no call, it means those of the part before, or those that the promise names."""
    owner, found = "", [hit for name in IN_BACKTICKS.findall(promise) for hit in calls_named(name, crate)]
    for part in re.sub(r" \(.*?\)|its clauses, and those of |the clauses of ", "", cell).split("; "):
        named, _, clauses = part.rpartition(": ") if ": `" in part else ("", "", part)
        if re.match("laws?: ", part) or "::" in clauses:
            named, clauses = part, ""
        calls, lost = IN_BACKTICKS.findall(named), []
        found = [] if calls else found
        for name in calls:
            hits = calls_named(name, crate, owner)
            owner = hits[-1].rpartition("::")[0] + "::" if hits and "::" in hits[-1] else owner
            found += hits
            lost += [] if hits else [name]
        yield lost, list(dict.fromkeys(found)), IN_BACKTICKS.findall(clauses)


def rows():
    """The crate of each row of docs/PROMISES.md, what it promises, and its last cell."""
    for heading, cells in tables("PROMISES.md"):
        if cells[0] in ("promise", "crate", "law", "the run"):
            continue
        if heading == "The headline":
            yield from (("command", f"`{call}`", cells[1]) for call in ("scrypt", "argon2"))
        elif heading.startswith("The calls"):
            yield from [(cells[0].strip("`"), *cells[1:])] if cells[0] != "all" else ()
        elif len(cells) == 2:
            yield next((each for each in CRATES if cells[0].strip("`") in FUNCTIONS[each]), "command"), "", f"law: {cells[0]}"


def has(items, clause):
    """Whether functions have a clause, or one with this field of a record that it cites, as `first.memory`."""
    clause, _, field = clause.partition(".")
    cited = [(it.path.relative_to(contracts.CRATES).parts[0], word) for it in items for _, name, text in it.clauses
             if name == clause for word in re.findall(r"\w+", text)]
    return bool(cited) and (not field or any((*it, field) in FIELDS for it in cited))

def promised():
    """The promises that PROMISES.md cites: the crate of each call, its name, and the clause, or a field of the record that it is."""
    for crate, *row in rows():
        for _, found, clauses in parts(crate, *row):
            for name in found:
                for clause in (it for it in clauses if has(FUNCTIONS[crate][name], it)):
                    yield crate_of(FUNCTIONS[crate][name][0]), name, clause


def crate_of(item):
    return item.path.relative_to(contracts.CRATES).parts[0]


def is_goal_of(edit, crate, name, clause):
    """Whether the goal that refuses an edit of a call, or of how it is called, is of this clause: by name, where there are more
    than one. An edit of a step below the call is refused at the step's own clause, or at an invariant."""
    last, goal, clause = name.rpartition("::")[2], edit.goal.partition("`")[2].partition("`")[0], clause.partition(".")[0]
    kind = "requires" if "-requires" in goal else "ensures"
    is_only = any(it.names(kind) == [clause] for it in FUNCTIONS[crate].get(name, ()))
    if kind == "ensures" and (not goal.startswith("returns") or last not in {it.rpartition("::")[2] for it in edit.functions}):
        return True
    return (goal.endswith(f"-clause-{clause}") or is_only) and (kind == "ensures" or goal.partition("-")[0] == last)


def wrong():
    """What docs/PROMISES.md names that the sources lack; promises that no edit and no type holds; and edits that break none."""
    cited, held, edits = {*promised()}, set(), [it for crate in CRATES for it in edits_of(crate, BODIES)]
    for crate, *row in rows():
        for lost, found, clauses in parts(crate, *row):
            yield from (f"PROMISES.md: {crate} has no {name}" for name in lost)
            for clause in clauses:
                is_type = clause[0].isupper() and clause in FUNCTIONS[crate]
                if not is_type and not any(has(FUNCTIONS[crate][name], clause) for name in found):
                    yield f"PROMISES.md: {crate}: {', '.join(found)} has no clause {clause}"
    for edit in edits:
        held |= {*edit.holds}
        wide = {it[:2] + (it[2].split(".")[0],) for it in cited}
        for it in edit.holds or [("", "", "")]:
            if it not in cited | wide or not is_goal_of(edit, *it):
                yield f"{edit.name}: holds: a promise of PROMISES.md that its goal is of, and not {' '.join(it)}"
    held |= {it[:2] + (it[2].split(".")[0],) for it in held} | BY_TYPES
    clauses = {it[:2] + (it[2].split(".")[0],) for it in cited}
    yield from (f"PROMISES.md: an edit that holds {' '.join(it)}" for it in sorted(clauses - held))
    yield from (f"tests/pages/promises.py: {' '.join(it)} is not held by a type alone" for it in sorted(BY_TYPES - clauses))


def fields_without_edit():
    """The promised fields that no edit breaks. Where a proof above cites one, that would fail without it; else nothing would."""
    held = {it for crate in CRATES for edit in edits_of(crate, BODIES) for it in edit.holds}
    return sorted({it for it in promised() if "." in it[2]} - held)
