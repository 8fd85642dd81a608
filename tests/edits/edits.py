"""Wrong bodies, edits that the prover must refuse (body_trial.py): what each puts in the place of what, what that changes, and
the goal that refuses it.

They stand in crates/CRATE/wrong-bodies/, many to a file, NAME.edits, one file for each source that they are about:

    file: src/costs.rt                 what each edit of this file has, to the first blank line

    log-n-of-64                        the name of an edit, and below it its own lines, to the next blank line
    holds: Costs::new fault            the promises that it breaks: calls, and clauses or fields of theirs
    old: if log_n == 0 || log_n > 63
    new: if log_n == 0 || log_n > 64
    refused: `returns-else-fault`      its goal, which `--told` writes: what refuses it

`old:` must stand in the file once. A line `and: TEXT` is the next line of the text above it. An edit that names a file
itself is of that file; a line `file:` between blank lines is of the edits below it. `in: FUNCTION` names whose proof must
refuse an edit that changes no body, as that of a constant. `holds: CALL CLAUSE, CLAUSE.FIELD; ..` has the crate before a
call of another one, as `tools::System::write`; tests/pages/promises.py holds it against docs/PROMISES.md.
"""
import functools
import pathlib
import re

from functions import function_at, text_of
from specs import CRATES
from tree import TOP

BODIES = "wrong-bodies"
FIRST = ("holds", "types")  # what an edit says before it names a file
GOAL = "\nrefused: "
ANSWERS = re.compile(r"proofs/(.*)/(?:Answers|Invariants)\.antt")


class Edit:
    """What an edit puts in the place of what, in files below a folder, and the goal that refuses it, where it has one."""

    def __init__(self, path, stem, lines):
        self.path, self.stem, self.folder = path, stem, path.parent.parent
        self.name = f"{self.folder.name}/{stem}"
        self.pairs, said, last = [], {}, None
        for word, _, rest in (line.partition(":") for line in lines):
            rest = rest.removeprefix(" ")
            if word == "and":
                said[last] += f"\n{rest}"
            else:
                said[word], last = rest, word
            if word == "new":
                self.pairs.append([said["file"].strip(), said["old"], ""])
            if last == "new":
                self.pairs[-1][2] = said["new"]
        self.goal, self.holds = said.get("refused", ""), [*promises_in(said.get("holds", ""), self.folder.name)]
        self.types = said.get("types", "").strip()  # the error of the types that refuses it, where it names one
        self.within = said.get("in", "").strip()  # the function whose proof must refuse it, where it changes no body
        self.files = sorted({file for file, _, _ in self.pairs})

    def put(self, texts, folder=None):
        """The texts with this edit, and what it changes; or none where what it replaces does not stand there once."""
        made, places = dict(texts), set()
        for file, old, new in self.pairs:
            text = text_of(folder or self.folder, file, made)
            if text.count(old) != 1 or old == new:
                return None
            places.add(self.place_of(file, text, text.count("\n", 0, text.find(old))))
            made[file] = text.replace(old, new)
        return made, places

    def place_of(self, file, text, line):
        """The function that has this line of a file in its body or in its answers; None elsewhere."""
        answers = ANSWERS.fullmatch(file)
        if answers or not file.startswith("src/"):
            return answers and answers[1].replace("/", "::")
        return function_at(self.folder, file, text, line, body=True)

    @functools.cached_property
    def alone(self):
        return self.put({}) or ({}, {None})

    texts = property(lambda self: self.alone[0])  # of the files that it changes; none where it does not fit them
    places = property(lambda self: self.alone[1])  # the functions in whose bodies it changes something; None is elsewhere

    @property
    def functions(self):
        """The functions whose proofs are tried: none, where the types refuse it."""
        return set() if self.types else {self.within} if self.within else self.places - {None}

    @property
    def is_shared(self):
        """Whether it can be tried beside others: it changes bodies alone, and the types let it through."""
        return all(self.places) and not self.types

    def puts(self, file, line):
        """Whether this line of a file, as the edit makes it, is one that it puts there."""
        lines = self.texts.get(file, "").split("\n")
        return line < len(lines) and any(it[0] == file and it[2].strip() in lines[line] for it in self.pairs)


def promises_in(text, crate):
    """The promises that a line `holds:` names, each a crate, a call, and a clause or a field of it."""
    for part in filter(None, text.split("; ")):
        call, _, clauses = part.partition(" ")
        owner, _, rest = call.partition("::")
        is_of_other = (CRATES / owner).is_dir() and rest
        for clause in clauses.split(", "):
            yield (owner, rest, clause) if is_of_other else (crate, call, clause)


def sections(text):
    """The edits of a file's text, in its order: the name of each, and its lines with those of the head."""
    of_file, *others = [it.split("\n") for it in text.strip("\n").split("\n\n")]
    for name, *own in others:
        if name.startswith("file:") and not own:
            of_file = [name]
            continue
        if ":" in name or not own:
            raise ValueError(f"the name of an edit and its lines are expected at {name!r}")
        at = next(at for at, line in enumerate(own) if line.partition(":")[0] not in FIRST)
        file = [] if own[at].startswith("file:") else of_file
        yield name, [*own[:at], *file, *own[at:]]


def edits_in(folder):
    """The edits that a folder holds, by their names."""
    files = sorted(pathlib.Path(folder).glob("*.edits"))
    found = [Edit(path, *it) for path in files for it in sections(path.read_text(encoding="utf-8"))]
    if len({it.stem for it in found}) < len(found):
        raise ValueError(f"{folder}: two edits have one name")
    return sorted(found, key=lambda it: it.stem)


def edits_of(crate, folder):
    return edits_in(TOP / "crates" / crate / folder)


def write_goal(edit, goal):
    """Writes the goal that refuses an edit below its lines, or takes that away where there is none."""
    head, *others = edit.path.read_text(encoding="utf-8").rstrip("\n").split("\n\n")
    for at, text in enumerate(others):
        if text.partition("\n")[0] == edit.stem:
            others[at] = text.partition(GOAL)[0] + (f"{GOAL}{goal}" if goal else "")
    edit.path.write_text("\n\n".join([head, *others]) + "\n", encoding="utf-8")
    edit.goal = goal
