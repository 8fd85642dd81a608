"""How a wrong body is tried: what counts as its refusal, and at which goal. tests/edits/refusals.py runs the trials.

Edits share a check: each as a copy of its function beside the right one, with a copy of its proofs, or in its place where a
trait has the function. The check must leave each goal open at which one of them is refused, as its line says, and none of
these in a right body with answers by hand. Searches take most of the time: so what the search closes in the right body, and is
not asked for, gets an answer that the prover refuses at once (NO_GOAL). An edit that is not refused so is tried by itself, with
all goals.

An answer by hand that fails shows little, as the goal could close without it: so an edit is refused "at its answer" only where
the search, which stands beside that answer as another (BY_SEARCH), fails, too. Where an answer names what the edit took away,
as a step or a goal that now has another name, no answer of the function counts that fails. A goal that is left open counts
there only if values are known at which it is false, or if no answer by hand is about its clause: such a goal of the right body
is closed by the search. Nothing counts where an invariant lacks a name, since all that follows would need that.

An edit with a line `types:` is one that the types refuse: a check of the crate must say that error, and no other, of a
line that the edit puts. So a body that wants a counter or memory that nothing hands it cannot be written at all.
"""
import copy
import os
import pathlib
import re
import shutil

from functions import function_at, function_of, functions_in, text_of
from toolchain import ALONE, rt

MOST = 24  # edits that share a check
OF_THE_LANGUAGE = re.compile(r"`(?:overflow_|bounds-|nonzero_)")  # a number fits, an index is in range: no contract asks it
NO_GOAL = "\npub of-no-goal : of-no-goal\nof-no-goal c = c\n"  # refused for a name that is not in scope
OF_NO_GOAL = "`of-no-goal`"
BY_SEARCH, AT_IT = "-by-search", ", at its answer"
ANSWER = re.compile(r"(?m)^pub (\S+) :\s+goal\.\S+\n((?:unfolding .*\n)*)\S+((?: \w+)*) =")
AUTO = re.compile(r"\[tactic\(auto\b[^\]]*\]")
LEFT_OPEN = re.compile(r"note: (?:\./)?(src/\S+?):(\d+):\d+: (?:it is not proved .*?|`search` found no proof )\((`[^`]+`)\)")
AT_ITS_ANSWER = re.compile(r"(?:\./)?proofs/(\S+)/(?:Answers|Invariants)\.antt:\d+:\d+: error: (`[^`]+`): .*")
LEMMA = re.compile(r"(?:\./)?proofs/\S+:\d+:\d+: error: `(\w+)`: .*")
ERROR = re.compile(r"(?:\./)?(\S+?):(\d+):\d+: error(?:\[[\w-]+\])?: (.*)")
LOST_NAME = re.compile(r"has no field|is not in scope|has no `|was not admitted")  # says nothing of a contract
IS_FALSE = "the facts known there allow values at which this goal is false"


def about(goal):
    """Which contract a goal or an answer is about, a call's or the function's own, and which clause; none, where it is about all."""
    step, _, clause = goal.strip("`").partition("-clause-")
    return "requires" if "-requires" in step else step.partition("-")[0], clause


def answers_of(place):
    """The file of a function's answers by hand."""
    return f"proofs/{place.replace('::', '/')}/Answers.antt"


def is_by_search(folder, place, goal, proofs):
    """Whether a goal is about a clause, and no answer by hand of its function about that clause, or about all."""
    contract, clause = about(goal)
    by_hand = {about(it[0]) for it in ANSWER.findall(text_of(folder, answers_of(place), proofs))}
    return clause != "" and by_hand.isdisjoint({(contract, clause), (contract, "")})


def goals(folder, texts, lines, proofs={}):
    """The goals that each function leaves open, as the page names them, by the function's path; a lemma's by None. The proofs
    are those of copies."""
    found, answers = {}, [(line, at[1].replace("/", "::")) for line in lines if (at := AT_ITS_ANSWER.match(line))]
    lost = {place for line, place in answers if LOST_NAME.search(line)}
    lost_invariants = {place for line, place in answers if LOST_NAME.search(line) and "/Invariants.antt:" in line}
    for line in lines:
        if at := LEFT_OPEN.match(line):
            place = function_at(folder, at[1], text_of(folder, at[1], texts), int(at[2]) - 1)
            counts = place not in lost or IS_FALSE in line or is_by_search(folder, place, at[3], proofs)
            if counts and place not in lost_invariants:
                found.setdefault(place, []).append(at[3])
        elif LOST_NAME.search(line):
            continue
        elif at := AT_ITS_ANSWER.match(line):
            if (place := at[1].replace("/", "::")) not in lost:
                found.setdefault(place, []).append(at[2] + AT_IT)
        elif at := LEMMA.match(line):
            found.setdefault(None, []).append(f"the lemma {at[1]}")
    return found


def refusing(places, found):
    """The goals that refuse an edit, of those that these functions leave open, or lemmas: none of the language, and one at its
    answer only where the search fails, too."""
    for of_place in (found.get(place, ()) for place in [*sorted(places), None]):
        for goal in of_place:
            is_open = not goal.endswith(AT_IT) or goal.replace("`,", f"{BY_SEARCH}`,") in of_place
            if is_open and not OF_THE_LANGUAGE.match(goal):
                yield goal


def names(goals):
    """The names of these goals."""
    return {it.split("`")[1] for it in goals if "`" in it}


def changed(edits):
    """The functions whose proofs are tried with these edits."""
    return sorted({place for edit in edits for place in edit.functions})


def shared(crate, texts, asked, folder, kept, known, by_search={}, proofs={}):
    """What a check of these functions leaves open, as goals() has it, or of the crate where there are none, as in one of lemmas
    alone. None where it says of no function whether it is proved, or can't read what an edit puts. Of each function the goals
    that are tried are asked, or None for all; known has those that the search closes, and by_search those that it tries beside
    an answer by hand. The proofs are those of copies."""
    crate, answered, put = copy.copy(crate), {**texts, **proofs}, set()
    shutil.rmtree(folder, ignore_errors=True)
    crate.folder = shutil.copytree(crate.folder, folder, ignore=shutil.ignore_patterns("out"))
    for file in (answers_of(place) for place in asked):
        os.makedirs(os.path.dirname(f"{folder}/{file}"), exist_ok=True)
    for place, names_asked in asked.items():
        file = answers_of(place)
        own = text_of(crate.folder, file, answered) or f"use Rattle.{crate.name}.proofs.{place.replace('::', '.')}.Goals as goal\n"
        text = f"use Rattle.std.proofs.Common.{{rules as search-rules}}\n{own}"
        others = [] if names_asked is None else [it for it in known.get(place, ()) if it not in names_asked and f"pub {it} :" not in text]
        put |= {(place, it) for it in others}
        for goal, opened, given in ANSWER.findall(text):
            if goal in by_search.get(place, ()):
                text += f"\n{goal}{BY_SEARCH} : goal.{goal}\n{opened}{goal}{BY_SEARCH}{given} = search search-rules\n"
        answered[file] = "".join([text, NO_GOAL, *(f"\npub {it} : goal.{it}\n{it} = of-no-goal\n" for it in others)])
    ran = rt.checked(crate, answered, [*ALONE, *(f"--only={place}" for place in asked)], kept)
    lines = [it for it in ran.stdout.rstrip("\n").split("\n") if OF_NO_GOAL not in it]
    lines = [it for it in lines if not (at := AT_ITS_ANSWER.match(it)) or (at[1].replace("/", "::"), at[2].strip("`")) not in put]
    if any(rt.unread(it, texts) for it in lines) or ran.returncode != 1 or not lines[-1].startswith("only=" if asked else "logic=not-proved"):
        return None
    return goals(crate.folder, texts, lines, proofs)


def without_search(folder, places, texts):
    """These sources with the search taken from the right bodies of these functions."""
    texts = dict(texts)
    for path in sorted(pathlib.Path(folder).glob("src/**/*.rt")):
        file = str(path.relative_to(folder))
        lines = text_of(folder, file, texts).split("\n")
        for it in functions_in("\n".join(lines)):
            if it.path(folder, file) in places:
                own = AUTO.sub("[tactic(none)]", "\n".join(lines[it.begins:it.ends + 1])).split("\n")
                if not any("[tactic(" in line for line in own[:it.starts - it.begins]):
                    own[0] = f"#[tactic(none)]\n{own[0]}"
                lines[it.begins:it.ends + 1] = own
                texts[file] = "\n".join(lines)
    return texts


def closed_by_search(crate, edits, folder, kept):
    """The goals of each function that these edits change that the search closes: those that a check without it leaves open.
    None where that is not read."""
    texts = without_search(crate.folder, changed(edits), {})
    found = shared(crate, texts, dict.fromkeys(changed(edits)), folder, kept, {})
    return found if found is None else {place: sorted(names(goals)) for place, goals in found.items()}


def by_types(crate, edit, kept):
    """The verdict on an edit that names the error of the types that refuses it."""
    ran = rt.checked(crate, edit.texts, ALONE, kept)
    found = [(file, int(line) - 1, said) for file, line, said in ERROR.findall(ran.stdout)]
    expected = [it for it in found if it[2] == edit.types and edit.puts(*it[:2])]
    is_refused = ran.returncode == 1 and len(found) == 1 and found == expected
    return (f"the types: {edit.types}", "") if is_refused else (None, f"the types say other errors, or none: {found}")


def alone(crate, edit, folder, kept, known):
    """The verdict on an edit by itself, of which all goals are tried; by the search, too, where answers alone fail."""
    found = shared(crate, edit.texts, dict.fromkeys(edit.functions), folder, kept, {})
    if found is None:
        return None, "it is not read, or its check says of no function whether it is proved"
    goals, failing = [*refusing(edit.functions, found)], {place: names(found.get(place, ())) for place in edit.functions}
    if not goals and any(failing.values()):
        goals = [*refusing(edit.functions, shared(crate, edit.texts, failing, folder, kept, known, failing) or {})]
    goal = edit.goal if edit.goal in goals else next(iter(goals), None)
    return goal, f"no goal that a contract asks for is left open: {found}"


class Group:
    """Edits that share a check, and the functions that are tried for each: those that it changes, or the copy of one; and right
    bodies that are tried beside them."""

    def __init__(self, crate, edits):
        self.crate, self.changed = crate, {*changed(edits)}
        self.texts, self.copies, self.tried, self.right = {}, {}, {}, {}

    def can_copy(self, edit):
        """Whether an edit can be tried as a copy: it changes one function, in its body alone, and no trait has that."""
        if not edit.is_shared or len(edit.texts) > 1 or len(edit.places) > 1 or edit.files[0].startswith("proofs/"):
            return False
        (place,), ((file, text),) = edit.places, edit.texts.items()
        return not function_of(self.crate.folder, file, text, place).is_of_trait

    def copy(self, edit, texts):
        """The name of a copy of the function that an edit changes, as it stands in these texts."""
        (place,), (file,) = edit.places, edit.texts
        name = f"{place}__{len(self.copies) + 1}"
        self.copies[name] = place, file, text_of(self.crate.folder, file, texts)
        return name

    def take(self, edit):
        """Whether an edit is tried here, too."""
        if self.tried and not (edit.is_shared and self.is_shared and len(self.tried) < MOST):
            return False
        if self.can_copy(edit):
            self.tried[edit] = {self.copy(edit, edit.texts)}
            return True
        made = None if edit.places & self.in_place else edit.put(self.texts)
        if made or not self.tried:
            self.texts, self.tried[edit] = made[0] if made else {}, edit.functions
        return edit in self.tried

    def take_right(self, place, edits):
        """Whether the right body of a function that these edits change is tried here, too; as they are, where that can be."""
        of = [it for it in edits if place in it.functions]
        copied = next(filter(self.can_copy, of), None)
        if not self.is_shared or not copied and place in self.in_place:
            return False
        self.right[self.copy(copied, {}) if copied else place] = names(it.goal for it in of)
        return True

    @property
    def is_shared(self):
        return all(it.is_shared for it in self.tried)

    @property
    def in_place(self):
        """The functions that do not stand here as they are."""
        return {place for places in self.tried.values() for place in places if place not in self.copies}

    def with_copies(self):
        """The sources with the copies in them, and the copies' proofs. What is copied stands there without the search, so that
        nothing of it is proved again."""
        folder, proofs = self.crate.folder, {}
        texts = without_search(folder, self.changed - self.in_place - {*self.right}, self.texts)
        for name, (place, file, text) in self.copies.items():
            found, own = function_of(folder, file, text, place), text.split("\n")
            own = re.sub(rf"\bfn {found.name}\b", f"fn {name.rpartition('::')[2]}", "\n".join(own[found.begins:found.ends + 1]), count=1)
            whole = text_of(folder, file, texts)
            lines, after = whole.split("\n"), function_of(folder, file, whole, place).ends + 1
            texts[file] = "\n".join([*lines[:after], "", own, *lines[after:]])
            of_place = re.compile(rf"(Rattle\.{self.crate.name}\.(?:proofs|specs\.contracts)\.){place.replace('::', '.')}\b")
            for path in pathlib.Path(folder, answers_of(place)).parent.glob("*.antt"):
                proof = of_place.sub(rf"\g<1>{name.replace('::', '.')}", path.read_text(encoding="utf-8"))
                proofs[str(pathlib.PurePath(answers_of(name)).with_name(path.name))] = proof
        return texts, proofs

    def verdicts(self, folder, kept, known):
        """The verdict on each edit, the goal that refuses it, or None, and then what there is to say; and what the right bodies
        leave open, which is nothing where all is well."""
        first = next(iter(self.tried), None)
        if first and not first.texts:
            return [(first, None, "what it replaces does not stand there once")], {}
        if first and first.types:
            return [(first, *by_types(self.crate, first, kept))], {}
        texts, proofs = self.with_copies()
        asked, by_search = {place: set(goals) for place, goals in self.right.items()}, {}
        for edit, places in self.tried.items():
            for place in places:
                asked.setdefault(place, set()).update(names([edit.goal]))
                by_search.setdefault(place, set()).update(names([edit.goal]) if edit.goal.endswith(AT_IT) else ())
        known_here = known | {name: known.get(place, ()) for name, (place, *_) in self.copies.items()}
        found = shared(self.crate, texts, asked, folder, kept, known_here, by_search, proofs)
        said = [(it, it.goal, "") if it.goal in refusing(places, found or {}) else (it, *alone(self.crate, it, folder, kept, known))
                for it, places in self.tried.items()]
        if found is None:
            return said, dict.fromkeys(self.right, "its check is not read")
        return said, {it: found[it] for it in self.right if it in found}


def in_groups(crate, edits):
    """The edits in groups that share a check, in one of which the right body of each function that they change is tried, too, if
    it has answers by hand: what the search closes in a right body, it closes in a copy."""
    groups = []
    for edit in edits:
        if not any(it.take(edit) for it in groups):
            groups.append(Group(crate, edits))
            groups[-1].take(edit)
    for place in changed(edits):
        if text_of(crate.folder, answers_of(place), {}) and not any(it.take_right(place, edits) for it in groups):
            groups.append(Group(crate, edits))
            groups[-1].take_right(place, edits)
    return groups
