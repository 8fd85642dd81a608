#!/usr/bin/env python3
"""What a reader of a public call's contract has to read: the definitions that its clauses reach. And what tells each of
those that the contracts of programs, commands, a login and the functions for C reach: the nearest equation of
src/vectors.rt that reaches it too, which is the one that reaches the fewest, or why there is none.

    tests/pages/definitions_told.py

fails where a definition has neither an equation nor a reason, where what is public reaches a definition of
specs/Inside/ or does not reach one outside, where a line of specs/ belongs to no item, and where docs/words.tsv does
not explain a word of the toolchain's libraries that these contracts and definitions name. The pages that
tests/pages/reading_page.py makes show all of it.

What is public: calls, traits and what they are for a type, what contracts see of types, laws and vectors. A call is
written CRATE::FUNCTION or CRATE::TRAIT. What the toolchain's own libraries define (clap's words, SHA-256, hexadecimal,
base64) stands in the toolchain; the words of its standard library, which are those of any language (numbers, lists,
options), docs/words.tsv explains.
"""
import functools
import pathlib
import re
import shutil
import sys

sys.path += map(str, pathlib.Path(__file__).resolve().parents[1].iterdir())  # the other folders of tests/
import contracts
import specs
import values_table
from functions import text_of
from specs import CRATES, TOP, WORD, File, reached
from vectors import CLAUSE, VECTOR

# The calls whose definitions have to be told: of programs, commands, a login, and the functions for C.
CALLS = [
    "scrypt_program::run", "argon2_program::run", "command::scrypt", "command::argon2", "scrypt_run::run", "argon_text::verify",
    *(f"pikhsen_c::{it}" for it in sorted(contracts.root_of("pikhsen_c")[1]) if re.match("pikhsen_(?!version$)", it)),
]
TRAITS = [("host", "Host"), ("tools", "System")]  # what calls are for
WORDS = TOP / "docs" / "words.tsv"
# The standard library of the toolchain, under its several names.
STANDARD = {"core", "std", "std_alloc", "std_heap", "std_io", "std_collections", "io", "logic"}
ALL = specs.all_files()
SEEN = "the value of the code as contracts see it: field by field"
WHY = {
    **{("host.specs.Secret", name): SEEN for name in ("source_of", "secret_of_source")},
    ("argon_text.specs.View", "encoded_value_of_hash_view"): SEEN,
    **{("scrypt_request.specs.Request", f"{name}_view"): SEEN for name in ("scrypt_request", "encryption", "task")},
    ("scrypt_request.specs.Request", "name_view"): SEEN,
    **{("pikhsen_c.specs.Heap", f"after_{name}_request"): "`one_more` of one field of a record"
       for name in ("matrix", "text", "workspace", "state", "reading")},
    **{(f"encfile.specs.{it}ing", f"Of{it}ion"): "a type of statements" for it in ("Encrypt", "Decrypt")},
}


def with_toolchain():
    """The files of definitions here, and those of the toolchain's libraries, where it is here, that they name, and that
    those name, but for its standard library."""
    found, left, command = dict(ALL), [*ALL.values()], shutil.which("rt")
    while left and command:
        for crate in {at.split(".")[0] for at, _ in left.pop().imports.values()} - STANDARD:
            if not any(it.startswith(f"{crate}.") for it in found):
                kit = pathlib.Path(command).resolve().parent.parent / "rattle"
                for path in sorted((kit / crate / "specs").rglob("*.antt")):
                    left.append(File(path.read_text(encoding="utf-8")))
                    found[".".join(path.relative_to(kit).with_suffix("").parts)] = left[-1]
    return found


def words_in(texts):
    """The words of the toolchain's libraries that stand in these texts, each with what its file imports."""
    for text, names in texts:
        tokens = {*WORD.findall(text)}
        for here, (module, given) in names.items():
            crate = module.split(".")[0]
            is_kits = crate in ("std", "core") or crate not in STANDARD and not (CRATES / crate).is_dir()
            is_used = all(it in tokens or it == "[]" for it in here.split("◌") if it)
            if given and is_kits and is_used and ".declared." not in module:
                yield given


def public(crate):
    """What is public in a crate: functions, with its laws and vectors, traits, and all that types are for a trait."""
    for it in contracts.without_tests(crate):
        is_law = it.what == "fn" and it.path.stem in ("laws", "vectors")
        if it.trait or it.what in ("fn", "trait") and (it.is_public or is_law):
            yield it


def contract(crate, named):
    """A public function, or a trait: of the crate, or of that from which it hands the function on."""
    found = [it for it in public(crate) if it.name == named and not it.trait]
    owners = [owner for owner, name in contracts.root_of(crate)[2] if name == named]
    if not found + owners:
        sys.exit(f"no public function or trait {crate}::{named}")
    return found[0] if found else contract(owners[0], named)


def contracts_of(call):
    """A call, and the traits that it is for."""
    it = contract(*call.split("::"))
    return [it, *(contract(crate, trait) for crate, trait in TRAITS if f"{trait}>" in it.text)]


def texts_of(items):
    """Their contracts, each with what its file imports."""
    return [(it.text, it.imports) for it in items]


def misplaced():
    """What stands in specs/Inside/ though it is public, and what stands outside though it isn't."""
    found = {*reached([it for path in CRATES.iterdir() if path.is_dir() for it in texts_of(public(path.name))], ALL)}
    for module, file in ALL.items():
        inside = module.split(".")[2] == "Inside"
        for item in filter(None, file.items):
            if ((module, item) in found) == inside:
                yield f"{module}: {item} is {'public' if inside else 'cited by nothing public'}"


def opened(folder, vector):
    """The definitions that the answer of a vector opens."""
    answer = text_of(folder, f"proofs/vectors/{vector}/Answers.antt", {})
    names = specs.imports(answer)
    words = " ".join(re.findall(r"(?m)^unfolding (.*)$", answer)).split()
    return {item for word in words if word in names for item in specs.items_of(ALL, *names[word])}


def nearest():
    """By each definition the nearest equation: how many definitions it reaches, its crate, and how it is called."""
    found = {}
    closed = {(module, item) for module, file in ALL.items()
              for item, lines in file.items.items() if lines[0].startswith("unfoldable")}
    for path in sorted(CRATES.glob("*/src/vectors.rt")):
        text, crate = path.read_text(encoding="utf-8"), path.parts[-3].removesuffix("_tests")
        names = specs.imports(text)
        for _, name, clauses in VECTOR.findall(text):
            left = closed - opened(path.parents[1], name)
            for clause, said in CLAUSE.findall(clauses):
                is_law = re.match(r"\((?:\w+ )+: ", said)  # it is quantified, and tells no value
                items = [] if is_law else reached([(said, names)], ALL, left)
                for item in items:
                    there = len(items), crate, f"`{name}`: `{clause}`"
                    found[item] = min(found.get(item, there), there, key=lambda it: it[0])
    return found


def is_value(lines):
    """Whether a definition gives a value, by its lines: it is no form and no statement."""
    head, *others = lines[0].strip(), *lines[1:]
    is_type = re.search(r": Type 0 [\w ()=]*= |: Type 0$", head) and "→" not in head
    is_form = is_type and len(others) == 1 and "=" in others[0] or re.match(r"(?:pub )?(?:data|record)\b", head)
    return not is_form and not head.endswith("→ Type 0") and not re.search(r"→ Type 0 \w", " ".join(lines))


@functools.lru_cache(maxsize=None)
def told():
    """By each definition that the calls reach what tells it; None is nothing."""
    by, found = nearest(), {}
    for module, name in dict.fromkeys(it for call in CALLS for it in reached(texts_of(contracts_of(call)), ALL) if it[1]):
        why = WHY.get((module, name)) if is_value(ALL[module].items[name]) else "a form or a statement"
        found[module, name] = "reached by {1}: {2}".format(*by[module, name]) if (module, name) in by else why
    return found


def unknown():
    """The words of the calls' contracts and definitions that no line of docs/words.tsv explains."""
    meanings = dict(values_table.rows("word", WORDS, "-"))
    for call in CALLS:
        texts = texts_of(contracts_of(call))
        texts += [("\n".join(ALL[at].items[item]), ALL[at].imports) for at, item in reached(texts, ALL)]
        words = {*words_in(texts)} - {*meanings}
        yield from (f"docs/words.tsv: a line for {it}, of {call}" for it in sorted(words))


def wrong():
    for module, file in ALL.items():
        yield from (f"{module}: a line of no item: {line}" for line in file.strange)
    yield from (f"{module}: {item}: an equation, or why there is none (tests/pages/definitions_told.py)"
                for (module, item), told_by in told().items() if not told_by)
    yield from (f"{module}: {item} has an equation, and a reason why there is none"
                for module, item in WHY if (told().get((module, item)) or "").startswith("reached by "))
    yield from misplaced()
    yield from unknown()


if __name__ == "__main__":
    sys.exit("\n".join(wrong()) or None)
