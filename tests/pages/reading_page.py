#!/usr/bin/env python3
"""Pages of the libraries and of the contracts, made from the sources, to be read, printed and signed.

    tests/pages/reading_page.py            writes bin/reading/: a page for `run` of each program, and CRATE.txt for
                                           each library
    tests/pages/reading_page.py CALL..     writes a page for each call there, which is written CRATE::FUNCTION

The page of a call has all that its reader has to judge: its contract, the definitions that it reaches, here and in the
toolchain (tests/pages/definitions_told.py), the types that they name, and what notation and words mean
(docs/words.tsv). The page of a library has its public items. All stands as in its source.
"""
import hashlib
import pathlib
import re
import sys

sys.path += map(str, pathlib.Path(__file__).resolve().parents[1].iterdir())  # the other folders of tests/
import contracts
import specs
import values_table
from definitions_told import WORDS, contracts_of, told, texts_of, with_toolchain, words_in
from specs import CRATES
from tree import TOP, VERSION, tables

FILES = with_toolchain()
PROGRAMS = ["argon2_program::run", "argon2_verify_program::run", "scrypt_program::run"]
# A module of a type of the sources: its crate, its file, and its name.
DECLARED = re.compile(r"(\w+)\.specs\.declared\.([a-z_0-9.]*?)\.?([A-Z]\w*)")
ABOUT = """Pikhsen {version}. This page has all of this repository's text that a reader has to find right to
believe the call: its contract, and the definitions that it reaches, in the order in which they are first cited:
{ours}. Those of the toolchain's libraries that it reaches, {kit}, follow. That the
program meets the contract is proved, and needs no reader. Read it against the standards, whose sections stand in
brackets, or, where no standard has a rule, the page that stands there. Behind that stands the nearest equation of
src/vectors.rt that reaches the definition, whose value comes from outside, or that it is a form or a statement, which
has no value. To be reached is not to be tested: the checker computes of a definition only the cases that the value
needs. Contracts do not see the heap, nor a byte of Linux: what that leaves open, says docs/PROMISES.md, "Not promised".
A signature stands as long as the sum of its section does."""


# By each definition, as docs/DEFINITIONS.md has it, the section of the standard; a name's first row counts.
STANDARDS = {(crate, name): cells[3] for crate, cells in [*tables("DEFINITIONS.md")][::-1] if cells[3:] and cells[3]
             for name in re.findall(r"`([^`]+)`", cells[0])}


def section(title, texts):
    """A section with its line to sign, and the sum of what stands in it."""
    body = "\n\n".join(texts)
    sign = "read and found right by: ____________________________ date: ______________"
    return f"== {title}\n\n{body}\n\n{sign} (sum {hashlib.sha256(body.encode()).hexdigest()[:8]})"


def definition(module, name):
    """A definition, with the section of the standard and what tells it."""
    sources = STANDARDS.get((module.split(".")[0], name)), told().get((module, name))
    return "\n".join([*FILES[module].shown[name], *(f"    [{it}]" for it in sources if it)])


def types_in(texts):
    """The types of the sources that these texts name, each with its comment, as it stands there."""
    modules = [module for text, names in texts for here, (module, _) in names.items()
               if here.strip(".") in specs.WORD.findall(text)]
    for crate, path, name in dict.fromkeys(it.groups() for it in map(DECLARED.match, modules) if it):
        source = CRATES.joinpath(crate, "src", *path.split(".")).with_suffix(".rt")
        for it in contracts.items(crate):
            if (it.path, it.name) == (source, name) and it.what in ("struct", "enum"):
                yield it.above + it.text


def size(items):
    lines = sum(len(FILES[module].items[name]) for module, name in items)
    return f"{len(items)} in {len({module for module, _ in items})} files, {lines} lines"


def call_page(call):
    """The page of a call."""
    found = contracts_of(call)
    texts = texts_of(found)
    reached = [it for it in specs.reached(texts, FILES) if it[1]]
    ours = [it for it in reached if (CRATES / it[0].split(".")[0]).is_dir()]
    kit = [it for it in reached if it not in ours]
    parts = {
        "The contract": [f"// {it.path.relative_to(TOP)}\n{it.above}{it.text}" for it in found],
        "Notation": [f"{form}\n    {means}" for form, means in values_table.rows("notation", WORDS, "-")],
    }
    for module in dict.fromkeys(module for module, _ in ours + kit):
        # what it imports under another name, and the items that are reached, the nearest first
        named = re.findall(r"(?m)^ *use .* as .*$", FILES[module].text)
        parts[module] = [*named, *(definition(*it) for it in reached if it[0] == module)]
    texts += [("\n".join(FILES[module].items[name]), FILES[module].imports) for module, name in ours]
    used, words = {*words_in(texts)}, values_table.rows("word", WORDS, "-")
    shown = [f"{word.replace('◌', ' .. ').strip()}\n    {means}" for word, means in words if word in used]
    parts.update({"Types of the sources": types_in(texts), "Words of the toolchain's libraries": shown})
    about = ABOUT.format(version=VERSION, ours=size(ours), kit=size(kit))
    return [f"What {call} is proved to do", about, *(section(*it) for it in parts.items())]


def crate_page(crate):
    """The page of a library: what it says of itself, what it hands on, and its public items."""
    root, _, others = contracts.root_of(crate)
    parts = ["\n".join(re.findall(r"(?m)^//!.*$", root)), *(f"also {owner}::{name}" for owner, name in others)]
    for name, it in contracts.exported(crate).items():
        text = it.text.splitlines()[0] if it.what == "trait" else it.text  # its calls stand below
        parts.append(f"== {name}, of {it.path.relative_to(TOP)}\n\n{it.above}{text}")
    return parts


def main():
    calls, folder = sys.argv[1:] or PROGRAMS, TOP / "bin" / "reading"
    if wrong := [call for call in calls if call.count("::") != 1]:
        sys.exit(f"{wrong[0]}: a call is written CRATE::FUNCTION, as argon_text::verify")
    made = {call.replace("::", "_"): call_page(call) for call in calls}
    made.update({} if sys.argv[1:] else {crate: crate_page(crate) for crate in contracts.libraries()})
    folder.mkdir(parents=True, exist_ok=True)
    for name, parts in made.items():
        (folder / f"{name}.txt").write_text("\n\n".join(parts) + "\n", encoding="utf-8")
    print(f"bin/reading/{next(iter(made))}.txt: the first of {len(made)} pages")


if __name__ == "__main__":
    main()
