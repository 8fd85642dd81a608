#!/usr/bin/env python3
"""Whether what the documents name is there; whether what is made of data is what would be made now; and whether figures of
speed are those of docs/benchmarks.tsv. What pages say of options, messages and numbers is compared by
tests/pages/values.py.

Reads README.md and the other pages, docs/ and man/ against crates/, prints each name that it does not find, and fails
where there is one.
"""
import functools
import pathlib
import re
import sys

sys.path += map(str, pathlib.Path(__file__).resolve().parents[1].iterdir())  # the other folders of tests/
import contracts
import figures
import pages
import promises
import tree
from checking import is_there, left_out, said
from edits import BODIES, edits_of
from promises import CRATES, IN_BACKTICKS
from specs import all_files
from tree import TOP, VERSION, read

PAGES = sorted(TOP.glob("*.md"))
MANUALS = sorted((TOP / "man").glob("*.1"))
DOCUMENTS = [*PAGES, *sorted((TOP / "docs").glob("*.md")), *MANUALS]
# The libraries of the toolchain that README trusts, and no other: one of them, libc, writes to any descriptor in a call
# that no contract sees.
TRUSTED = {"base64", "byteorder", "clap", "hex", "sha2", "thiserror"}
# The parts of std that proofs by hand cite, by their own names; code names none of them.
CITED = {"core", "std_alloc", "std_heap"}
# How a goal is called: of a return, a call, a loop or a type; or it is a lemma's, or an error of the types. That a
# number fits is no contract's.
GOAL = re.compile(
    r"`(?:returns|\S+-requires|loop-\S+|\S+-(?:init|preserved|smaller)|invariant_of-)[^`]*`"
    r"(?:, at its answer)?|the lemma \w+|the types: .+"
)
DEFINED = {module: {*file.items, *file.fields} for module, file in all_files().items()}


@functools.lru_cache(maxsize=None)
def text_of(crate, form):
    """The texts of the files of a crate of this form."""
    files = sorted((TOP / "crates" / crate).glob(form))
    return "\n".join(it.read_text(encoding="utf-8") for it in files)


def sources_of(crate):
    return text_of(crate, "src/**/*.rt")


def libraries_that_are_listed():
    """What a crate stands on, with what its tests alone name: rt ci would miss it only after all below is proved."""
    known = {*CRATES, *sum(CRATES.values(), [])}
    yield from (f"crates.txt: {name} among the libraries of the toolchain that may be used"
                for name in sorted(known - {*CRATES} - TRUSTED - CITED))
    for crate, listed in CRATES.items():
        code = re.sub(r"//.*", "", sources_of(crate))
        proved = re.sub(r"--.*", "", text_of(crate, "specs/**/*.antt") + "\n" + text_of(crate, "proofs/**/*.antt"))
        named = re.findall(r"(?<![\w:])(\w+)::", code + proved) + re.findall(r"\bRattle\.(\w+)\.", code + proved)
        named = {*named} & known - {crate}
        if named != {*listed}:
            yield f"crates.txt: {crate} with what it names alone: {', '.join(sorted(named))}"
        if any(it.endswith("_tests") for it in listed):
            yield f"crates.txt: {crate} with no crate of tests below it"
        if cited := {*re.findall(r"\w+", code)} & CITED & {*listed}:
            yield f"crates.txt: {crate} with code that names none of {', '.join(sorted(cited))}"


def programs_that_are_listed():
    of_programs = {it for it in CRATES if (TOP / "crates" / it / "src/main.rt").is_file()}
    for name in sorted(of_programs ^ {*tree.PROGRAMS.values()}):
        yield f"packaging/programs: {name}, as crates.txt has it with a src/main.rt"


def anchors(text):
    """What a page's headings are called in links, as GitHub makes it."""
    text = re.sub(r"^```.*?^```$", "", text, flags=re.MULTILINE | re.DOTALL)
    for title in re.findall(r"^#+ (.*)$", text, re.MULTILINE):
        yield re.sub(r"[^\w\- ]", "", title.lower()).replace(" ", "-")


def links_of(document, text):
    """Links, to files and to headings. What is installed, README, CHANGELOG and docs/, links to what is installed
    alone, and README to manual pages, which are installed elsewhere."""
    for path, anchor in re.findall(r"\]\((?!https?:)([^)#\s]*)(?:#([^)\s]*))?\)", text):
        target = (document.parent / path).resolve() if path else document
        is_installed = target.parent == TOP / "docs" or target.name in ("README.md", "CHANGELOG.md")
        is_installed = is_installed or document.name == "README.md" and target.parent == TOP / "man"
        if not target.exists() or not is_installed and document.name != "CONTRIBUTING.md":
            yield f"the link to {path}"
        elif anchor and anchor not in anchors(target.read_text(encoding="utf-8")):
            yield f"the link to {path}#{anchor}"


def names_of(document, text):
    """Files; the text that a merge decides on; lines that fit a screen, but for tables in docs/, whose rows cannot be
    cut; and links."""
    for path in re.findall(r"\b(?:crates|docs|tests|bench|man|packaging|completions)/[\w./]*[\w]\.\w+", text):
        if not (TOP / path).exists():
            yield path
    if marks := re.findall(r"^(?:<{7}|={7}|>{7})(?: .*)?$", text, re.MULTILINE):
        yield f"the text that a merge decides on, in the place of {marks[:1]}"
    for number, line in enumerate([] if document in MANUALS else text.splitlines(), 1):
        if len(line) > 120 and (document in PAGES or not line.startswith("|")):
            yield f"line {number} has {len(line)} columns"
    yield from links_of(document, text)


def names_and_figures():
    for it in DOCUMENTS:
        yield from (f"{it.name}: {name}" for name in names_of(it, it.read_text(encoding="utf-8")))
    for name, sentences in figures.sentences().items():
        text = " ".join(read(name).split())
        yield from (f"{name}: '{it}' (tests/pages/figures.py)" for it in sentences if it not in text)


def definitions():
    """Definitions, and their fields: each of a row stands in a file of the row, and each file has one."""
    for crate, cells in pages.tables("DEFINITIONS.md"):
        if crate in CRATES and cells[0] != "definition":
            names, files = (IN_BACKTICKS.findall(cells[column]) for column in (0, 2))
            defined = {it: DEFINED.get(f"{crate}.specs.{it.replace('/', '.')}", set()) for it in files}
            yield from (f"DEFINITIONS.md: {crate}: {name} in {cells[2]}"
                        for name in names if not any(name in it for it in defined.values()))
            yield from (f"DEFINITIONS.md: {crate}: one of {cells[0]} in {file}"
                        for file, there in defined.items() if not there & {*names})


def tests_of_examples():
    """Those of a row's own crate, or those that run over a host in memory."""
    for _, cells in pages.tables("EXAMPLES.md"):
        for part in cells[3].split(";") if len(cells) == 4 and cells[0].isdigit() else ():
            named = [name for name in IN_BACKTICKS.findall(part) if " " not in name]
            owner = named.pop(0) if named and named[0] in CRATES else "command"
            code = "".join(sources_of(f"{owner}{tests}") for tests in ("", "_tests"))
            yield from (f"EXAMPLES.md: row {cells[0]}: {name}"
                        for name in named if not re.search(rf"\bfn {re.escape(name)}\b", code))


def goals():
    """Edits that must fail: what each replaces stands in its place once, and the goal that refuses it is there."""
    sources = "".join(map(sources_of, CRATES))
    bodies = [it for crate in CRATES for it in edits_of(crate, BODIES)]
    clauses = {"steps", *re.findall(r"\b(?:ensures|requires)\*? (\w+)", sources)}  # the first of Iterator::next
    yield from (f"{it.name}: the text that it replaces, once" for it in bodies if not it.texts)
    for edit in bodies:
        told, clause = GOAL.fullmatch(edit.goal), re.search(r"-clause-(\w+)`", edit.goal)
        if not told or clause and clause[1] not in clauses:
            yield f"{edit.name}: refused: {edit.goal}: the goal that refuses it " \
                  f"(tests/edits/refusals.py --told {edit.name} writes it)"


def made_parts():
    """Parts that are made of data, each once."""
    made = []
    for document in pages.PAGES:
        text = document.read_text(encoding="utf-8")
        made += [name for name, _ in pages.MADE.findall(text)]
        if pages.page(text) != text:
            yield f"{document.name}: the tables that tests/pages/pages.py makes (each run of it writes them)"
    yield from (f"docs: the table '{it}', which tests/pages/pages.py makes, once"
                for it in sorted(pages.PARTS) if made.count(it) != 1)


def pictures():
    """The picture of figures; the map, where each crate stands once, and above all that it stands on, in its own column
    or the middle one, or in any where it is in that itself."""
    if read("docs/benchmarks.svg") != figures.ratios.drawn(TOP / "docs/benchmarks.tsv"):
        yield "docs/benchmarks.svg: as it would be drawn now (bench/ratios.py)"
    found = re.findall(r'translate\((\d+) (\d+)\)"><rect.*class="name">([a-z]\w*)<', read("docs/proof-map.svg"))
    boxes, crates = [crate for *_, crate in found], {it for it in CRATES if not it.endswith("_tests")}
    yield from (f"proof-map.svg: a box of {name}, if it is a crate, once"
                for name in sorted({*boxes} | crates) if boxes.count(name) != (name in crates))
    places = {crate: (int(x) // 260, int(y)) for x, y, crate in found}
    for crate, (column, y) in places.items():
        for other in filter(places.get, CRATES.get(crate, ())):
            beside, lower = places[other]
            if lower <= y or 1 not in (column, beside) and column != beside:
                yield f"proof-map.svg: {other} below {crate}"


def carriers():
    """The calls and clauses that carry a promise; the definitions of each run."""
    yield from promises.wrong()
    of = ("scrypt_run.", "scrypt_command.", "encfile.")
    of_run = [names for module, names in DEFINED.items() if module.startswith(of)]
    for heading, cells in pages.tables("PROMISES.md"):
        if heading == "scrypt" and len(cells) == 3 and cells[0] != "the run":
            yield from (f"PROMISES.md: {name}"
                        for name in IN_BACKTICKS.findall(cells[2]) if not any(name in it for it in of_run))


def comments():
    for crate in contracts.libraries():
        yield from (f"a comment of {crate}::{name} (make doc shows them)"
                    for name, it in contracts.exported(crate).items() if "///" not in it.above)


def manuals():
    """The type of the manual pages, and one version, of the other pages, too."""
    if is_there("mandoc", "the manual pages are not looked at", len(MANUALS)):
        yield from said("mandoc", "-T", "lint", *map(str, MANUALS), check=False).splitlines()
    heads = {f"man/{it.name}": f'"Pikhsen {VERSION}"' for it in MANUALS}
    for name, text in {**heads, "CHANGELOG.md": f"\n## {VERSION}", "README.md": f"pikhsen_{VERSION}_amd64.deb"}.items():
        if text not in (read(name).splitlines()[0] if name in heads else read(name)):
            yield f"{name}: version {VERSION}"


PARTS = (
    libraries_that_are_listed, programs_that_are_listed, names_and_figures, definitions, tests_of_examples, goals, made_parts,
    pictures, carriers, comments, manuals,
)


def main():
    if fields := promises.fields_without_edit():
        left_out(f"no edit breaks {len(fields)} promised fields of records", ", ".join(map(" ".join, fields)), len(fields))
    sys.exit("\n".join(f"not there: {it}" for part in PARTS for it in part()) or None)


if __name__ == "__main__":
    main()
