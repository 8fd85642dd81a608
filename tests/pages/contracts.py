"""What the sources have, read by their lines: functions, types and constants, what a crate hands out of them and how it
is called, and the contract of each. tests/sources/as_compiled.py compares functions and clauses with those that were
compiled.
"""
import functools
import re

from functions import FUNCTION, IMPL, path_of
from specs import CRATES, imports
from tree import prove

TESTS = {"tests", "tests.rt", "testing.rt", "fixtures.rt"}
TYPE = re.compile(r"(?:pub(?:\([a-z]+\))? )?(struct|enum|trait|const|static) (\w+)")
CLAUSE = re.compile(r"(?m)^ +(requires|ensures)\*? (\w+) \{")


class Item:
    """A function, a type, a constant, or all of a trait or of an `impl`; of a function the block that it stands in."""

    def __init__(self, path, lines, at, found, block):
        self.path, self.found, self.block, self.trait = path, found, block, None
        self.is_public = "pub " in found[0]
        if found.re is FUNCTION:
            self.what, self.name, end = "fn", found[2], head_ends(lines, at)
        else:
            self.what, self.name = ("impl", found[2]) if found.re is IMPL else found.groups()
            self.trait = found[1] if found.re is IMPL else None
            ends = re.compile("}|.*{}$" if self.what in ("impl", "trait") else "}|.*;$")
            end = next(it for it in range(at, len(lines)) if ends.match(lines[it]))
        begun = at
        while begun and re.match(r" *(?://|#\[)", lines[begun - 1]):
            begun -= 1
        self.above, self.text = "".join(f"{it}\n" for it in lines[begun:at]), "\n".join(lines[at:end + 1])

    @property
    def imports(self):
        return imports(self.path.read_text(encoding="utf-8"))

    @property
    def clauses(self):
        """The clauses of a function: of each whether it requires or ensures, its name, and its text."""
        parts = CLAUSE.split(self.text) if self.what == "fn" else ()
        return [*zip(parts[1::3], parts[2::3], parts[3::3])]

    def names(self, kind):
        """The names of the clauses that require, or that ensure."""
        return [name for of, name, _ in self.clauses if of == kind]

    def prover_path(self, crate):
        """The path of a function, as the prover prints it."""
        impl = self.block.found if self.block and self.block.what == "impl" else None
        return path_of(CRATES / crate, self.path.relative_to(CRATES / crate), impl, self.name)


def head_ends(lines, at):
    """The line that opens the body of a function, behind its clauses, or the last one where it has none."""
    depth = 0
    while True:
        line, before = lines[at], depth
        depth += line.count("{") - line.count("}")
        if not CLAUSE.match(line) and not before and re.search(r"\{\}?$", line) or not depth and line.endswith(";"):
            return at
        at += 1


@functools.lru_cache(maxsize=None)
def items(crate):
    """All that a crate's sources have, in the order of files and lines."""
    made = []
    for path in sorted((CRATES / crate / "src").rglob("*.rt")):
        lines, block = path.read_text(encoding="utf-8").split("\n"), None
        for at, line in enumerate(lines):
            if found := FUNCTION.match(line) or IMPL.match(line) or TYPE.match(line):
                made.append(Item(path, lines, at, found, block if line[0] == " " else None))
                block = made[-1] if made[-1].what in ("impl", "trait") else block
            elif line.startswith("}"):
                block = None
    return made


def without_tests(crate):
    return [it for it in items(crate) if not TESTS & {*it.path.relative_to(CRATES).parts}]


def libraries():
    return [it for it in prove.listed() if (CRATES / it / "src/lib.rt").exists()]


def root_of(crate):
    """The crate's lib.rt, the names that it hands out, and those of other crates among them, each with its crate."""
    text, names, others = (CRATES / crate / "src/lib.rt").read_text(encoding="utf-8"), set(), []
    for owner, listed in re.findall(r"^pub use (\w+)::\{?([^;}]*)\}?;", text, re.MULTILINE):
        if owner in prove.listed() and owner != crate:
            others += [(owner, name) for name in re.findall(r"\w+", listed)]
        else:
            names.update(re.findall(r"\w+", listed))
    return text, names, others


@functools.lru_cache(maxsize=None)
def exported(crate):
    """The public items of a crate, by how each is called: by the name that lib.rt hands out, or with its module's, where
    that is public; a function of a type, or of a trait, behind its name."""
    (text, names, _), called, found = root_of(crate), {}, {}
    for it in items(crate):
        if it.is_public and not it.block:
            if it.name in names or it.path.name == "lib.rt":
                called[it.name] = it.name
            elif re.search(rf"^pub mod {it.path.stem};", text, re.MULTILINE):
                called[it.path, it.name] = f"{it.path.stem}::{it.name}"
    for it in items(crate):
        outer = it.block or it
        name = called.get((it.path, outer.name)) or called.get(outer.name)
        if name and it.what != "impl" and not outer.trait and (it.is_public or outer.what == "trait"):
            found[f"{name}::{it.name}" if it.block else name] = it
    return found
