"""What specs/ define, by their lines: the items of each file, what it imports, and what a text cites of it."""
import pathlib
import re

from tree import TOP

CRATES = TOP / "crates"
ITEM = re.compile(r"(?:(?:pub|abbrev|unfoldable|opaque|data|record)\s+)*(◌[^\s◌]+◌|[^\s:(){},=]+)(?:\s+[({].*)?\s+:(?:\s|$)")
FIXITY = re.compile(r"infix[lr]? \d+ (\S+)$")
BIND = "◌>>=◌"  # which `do` names
PART = re.compile(r"\s+(?:pub )?([^\s:]+) :")
IMPORT = re.compile(r"(?m)^ *(?:pub |ghost )?use Rattle\.(\w+\.specs\.[\w.]+)(?:\.\{([^}]*)\}| as (\w+))")
WORD = re.compile(r"[^\s(){}\[\],;.]+")


def folder_of_tests(folder):
    """The folder in which a crate's tests, laws and vectors stand: CRATE_tests beside it, or its own."""
    apart = pathlib.Path(f"{folder}_tests")
    return apart if apart.is_dir() else pathlib.Path(folder)


def imports(text):
    """What a file imports, by the name that it has there: the module, and its name in it. A module that has a name of its
    own there stands under that name and a full stop, without a name in it."""
    found = {}
    for module, names, alias in IMPORT.findall(text):
        for name in filter(None, map(str.strip, names.split(","))):
            given, _, here = name.partition(" as ")
            found[here or given] = (module, given)
        if alias:
            found[f"{alias}."] = (module, "")
    return found


class File:
    """A file of specs/: the lines of each item, and with comments, what it imports, and the item of each constructor and of
    each field; and lines that begin no item and go on none, behind which the prover could see an item that is not seen here."""

    def __init__(self, text):
        self.imports, self.items, self.owners, self.fields, item, is_record = imports(text), {}, {}, {}, "", False
        self.text, self.shown, self.strange, above = text, {}, [], []
        for line in text.split("\n"):
            if not line.strip() or line.lstrip().startswith("--") or re.match(r"#|((pub )?(use|mod) )", line):
                above = [*above, line] if line.lstrip().startswith("--") else []
                continue
            if fixity := FIXITY.match(line):
                item = fixity[1]
            elif begun := ITEM.match(line):
                item, is_record = begun[1], " record " in f" {line}"
            elif part := PART.match(line):
                (self.fields if is_record else self.owners)[part[1]] = item
            elif not item or not line.startswith((" ", "}")) and item.strip("◌") not in line.split(" = ")[0].split():
                self.strange.append(line)
            self.items.setdefault(item, []).append(line)
            self.shown.setdefault(item, []).extend([*above, line])
            above = []


def all_files(crates=CRATES):
    found = {}
    for path in sorted(crates.glob("*/specs/**/*.antt")):
        crate, _, *inside = path.relative_to(crates).with_suffix("").parts
        found[".".join([crate, "specs", *inside])] = File(path.read_text(encoding="utf-8"))
    return found


def items_of(files, module, name):
    """The item of this name in a module, or that of which it names a case; also where the module hands it on."""
    module, name = handed_on(files, module, name)
    if module in files:
        for item in dict.fromkeys((name, files[module].owners.get(name, name))):
            if item in files[module].items:
                yield module, item


def handed_on(files, module, name):
    """Where a name stands that one file hands on from another."""
    while (file := files.get(module)) and name not in file.items and name not in file.owners and name in file.imports:
        module, name = file.imports[name]
    return module, name


def cited(text, names, files, module=None):
    """The items of the repository's definitions that a text cites. A record is cited where a type names it: the name of a field
    does not say of which record it is."""
    own = files[module] if module else None
    words = dict.fromkeys(WORD.findall(text))
    for word in words:
        for name in (word, f"◌{word}◌", f"{word}◌", *([BIND] if word == "do" else [])):
            at, given = names.get(name, (module, name))
            if name in names or own:
                yield from items_of(files, at, given)
    for alias, (at, given) in names.items():
        for word in words if not given and alias in text else ():
            yield from items_of(files, at, word)


def reached(texts, files, closed=()):
    """The items that these texts reach, through all that they cite but what is closed: the nearest first."""
    found = dict.fromkeys(item for text, names in texts for item in cited(text, names, files) if item not in closed)
    left = list(found)
    for module, item in left:
        for other in cited("\n".join(files[module].items[item]), files[module].imports, files, module):
            if other not in found and other not in closed:
                found[other] = None
                left.append(other)
    return left
