"""Functions of a source, found by its lines: where each begins and ends, and its path as the prover prints it."""
import pathlib
import re

FUNCTION = re.compile(r'( *)(?:pub(?:\([a-z]+\))? )?(?:const )?(?:unsafe )?(?:extern "C" )?fn (\w+)')
IMPL = re.compile(r"impl(?:<[^>]*>)? (?:(\w+(?:<.*>)?) for )?(\w+)")
TRAIT = re.compile(r"(?:pub )?trait ()(\w+)")


def text_of(folder, file, texts):
    """The text of a crate's file, of these or as it stands there; empty where there is none."""
    path = pathlib.Path(folder, file)
    return texts.get(file) or (path.read_text(encoding="utf-8") if path.is_file() else "")


def path_of(folder, file, block, name):
    """The path, as the prover prints it, of a function in this block of a source, if it stands in one; of a trait's method,
    too, which the prover does not print."""
    trait, kind = block.groups() if block else (None, None)
    if kind and not trait:
        declared = re.compile(rf"^(?:pub.* )?(?:struct|enum|trait) {kind}\b", re.MULTILINE)
        sources = sorted(pathlib.Path(folder, "src").rglob("*.rt"))
        file = next(it.relative_to(folder) for it in sources if declared.search(it.read_text(encoding="utf-8")))
    module = [it for it in pathlib.PurePath(file).with_suffix("").parts[1:] if it != "lib"]
    of_trait = re.sub(r"\W", "", trait or "").removeprefix("Drop")
    return "::".join([*module, *([kind + of_trait] if kind else []), name])


def opens_at(lines, start, indent):
    """The line that opens the body of a function, or ends one without a body; its clauses stand deeper."""
    own = re.compile(rf"{indent}(?=\S).*(?:{{|{{}}|;)$|.*}};$")
    return next(at for at in range(start, len(lines)) if own.match(lines[at]))


class Function:
    """A function of a source: its lines, from those above it that are its own to its last; the one that names it, and the one
    that opens its body, which a trait's method may lack; and the heading of the block that it stands in, if it is in one."""

    def __init__(self, lines, start, found):
        self.name, self.starts, self.opens = found[2], start, opens_at(lines, start, found[1])
        self.has_body = not lines[self.opens].endswith(";")
        self.ends = lines.index(found[1] + "}", self.opens) if lines[self.opens].endswith("{") else self.opens
        above = [it for line in lines[:start] if found[1] and (it := IMPL.match(line) or TRAIT.match(line))]
        self.block = above[-1] if above else None
        while lines[start - 1].lstrip().startswith(("#[", "//")):
            start -= 1
        self.begins = start

    @property
    def is_of_trait(self):
        """Whether it is a method of a trait, so that none can stand beside it."""
        return self.block is not None and (self.block.re is TRAIT or self.block[1] is not None)

    def path(self, folder, file):
        return path_of(folder, file, self.block, self.name)


def functions_in(text):
    """The functions of a source, in its order."""
    lines = text.split("\n")
    return [Function(lines, start, found) for start, found in enumerate(map(FUNCTION.match, lines)) if found]


def function_at(folder, file, text, line, body=False):
    """The path of the function that holds this line of a source, in its body, if asked, which a trait's method may lack."""
    for it in functions_in(text):
        if (it.opens if body else it.begins) <= line <= it.ends and (it.has_body or not body):
            return it.path(folder, file)
    return None


def function_of(folder, file, text, place):
    """The function of a source that has this path."""
    return next(it for it in functions_in(text) if it.path(folder, file) == place)
