"""Numbers, sentences, defaults and phrases of libpikhsen: in its sources, header, page and module for Python."""
import ast
import re

import library_texts
import roff
from tree import VERSION, read
from values_table import PROGRAMS, all_known, flowing, found, normal, number, options, rows


def of_status(that):
    """The numbers of a call's end with their sentences, the types, and the exceptions that Python raises for them."""
    table = [[*row, None][:5] for row in rows("status")]
    numbers = {name: (int(it), says) for it, name, _, says, _ in table}
    that("numbers of the header", library_texts.numbers_of_header(), numbers)
    that("numbers of man/pikhsen.3", library_texts.numbers_of_page(), numbers)
    of_python = {name: (int(it), other or says) for it, name, _, says, other in table}
    that("numbers of the module", library_texts.numbers_of_module(), of_python)
    that("numbers of the sources", library_texts.numbers_of_sources(), {name: it for name, (it, _) in numbers.items()})
    that("numbers, each once", sorted(it for it, _ in numbers.values()), list(range(len(table))))
    raised = library_texts.MODULE.split("_EXCEPTIONS: ")[1].split("\n}\n")[0]
    that("exceptions of the module", dict(re.findall(r"^    Status\.(\w+): (\w+),$", raised, re.MULTILINE)),
         {name: raises for _, name, raises, *_ in table if raises not in (None, "Invalid")})
    that("kinds, of sources, header and module", library_texts.kinds(), [kinds()] * 3)
    # each number that the header or its manual page says is one of the table
    also = re.findall(r"\d+", normal(" ".join(row[3] for row in table)))
    comments = " ".join(re.findall(r"/\*.*?\*/", library_texts.HEADER, re.DOTALL))
    description = roff.plain(roff.section(library_texts.PAGE, "DESCRIPTION"))
    for name, text in (("include/pikhsen.h", comments), ("man/pikhsen.3", description)):
        others = r"RFC \d+|pikhsen\.\d|man 3|x86-64(?:-v2)?|\b1 KiB|\w+\((?:\d|\w+)\)"
        text = re.sub(others, "", normal(flowing(text)))
        all_known(that, f"{name}: numbers", text, (*also, "0", "1"), r"(?<![\w.^/-])(?:0x)?\d+\b")


def kinds():
    return {name: int(it) for it, name in rows("kind")}


def functions_of_module():
    """Each function of the module, and what makes an object of each of its classes, by its name."""
    for node in (*ast.parse(library_texts.MODULE).body, *ast.parse(library_texts.FILES).body):
        if isinstance(node, ast.FunctionDef):
            yield node.name, node
        elif isinstance(node, ast.ClassDef):
            yield from ((node.name, it) for it in node.body if getattr(it, "name", "") == "__init__")


def of_module(that):
    """The defaults of each function of the module are those of the table, and its limits those of the programs."""
    made, names = [], kinds()
    for name, node in functions_of_module():
        if not name.startswith("_"):
            that(f"{name}: nothing that may be left out stands before *", node.args.defaults, [])
            for parameter, default in zip(node.args.kwonlyargs, node.args.kw_defaults):
                text = re.sub(r"^Kind\.(\w+)$", lambda it: f"{names[it[1]]}", ast.unparse(default)) if default else ""
                made.append([name, parameter.arg, f"{number(text)!r}" if text else "-"])
    that("defaults of the module", sorted(made), sorted(rows("default", none="-")))
    # what a program makes under its own limits, the module reads under its own
    limits = {("max_kib", options("argon2")["--maxmem"].default), ("max_bytes", options("scrypt")["-M"].default),
              *(("max_ops", options(it)["--maxops"].default) for it in PROGRAMS)}
    of_table = {(it, value) for _, it, value in rows("default") if it.startswith("max_")}
    that("limits of the module and of the programs", of_table, limits)
    that("the version that the module is for", found(r"^_MAJOR = (\d+)$", library_texts.MODULE), VERSION.split(".")[0])


def of_phrases(that):
    """What must stand in several texts in the same words, and how often."""
    for phrase, times, files in rows("phrase"):
        for file in files.split():
            text = flowing(roff.plain(read(file)) if file.startswith("man/") else read(file))
            that(f"{file}: {phrase}", text.count(phrase), int(times))


def compare(that):
    for part in (of_module, of_phrases, of_status, library_texts.compare_texts):
        part(that)
