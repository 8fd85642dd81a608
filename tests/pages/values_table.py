"""docs/values.tsv, the table of values that stand in several places, by the kinds of its rows; and how words of
options, ranges and numbers are written in sources, pages and messages.
"""
import ast
import collections
import operator
import re

from tree import TOP

FILE = TOP / "docs" / "values.tsv"
KINDS = {"option", "message", "order", "status", "kind", "default", "range", "number", "phrase"}
PROGRAMS = ("argon2", "argon2-verify", "scrypt")
# Each command that takes options: a program and a subcommand.
COMMANDS = [("argon2", ""), ("argon2-verify", ""), ("scrypt", "enc"), ("scrypt", "dec"), ("scrypt", "info")]
WORD = re.compile(r"(?<![\w-])--?[A-Za-z]+")
RANGE = re.compile(r"\b(?:8 times the lanes|\d+) to \d+\b|\bat least \d+\b")
OPERATIONS = {ast.LShift: operator.lshift, ast.Add: operator.add, ast.BitXor: operator.pow}
# The cells of an option and of a message, as the table says above them.
Option = collections.namedtuple("Option", "program subcommands word value takes range default offers")
Message = collections.namedtuple("Message", "program number name line when")


def rows(kind, file=FILE, none=None):
    """The rows of a kind, which is their first cell, as lists of the others, of which - is none."""
    cells = [line.split("\t") for line in file.read_text(encoding="utf-8").splitlines() if not line.startswith("#")]
    return [[none if it == "-" else it for it in row[1:]] for row in cells if row[0] == kind]


def options(program, subcommand=""):
    """The options of a program, or of a subcommand of it, by their words."""
    made = [Option(*row) for row in rows("option") if row[0] == program]
    return {it.word: it for it in made if not subcommand or subcommand in it.subcommands.split()}


def messages(program):
    return [Message(*row) for row in rows("message") if row[0] == program]


def ranges():
    """By each quantity its range, and the value where none is given."""
    return {name: (range_, given) for name, range_, given, *_ in rows("range")}


def found(form, text):
    """The one group of the first place where a form stands, or None."""
    at = re.search(form, text, re.MULTILINE)
    return at and at[1]


def flowing(text):
    """A text with one space between its words, and without signs of comments, of macros and of code."""
    text = re.sub(r"^ \* ?|^\.[A-Z]+ ?", " ", text, flags=re.MULTILINE).replace("`", "")
    return " ".join(text.split())


def normal(text):
    """A text with its numbers written out: 2^32-1, 4,096 and 1 << 30 as digits."""
    text = re.sub(r"(?<=\d)[,_](?=\d{3}(?!\d))", "", text)
    return re.sub(r"\b(?:2\^|1 << )(\d+)(-1\b)?", lambda it: str(2 ** int(it[1]) - bool(it[2])), text)


def number(text):
    """What an expression of the sources is: 1 << 12, (1 << 40) + 1, 0xFFFF_FFFF, or a definition's 2 ^ 22."""
    def of(part):
        if isinstance(part, ast.BinOp):
            return OPERATIONS[type(part.op)](of(part.left), of(part.right))
        return ast.literal_eval(part)

    return of(ast.parse(text, mode="eval").body)


def all_known(that, name, text, also=(), form=r"(?<![\w.^])(?:0x)?\d+\b"):
    """Each number of a text is a value of the table: not of when a message is said, or of whose rule a range is."""
    kinds = {"option": 8, "message": 4, "range": 3, "number": 2}
    cells = (cell for kind, values in kinds.items() for row in rows(kind) for cell in row[:values] if cell)
    known = {*re.findall(r"(?<![\w.])(?:0x)?\d+\b", " ".join(cells)), *also}
    that(f"{name} that the table has not", sorted({*re.findall(form, text)} - known), [])
