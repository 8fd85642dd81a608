#!/usr/bin/env python3
"""Writes the parts of README.md and docs/ that are made from data, between `<!-- made by .. -->` and `<!-- end -->`.

    tests/pages/pages.py

tests/pages/documents.py compares each with what would be written now, and looks at how many words are written by hand.
The data are docs/values.tsv (messages and ranges), docs/programs/, and docs/benchmarks.tsv, which `make bench` writes.
"""
import pathlib
import re
import sys

sys.path += map(str, pathlib.Path(__file__).resolve().parents[1].iterdir())  # the other folders of tests/
import figures
import values_table
from tree import TOP, read, tables  # noqa: F401: the last for others

PAGES = [TOP / "README.md", TOP / "CONTRIBUTING.md", *sorted((TOP / "docs").glob("*.md"))]
MADE = re.compile(r"^<!-- made by tests/pages/pages.py: ([^\n]*) -->\n(.*?)^<!-- end -->\n", re.MULTILINE | re.DOTALL)


def table(head, rows):
    """A table as Markdown has it; a column that has numbers alone stands to the right."""
    shown = ["|" + "".join(f" {it} |" if it else " |" for it in cells) + "\n" for cells in (head, *rows)]
    is_number = re.compile(r"[\d.,^/ ]*\d").fullmatch
    sides = ["---:|" if all(map(is_number, column)) else "---|" for column in zip(*rows)]
    return "".join([shown[0], "|", *sides, "\n", *shown[1:]])


def as_read(number):
    """A number as pages have it: 2^32-1, 4,096."""
    number = int(number)
    for power, said in ((number, "2^{}"), (number + 1, "2^{}-1")):
        if power >= 1 << 20 and power & (power - 1) == 0:
            return said.format(power.bit_length() - 1)
    return f"{number:,}"


def refusals(program):
    """Each refusal of a program: when, and the line."""
    lines = []
    for it in values_table.messages(program):
        line = it.line.replace("|", "\\|")
        bars = " (with plain bars)" if "|" in it.line else ""
        lines.append([it.number, it.when.replace("|", "\\|"), f"`{line}`{bars}"])
    return table(["no.", "when", "line"], lines)


def ranges():
    rows = []
    for name, range_, given, unit, rule in values_table.rows("range", none=""):
        name = re.sub(r"(?<!\w)--?[A-Za-z]\w*|\bargon2(?:-verify)?\b|\bscrypt\b(?!')", r"`\g<0>`", name)
        range_ = f"{re.sub(r'[0-9]{4,}', lambda it: as_read(it[0]), range_)} {unit}".strip()
        rows.append([name, range_ + (f"; {as_read(given)} if not given" if given else ""), rule])
    return table(["quantity", "range", "whose rule"], rows)


def program(name, language):
    """A program of docs/programs/, as docs/LIBRARY.md shows it."""
    return f"```{language}\n{read(f'docs/programs/{name}')}```\n"


HEAD_OF_TIMES = ["work, in seconds", "other", "x86-64-v2", "ratio", "x86-64-v3", "ratio", "MiB", "MiB, other"]
PARTS = {
    **{f"refusals of {it}": lambda it=it: refusals(it) for it in values_table.PROGRAMS},
    "ranges": ranges, "times of the programs": lambda: table(HEAD_OF_TIMES, [*figures.rows_of_programs()]),
    "a program in Rattle": lambda: program("accounts.txt", "rust"), "a program in C": lambda: program("login.c", "c"),
    "a program in Python": lambda: program("login.py", "python"),
}


def page(text):
    """A page with its made parts as they would be made now."""
    head = "<!-- made by tests/pages/pages.py: {} -->\n\n{}\n<!-- end -->\n"
    return MADE.sub(lambda it: head.format(it[1], PARTS[it[1]]()), text)


if __name__ == "__main__":
    for path in PAGES:
        path.write_text(page(path.read_text(encoding="utf-8")), encoding="utf-8")
