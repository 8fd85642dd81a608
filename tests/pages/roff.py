"""Manual pages as they are read: without what sets their type, and by their sections, items and examples."""
import re

from tree import read

TYPED = {"\\-": "-", "\\(aq": "'", "\\e": "\\"}  # signs, as they are typed in a page


def as_read(text):
    """A text with its signs as they are read."""
    for typed, sign in TYPED.items():
        text = text.replace(typed, sign)
    return text


def plain(page):
    """The text of a page, or of a part. A line that begins an item is one of its own."""
    made = []
    for line in page.replace("\\\n", "").splitlines():
        macro, _, rest = line.partition(" ")
        if macro in (".BR", ".RB", ".BI", ".IB", ".IR", ".RI"):
            line = "".join(it.strip('"') for it in re.findall(r'"[^"]*"|\S+', rest))
        elif macro in (".B", ".I"):
            line = rest.replace('"', "")
        made.append(line)
    return as_read(re.sub(r"\\f[A-Z]", "", "\n".join(made)))


def section(page, heading):
    """The text of a section of a page as it is typed, or nothing."""
    return page.partition(f"\n.SH {heading}\n")[2].partition("\n.SH ")[0]


def items(page):
    """The head and the text of each item below OPTIONS."""
    for item in re.split(r"^\.TP\n", section(page, "OPTIONS"), flags=re.MULTILINE)[1:]:
        head, _, rest = item.partition("\n")
        yield plain(head), " ".join(plain(re.split(r"^\.PP$", rest, flags=re.MULTILINE)[0]).split())


def examples(file, heading="EXAMPLES"):
    """What a section of a page of man/ shows line by line, in its order."""
    found = re.findall(r"^\.nf\n(.*?)^\.fi$", section(read(f"man/{file}"), heading), re.MULTILINE | re.DOTALL)
    return [*map(as_read, found)]
