"""The tree that the tests look at: its crates, its pages, and what git says of it."""
import pathlib
import re
import subprocess
import sys

TOP = pathlib.Path(__file__).resolve().parents[2]
sys.path.insert(0, str(TOP / "packaging"))
import prove  # noqa: E402

below = prove.uses_of


def read(name):
    """The text of a file of the tree."""
    return (TOP / name).read_text(encoding="utf-8")


def tables(page):
    """The rows of the tables of a page of docs/ as lists of cells, each with the heading that it stands under."""
    heading = ""
    for line in read(f"docs/{page}").splitlines():
        if line.startswith("#"):
            heading = line.lstrip("# ")
        elif line.startswith("|") and not line.startswith("|---"):
            yield heading, [cell.strip() for cell in re.split(r"(?<!\\)\|", line)[1:-1]]


VERSION = read("VERSION").strip()
# The crate of each program, by its name.
PROGRAMS = dict(it.split() for it in read("packaging/programs").splitlines())


def git(*words, top=TOP):
    """What git says, or None where it fails."""
    ran = subprocess.run(["git", *words], cwd=top, stdout=subprocess.PIPE, stderr=subprocess.DEVNULL, text=True)
    return ran.stdout.strip() if ran.returncode == 0 else None
