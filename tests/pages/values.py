#!/usr/bin/env python3
"""Compares each value of docs/values.tsv with all places in which it stands: definitions and code in crates/, manual
pages, completions of zsh, and of bash as it completes itself, include/pikhsen.h, python/pikhsen/, README.md and docs/.
Here are the pages of the programs, and of scrypt-ask also its script, its completion by zsh and README.md.
"""
import functools
import pathlib
import re
import sys

sys.path += map(str, pathlib.Path(__file__).resolve().parents[1].iterdir())  # the other folders of tests/
import completions
import roff
import values_of_library
import values_of_sources
from checking import Checks
from tree import TOP, VERSION, read
from values_table import (
    COMMANDS, FILE, KINDS, PROGRAMS, RANGE, WORD, all_known, flowing, found, messages, normal, options, ranges, rows)

NAMES = ("$name", "FOLDER"), ('$(stat -c %a "$file")', "MODE")  # what stands in lines of scrypt-ask


def of_table(that):
    """The table has these kinds of rows alone, and in a program's usage the options that it has."""
    known = {line.split("\t")[0] for line in FILE.read_text(encoding="utf-8").splitlines()}
    that("kinds of rows", sorted(it for it in known if not it.startswith("#")), sorted(KINDS))
    for program in PROGRAMS:
        usage = next(it for it in messages(program) if it.name == "Usage")
        words = sorted({*WORD.findall(usage.line + usage.when)})
        that(f"docs/values.tsv: options in the usage of {program}", words, sorted(options(program)))


def option_of_page(that, name, option, head, text):
    """An item says what its row of the table does."""
    if option.value:
        that(f"{name}: its value", head, f"{option.word} {option.value}")
    given = [option.default] if option.default and option.word != "-v" else []
    that(f"{name}: where it is not given", re.findall(r"\bDefault (\d+)", text)[:1], given)
    if option.word == "-v":
        found_there = re.findall(r"\b1[03]\b", text)[:2], "the default" in text
        that(f"{name}: what it takes", found_there, (["13", "10"], True))
    elif option.range:
        that(f"{name}: its range", RANGE.findall(text)[:1], [option.range])


def manual_page(that, program):
    name, table = f"man/{program}.1", options(program)
    page = read(name)
    items = {word: (head, normal(text)) for head, text in roff.items(page) for word in WORD.findall(head)}
    that(f"{name}: options that are described", sorted(items), sorted({*table} - {"-h"}))
    for word in sorted({*items} & {*table}):
        option_of_page(that, f"{name}, {word}", table[word], *items[word])
    lines = roff.plain(roff.section(page, "SYNOPSIS")).split("\n.br\n")
    commands = [(f"{program} {subcommand}".strip(), subcommand) for of, subcommand in COMMANDS if of == program]
    that(f"{name}: commands in the synopsis", len(lines), len(commands))
    for line, (command, subcommand) in zip(lines, commands):
        shown = " ".join(line.split()).startswith(command), sorted({*WORD.findall(line)})
        expected = True, sorted({*options(program, subcommand)} - {"-h"})
        that(f"{name}: the synopsis of {command}, with its options", shown, expected)
    text = roff.plain("\n".join(roff.section(page, it) for it in ("OPTIONS", "DIAGNOSTICS")))
    if program == "argon2":
        that(f"{name}: the type where none is given", found(r"The type: (\w+) \(the default\)", flowing(text)), "Argon2i")
    unknown = {*re.findall(r"(?<![\w-])--[A-Za-z]+", text)} - {*table, "--help", "--version"}
    that(f"{name}: options that the table has not", sorted(unknown), [])
    all_known(that, f"{name}: numbers", re.sub(r"-[rp]8|=4|\d+[KMG]iB|\d+M\b", "", normal(text)))
    # argon2's first message is cut there: the synopsis has the rest
    lines = {it.number: "argon2: usage: ..." if it.number == "A1" else it.line for it in messages(program)}
    order = next(row[1].split() for row in rows("order") if row[0] == name)
    said = re.findall(rf"^{program}: .*$", roff.plain(roff.section(page, "DIAGNOSTICS")), re.MULTILINE)
    that(f"{name}: messages in their order", said, [lines[it] for it in order])
    that(f"{name}: each message", sorted({*order}), sorted(lines))


def of_messages(that):
    """docs/REFUSALS.md has no other numbers; what any page shows as a line of a program is a message."""
    for program in PROGRAMS:
        part = read("docs/REFUSALS.md").split(f"\n## {program}\n")[1].split("\n## ")[0]
        # the steps of both lists, and RFC 4648 or so, are no values
        all_known(that, f"docs/REFUSALS.md: numbers of {program}", normal(re.sub(r"\b[ASV]\d[\d.]*\w?\b", "", part)),
                  form=r"(?<![\w.^])(?:0x\d+|\d\d+)\b(?!\.\d)")
    lines = {"argon2: usage: ...", *(it.line for program in (*PROGRAMS, "scrypt-ask") for it in messages(program))}
    for file in [TOP / "README.md", *sorted((TOP / "docs").glob("*.md")), *sorted((TOP / "man").glob("*.1"))]:
        text = roff.plain(file.read_text(encoding="utf-8"))
        shown = re.findall(r"^ *((?:argon2(?:-verify)?|scrypt(?:-ask)?): \S.*)$", text, re.MULTILINE)
        that(f"{file.name}: lines of the programs that are no messages", [it for it in shown if it not in lines], [])


def of_ranges(that):
    """What docs/REFUSALS.md says of the numbers that options take and that are in range."""
    page, scrypt = normal(read("docs/REFUSALS.md")), options("scrypt")
    text, made = " ".join(page.split()), {}
    taken = text.split("What an option takes: ")[1].split("A number is one to twenty")[0]
    taken = taken.replace("exactly `10` or `13`", "13 or 10")
    for words, range_ in re.findall(r"((?:`-[\w-]+`(?:, | and )?)+) (13 or 10|\d+ to \d+)", taken):
        made.update(dict.fromkeys(re.findall(r"`(-[\w-]+)`", words), range_))
    expected = {it.word: it.takes for it in options("argon2").values() if it.takes}
    that("docs/REFUSALS.md: what an option of argon2 takes", made, expected)
    made = dict(re.findall(r"(--?\w+)`? (\d+)", text.split("Defaults: ")[1].split(". With")[0]))
    expected = {it.word: it.default for it in scrypt.values() if it.default}
    that("docs/REFUSALS.md: what holds where an option of scrypt is not given", made, expected)
    whens = dict(re.findall(r"^\| ([AS][\d.]+\w?) \| (.*?) \| `", page, re.MULTILINE))
    for number, words, quantity in (
        ("A6.1", "passes", "passes"), ("A6.2", "lanes", "lanes"), ("A6.3", "memory", "memory in KiB"),
        ("A6.4", "the tag's length", "tag"), ("A6.5", "the salt's length", "salt"),
    ):
        begin = f"{words} not {ranges()[quantity][0]}"
        that(f"docs/REFUSALS.md: {number}", whens[number][:len(begin)], begin)
    for word in ("-M", "--maxops"):
        that(f"docs/REFUSALS.md: S1, {word}", f"`{word}` not {scrypt[word].range}" in whens["S1"], True)


def of_scrypt_ask(that):
    """scrypt-ask takes the options of scrypt, with a command in place of a source of the passphrase; its lines and the
    costs that it chooses are those of its page; its help, zsh and README have these costs, too."""
    script, page, table = read("packaging/scrypt-ask"), roff.plain(read("man/scrypt-ask.1")), options("scrypt-ask")
    of_scrypt = sorted({*options("scrypt"), "--passcommand"} - {"-P", "--passphrase"})
    with_value = [line for line in script.splitlines() if re.search("takes='?(value|command)", line)]
    taken = sorted(word for line in with_value for word in re.findall(r"option:(-[\w-]+)", line))
    that("packaging/scrypt-ask: options with a value", (taken, sorted(table)), (of_scrypt, of_scrypt))
    lines = sorted(it.line for it in messages("scrypt-ask"))
    said = {*map("".join, re.findall(r"(?:fail|say) (?:'([^']*)'|\"(\w(?:[^\"]|\"\$\w+\")*)\")", script))}
    said = [functools.reduce(lambda line, name: line.replace(*name), NAMES, f"scrypt-ask: {it}") for it in said]
    that("packaging/scrypt-ask: its lines", sorted(said), lines)
    shown = re.findall(r"^scrypt-ask: .*$", page.partition("\n.SH DIAGNOSTICS\n")[2], re.MULTILINE)
    that("man/scrypt-ask.1: its lines", sorted(shown), lines)
    costs = " ".join(f"{it} {table[it].default}" for it in ("--logN", "-r", "-p"))
    zsh = f"default {options('scrypt')['--logN'].default}/default {table['--logN'].default}"
    for name, form, text, expected in (
        ("packaging/scrypt-ask: costs for a typed passphrase", r"set -- (--logN .*) \"\$@\"$", script, costs),
        ("packaging/scrypt-ask: costs in its help", r"costs of a new file: (.*) is 1 GiB$", script, costs),
        ("packaging/scrypt-ask: version in its help", r"^This is Pikhsen (.*)\. The manual page", script, VERSION),
        ("man/scrypt-ask.1: costs for a typed passphrase", r"no costs, they are\n(.*):$", page, costs),
        ("README.md: its costs", r"passphrase that you remember\*\*: `(.*?)`", read("README.md"), costs),
        ("zsh: costs of scrypt-ask", r"\(@\)costs/(default .*)\}", read("completions/zsh/_scrypt"), zsh),
    ):
        that(name, found(form, text), expected)


def main():
    checks = Checks("none")
    of_table(checks.that)
    values_of_sources.compare(checks.that)
    for program in PROGRAMS:
        manual_page(checks.that, program)
    for part in (of_messages, of_ranges, of_scrypt_ask, completions.compare, values_of_library.compare):
        part(checks.that)
    checks.end()


if __name__ == "__main__":
    main()
