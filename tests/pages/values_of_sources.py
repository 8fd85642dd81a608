"""Options, ranges, defaults and messages of the programs: in their definitions and in the code."""
import re

import specs
from tree import read
from values_table import found, messages, number, options, ranges

# What a word of argon2 may be, as its sources test it.
TAKEN = {
    "u32_from_word(0": "0 to 4294967295", "u32_from_word(1": "1 to 4294967295", "power_of_two_from_word(": "1 to 31",
    "number_in(1, 1 << 63": "1 to 9223372036854775807", "version_named(": "13 or 10",
}
# The parameters of argon::Params::new, with their names in docs/FORMATS.md and the options that give them.
PARAMETERS = {
    "passes": ("passes", "-t"), "lanes": ("lanes", "-p"), "memory_kib": ("memory in KiB", "-k"),
    "tag_len": ("tag", "-l"), "salt_len": ("salt", None), "password_len": ("password", None),
}
# A number of the sources: a name in docs/FORMATS.md, its range, the file in crates/, and where it stands there.
NUMBERS = [
    ("scrypt's r and p", "at least 1, r * p below {}", "romix/src/costs.rt",
     r"u64::from\(r\) \* u64::from\(p\) >= (1 << \d+) "),
    ("passphrase of an encrypted file", "0 to {}", "scrypt_run/src/passphrase.rt", r"if len > (\d+) \{"),
    ("password of argon2-verify", "0 to {}", "argon2_verify/src/password.rt", r"if len > (\d+) \{"),
    ("the text of an encrypted file", "below {}", "encfile/src/enc.rt", r"const TEXT_LIMIT: u64 = (.*);"),
    ("secret, associated data, password of any length (library alone)", "0 to {}", "argon/src/params.rt",
     r"if password_len > (\w+) \{"),
    ("scrypt's log2 N", "1 to {}", "romix/src/costs.rt", r"if !\(1\.\.=(\d+)\)\.contains\(&log_n\)"),
]
REFUSALS = {"argon2": "argon2_words", "argon2-verify": "argon2_verify", "scrypt": "scrypt_request"}  # crates


def options_of_scrypt():
    """The options of scrypt in its definitions, by the subcommand that takes them; under scrypt those of none."""
    file = specs.File(re.sub("--.*", "", read("crates/scrypt_words/specs/CommandLine.antt")))
    texts = {name: "\n".join(lines) for name, lines in file.items.items()}
    names, below = {it: ("here", it) for it in texts}, {}
    for text in texts.values():
        command = found(r'new_app \(codes "(\w+)"', text)
        if command not in (None, "scrypt"):
            below[command] = [it for _, it in specs.reached([(text, names)], {"here": file})]
    below["scrypt"] = [it for it in texts if not any(it in each for each in below.values())]
    for command, reached in sorted(below.items()):
        text = re.sub(r'new_(?:app|rule) \(codes "\w+"\)', "", "\n".join(texts[it] for it in reached))
        letter = r'(?:\(codes "\w+"\) |Some )(\d+)'
        letters, words = re.findall(letter, text), re.findall(r'"([^"]*)"', re.sub(letter, "", text))
        yield command, sorted([*(f"-{chr(int(it))}" for it in letters), *(f"--{it}" for it in words)])


def of_definitions(that):
    """The definitions have the options of the table, each in the subcommands of the table."""
    text = "".join(read(f"crates/argon2_words/specs/{it}.antt") for it in ("Items", "Request"))
    named = {*re.findall(r'codes "([^"]*)"', text)}
    that("options of argon2 in its definitions", sorted(named), sorted(options("argon2")))
    made = dict(options_of_scrypt())
    that("subcommands of scrypt in its definitions", sorted(made), ["dec", "enc", "info", "scrypt"])
    for name, words in made.items():
        that(f"options of {name} in its definitions", words, sorted(options("scrypt", name)))


def of_argon2(that):
    """What each option of argon2 may be, and what holds without it; the ranges of argon::Params::new."""
    items, settings = (read(f"crates/argon2_words/src/{it}.rt") for it in ("items", "settings"))
    table = options("argon2")
    block = settings.split("const DEFAULTS")[1].split("};")[0]
    defaults = dict(re.findall(r"^    (\w+): (.*),$", block, re.MULTILINE))
    named = re.findall(r'"(-[\w-]+)" => Some\(OptionName::(\w+)\),', items)
    for word, name in (it for it in named if it[0] in table):
        given = rf"OptionName::{name} => settings\.(\w+) = ((?:\w+\((?:\w+, )?(?:1 << \d+)?)?)"
        field, call = re.search(given, settings).groups()
        default = number(defaults[field].replace("Version::V", ""))
        # the default of the memory is told at -m alone, as a power of two
        default = {"-m": f"{default.bit_length() - 1}", "-k": None}.get(word, f"{default}")
        takes = next((range_ for form, range_ in TAKEN.items() if call.startswith(form)), call)
        expected = table[word].takes, table[word].default
        that(f"argon2 {word}: what it may be, and where it is not given", (takes, default), expected)
    that("argon2: the type where none is given", defaults["kind"], "Kind::I")
    tests = re.findall(r"is_between\((.*), (\w+) as u64, (\w+)\)", read("crates/argon/src/params.rt"))
    that("parameters that are tested", sorted(it[1] for it in tests), sorted(PARAMETERS))
    for low, name, high in tests:
        range_ = f"{low.replace('8 * lanes as u64', '8 times the lanes')} to {number(high)}"
        called, word = PARAMETERS[name]
        that(f"range of {called}", range_, ranges()[called][0])
        that(f"range of {word}", range_, table[word].range if word else range_)


def of_argon2_verify(that):
    """The options of argon2-verify are options of argon2, with their ranges and defaults, in its definitions, too."""
    definitions, table = read("crates/argon2_verify/specs/Request.antt"), options("argon2-verify")
    that("options of argon2-verify, of argon2", [it._replace(program="argon2") for it in table.values()],
         [options("argon2")[it] for it in table])
    taken = re.findall(r'codes "(-[^"]*)"\).*\(number_in (.*) \((.*)\) value\)', definitions)
    taken = {word: f"{low} to {number(above) - 1}" for word, low, above in taken}
    that("argon2_verify: options in its definitions", taken, {it.word: it.takes for it in table.values()})
    given = re.findall(r"max_\w+ = (.*?)(?:,| *[;}])", found(r"^default_limits = (.*)$", definitions))
    that("argon2_verify: defaults in its definitions", [f"{number(it)}" for it in given],
         [it.default for it in table.values()])


def of_scrypt(that):
    """What each option of scrypt may be, and what holds without it; the ranges of costs, passphrases and texts."""
    table = {it.lstrip("-"): option for it, option in options("scrypt").items()}
    texts = "".join(read(f"crates/scrypt_words/src/{it}.rt") for it in ("costs", "request", "task"))
    given = re.findall(r'(?:number|limit)_from_words\(matches, "(\w+)",(?: (\w+),)? ([^)]*)\)', texts)
    that("scrypt: options with a value where they are not given", sorted({it[0] for it in given}),
         sorted(name for name, it in table.items() if it.default))
    for name, end, value in (it for it in given if it[0] in table):
        that(f"scrypt {name}: where it is not given", f"{number(value)}", table[name].default)
        last = number(found(rf"^const {end}: u64 = (.*);$", texts)) - 1 if end else None
        that(f"scrypt {name}: numbers that it may be", f"1 to {last}" if end else "any number", table[name].takes)
    powers = found(r"number,\n +((?:\d+ \| )+\d+)\n", texts).split(" | ")
    that("scrypt: values of --keep", " ".join(powers), table["keep"].offers)
    for name, range_, file, form in NUMBERS:
        that(f"range of {name}", range_.format(number(found(form, read(f"crates/{file}")) or "0")), ranges()[name][0])
    that("range of --logN", table["logN"].range, ranges()["scrypt's log2 N"][0])
    that("r and p are not 0", "if r == 0 || p == 0 {" in read("crates/romix/src/costs.rt"), True)
    for name, word in (("-M of scrypt, in bytes", "M"), ("--maxops of scrypt, in cores", "maxops")):
        that(f"{name}, as the option's", ranges()[name], (table[word].range, table[word].default))


def of_messages(that, program):
    """The definitions have the lines of the table; each comment in the code has the number and the line."""
    crate, table = REFUSALS[program], {it.name: it for it in messages(program)}
    code, definitions = (read(f"crates/{crate}/{it}") for it in ("src/refusal.rt", "specs/Refusal.antt"))
    lines = re.findall(r'^line_of refusal\.(\w+) = codes "(.*)"$', definitions, re.MULTILINE)
    that(f"{crate}: messages in its definitions", dict(lines), {name: it.line for name, it in table.items()})
    said = code.split("Refusal {\n")[1].split("\n}\n")[0]
    for comment, name in re.findall(r"((?:    ///.*\n)+)    (\w+),", said + ",\n"):
        comment = " ".join(comment.replace("///", "").split())
        that(f"{crate}: the number of {name}", found(r"^(\w[\w.]*): ", comment), table[name].number)
        if table[name].number not in ("A1", "V1"):
            that(f"{crate}: the comment of {name}", f"`{table[name].line}`" in comment, True)


def compare(that):
    for part in (of_definitions, of_argon2, of_argon2_verify, of_scrypt):
        part(that)
    for program in REFUSALS:
        of_messages(that, program)
