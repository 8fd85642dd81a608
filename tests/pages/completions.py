"""What zsh completes of each program, by its lines, and bash, which is asked for it itself."""
import re

from checking import is_there, ran
from tree import TOP, read
from values_table import COMMANDS, PROGRAMS, RANGE, found, options

ASKING = [("scrypt-ask", "enc"), ("scrypt-ask", "dec")]
# Words that are typed, before a bar where nothing is, and all that bash offers for the last one in include/.
TYPED = (
    ("argon2 |", ""), ("scrypt |", "enc dec info"), ("scrypt enc -P pik", "pikhsen.h"),
    ("scrypt-ask enc pik", "pikhsen.h"), ("argon2-verify pik", "pikhsen.h"),
    ("argon2-verify --maxops 5 pik", "pikhsen.h"),
    ("scrypt enc --passphrase file : pik", "pikhsen.h"), ("scrypt dec --passphrase file :", "pikhsen.h"),
    ("scrypt enc --passphrase env : AK", "AKEY"), ("scrypt enc --passphrase dev : |", "stdin-once"),
)
# bash has compopt while it completes alone.
IN_BASH = """compopt() { :; }
source "$1"
shift
COMP_WORDS=("$@") COMP_CWORD=$(($# - 1)) COMPREPLY=(left)
_PROGRAM
printf '%s\\n' "${COMPREPLY[@]}"
"""
# The words of which zsh completes one alone.
EXCLUDING = {"argon2": ["-i -d -id", "-k -m", "-e -r"], "argon2-verify": [], "scrypt": ["-P --passphrase"]}
# An option of zsh: what it excludes, its word, = before a value, what it is, what its value is called and may be.
ZSH = re.compile(r"(?m)^ *'(\([^)]*\))?(--?\w+)(=)?\[([^\]]*)\](?::((?:[^:'\\]|\\.)*):(.*?))?'(?: \\)?$")


def offered(program, *words):
    """What bash offers for the last of these words."""
    script = ["bash", "-c", IN_BASH.replace("PROGRAM", program), "bash", TOP / "completions/bash" / program]
    environment = {"PATH": "/usr/bin:/bin", "AKEY": ""}
    return ran(*script, program, *words, cwd=TOP / "include", env=environment)[1].split()


def of_bash(that):
    for program, subcommand in (*COMMANDS, *ASKING):
        # the first word of argon2 is the salt
        table, words = options(program, subcommand), [subcommand or "salt"] if program != "argon2-verify" else []
        name = " ".join([f"completions/bash/{program}", *words])
        that(f"{name}: options", sorted(offered(program, *words, "-")), sorted(table))
        for option in table.values():
            # after a word that takes no value come options, or files
            if option.value or option.offers:
                values = " ".join(offered(program, *words, option.word, ""))
                that(f"{name} {option.word}", values or None, option.offers)
    for typed, expected in TYPED:
        that(f"bash: {typed}", offered(*typed.replace("|", "").split(" ")), expected.split())
    for program in (*PROGRAMS, "scrypt-ask"):
        line = read(f"completions/bash/{program}").rstrip("\n").splitlines()[-1]
        that(f"bash: whose completion it is, {program}", line, f"complete -F _{program} {program}")


def options_of_zsh(program, subcommand):
    """The options that zsh completes: what each excludes, and the rest of its line."""
    text = read(f"completions/zsh/_{program}")
    if subcommand:
        limits = (text.split("limits=(\n") + [""])[1].split("\n)\n")[0]
        text = (found(rf"^{subcommand}\)((?:.|\n)*?);;$", text) or "").replace("$limits", f"\n{limits}\n")
    return {word: (excluded[1:-1].split(), rest) for excluded, word, *rest in ZSH.findall(text)}


def of_zsh(that):
    """The options that zsh completes, and of them what excludes which."""
    for program, subcommand in COMMANDS:
        name, table = f"completions/zsh/_{program} {subcommand}".rstrip(), options(program, subcommand)
        made = options_of_zsh(program, subcommand)
        that(f"{name}: options", sorted(made), sorted(table))
        for word in sorted({*made} & {*table}):
            excluded, rest = made[word]
            others = {it for each in EXCLUDING[program] if word in each.split() for it in each.split()} - {word}
            that(f"{name} {word}: what it excludes", sorted(excluded), sorted(others))
            option_of_zsh(that, f"{name} {word}", table[word], *rest)
    argon2, scrypt = (read(f"completions/zsh/_{it}") for it in ("argon2", "scrypt"))
    that("zsh: the type where none is given", found(r"'\(.*\)(-\w+)\[\w+, the default\]'", argon2), "-i")
    subcommands = scrypt.split("_values 'subcommand' ")[1].splitlines()[0]
    that("zsh: subcommands", re.findall(r"'(\w+)\[", subcommands), ["enc", "dec", "info"])
    that("zsh: sources", re.findall(r"'(\w+\\:[\w-]*):", scrypt), ["dev\\:stdin-once", "env\\:", "file\\:"])


def option_of_zsh(that, name, option, equals, _, called, values):
    """What zsh shows of an option's value agrees with the table."""
    that(f"{name}: whether it has a value", bool(called), bool(option.value))
    may_follow = option.program == "scrypt" and option.word.startswith("--")
    that(f"{name}: whether its value may follow =", bool(equals), may_follow)
    called, values = called.replace("\\", ""), re.sub(r"\\:\"[^\"]*\"", "", values)
    if called and option.word == "-v":
        that(f"{name}: what it takes", re.findall(r"(?<![\w,])(\d+)\b", values), ["13", "10"])
    elif called:
        given = [option.default] if option.default else []
        that(f"{name}: where it is not given", re.findall(r"default (\d+)", called), given)
        that(f"{name}: its range", [it for it in RANGE.findall(called) if it != option.range], [])
        expected = option.offers.split() if option.word == "--keep" else []
        that(f"{name}: what is offered", re.findall(r"\d+", values), expected)


def compare(that):
    if is_there("bash", "its completions are not looked at"):
        of_bash(that)
    of_zsh(that)
