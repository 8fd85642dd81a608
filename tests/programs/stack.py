#!/usr/bin/env python3
"""Runs the built programs with a stack of 64 KiB, argon2-verify of 48, and with one of 8 MiB: status, output and line
are the same, and no run ends by a signal. No contract sees the stack, so a body that takes 64 MiB of it at one length
of the password would be proved.

    tests/programs/stack.py FOLDER      in which the programs lie

The runs go over every length of a password, of a passphrase (also to open a file) and of a salt, texts about the length
of a piece, other tags and costs, 0 to 40 words, and words and variables of up to 100,000 bytes, which count in the
limit and are added to it.
"""
import collections
import concurrent.futures
import itertools
import os
import pathlib
import re
import subprocess
import sys

sys.path += map(str, pathlib.Path(__file__).resolve().parents[1].iterdir())  # the other folders of tests/
from checking import compiled, is_there, over_programs, said
from scrypt_files import FROM_PW, SALT

# In KiB. The limit counts what lies above the stack, too, and the up to 8 KiB by which Linux moves its beginning.
# docs/DECISIONS.md says what the programs take of it.
SMALL, LARGE = {"argon2": 64, "argon2-verify": 48, "scrypt": 64}, 8192
# In bytes. The largest is that of a run of scrypt, into which the compiler puts what it calls.
LARGEST_FRAME = 32768
CHEAP = "--logN 1 -r 1 -p 1"
NEW = f"enc {CHEAP} --salt {SALT}"
# Two passphrases of them are too long.
LENGTHS, SOME = range(2051), (*range(0, 2051, 50), 2047, 2048, 2049)
PIECES = (*range(301), 4095, 4096, 4097, 8191, 8192, 8193)
CUTS = (*range(0, 140, 3), 4224, 8320)
# Texts of hashes: of each type, of one pass, of several lanes, and of the longest salt and tag; by their tags no
# password is right.
HASHES = {
    "hash": "$argon2d$v=19$m=8,t=1,p=1$c29tZXNhbHQ$" + "A" * 43,
    **{f"hash-{kind}-{lanes}": f"$argon2{kind}$v=19$m={8 * lanes},t=2,p={lanes}$c29tZXNhbHQ$" + "A" * 43
       for kind in ("d", "i", "id") for lanes in (1, 3, 16)},
    "hash-of-1-mib": "$argon2id$v=19$m=1024,t=1,p=4$c29tZXNhbHQ$" + "A" * 43,
    "hash-longest": "$argon2id$v=19$m=8,t=1,p=1$" + "A" * 340 + "$" + "A" * 5462,
    "hash-too-long": "$argon2id$v=19$m=8,t=1,p=1$" + "A" * 4096 + "$" + "A" * 4090,
}
# What is run: a program, its words as a shell reads them, the file on its standard input, and the variable PW.
Run = collections.namedtuple("Run", "program words given variable", defaults=("/dev/null", ""))
# Words, of which a program gets the first 0 to 40, and words in which 100,000 bytes stand.
WORDS = {"argon2": "somesalt -e" + " -t 1 -k 8 -d" * 8, "argon2-verify": "--maxmem 4096 --maxops 99 " * 10,
         "scrypt": f"{NEW} -M 4096 --maxops 99 --keep 1 -P hello" + " x" * 40}
LONG = {
    "argon2": ("{} -e", "somesalt -e -t {}", "somesalt -e {}"),
    "argon2-verify": ("{}", "--maxmem {} hash", "--{} 1 hash"),
    "scrypt": ("{}", f"enc --logN {{}} {FROM_PW} hello", "enc --{} hello", "dec --passphrase file:{} hello",
               "dec --passphrase env:{} hello", f"enc {CHEAP} --salt {{}} {FROM_PW} hello", f"dec {FROM_PW} {{}}",
               f"dec {FROM_PW} file {{}}", f"dec {FROM_PW} file out {{}}"),
}
COSTS = ("2 1 1", "4 1 1", "4 2 3", "4 8 1", "7 8 2", "5 9 1", "5 33 1", "4 128 2", "10 1 1", "10 8 1")
TAGS = (*range(3, 131), 255, 256, 257, 1023, 1024, 1025, 2048, 4032, 4095, 4096, 4097)
KINDS = "-d", "-i", "-id"
PASSWORDS = [Run("argon2", f"somesalt {kind} -t 1 -k 8 -e", f"p-{it}") for kind in KINDS for it in range(131)]


def text_of(length):
    return Run("scrypt", f"{NEW} {FROM_PW} p-{length}")


def under(length):
    return Run("scrypt", f"{NEW} --passphrase file:p-{length} /dev/null")


RUNS = [
    *((Run(program, " ".join(text.split()[:count]), "p-8") for program in WORDS for count in range(41)
       for text in (WORDS[program], "y " * 40))),
    *(Run(program, words.format("1" * 100000), "p-8") for program in LONG for words in LONG[program]),
    *PASSWORDS,
    *(Run("argon2", f"'{'s' * it}' -t 1 -k 8 -e", "p-8") for it in range(258)),
    *(Run("argon2", f"somesalt -t 1 -k 8 -l {it} {form}", "p-8") for it in TAGS for form in ("-e", "-r")),
    *(Run("argon2", f"somesalt {kind} -t 2 -k {8 * lanes + 3} -p {lanes} -v {version} -e", "p-127")
      for lanes in (1, 2, 3, 4, 5, 8, 16, 64) for kind in KINDS for version in (10, 13)),
    *(Run("argon2", f"somesalt -id -t 1 -k {it} -e", "p-8") for it in (1024, 4096)),
    *(Run("argon2-verify", "hash", f"p-{it}") for it in range(4099)),
    *(Run("argon2-verify", name, f"p-{it}") for name in HASHES for it in (0, 8, 4096)),
    *(Run("argon2-verify", f"p-{it}", "p-8") for it in PIECES),
    *(Run("argon2-verify", " ".join([*WORDS["argon2-verify"].split()[:it], "hash"]), "p-8") for it in range(41)),
    *map(under, LENGTHS),
    *(Run("scrypt", f"{NEW} -P /dev/null", f"p-{it}") for it in SOME),
    *(Run("scrypt", f"{NEW} --passphrase env:PW /dev/null", variable="p" * it) for it in SOME),
    Run("scrypt", "dec --passphrase env:PW file", variable="p" * 100000),
    *map(text_of, PIECES),
    *(Run("scrypt", f"{NEW} {FROM_PW} -", f"p-{it}") for it in PIECES),
    *(Run("scrypt", f"enc --logN {log_n} -r {r} -p {p} --keep {keep} --salt {SALT} {FROM_PW} hello")
      for log_n, r, p in map(str.split, COSTS) for keep in (1, 2, 4, 16)),
    Run("scrypt", f"enc {CHEAP} {FROM_PW} hello >own"),
]
# Over files that runs before made, and over damaged ones.
OPENED = {it: Run("scrypt", f"dec --passphrase file:p-{it} under-{it}") for it in LENGTHS}
OVER_FILES = [
    *OPENED.values(),
    *(Run("scrypt", f"dec {FROM_PW} file-{it}") for it in PIECES),
    *(Run("scrypt", f"dec {FROM_PW} -", f"file-{it}") for it in PIECES),
    *(Run("scrypt", f"{words} cut-{it}") for it in CUTS for words in (f"dec {FROM_PW}", "info")),
    Run("scrypt", "dec --passphrase file:p-3 file-8"),
]


def line_of(run, number, small):
    """A line of a shell, which itself keeps the stack that it has. Of words and variable 300 bytes are not added."""
    more = max(len(run.words) + len(run.variable) - 300, 0)
    limit = (SMALL[run.program] if small else LARGE) + -(-more // 1024)
    export = f"export PW={run.variable}; " if run.variable else ""
    command = f'ulimit -Ss {limit}; {export}exec "${run.program.replace("-", "_")}" {run.words} <{run.given}'
    return f"({command}); printf '\\nended {number} %s\\n' $?\n"


def run_all(runs, folder, programs, small):
    """What each run ends with, status and output; the shells that run them go side by side."""
    count, paths = len(os.sched_getaffinity(0)), {name.replace("-", "_"): path for name, path in programs.items()}

    def part(chosen):
        text = "".join(line_of(run, number, small) for number, run in chosen)
        ran = subprocess.run(["sh", "-s"], input=text.encode(), stdout=subprocess.PIPE, stderr=subprocess.STDOUT,
                             cwd=folder, env=paths, check=False)
        ended = re.findall(rb"(.*?)\nended (\d+) (\d+)\n", ran.stdout, re.DOTALL)
        return {int(number): (int(status), out) for out, number, status in ended}

    numbered = [*enumerate(runs)]
    with concurrent.futures.ThreadPoolExecutor(count) as pool:
        found = collections.ChainMap(*pool.map(part, [numbered[turn::count] for turn in range(count)]))
    return {run: found.get(number) for number, run in numbered}


def compare(runs, folder, programs):
    """The runs that end otherwise with a small stack, or by a signal, with both ends; and what each run ends with."""
    large, small = (run_all(runs, folder, programs, it) for it in (False, True))
    return {it: (small[it], large[it]) for it in large
            if small[it] != large[it] or not large[it] or large[it][0] not in (0, 1, 2)}, large


# Takes 64 MiB of the stack at one length of what it reads, and writes nothing.
DEEP = """
#include <unistd.h>
int main(void) {
    char room[256];
    volatile char deep[read(0, room, sizeof room) == 77 ? 64 << 20 : 1];
    return deep[0] = 0;
}
"""


# A function takes a large frame in parts, and writes to each; a larger one in a loop, down to what r11 says.
PART = re.compile(r"\t(?:sub +\$|lea +-)0x([0-9a-f]{1,8})(?:,%rsp|(?:\(%rsp\))?,%r11\n.*\tsub +\$.*,%rsp)$", re.M)


def largest_frame(program):
    """The most bytes that a function of a program takes for frames, all its parts together, and which one."""
    code = re.split(r"^[0-9a-f]+ <(.+)>:$", said("objdump", "-d", "--no-show-raw-insn", program), flags=re.MULTILINE)
    return max((sum(int(it, 16) for it in PART.findall(body)), name) for name, body in zip(code[1::2], code[2::2]))


def main(checks, folder, argon2, verify, scrypt):
    programs = {"argon2": argon2, "argon2-verify": verify, "scrypt": scrypt}
    texts = {**{f"p-{it}": "p" * it for it in {*range(4099), *PIECES}}, **HASHES, "pw": "pw\n", "hello": "hello"}
    for name, text in texts.items():
        checks.put(name, text.encode())
    wrong, ended = compare(RUNS, folder, programs)
    made = {f"file-{it}": text_of(it) for it in PIECES}
    made.update({f"under-{it}": under(it) if it < 2049 else text_of(5) for it in LENGTHS}, file=text_of(5))
    for name, run in made.items():
        checks.put(name, ended[run][1])
    for length in CUTS:
        checks.put(f"cut-{length}", ended[text_of(8193)][1][:length])
    more, opened = compare(OVER_FILES, folder, programs)
    opens = [it for it, run in OPENED.items() if opened[run] and opened[run][0] == 0]
    checks.that("lengths of passphrases under which files are opened", opens, [*range(2049)])
    checks.passed += len(ended) + len(opened) - len(wrong) - len(more)
    for run, ends in {**wrong, **more}.items():
        checks.that(f"with a small stack: {run}"[:200], ends, "the same end with a large one, by no signal")
    checks.that("some runs end well, and some do not", {0, 1} <= {it[0] for it in ended.values() if it}, True)
    # a program that is as wrong as this can find: so the comparison is seen to fail
    if is_there("cc", "no program that takes 64 MiB of stack is looked at", 1):
        compiled(DEEP, f"{folder}/deep", "-O0")
        wrong, _ = compare(PASSWORDS, folder, {"argon2": f"{folder}/deep"})
        expected = [it for it in PASSWORDS if it.given == "p-77"]
        checks.that("64 MiB of stack at one length of the password", [*wrong], expected)
    for name, program in programs.items() if is_there("objdump", "the largest frames are not looked at", 2) else ():
        size, function = largest_frame(program)
        print(f"{name}: the largest frame has {size} bytes, in {function}")
        checks.that(f"{name}: no larger frame than {LARGEST_FRAME} bytes", size <= LARGEST_FRAME, True)


over_programs(main, __doc__, "argon2", "argon2-verify", "scrypt")
