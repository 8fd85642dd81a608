#!/usr/bin/env python3
"""Times the built programs beside the argon2 and scrypt that are installed, and libsodium and OpenSSL, in one table.

    bench/table.py FOLDER.. [--rounds 5] [--out PATH]

Each FOLDER, as bin/x86-64-v2, has argon2 and scrypt, built for the level of its name. In each round every program does
the row's work once, in turn; the least of all rounds counts, so that what else the machine does hits all alike. Time is
user and system time of the process, and elapsed time. Memory is the greatest resident set, of a further run under GNU
time where that is there. A ratio is to the installed program, and below 1 where ours takes less. Hashes and decrypted
files are compared. Over libsodium and OpenSSL, where they are installed, a program is compiled (bench/library.c), and a
line says which instructions they use. --out PATH writes the table to PATH.tsv, too, as tab-separated values, and draws it
as PATH.svg (bench/ratios.py).
"""
import collections
import ctypes.util
import datetime
import hashlib
import itertools
import os
import pathlib
import random
import re
import shutil
import subprocess
import tempfile

import ratios
from scratch import TOP, asked, circumstances, in_turn, peak, used

TIMES = "ours theirs ratio ours_elapsed theirs_elapsed ratio_elapsed".split()
COLUMNS = ["work", "size", "level", *TIMES, "ours_MiB", "theirs_MiB", "rounds", "load"]
COSTS, KEY = "--logN 14 -r 8 -p 1", "--passphrase env:PW"
# Libraries that rows are beside, and what the linker knows each as.
LIBRARIES = {"libsodium": "sodium", "OpenSSL": "crypto"}
# A piece of work: a program with its arguments, the status that is wanted, and the library beside which it stands, if
# that isn't the installed program.
Row = collections.namedtuple("Row", "work size words status library", defaults=(0, None))


def rows():
    for log_memory, kind, passes, lanes in itertools.product((3, 12, 14, 16, 18), ("d", "i", "id"), (1, 3), (1, 4)):
        costs = f"-{kind} -t {passes} -p {lanes}"
        memory = f"-k {8 * lanes}" if log_memory == 3 else f"-m {log_memory}"
        yield Row(f"argon2 {costs} -m", log_memory, f"argon2 somesalt {costs} {memory} -r")
    key = f"scrypt enc --logN {{}} -r 8 -p 1 {KEY} empty made"
    for log_n in range(14, 21):
        yield Row("key, -r 8 -p 1, --logN", log_n, key.format(log_n))
    for size in (1, 10, 100):
        yield Row("enc, --logN 14, MiB", size, f"scrypt enc {COSTS} {KEY} text-{size} made")
        yield Row("dec, --logN 14, MiB", size, f"scrypt dec {KEY} text-{size}.enc made")
    yield Row("info", 1, "scrypt info text-1.enc")
    yield Row("a refused word", 1, "scrypt encrypt", 1)
    yield Row("a refused word of argon2", 1, "argon2 somesalt -q", 1)
    for log_memory, passes in itertools.product((12, 16, 18), (1, 3)):
        words = f"argon2 sixteen-bytes... -id -t {passes} -p 1 -m {log_memory} -r"
        yield Row(f"libsodium -id -t {passes} -m", log_memory, words, library="libsodium")
    for library, log_n in itertools.product(("OpenSSL", "libsodium"), (14, 17, 20)):
        yield Row(f"{library}, -r 8 -p 1, --logN", log_n, key.format(log_n), library=library)


def compiled(name, folder):
    """The program over a library, where that and a compiler are installed. It prints which library that is."""
    file, program = ctypes.util.find_library(LIBRARIES[name]), os.path.join(folder, name)
    words = ["cc", "-O2", f"-D{LIBRARIES[name]}", "-o", program, TOP / "bench/library.c", f"-l:{file}"]
    if not file or not shutil.which("cc") or subprocess.run(words, stderr=subprocess.DEVNULL).returncode != 0:
        print(f"{name} or a compiler is not installed: its rows are left out")
        return None
    print(subprocess.run([program], stdout=subprocess.PIPE, check=True, text=True).stdout.strip())
    return program


def measure(row, programs, rounds, folder):
    """The least times and the memory of each program, by its name."""
    name, *words = row.words.split()

    def ran(program):
        done = used([program, *words], b"password", row.status, cwd=folder)
        if words[0] == "dec":
            return done._replace(made=hashlib.sha256(pathlib.Path(folder, "made").read_bytes()).digest())
        return done if name == "argon2" and row.status == 0 else done._replace(made=None)

    least = in_turn(f"{row.work} {row.size}", {by: lambda it=it: ran(it) for by, it in programs.items()}, rounds)
    return {by: (*least[by], peak([it, *words], b"password", row.status, cwd=folder)) for by, it in programs.items()}


def make_files(scrypt, folder):
    """The texts that the rows encrypt, and those that they decrypt."""
    pathlib.Path(folder, "empty").touch()
    for size in (1, 10, 100):
        pathlib.Path(folder, f"text-{size}").write_bytes(random.Random(size).randbytes(size << 20))
        used([scrypt, *f"enc {COSTS} {KEY} text-{size} text-{size}.enc".split()], cwd=folder)


def values(row, level, best, rounds):
    """The cells of a row of the table, for one of our levels."""
    ours, theirs = best[level], best.get("installed")
    cells = [row.work, str(row.size), level]
    for mine, other in zip(ours[:2], theirs[:2] if theirs else (None, None)):
        cells += [f"{mine:.4f}", *(["", ""] if other is None else [f"{other:.4f}", f"{mine / max(other, 1e-6):.2f}"])]
    cells += [f"{found[2]:.1f}" if found and found[2] else "" for found in (ours, theirs)]
    return [*cells, str(rounds), f"{os.getloadavg()[0]:.1f}"]


def title(rounds):
    """The machine, and what else a reader must know of the run."""
    processor = pathlib.Path("/proc/cpuinfo").read_text(encoding="utf-8")
    model = re.search(r"(?m)^model name\s*: (.*)", processor)
    has_sha = "with" if re.search(r"\bsha_ni\b", processor) else "without"
    return f"{model[1] if model else 'unknown'}, {os.cpu_count()} processors; {has_sha} instructions for SHA; " \
           f"{circumstances()} at the start; {datetime.date.today()}; least of {rounds} rounds"


def main():
    reader = asked(__doc__)
    reader.add_argument("--out")
    given = reader.parse_args()
    lines = [f"# {title(given.rounds)}", "\t".join(COLUMNS)]
    print(lines[0][2:])
    print("seconds of processor time and elapsed, MiB of memory; a ratio is ours to that of the other program or library")
    print(lines[1], flush=True)
    with tempfile.TemporaryDirectory(prefix="pikhsen-bench-") as folder:
        libraries = {name: compiled(name, folder) for name in LIBRARIES}
        make_files(given.folders[0] / "scrypt", folder)
        for row in rows():
            program = row.words.split()[0]
            other = libraries[row.library] if row.library else shutil.which(program, path="/usr/bin:/usr/local/bin")
            if row.library and not other:
                continue
            programs = {it.name: it / program for it in given.folders}
            best = measure(row, {**programs, **({"installed": other} if other else {})}, given.rounds, folder)
            for level in programs:
                lines.append("\t".join(values(row, level, best, given.rounds)))
                print(lines[-1], flush=True)
    if given.out:
        pathlib.Path(f"{given.out}.tsv").write_text("\n".join([*lines, ""]), encoding="utf-8")
        pathlib.Path(f"{given.out}.svg").write_text(ratios.drawn(f"{given.out}.tsv"), encoding="utf-8")


main()
