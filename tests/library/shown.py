"""What docs/LIBRARY.md and the manual page of libpikhsen show, compiled and run as it stands there."""
import os
import pathlib
import re
import shlex
import shutil
import subprocess
import sys

import roff
from checking import is_there, left_out, ran
from tree import PROGRAMS, TOP, read

INCLUDE = ["-I", str(TOP / "include")]
LIBRARY = read("docs/LIBRARY.md")
# What other programs store of the password "correct horse"; LIBRARY's table has their settings.
STORED = (
    # PHP 8.2.36: password_hash("correct horse", PASSWORD_ARGON2ID)
    "$argon2id$v=19$m=65536,t=4,p=1$V0NCWVQxb2U2SnF4V21NRg$8oeDiSRiEGTo9Frs7mdHAFz+tMFikqbszcNgTZ0RyV4",
    # python3-argon2 21.1.0: PasswordHasher().hash("correct horse")
    "$argon2id$v=19$m=102400,t=2,p=8$yt39KRiJplynvdLsIyphGA$/ttObQzhY2xHjwxhSqJakA",
    # python3-django 3.2.25: make_password("correct horse"), where Argon2PasswordHasher is the first of PASSWORD_HASHERS
    "argon2$argon2id$v=19$m=102400,t=2,p=8$SnZMZU9Jd3EwclBkU0VvY0xPMkZxUQ$ucOS3t8ilpMSoyEIUf4DfQ",
    # libsodium 1.0.18: crypto_pwhash_str with OPSLIMIT_INTERACTIVE and MEMLIMIT_INTERACTIVE; with those named MODERATE
    "$argon2id$v=19$m=65536,t=2,p=1$+FdfqK4mTY9Hh5BTtvq79g$JjBZkakj0aCCxXQaoqZy+knE64jRzdJKuXlOPGvmvsk",
    "$argon2id$v=19$m=262144,t=3,p=1$m9cS6zEhXRH8oGtIwCDtWQ$TtQ75LOfGKCejJKLeZHyXrHZ3Dqsy40i/iUEpegrV9Q",
    # python3-passlib 1.7.4: argon2.hash("correct horse")
    "$argon2id$v=19$m=102400,t=2,p=8$R4jRes9Zy3kPIWTs3bu3Ng$3xrxPpal5jZKLzVmKS+qQg",
)
TEXTS = [it.removeprefix("argon2") for it in STORED]
# More than 1 GiB, more than 2^23 block functions.
GREAT = [f"$argon2id$v=19$m={kib},t={passes},p=1$c29tZXNhbHQ$AAAAAA" for kib, passes in (((1 << 20) + 4, 1), (1 << 20, 8))]
# What is asked of a login of a page, as a text and a password after another, and what it says.
RIGHT = [*((it, "correct horse", "welcome") for it in TEXTS), *((it, "x", "set a new password") for it in GREAT)]
LOGINS = [*RIGHT, *((TEXTS[3], it, "not you") for it in ("battery staple", "", "x" * 128))]


def with_module(lib, *words, variables=(), python=sys.executable, **more):
    """Status and output of Python, which finds the module, and the library in this folder."""
    found = {"PIKHSEN_LIBRARY": f"{lib}/libpikhsen.so.0", "PYTHONPATH": str(TOP / "python"), "PYTHONDONTWRITEBYTECODE": "1"}
    environment = {name: it for name, it in {**os.environ, **found, **dict(variables)}.items() if it is not None}
    return ran(python, *words, env=environment, **more)


def compile_c(source, lib, out, static, *flags, compiler="gcc"):
    """A program of a text in C or C++, with the library in it or beside it."""
    link = [f"{lib}/libpikhsen.a"] if static else ["-L", lib, "-l:libpikhsen.so.0", f"-Wl,-rpath,{lib}"]
    return ran(compiler, *flags, "-O1", "-g", *INCLUDE, str(source), *link, "-lpthread", "-o", out)


def shown(language):
    """LIBRARY's program in this language, and what is typed to run it, and what comes."""
    found = re.search(rf"^```{language}\n(.*?)^```\n\n.*?\n\n((?:    [^\n]*\n)+)", LIBRARY, re.MULTILINE | re.DOTALL)
    typed = re.findall(r"^    \$ (.*\n)", found[2], re.MULTILINE)
    printed = re.findall(r"^    (?!\$ )(.*\n)", found[2], re.MULTILINE)
    return found[1], "".join(typed), "".join(printed)


def library_runs(checks, folder, lib, include=TOP / "include", module=TOP / "python"):
    """Types LIBRARY's programs in C and in Python, as they stand there, where compiler and Python find the library."""
    environment = {**os.environ, "LD_LIBRARY_PATH": str(lib), "LIBRARY_PATH": str(lib), "C_INCLUDE_PATH": str(include)}
    environment.update(PYTHONPATH=str(module), PYTHONDONTWRITEBYTECODE="1", PIKHSEN_LIBRARY="")
    for language, file in (("c", "login.c"), ("python", "login.py")):
        program, typed, printed = shown(language)
        pathlib.Path(folder, file).write_text(program, encoding="utf-8")
        found = ran("sh", "-ec", typed, cwd=folder, env=environment)
        checks.that(f"LIBRARY's {file}", found, (0, printed))


# Django's own hasher checks and reads what that of the page made.
DJANGO = """import sys
from django.conf import settings
settings.configure(%s)
from django.contrib.auth.hashers import Argon2PasswordHasher, check_password, identify_hasher, make_password
text, own = make_password("correct horse"), Argon2PasswordHasher()
ours = identify_hasher(text)
print([check_password(it, text) for it in ("correct horse", "battery staple")], ours.must_update(text), ours.must_update(text.replace("t=2", "t=3")))
print(type(ours).__name__, own.verify("correct horse", text), ours.safe_summary(text) == own.safe_summary(text))
"""


def other_languages_run(checks, folder, lib):
    """Installs below a prefix where nothing looks by itself, and types what LIBRARY has for that: its logins, from the
    examples that were installed, print there what the login in C does, where their languages are installed."""
    section = LIBRARY.partition("\n## Other languages\n")[2].partition("\n## ")[0]
    rows = {it[0]: it[1:] for it in re.findall(r"^\| (\w+) \| `(.*)` \| (\d+) \|", section, re.MULTILINE)}
    placed = dict(re.findall(r"^\| (\w+) \| `(.*)` \|$", section, re.MULTILINE))
    files = {"Go": ["login.go"], "Rust": ["login.rs"], "PHP": ["login.php"], "Node": ["node.c", "login.js"], "Django": ["hasher.py"]}
    checks.that("LIBRARY's other languages", (list(rows), list(placed)), (list(files), ["Go", "Rust", "Node"]))
    lines = {it: str(sum(read(f"docs/programs/{name}").count("\n") for name in files[it])) for it in rows}
    checks.that("lines of LIBRARY's other languages", {it: row[1] for it, row in rows.items()}, lines)
    home, built = pathlib.Path(folder, "home"), pathlib.Path(folder, "built")
    built.mkdir()
    for name in PROGRAMS:
        (built / name).touch()
    subprocess.run([TOP / "packaging/install.sh", "install", home / ".local", built, lib], check=True)
    work = shutil.copytree(home / ".local/share/doc/pikhsen/docs/programs", f"{folder}/examples")
    environment = {**os.environ, "GOCACHE": f"{folder}/go", "PYTHONDONTWRITEBYTECODE": "1", "PIKHSEN_LIBRARY": ""}
    for it in ("C_INCLUDE_PATH", "LIBRARY_PATH", "LD_LIBRARY_PATH", "PYTHONPATH"):
        environment.pop(it, None)
    exported = re.search(r"(?:^    .*\n)+", section, re.MULTILINE)[0]
    by_place = f"{exported}unset LD_LIBRARY_PATH\n"

    def typed(text):
        return ran("sh", "-ec", text.replace("$HOME", str(home)), cwd=work, env=environment)

    welcome, flags = shown("c")[2], re.search(r"/\.local` it is built by\n\n((?:    .*\n)+)", LIBRARY)[1]
    if is_there("pkg-config", "LIBRARY's flags of pkg-config are not tried", 2):
        for name, text in (("beside it", flags), ("in it", flags.replace("--libs", "--libs-only-L").replace("pikhsen)", "pikhsen) -l:libpikhsen.a"))):
            checks.that(f"LIBRARY's login in C, the library {name}", typed(f"{text}./login"), (0, welcome))
    checks.that("LIBRARY's login in Python", typed(f"{exported}python3 login.py")[1].startswith(welcome), True)
    for name, program in (("Go", "go"), ("Rust", "rustc"), ("PHP", "php"), ("Node", "node")):
        if is_there(program, f"LIBRARY's login in {name} does not run", 1 + (name in placed)):
            checks.that(f"LIBRARY's login in {name}", typed(exported + rows[name][0]), (0, welcome))
            if name in placed:
                checks.that(f"LIBRARY's login in {name}, with the library's place", typed(by_place + placed[name]), (0, welcome))
    if ran("/usr/bin/python3", "-c", "import argon2, django")[0]:
        left_out("python3-django, or python3-argon2, is not installed", "LIBRARY's hasher does not run", 1)
        return
    found = typed(f"{exported}/usr/bin/python3 -c {shlex.quote(DJANGO % rows['Django'][0])}")
    checks.that("LIBRARY's hasher for Django", found, (0, "[True, False] False True\nPikhsenHasher True True\n"))


OF_C = """#define main main_of_page
PROGRAM
#undef main
int main(int count, char **words) {
    char text[PIKHSEN_ENCODED_ROOM(16, 32)];
    size_t len;
    if (enrol("", text, sizeof text, &len))
        return 1;
    for (int at = 1; at < count; at += 2)
        puts(answer(words[at], strlen(words[at]), words[at + 1]));
    return 0;
}
"""
OF_PYTHON = """
import sys
try:
    sys.exit(enrol(b""))
except ValueError:
    print(*map(answer, sys.argv[1::2], map(str.encode, sys.argv[2::2])), sep="\\n")
"""
OF_PAGE = """#include <pikhsen.h>
#include <stdio.h>
#include <string.h>
#include <sys/random.h>
int main(int count, char **words) {
    const char password[] = "correct horse";
    size_t password_len = 13;
    ENROL
    if (count > 1)
        memcpy(text, words[1], len = strlen(words[1]));
    CHECK
    return 0;
}
"""


def pieces_run(checks, folder, lib):
    """The manual page's program for files in pieces: what it writes, opens and refuses, and when it says that what was
    written is to be deleted."""
    source, program = pathlib.Path(folder, "pieces.c"), f"{folder}/pieces"
    source.write_text(roff.examples("pikhsen.3")[2].replace("17, 8, 1, 1,", "10, 8, 1, 1,"), encoding="utf-8")
    checks.that("the manual page's program, compiled", compile_c(source, lib, program, True, "-Wall", "-Wextra", "-Werror"), (0, ""))

    def run(word, given, passphrase="pw", out=subprocess.PIPE):
        variables = {**os.environ, "PASSPHRASE": passphrase}
        done = subprocess.run([program, word], input=given, stdout=out, stderr=subprocess.PIPE, env=variables)
        return done.returncode, done.stdout, done.stderr.decode().replace("; delete what was written\n", " (written)\n")

    for length in (0, 5, 300000):
        text = bytes(it * 7 % 251 for it in range(length))
        status, file, said = run("enc", text)
        checks.that(f"the manual page's program, {length} bytes", (status, len(file), said), (0, length + 128, ""))
        checks.that(f"the manual page's program opens {length} bytes", run("dec", file), (0, text, ""))
    checks.that("the manual page's program, at lower costs", file[:16], b"scrypt\0\x0a\0\0\0\x08\0\0\0\x01")
    if is_there("scrypt", "no other program opens what the manual page's program made", 1):
        found = subprocess.run(["scrypt", "dec", "--passphrase", "env:PASSPHRASE", "-"], input=file, stdout=subprocess.PIPE,
                               env={**os.environ, "PASSPHRASE": "pw"})
        checks.that("scrypt opens what the manual page's program made", (found.returncode, found.stdout), (0, text))
    damaged = "file: it is damaged, or cut short, after its first 96 bytes (written)\n"
    short = "file: it is shorter than 96 bytes, or than 64 to read its costs alone\n"
    for name, out, says, *given in (
        ("a byte changed", text, damaged, "dec", file[:-1] + bytes([file[-1] ^ 1])),
        ("cut", text[:200000 - 128], damaged, "dec", file[:200000]), ("longer", text, damaged, "dec", file + b"x"),
        ("short", b"", short, "dec", file[:95]),
        ("another passphrase", b"", "file: the passphrase is not the file's\n", "dec", file, "PW"),
        ("no passphrase", b"", "PASSPHRASE is not set\n", "enc", b"", ""),
        ("another word", b"", "the word is enc or dec\n", "encrypt", b""),
    ):
        status, found, said = run(*given)
        checks.that(f"the manual page's program, {name}", (status, found[:len(text)], said), (1, out, says))
    with open("/dev/full", "wb") as full:
        checks.that("the manual page's program, a full disk", run("enc", b"", out=full)[::2], (1, "the output cannot be written (written)\n"))
    found = ran("sh", "-c", f"PASSPHRASE=pw {program} enc <{folder} 2>&1 >/dev/null")
    checks.that("the manual page's program, a folder", found, (1, "the input cannot be read; delete what was written\n"))


def logins_run(checks, folder, lib):
    """What the pages' logins say of texts of other programs, of those that ask for more, and of wrong passwords; they enrol
    no empty one."""
    words, expected = [it for login in LOGINS for it in login[:2]], "".join(f"{said}\n" for _, _, said in LOGINS)
    source, program = pathlib.Path(folder, "logins.c"), f"{folder}/logins"
    source.write_text(OF_C.replace("PROGRAM", shown("c")[0]), encoding="utf-8")
    checks.that("LIBRARY's login.c, compiled", compile_c(source, lib, program, True, "-Wall", "-Werror"), (0, ""))
    checks.that("LIBRARY's login.c: its answers", ran(program, *words), (0, expected))
    status, found = with_module(lib, "-c", shown("python")[0] + OF_PYTHON, *words)
    checks.that("LIBRARY's login.py: its answers", (status, found[-len(expected):]), (0, expected))
    enrol, check = (it.replace("\n", "\n    ") for it in roff.examples("pikhsen.3")[:2])
    source.write_text(OF_PAGE.replace("ENROL", enrol).replace("CHECK", check), encoding="utf-8")
    checks.that("the manual page's example, compiled", compile_c(source, lib, program, True, "-Wall", "-Wextra", "-Werror"), (0, ""))
    checks.that("the manual page's example", ran(program), (0, "welcome\n"))
    for text, _, said in RIGHT:
        checks.that(f"the manual page's example, of {text[:34]}", ran(program, text), (0, f"{said}\n"))
