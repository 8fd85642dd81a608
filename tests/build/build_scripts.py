#!/usr/bin/env python3
"""Runs packaging/build.sh, link.sh, chosen.sh, lib.sh, deb.sh and install.sh in a copy of the tree, over a stand-in for rt
that proves nothing, and for the library over one in C.

    tests/build/build_scripts.py

What they make is what rt left, with the heap of packaging/, and with its permissions under each umask; a proof that
fails, a program that is not there, a linker that fails or a signal leaves no older program, library or package. What
`make install` put below a prefix, and nothing else, `make uninstall` takes away.
"""
import contextlib
import hashlib
import itertools
import os
import pathlib
import shlex
import shutil
import signal
import subprocess
import sys
import time

sys.path += map(str, pathlib.Path(__file__).resolve().parents[1].iterdir())  # the other folders of tests/
import binaries
from checking import is_there, over_programs, ran
from first_run import BUILT, CHOSEN, KIT, LEVEL, PROGRAMS, STAND_IN, TOOLS, TOP, Tree, put
from library_texts import HEADER, prototypes
from tree import VERSION

OTHER = "x86-64-v3"
# The programs and the library, over a crate each.
CRATES = "".join(["host:\nblake:\n", *(f"{it}: host\n" for it in TOOLS.values()), "pikhsen_c staticlib: blake\n"])
OTHERS = [f"bin/{OTHER}/{it}" for it in TOOLS]
LIBRARIES = [f"bin/lib/{it}" for it in ("libpikhsen.a", "libpikhsen.so.0", f"glibc-hwcaps/{OTHER}/libpikhsen.so.0")]
COMPAT = [f"bin/lib/pikhsen/compat/{it}" for it in ("libargon2.so.1", "pikhsen.so")]
FAILS = "#!/bin/sh\nexit 1\n"
PACKAGE, WHEEL = "bin/pikhsen_0.0.1_amd64.deb", "bin/pikhsen-0.0.1-py3-none-any.whl"
NAMES = "pikhsen_{}_amd64 libpikhsen0_{}_amd64 libpikhsen-dev_{}_amd64 python3-pikhsen_{}_all pikhsen_{}+v3_amd64"
PACKAGES = [f"bin/{name.format(VERSION)}.deb" for name in NAMES.split()]
ARCHIVE = "crates/pikhsen_c/out/libpikhsen_c.a"
# The programs as rt leaves them, and all that build.sh takes away where it fails.
OUTS, OF_BUILD = [f"crates/{it}/out/{it}" for it in TOOLS.values()], [*PROGRAMS, *OTHERS, "bin/level", PACKAGE]
# What is installed, by the folder in which it is then; and the source of each file by its place.
TOLD = [*TOOLS, "scrypt-ask"]
FOLDERS = {
    "bin": [*CHOSEN, "packaging/scrypt-ask"], "include": ["include/pikhsen.h"], "lib": LIBRARIES[:2],
    f"lib/glibc-hwcaps/{OTHER}": LIBRARIES[2:], "lib/pikhsen/compat": COMPAT,
    "share/man/man1": [f"man/{it}.1" for it in TOLD], "share/man/man3": ["man/pikhsen.3"],
    "share/man/man7": ["man/pikhsen-compat.7"], "share/zsh/site-functions": [f"completions/zsh/_{it}" for it in TOOLS],
    "share/bash-completion/completions": [f"completions/bash/{it}" for it in TOLD],
    "share/doc/pikhsen": ["README.md", "CHANGELOG.md"],
    "share/doc/pikhsen/docs": [f"docs/{it.name}" for it in (TOP / "docs").glob("*.*")],
    "share/doc/pikhsen/docs/programs": [f"docs/programs/{it.name}" for it in (TOP / "docs/programs").iterdir()],
    "share/pikhsen/pikhsen": ["python/pikhsen/__init__.py", "python/pikhsen/_files.py"],
}
INSTALLED = {f"{folder}/{pathlib.Path(it).name}": it for folder, files in FOLDERS.items() for it in files}
FLAGS = """prefix={}
libdir=${{prefix}}/{}
includedir=${{prefix}}/include

Name: pikhsen
Description: Argon2, scrypt and scrypt's encrypted files, from proved libraries
Version: {}
Libs: -L"${{libdir}}" -lpikhsen
Cflags: -I"${{includedir}}"
"""
PREFIXES = ("", "begin with /"), ("a/b", "begin with /"), ("/a\nb", "newline")  # that are refused, and what is said
LIST, SUM_OF_ANOTHERS = "share/doc/pikhsen/installed.sha256", hashlib.sha256(b"another's").hexdigest()


class Room(Tree):
    """A copy of the tree with the static library in C, and with what is installed beside what is built."""

    def __init__(self, folder):
        super().__init__(folder, CRATES)
        self.folder = pathlib.Path(folder)
        (self.folder / "tmp").mkdir()
        self.environment.update(ARCHIVE=f"{folder}/functions.a", TMPDIR=f"{folder}/tmp")
        for name in ("compat", "completions", "docs", "include", "man", "python"):
            shutil.copytree(TOP / name, self.top / name, ignore=shutil.ignore_patterns("__pycache__"))
        for name in ("README.md", "CHANGELOG.md"):
            shutil.copy(TOP / name, self.top)

    def compile_library(self):
        """Makes the static library, as rt has it: the names of the header, over the heap, whose names are not to be seen
        outside, with a name of its own, and for any place. gcc is the kit's compiler."""
        heap = "struct tried { _Bool ok; void *block; } rattle_alloc(unsigned long, unsigned long);\n"
        bodies = [f"unsigned int {it}(void) {{ return rattle_alloc(1, 1).ok; }}\n" for it in sorted(prototypes(HEADER))]
        put(self.folder / "text.c", "".join([heap, "int own(void);\nint own(void) { return 1; }\n", *bodies]))
        for words in (["gcc", "-fPIC", "-O1", "-c", "text.c", "-o", "text.o"], ["ar", "rcs", "functions.a", "text.o"]):
            subprocess.run(words, cwd=self.folder, check=True)
        (self.kit / "toolchain/bin/clang").write_text('#!/bin/sh\nexec gcc "$@"\n')

    @contextlib.contextmanager
    def instead(self, text, *paths):
        """These files have another text for a while, or are not there where it is None."""
        before = {it: it.read_bytes() if it.exists() else None for it in paths}
        for path in paths:
            path.unlink(missing_ok=True) if text is None else put(path, text)
        yield
        for path, content in before.items():
            path.unlink(missing_ok=True) if content is None else path.write_bytes(content)

    def modes(self, names):
        return [mode(self.top / it) for it in names if (self.top / it).exists()]

    def texts(self, *names):
        return [it.read_text(encoding="utf-8", errors="replace") if it.exists() else None for it in map(self.top.joinpath, names)]


def mode(path):
    return oct(path.stat().st_mode & 0o7777)


def below(folder):
    """What lies below a folder: by each path what a file holds, or where a link leads; nothing of a folder."""
    paths = {str(it.relative_to(folder)): it for it in folder.rglob("*")}
    return {name: os.readlink(it) if it.is_symlink() else it.read_bytes() if it.is_file() else None for name, it in paths.items()}


def programs_are_built(checks, room, level):
    """The programs are those that rt built for the level, and all can run them; a change during the proof is newer."""
    built, here, before = [f"bin/{level}/{it}" for it in TOOLS], room.texts("bin/level", *CHOSEN), time.time()
    room.write("host", f"for {level}\n")
    status, _ = room.run("packaging/build.sh", level, umask=0o077)
    checks.that(f"build.sh {level}", (status, room.modes(built)), (0, ["0o755"] * len(built)))
    outs = [it.replace("the heap of the kit", "heap.c\nuntraced.c") for it in room.texts(*OUTS) if it]
    checks.that(f"build.sh {level}: the programs", room.texts(*built), outs)
    checks.that(f"build.sh {level}: those in bin/ stay", room.texts("bin/level", *CHOSEN), here)
    begun = {(room.top / it).stat().st_mtime for it in [*built, f"bin/{level}/began"]}
    found = [before - 2 <= it <= time.time() for it in begun]
    checks.that(f"build.sh {level}: as old as the beginning of the proof", found, [True])
    levels = {words[words.index("--cpu") + 1] for _, crate, words in room.noted("begin") if crate in TOOLS.values()}
    checks.that(f"build.sh {level}: the level", levels, {level})
    status, _ = room.run("packaging/chosen.sh", level, umask=0o077)
    checks.that(f"chosen.sh {level}", (status, room.modes(CHOSEN)), (0, ["0o755"] * len(built)))
    checks.that(f"chosen.sh {level}: the level, the programs", room.texts("bin/level", *CHOSEN), [f"{level}\n", *outs])
    checks.that(f"chosen.sh {level}: copies", [it for it in CHOSEN if (room.top / it).is_symlink()], [])


def both_levels_are_built(checks, room):
    for level in (LEVEL, OTHER):
        programs_are_built(checks, room, level)
    there = [*PROGRAMS, "bin/level"]
    room.older(there)
    found = room.run("packaging/build.sh", "x86-64-v4")[0], room.there(there)
    checks.that("a level that there is not", found, (2, there))
    # chosen.sh changes nothing where a program of the level is missing
    there = [*CHOSEN, "bin/level"]
    for missing in OTHERS:
        room.older([*there, *OTHERS])
        (room.top / missing).unlink()
        status, _ = room.run("packaging/chosen.sh", OTHER)
        checks.that(f"chosen.sh without {missing}", (status != 0, room.texts(*there)), (True, [f"older {it}" for it in there]))


def failures(room, has_gcc):
    """What fails: its name, the file that has another text then, the script, what that must not leave, and says."""
    build, link = ["packaging/build.sh", LEVEL], ["packaging/link.sh", LEVEL]
    lib, deb = ["packaging/lib.sh", "bin/lib"], ["packaging/deb.sh", "bin/lib", "bin"]
    of_lib = [*LIBRARIES, *COMPAT, PACKAGE, WHEEL]
    for crate in reversed(TOOLS.values()):
        yield f"{crate} fails", room.source(crate), "broken\n", build, OF_BUILD, f"{crate} FAILED"
    # rt that says that all is well, and makes no program
    lacking = STAND_IN.replace('if words[0] == "run":', 'if words[0] == "run" and name != "scrypt_tool":')
    yield "no program is made", room.kit / "bin/rt", lacking, build, OF_BUILD, "scrypt_tool FAILED"
    # a program is another than rt's, linked with the kit's heap
    otherwise = KIT["bin/rattle-link"] + 'echo >>"$to"\n'
    for script, words, none in ("build.sh", build, OF_BUILD), ("link.sh", link, BUILT):
        for name in ("toolchain/bin/clang", "bin/rattle-link"):
            yield f"{script}, {name} fails", room.kit / name, FAILS, words, none, ""
        yield f"{script}, bin/rattle-link links otherwise", room.kit / "bin/rattle-link", otherwise, words, none, ""
    for name in ("dpkg-deb", "objdump", "gzip"):
        yield f"deb.sh, {name} fails", room.kit / "bin" / name, FAILS, deb, PACKAGES, ""
    if has_gcc:
        for name in ("ld", "objcopy", "ar", "ranlib", "cc"):
            yield f"lib.sh, {name} fails", room.kit / "bin" / name, FAILS, lib, of_lib, ""
        yield "lib.sh without what rt left", room.top / ARCHIVE, None, lib, of_lib, ""
        source, said = room.source("pikhsen_c"), "| pikhsen_c::there: no proof"
        yield "lib.sh, a proof that fails", source, "broken\n", ["make", "lib"], [*of_lib, ARCHIVE], said


def what_fails_leaves_nothing(checks, room, has_gcc):
    """A proof, a compiler, a linker or a packer that fails leaves nothing that the script makes, and nothing that is
    made of that, older ones neither."""
    for name, file, text, words, none, says in failures(room, has_gcc):
        room.older([*OF_BUILD, *OUTS, *LIBRARIES, *COMPAT, *PACKAGES, WHEEL])
        with room.instead(text, file):
            status, said = room.run(*words)
        checks.that(name, (status != 0, room.there(none), says in said), (True, [], True))
    mended = [(["packaging/build.sh", LEVEL], BUILT)]
    if has_gcc:
        found = room.begun(), room.there(PROGRAMS)
        checks.that("make lib, a proof that fails: begun, and the programs", found, (["pikhsen_c"], PROGRAMS))
        mended.append((["packaging/lib.sh", "bin/lib", LEVEL], LIBRARIES[:2]))
    for words, made in mended:
        checks.that(f"{words[0]}, mended", (room.run(*words)[0], room.there(made)), (0, made))
    checks.that("folders that are left", os.listdir(room.folder / "tmp"), [])


def is_stopped(checks, room):
    """A signal to a script and all that it began leaves no program and no library. Older ones go before the proof, from
    bin/, too, where they are of the level that is proved."""
    for script, words, makes, there, crate in (
        ("build.sh", [LEVEL], [*PROGRAMS, "bin/level"], [*PROGRAMS, PACKAGE], "host"),
        ("lib.sh", ["bin/lib", LEVEL], LIBRARIES, [*LIBRARIES, *COMPAT, PACKAGE], "blake"),
    ):
        for number in (signal.SIGTERM, signal.SIGINT):
            room.older(there)
            (room.top / "bin/level").write_text(f"{LEVEL}\n")
            room.write(crate, f"slow {script} {number}\n")
            running = room.start_at(crate, f"packaging/{script}", *words)
            checks.that(f"{script}: what it makes, while it proves", room.there(makes), [])
            os.killpg(running.pid, number)
            running.communicate(timeout=30)
            checks.that(f"{script}, stopped by {number.name}", (running.returncode != 0, room.there(there)), (True, []))
        room.write(crate, "as it was\n")


def library_is_made(checks, room):
    """The library has the names of the header alone, is bound and protected as it should be, the same each time."""
    room.compile_library()
    made = []
    for folder, umask, proved in (("bin/lib", 0o077, [OTHER, LEVEL]), ("bin/another folder", 0o022, [])):
        status, said = room.run("packaging/lib.sh", folder, *proved, umask=umask)
        checks.that(f"lib.sh into {folder}", (status, said if status else ""), (0, ""))
        levels = [words[words.index("--cpu") + 1] for _, crate, words in room.noted("begin") if crate == "pikhsen_c"]
        checks.that("lib.sh: the levels", levels, proved)
        made.append(below(room.top / folder))
    both, lower = made
    # the stand-in for rt has one library for all levels
    higher, of_other = {it: both.pop(it) for it in [*both] if it.startswith("glibc-hwcaps")}, f"glibc-hwcaps/{OTHER}"
    expected = {"glibc-hwcaps": None, of_other: None, f"{of_other}/libpikhsen.so.0": both.get("libpikhsen.so.0")}
    checks.that("lib.sh: the same bytes in another folder", both == lower, True)
    checks.that("lib.sh: the higher level", higher == expected, True)
    static, shared, _ = (str(room.top / it) for it in LIBRARIES)
    binaries.library(checks, shared, static, sorted(prototypes(HEADER)))
    checks.that("lib.sh: folders that it leaves", os.listdir(room.folder / "tmp"), [])


def is_installed(checks, room):
    """Each file is there with its bytes and its permissions, whatever the umask is, and no other is; and all is listed."""
    to, another = room.folder / "this & that|other", room.folder / "another"
    (to / "bin").mkdir(parents=True)
    another.write_text("another's")
    (to / "bin/scrypt").symlink_to(another)
    room.older([*CHOSEN, "bin/level", *LIBRARIES, *COMPAT])
    checks.that("make install", room.run("make", "install", f"PREFIX={to}", umask=0o077)[0], 0)
    checks.that("a link in the place of a program", another.read_text(), "another's")
    wanted = {it: (room.top / file).read_bytes() for it, file in INSTALLED.items()}
    for it in wanted:
        if "/man/" in it:  # manual pages name documents by where they are installed
            wanted[it] = wanted[it].replace(b"/usr/local/share/doc/", f"{to}/share/doc/".encode())
    flags = FLAGS.format(to, "lib", VERSION)
    configuration = room.texts("compat/openssl/openssl.cnf")[0].replace("@FOLDER@", f"{to}/lib/pikhsen/compat")
    wanted.update({"lib/libpikhsen.so": "libpikhsen.so.0", "lib/pkgconfig/pikhsen.pc": flags.encode(),
                   "lib/pikhsen/compat/openssl.cnf": configuration.encode(), "share/pikhsen/pikhsen/py.typed": b""})
    found = {name: text for name, text in below(to).items() if text is not None}
    listed = [it.split("  ")[1] for it in found.pop(LIST).decode().splitlines() if not it.startswith("# folder  ")]
    checks.that("files, installed", sorted(found), sorted(wanted))
    checks.that("files, installed, and what they hold", [it for it in wanted if found.get(it) != wanted[it]], [])
    modes = {name: "0o755" if text is None or "bin/" in name else "0o644" for name, text in below(to).items()}
    checks.that("permissions, installed", {it: mode(to / it) for it in modes}, modes)
    checks.that("what is listed", sorted(listed), sorted(wanted))
    checks.that("sums that are listed", ran("sha256sum", "--strict", "--quiet", "-c", LIST, cwd=to), (0, ""))
    if is_there("pkg-config", "what it says of the library is not looked at", 2):
        environment = {"PATH": os.environ["PATH"], "PKG_CONFIG_PATH": f"{to}/lib/pkgconfig"}
        for word, flags in (("--cflags", [f"-I{to}/include"]), ("--libs", [f"-L{to}/lib", "-lpikhsen"])):
            checks.that(f"pkg-config {word}", shlex.split(ran("pkg-config", word, "pikhsen", env=environment)[1]), flags)


def is_taken_away(checks, room):
    """What was put there goes, with the folders that were made for it; what is another's, or was changed since, stays."""
    prefix, lib = "/a \\b&c|d", "lib/e&f|g"
    to, words = pathlib.Path(f"{room.folder}/stage{prefix}"), (f"DESTDIR={room.folder}/stage", f"PREFIX={prefix}")
    (to / "include").mkdir(parents=True)
    for sign in "#$\\'\"`":
        found = room.run("packaging/install.sh", "install", to, "bin", "bin/lib", PREFIX=f"/a{sign}b"), below(to)
        checks.that(f"a prefix with {sign}, which openssl.cnf can't name", (found[0][0], "can't name" in found[0][1], found[1]), (2, True, {"include": None}))
    with room.instead(None, room.top / COMPAT[1]):
        checks.that("make install, into DESTDIR", room.run("make", "install", *words, PIKHSEN_LIB=lib)[0], 0)
    flags = (to / lib / "pkgconfig/pikhsen.pc").read_text(encoding="utf-8")
    checks.that("a prefix with signs of sed's", flags, FLAGS.format(prefix, lib, VERSION))
    changed, link, gone = ["bin/scrypt", "share/doc/pikhsen/README.md"], f"{lib}/libpikhsen.so", "share/man/man1/scrypt.1"
    for name in (link, gone):
        (to / name).unlink()
    (to / link).symlink_to("libpikhsen.so.7")
    for name in [*changed, "share/zsh/another"]:
        (to / name).write_bytes(b"another's")
    left = {link: "libpikhsen.so.7", **dict.fromkeys([*changed, "share/zsh/another"], b"another's"),
            **dict.fromkeys(["bin", "include", "lib", lib, "share", "share/doc", "share/doc/pikhsen", "share/zsh"])}
    for name in ("__init__", "_files"):
        put(to / f"share/pikhsen/pikhsen/__pycache__/{name}.cpython-39.pyc", "")
    why = {**dict.fromkeys([*changed, link], "was changed since"), gone: "is not there"}
    said = "".join(f"packaging/install.sh: left {name} below {to}: it {why[name]}\n" for name in sorted(why))
    checks.that("make uninstall", room.run("make", "uninstall", *words), (0, said))
    checks.that("what uninstall leaves", below(to), left)
    status, said = room.run("packaging/install.sh", "uninstall", to)
    checks.that("uninstall without a list", (status, said.count("\n"), below(to) == left), (2, 1, True))


def another_is_installed_over_it(checks, room):
    """What an older one put there and this does not goes, as at uninstall; where an install fails, all of both is listed."""
    stage, to = f"DESTDIR={room.folder}/over", room.folder / "over/usr/local"
    room.run("make", "install", stage)
    for name in ("include/pikhsen.h", "bin/scrypt"):
        (to / name).write_bytes(b"edited")
    older = below(to)
    status, said = room.run("packaging/install.sh", "install", to, "bin")
    gone = [name for name, text in older.items() if name not in below(to) and text is not None]
    told = [f"left include/pikhsen.h below {to}: it was changed since",
            *(f"took away {it} below {to}, which this install does not put there" for it in gone)]
    found = status, sorted(said.splitlines())
    checks.that("install, over an older one", found, (0, sorted(f"packaging/install.sh: {it}" for it in told)))
    left = {"include": None, "include/pikhsen.h": b"edited"}
    found = {it: text for it, text in below(to).items() if it.startswith(("lib/l", "include"))}
    checks.that("what is left of the older one", found, left)
    checks.that("the new one", (to / "bin/scrypt").read_bytes(), b"older bin/scrypt")
    checks.that("make uninstall, after both", (room.run("make", "uninstall", stage), below(to)), ((0, ""), left))
    room.run("make", "install", stage)
    halves = 'for to; do :; done\ncase $to in *README.md*) echo half >"$to"; exit 1 ;; esac\ncommand -p cp "$@"\n'
    with room.instead("another", room.top / "README.md"), room.instead(f"#!/bin/sh\n{halves}", room.kit / "bin/cp"):
        status, _ = room.run("packaging/install.sh", "install", to, "bin", PIKHSEN_ZSH="share/other")
    found = (to / "share/doc/pikhsen/README.md").read_text()
    checks.that("an install that fails leaves the file that is there", found, room.texts("README.md")[0])
    found = status != 0, room.run("make", "uninstall", stage)[0], below(to)
    checks.that("an install that fails", found, (True, 0, {"include": None}))


def a_list_leads_out(checks, room):
    """What is not below the folder stays, where a list names it by dots, with a slash, by a link or on two lines."""
    to, outside = room.folder / "hostile", room.folder / "outside"
    for folder in (to / "bin", to / "share/doc/pikhsen", outside / "empty"):
        folder.mkdir(parents=True)
    (to / "link").symlink_to(outside)
    for name in ("file", "two\nlines"):
        (outside / name).write_bytes(b"another's")
    names = ["../outside/file", "bin/../../outside/file", f"{outside}/file", "link/file", "../outside/two\nlines", "../outside/two\\nlines"]
    lines = [*(f"{SUM_OF_ANOTHERS}  {it}" for it in names), f"\\{SUM_OF_ANOTHERS}  ../outside/two\\nlines",
             *(f"# folder  {it}" for it in ("../outside/empty", f"{outside}/empty", "link/empty")), "", "bin"]
    before = below(outside)
    for what in ("uninstall", "install"):
        (to / "bin/argon2").write_bytes(b"another's")
        (to / LIST).write_text("\n".join([*lines, f"{SUM_OF_ANOTHERS}  bin/argon2"]), encoding="utf-8")
        status, said = room.run("packaging/install.sh", what, to, "bin")
        checks.that(f"{what}, over a list that leads out", (status, below(outside) == before), (0, True))
        checks.that(f"{what}, over a list that leads out: what is said", said.count("packaging/install.sh: left "), 10)
        checks.that(f"{what}, over a list that leads out: what is below", (to / "bin/argon2").exists(), what == "install")
    (to / "share/zsh").rename(outside / "zsh")
    (to / "share/zsh").symlink_to(outside / "zsh")
    before = below(to)
    status, said = room.run("packaging/install.sh", "install", to, "bin")
    checks.that("install, where a link leads out", (status, said.count("\n"), below(to) == before), (2, 1, True))


def prefixes_are_refused(checks, room):
    """A prefix that is empty, does not begin with a slash or has a newline is refused before anything is touched or built."""
    to = room.folder / "nowhere"
    for name in CHOSEN:
        (room.top / name).unlink(missing_ok=True)
    with room.instead(FAILS, *(room.kit / "bin" / it for it in ("mktemp", "mkdir", "install", "cp", "rm", "rmdir"))):
        for what, (prefix, why) in itertools.product(("install", "uninstall"), PREFIXES):
            found = room.run("packaging/install.sh", what, prefix, "bin"), room.run("packaging/install.sh", what, to, "bin", PREFIX=prefix)
            checks.that(f"{what}, {prefix!r}", [(it, said.count("\n"), why in said) for it, said in found], [(2, 1, True)] * 2)
            for words in ([], [f"DESTDIR={to}"]):
                status, said = room.run("make", what, f"PREFIX={prefix}", *words)
                checks.that(f"make {what}, {prefix!r}{', into DESTDIR' * len(words)}", (status, why in said), (2, True))


def main(checks, folder):
    room = Room(folder)
    both_levels_are_built(checks, room)
    has_gcc = is_there("gcc", "packaging/lib.sh is not looked at")
    if has_gcc:
        library_is_made(checks, room)
    what_fails_leaves_nothing(checks, room, has_gcc)
    if has_gcc:
        is_stopped(checks, room)
    for part in (is_installed, is_taken_away, another_is_installed_over_it, a_list_leads_out, prefixes_are_refused):
        part(checks, room)


if __name__ == "__main__":
    sys.dont_write_bytecode = True
    over_programs(main, __doc__)
