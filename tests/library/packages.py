#!/usr/bin/env python3
"""The library and the module where packaging/install.sh puts them, and the packages for Debian: the same bytes each time
and under each umask, each file in its package with its permissions, what each package says of itself, and how programs and
library are made. What else is installed, tests/build/build_scripts.py looks at.

    tests/library/packages.py FOLDER      the folder in which libpikhsen.so.0 and libpikhsen.a lie
"""
import gzip
import hashlib
import os
import pathlib
import re
import shutil
import subprocess
import sys

sys.path += map(str, pathlib.Path(__file__).resolve().parents[1].iterdir())  # the other folders of tests/
import binaries
from checking import is_there, left_out, over_library, ran, said
from library_texts import HEADER, prototypes, types
from shown import library_runs
from tree import PROGRAMS as TOOLS, TOP, VERSION

PROGRAMS = TOP / "bin/x86-64-v2"
# The level for which one more package of the programs is made: the higher one, where they are built for it.
MORE = "x86-64-v3" if (TOP / "bin/x86-64-v3/scrypt").exists() else "x86-64-v2"
LIBRARIES, MODULES = "usr/lib/x86_64-linux-gnu", "usr/lib/python3/dist-packages/pikhsen"
# The time of all files of the packages: any will do.
EPOCH = 1234567890
DAY = "Fri, 13 Feb 2009 23:31:30 +0000"
# The library for x86-64-v3 in the folder of that for x86-64-v2, where it was built.
HIGHER = "glibc-hwcaps/x86-64-v3/libpikhsen.so.0"
# The examples of docs/LIBRARY.md.
EXAMPLES = [it.name for it in (TOP / "docs/programs").iterdir()]
# What stands in each package beside CHANGELOG.md and changelog.gz.
FILES = {
    "pikhsen": [
        *(it.format(name) for name in TOOLS for it in (
            "usr/bin/{}", "usr/share/man/man1/{}.1.gz", "usr/share/bash-completion/completions/{}",
            "usr/share/zsh/vendor-completions/_{}")),
        "usr/bin/scrypt-ask", "usr/share/man/man1/scrypt-ask.1.gz", "usr/share/man/man7/pikhsen-compat.7.gz", "usr/share/bash-completion/completions/scrypt-ask",
        "usr/share/doc/pikhsen/README.md", "usr/share/lintian/overrides/pikhsen",
        *(f"usr/share/doc/pikhsen/docs/{it.name}" for it in (TOP / "docs").glob("*.*")),
        *(f"usr/share/doc/pikhsen/docs/programs/{it}" for it in EXAMPLES),
    ],
    "libpikhsen0": [f"{LIBRARIES}/libpikhsen.so.0", "usr/share/lintian/overrides/libpikhsen0"],
    "libpikhsen-dev": [
        "usr/include/pikhsen.h", f"{LIBRARIES}/libpikhsen.a", f"{LIBRARIES}/libpikhsen.so -> libpikhsen.so.0",
        f"{LIBRARIES}/pkgconfig/pikhsen.pc", "usr/share/man/man3/pikhsen.3.gz", "usr/share/doc/libpikhsen-dev/LIBRARY.md",
        *(f"usr/share/doc/libpikhsen-dev/programs/{it}" for it in EXAMPLES),
    ],
    "python3-pikhsen": [f"{MODULES}/{it}" for it in ("__init__.py", "_files.py", "py.typed")],
    "pikhsen-libargon2": [f"{LIBRARIES}/libargon2.so.1", "usr/share/lintian/overrides/pikhsen-libargon2"],
    "pikhsen-openssl": [f"{LIBRARIES}/pikhsen/compat/{it}" for it in ("openssl.cnf", "pikhsen.so")],
}
# What dpkg reads of each package beside control and md5sums.
CONTROL = {"pikhsen": [], "libpikhsen0": ["shlibs", "symbols", "triggers"], "libpikhsen-dev": [], "python3-pikhsen": ["postinst", "prerm"],
           "pikhsen-libargon2": ["shlibs", "triggers"], "pikhsen-openssl": []}
# What each package says of itself. LIBC is the newest version of the C library that its programs ask for.
FIELDS = {
    "pikhsen": {"Architecture": "amd64", "Section": "utils", "Depends": "libc6 (>= LIBC)",
                "Conflicts": "argon2, scrypt", "Replaces": "argon2, scrypt"},
    "libpikhsen0": {"Architecture": "amd64", "Section": "libs", "Multi-Arch": "same", "Depends": "libc6 (>= LIBC)"},
    "libpikhsen-dev": {"Architecture": "amd64", "Section": "libdevel", "Multi-Arch": "same", "Depends": f"libpikhsen0 (= {VERSION})"},
    "python3-pikhsen": {"Architecture": "all", "Section": "python", "Depends": f"python3:any (>= 3.9), libpikhsen0 (>= {VERSION})"},
    "pikhsen-libargon2": {"Architecture": "amd64", "Section": "libs", "Multi-Arch": "same", "Depends": "libc6 (>= LIBC)", "Suggests": "pikhsen",
                          # apt-cache policy libargon2-1, on Debian 12
                          "Provides": "libargon2-1 (= 0~20171227-0.3+deb12u1)", "Conflicts": "libargon2-1", "Replaces": "libargon2-1"},
    "pikhsen-openssl": {"Architecture": "amd64", "Section": "libs", "Depends": "libc6 (>= LIBC), libssl3", "Suggests": "pikhsen"},
}
# What lintian says of packages without a licence and an address of who keeps them: the owner of the project chooses.
OF_THE_OWNER = {"no-copyright-file", "bogus-mail-host", "bogus-mail-host-in-debian-changelog"}


def installed(checks, folder, lib):
    """The library is found where it is installed, by the loader and by its module for Python, which leaves nothing there."""
    programs, below = pathlib.Path(folder, "programs"), pathlib.Path(folder, "this&that|other")
    programs.mkdir()
    for name in TOOLS:
        (programs / name).touch()
    script = TOP / "packaging/install.sh"
    subprocess.run([script, "install", below, programs, lib], env={"PATH": os.environ["PATH"]}, check=True)
    which_is_loaded(checks, below / "lib")
    module_installed(checks, folder, below / "share/pikhsen")
    found = ran(script, "uninstall", below, env={"PATH": os.environ["PATH"]})
    checks.that("uninstall, and what is left", (found, [*below.iterdir()]), ((0, ""), []))


# Prints which library is loaded after this import.
LOADED = """import %s
with open("/proc/self/maps") as maps:
    print(next(it.split(maxsplit=5)[-1] for it in maps if "libpikhsen" in it), end="")
"""


def which_is_loaded(checks, lib):
    """The loader takes the library for the highest level that the processor has, of those that are there."""
    if not (lib / HIGHER).is_file():
        left_out("the library is not built for x86-64-v3", "which one the loader takes is not looked at", 3)
        return
    lower, loader = "libpikhsen.so.0", ["/lib64/ld-linux-x86-64.so.2", "--glibc-hwcaps-mask"]
    highest, program = HIGHER if binaries.runs_v3() else lower, LOADED % 'ctypes; ctypes.CDLL("libpikhsen.so.0")'
    for name, words, wanted in (("", [], highest), (", told of no level", [*loader, "x86-64-v2"], lower),
                                (", told of the higher", [*loader, "x86-64-v3"], highest)):
        _, said_there = ran(*words, sys.executable, "-c", program, env={"LD_LIBRARY_PATH": str(lib)})
        checks.that(f"the library that is loaded{name}", said_there.rstrip("\n"), str(lib / wanted))


def module_installed(checks, folder, modules):
    """Python finds the installed module, which leaves its bytecode there, and mypy finds that it has types."""
    words = [sys.executable, "-c", "import pikhsen; print(pikhsen.__file__)"]
    found = ran(*words, env={"PYTHONPATH": str(modules)}, cwd=folder)
    checks.that("the installed module", found, (0, f"{modules}/pikhsen/__init__.py\n"))
    checks.that("its bytecode", any(modules.rglob("*.pyc")), True)
    if is_there("mypy", "types of the installed module are not looked at", 1):
        # a Python of its own, since mypy asks for py.typed only where Python finds a module by itself
        subprocess.run([sys.executable, "-m", "venv", "--without-pip", f"{folder}/venv"], check=True)
        site = next(pathlib.Path(folder, "venv").glob("lib/python*/site-packages"))
        (site / "installed.pth").write_text(f"{modules}\n", encoding="utf-8")
        found = types("--python-executable", f"{folder}/venv/bin/python")
        checks.that("types of the installed module", found, (0, ""))


def mode_of(path):
    """The permissions of a file of a package: programs and scripts can be run, and a link says nothing of it."""
    return "rwxrwxrwx" if " -> " in path else "rwxr-xr-x" if "bin/" in path or path in ("postinst", "prerm") else "rw-r--r--"


def paths(checks, package, file):
    """The package has its files alone, with their permissions, owned by root."""
    documents = [f"usr/share/doc/{package}/{it}" for it in ("CHANGELOG.md", "changelog.gz")]
    for name, part, wanted in (("files", "--fsys-tarfile", [*FILES[package], *documents]),
                               ("control", "--ctrl-tarfile", ["control", "md5sums", *CONTROL[package]])):
        rows = [line.split(maxsplit=5) for line in said("sh", "-c", 'dpkg-deb "$0" "$1" | tar -tv', part, file).splitlines()]
        found = {path.removeprefix("./").rstrip("/"): (mode, owner) for mode, owner, _, _, _, path in rows}
        there = {path: mode[1:] for path, (mode, _) in found.items() if mode[0] != "d"}
        checks.that(f"{package}: {name}", there, {it: mode_of(it) for it in wanted})
        folders = {mode for mode, _ in found.values() if mode[0] == "d"}
        checks.that(f"{package}: folders of its {name}", folders, {"drwxr-xr-x"})
        checks.that(f"{package}: owners of its {name}", {owner for _, owner in found.values()}, {"root/root"})


def newest_libc(files):
    """The newest version of the C library that these ask for."""
    asked = re.findall(r"Name: GLIBC_([\d.]+)", "".join(said("readelf", "-VW", str(it)) for it in files))
    return max(asked, key=lambda it: [int(part) for part in it.split(".")])


def fields(checks, package, root, control, version=VERSION, level="x86-64-v2"):
    """What the package says of itself; and the sums that dpkg --verify compares are those of all files."""
    there = [root / "usr", *(root / "usr").rglob("*")]
    plain = [it for it in there if it.is_file() and not it.is_symlink()]
    # as Debian counts it: each file in whole KiB, and one for each folder and each link
    kib = sum(-(-it.stat().st_size // 1024) for it in plain) + len(there) - len(plain)
    found = dict(re.findall(r"^([\w-]+): (.*)$", control, re.MULTILINE))
    files = [root / it for it in FILES[package] if it.removeprefix("usr/bin/") in TOOLS or re.search(r"\.so(\.\d)?$", it)]
    wanted = {**FIELDS[package], "Package": package, "Source": "pikhsen", "Version": version, "Priority": "optional",
              "Installed-Size": f"{kib}", "Maintainer": "The authors of Pikhsen <pikhsen@localhost>"}
    checks.that(f"{package}: its description", len(found.pop("Description", "")) in range(10, 80), True)
    if "LIBC" in wanted["Depends"]:
        wanted["Depends"] = wanted["Depends"].replace("LIBC", newest_libc(files))
        named = f"level {level} and above." in " ".join(control.split())
        checks.that(f"{package}: the level that its description names", named, True)
    checks.that(f"{package}: its fields", found, wanted)
    changes = gzip.decompress((root / f"usr/share/doc/{package}/changelog.gz").read_bytes()).decode()
    first, last = changes.splitlines()[0], changes.splitlines()[-1]
    checks.that(f"{package}: its changes", (first, last.partition("  ")[2]), (f"pikhsen ({version}) unstable; urgency=medium", DAY))
    sums = [f"{hashlib.md5(it.read_bytes()).hexdigest()}  {it.relative_to(root)}" for it in sorted(plain, key=str)]
    checks.that(f"{package}: sums", (root / "DEBIAN/md5sums").read_text(encoding="utf-8").splitlines(), sums)


def scripts(checks, root):
    """What dpkg runs for the module, where the programs are that Debian's own packages call there, and where not."""
    for name, program in (("postinst", "py3compile"), ("prerm", "py3clean")):
        for how, expected in (("without", ""), ("with", f"{program} -p python3-pikhsen\n")):
            folder = root / f"{how}-{name}"
            folder.mkdir()
            os.symlink("/bin/sh", folder / "sh")
            if expected:
                (folder / program).write_text(f'#!/bin/sh\necho {program} "$@"\n', encoding="utf-8")
                (folder / program).chmod(0o755)
            found = ran("/bin/sh", root / "DEBIAN" / name, "configure", env={"PATH": str(folder)})
            checks.that(f"{name}, {how} {program}", found, (0, expected))


def programs_built(checks, root, level):
    """The programs are those that were built for this level, which tests/programs/ run."""
    for name in TOOLS:
        program, of = root / "usr/bin" / name, f"{name} in the package for {level}"
        checks.that(of, program.read_bytes() == (TOP / "bin" / level / name).read_bytes(), True)
        binaries.hardened(checks, of, program, True)
        binaries.level(checks, of, program, level != "x86-64-v2")


def lint(checks, files):
    """What lintian says but for what the owner has to choose."""
    if not is_there("lintian", "it does not look at the packages", 2):
        return
    status, found = ran("lintian", "--allow-root", "--no-cfg", "--display-info", *files)
    lines = [it for it in found.splitlines() if re.match(r"[EWI]: ", it)]
    is_read = status in (0, 2), any("no-copyright-file" in it for it in lines)
    checks.that("lintian reads the packages", is_read, (True, True))
    checks.that("lintian", [it for it in lines if it.split(": ")[2].split()[0] not in OF_THE_OWNER], [])


def packages(checks, folder, lib):
    """The packages for Debian."""
    if not all(is_there(it, "packages are not made") for it in ("dpkg-deb", PROGRAMS / "scrypt")):
        return
    made = []
    # of other bytes than the library in bin/lib: deb.sh takes that which is named
    lib = shutil.copytree(lib, f"{folder}/library")
    with open(f"{lib}/libpikhsen.so.0", "ab") as shared:
        shared.write(bytes(1))
    subprocess.run([TOP / "packaging/compat.sh", lib, f"{lib}/pikhsen/compat"], check=True)
    if not pathlib.Path(lib, "pikhsen/compat/pikhsen.so").exists():
        left_out("libssl-dev is not installed", "pikhsen-openssl is not made")
        del FILES["pikhsen-openssl"], FIELDS["pikhsen-openssl"]
    for out, umask in ((f"{folder}/packages", 0o077), (f"{folder}/same", 0o002)):
        os.mkdir(out)
        pathlib.Path(out, f"pikhsen_{VERSION}+v9_amd64.deb").write_text("older", encoding="utf-8")
        done = subprocess.run([TOP / "packaging/deb.sh", lib, out, MORE], stdout=subprocess.DEVNULL, stderr=subprocess.PIPE, check=True,
                              env={**os.environ, "SOURCE_DATE_EPOCH": f"{EPOCH}"}, text=True, umask=umask)
        checks.that("what deb.sh says of what is wrong", done.stderr, "")
        made.append({file.name: file.read_bytes() for file in sorted(pathlib.Path(out).iterdir())})
    if pathlib.Path(lib, HIGHER).is_file():
        FILES["libpikhsen0"].append(f"{LIBRARIES}/{HIGHER}")
    wanted = [f"{name}_{VERSION}_{FIELDS[name]['Architecture']}.deb" for name in FIELDS]
    more = f"{VERSION}+{MORE.rpartition('-')[2]}"
    checks.that("packages", sorted(made[0]), sorted([*wanted, f"pikhsen_{more}_amd64.deb"]))
    checks.that("packages, made twice, under two umasks", made[0] == made[1], True)
    whole = pathlib.Path(folder, "root")
    for name in made[0]:
        package, file = name.split("_")[0], f"{folder}/packages/{name}"
        of = (more, MORE) if f"_{more}_" in name else (VERSION, "x86-64-v2")
        root = pathlib.Path(folder, f"root-{package}{of[0].removeprefix(VERSION)}")
        subprocess.run(["dpkg-deb", "-R", file, root], check=True)
        paths(checks, package, file)
        fields(checks, package, root, (root / "DEBIAN/control").read_text(encoding="utf-8"), *of)
        if package == "pikhsen":
            programs_built(checks, root, of[1])
        if of[0] == VERSION:
            shutil.copytree(root / "usr", whole / "usr", symlinks=True, dirs_exist_ok=True)
    scripts(checks, pathlib.Path(folder, "root-python3-pikhsen"))
    root = pathlib.Path(folder, "root-libpikhsen0")
    names = "".join(f" {it}@PIKHSEN_0 0.1.0\n" for it in sorted(["PIKHSEN_0", *prototypes(HEADER)]))
    for name, text in (("shlibs", f"libpikhsen 0 libpikhsen0 (>= {VERSION})\n"), ("triggers", "activate-noawait ldconfig\n"),
                       ("symbols", f"libpikhsen.so.0 libpikhsen0 #MINVER#\n* Build-Depends-Package: libpikhsen-dev\n{names}")):
        checks.that(name, (root / "DEBIAN" / name).read_text(), text)
    libraries = [it for it in ("libpikhsen.so.0", "libpikhsen.a", HIGHER) if pathlib.Path(lib, it).is_file()]
    other = [it for it in libraries if (whole / LIBRARIES / it).read_bytes() != pathlib.Path(lib, it).read_bytes()]
    checks.that("libraries in their packages that are others", other, [])
    which_is_loaded(checks, whole / LIBRARIES)
    text = (whole / LIBRARIES / "pkgconfig/pikhsen.pc").read_text(encoding="utf-8").splitlines()
    checks.that("pikhsen.pc in its package", text[:2], ["prefix=/usr", "libdir=${prefix}/lib/x86_64-linux-gnu"])
    library_runs(checks, folder, whole / LIBRARIES, whole / "usr/include", whole / "usr/lib/python3/dist-packages")
    lint(checks, [f"{folder}/packages/{it}" for it in made[0]])


def all_of(checks, folder, lib):
    installed(checks, folder, lib)
    packages(checks, folder, lib)


if __name__ == "__main__":
    os.umask(0o022)
    over_library(all_of)
