"""How programs and libraries are made: what readelf, nm and objdump show of them."""
import pathlib
import re

from checking import is_there, said

# What a processor of the level x86-64-v3 has, as /proc/cpuinfo calls it (the x86-64 psABI, 3.1.1; abm is LZCNT).
V3 = {"abm", "avx2", "bmi1", "bmi2", "f16c", "fma", "movbe"}


def hardened(checks, name, file, is_program, needed=("libc.so.6",)):
    """All is bound at the start and read-only afterwards, no memory can be both written and run, no text is changed
    where it is loaded, and nothing is looked for in folders of whoever built it."""
    head, segments, dynamic = (said("readelf", it, str(file)) for it in ("-hW", "-lW", "-dW"))
    kind = re.search(r"Type: +(\w+ \(.*\))", head)[1]
    checks.that(f"{name}: its kind", kind, f"DYN ({'Position-Independent Executable' if is_program else 'Shared object'} file)")
    bound = re.findall(r"\(FLAGS\) +(.*)", dynamic), re.search(r"\(FLAGS_1\) +Flags: .*NOW", dynamic) is not None
    checks.that(f"{name}: bound at the start", bound, (["BIND_NOW"], True))
    flags = dict(re.findall(r"^  (\w+) +(?:0x[0-9a-f]+ +){5}(R?W? ?E?)(?: |$)", segments, re.MULTILINE))
    checks.that(f"{name}: its stack is not run", flags.get("GNU_STACK", "").strip(), "RW")
    checks.that(f"{name}: read-only once it is bound", "GNU_RELRO" in flags, True)
    loaded = re.findall(r"^  LOAD +(?:0x[0-9a-f]+ +){5}([RWE ]{3})", segments, re.MULTILINE)
    checks.that(f"{name}: memory that is written and run", [it for it in loaded if "W" in it and "E" in it], [])
    checks.that(f"{name}: some memory is run", any("E" in it for it in loaded), True)
    checks.that(f"{name}: text that is changed, folders to look in", re.findall(r"\((TEXTREL|RPATH|RUNPATH)\)", dynamic), [])
    checks.that(f"{name}: libraries needed", re.findall(r"\(NEEDED\).*\[(.*)\]", dynamic), [*needed])


def level(checks, name, file, has_avx):
    """A program or library for x86-64-v3 has instructions of AVX, which begin with v; one for x86-64-v2 has none."""
    if is_there("objdump", f"the level of {name} is not looked at", 1):
        found = re.search(r"^ +[0-9a-f]+:\t[^\t]*\tv[a-z]", said("objdump", "-d", str(file)), re.MULTILINE) is not None
        checks.that(f"{name}: instructions of x86-64-v3", found, has_avx)


def runs_v3():
    """Whether the processor has the level x86-64-v3."""
    flags = re.search(r"(?m)^flags.*", pathlib.Path("/proc/cpuinfo").read_text(encoding="ascii", errors="replace"))
    return V3 <= {*flags[0].split()}


def names_in(checks, words, names):
    """A library exports these names and no other."""
    defined, others = (re.findall(rf"^[0-9a-f]+ {kind} (\w+)", said(*words), re.MULTILINE) for kind in ("T", "[^TtA]"))
    checks.that(f"names in {words[-1].rpartition('/')[2]}", (sorted(defined), others), (names, []))


def shared_library(checks, shared, names, has_avx=False):
    """The shared library has its own name, and the version of its names."""
    names_in(checks, ["nm", "-D", "--defined-only", shared], names)
    versions = re.findall(r" T \w+@@(\w+)$", said("nm", "-D", "--defined-only", shared), re.MULTILINE)
    checks.that("version of each name", versions, ["PIKHSEN_0"] * len(names))
    checks.that("soname", re.findall(r"\(SONAME\).*\[(.*)\]", said("readelf", "-d", shared)), ["libpikhsen.so.0"])
    checks.that("nothing of the machine at hand", re.findall(r"Build ID: (\w+)", said("readelf", "-nW", shared)), [])
    hardened(checks, "libpikhsen.so.0", shared, False)
    level(checks, "libpikhsen.so.0", shared, has_avx)


def library(checks, shared, static, names):
    """Both libraries, for x86-64-v2."""
    shared_library(checks, shared, names)
    names_in(checks, ["nm", "-g", "--defined-only", static], names)
    flags = re.findall(r"(?m)\.note\.GNU-stack +\w+ .* (X?) +\d+ +\d+ +\d+$", said("readelf", "-SW", static))
    checks.that("libpikhsen.a: a stack that is not run", flags, [""])
    members = re.findall(r"^(\S+ \S+) +\d+ .* (\d+) (\S+)$", said("ar", "tv", static), re.MULTILINE)
    checks.that("libpikhsen.a: members, owners and times", members, [("rw-r--r-- 0/0", "1970", "pikhsen.o")])
