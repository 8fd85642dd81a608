"""Reads what is written of libpikhsen, and compares it, for tests/pages/values.py: header, sources and manual page have
the same functions, parameters and versions. It compares their numbers and sentences, and those of the module for Python.
"""
import os
import re

from checking import is_there, ran, said
from tree import TOP, VERSION, read

HEADER, PAGE = read("include/pikhsen.h"), read("man/pikhsen.3")
MODULE, FILES = read("python/pikhsen/__init__.py"), read("python/pikhsen/_files.py")
SOURCES = {it.stem: it.read_text(encoding="utf-8") for it in sorted((TOP / "crates/pikhsen_c/src").glob("*.rt"))}
# How the parameter NAME of a type of the sources is written in C.
IN_C = {
    "Machine": (), "Answer": ("unsigned int NAME",), "u32": ("unsigned int NAME",), "u64": ("pikhsen_u64 NAME",), "usize": ("size_t NAME",),
    "&[u8]": ("const BYTES *NAME", "size_t NAME_len"), "&mut [u8]": ("BYTES *NAME", "size_t NAME_len"),
    "&mut usize": ("size_t *NAME",), "&mut u32": ("unsigned int *NAME",), "&mut PikhsenScryptCosts": ("struct pikhsen_scrypt_costs *NAME",),
    "&PikhsenArgon2Settings": ("const struct pikhsen_argon2_settings *NAME",),
    "&mut PikhsenArgon2Settings": ("struct pikhsen_argon2_settings *NAME",), "&mut PikhsenStream": ("pikhsen_stream *NAME",),
}
# What C has as a string is of char, and other bytes are of void: by its name, or by its function's, too.
STRINGS = {"password", "passphrase", *(f"pikhsen_{it}" for it in (
    "message out", "argon2_encoded out", "argon2_encoded_keyed out", "argon2_verify text", "argon2_verify_keyed text",
    "argon2_settings text", "argon2_needs_rehash text"))}
# The exports that want no memory, and derive and hash nothing.
NO_MACHINE = ["pikhsen_message", "pikhsen_scrypt_info", "pikhsen_version"]
# Those that nothing refuses.
ALWAYS_DONE = ["pikhsen_stream_free", "pikhsen_version"]
# The faults whose numbers have names of their own in the header; those of RangeFault begin with TEXT.
RENAMED = {
    "CostFault::Memory": "MEMORY_LIMIT", "CostFault::Work": "WORK_LIMIT", "HeaderFault::Version": "FORMAT_VERSION",
    "HeaderFault::CostsOutOfRange": "FILE_COSTS", "ReadFault::NotInGrammar": "NOT_ENCODED",
}


def declared_exports():
    """The exported functions of the sources, each with its parameters and its result."""
    form = r'#\[unsafe\(no_mangle\)\]\npub extern "C" fn (\w+)\(([^)]*)\) -> (\w+)\n'
    return re.findall(form, "\n".join(SOURCES.values()))


def exports():
    """The same, with result and parameters as the header must have them."""
    found = {}
    for name, parameters, result in declared_exports():
        pairs = [it.strip().split(": ") for it in parameters.split(",") if it.strip()]
        kinds = {called: "char" if STRINGS & {called, f"{name} {called}"} else "void" for called, _ in pairs}
        words = [word.replace("NAME", called).replace("BYTES", kinds[called]) for called, kind in pairs for word in IN_C[kind]]
        found[name] = (IN_C[result][0].replace(" NAME", ""), words or ["void"])
    return found


def prototypes(text):
    """The functions that a text in C declares, in the same form."""
    attributes = r"^PIKHSEN_MUST_CHECK(?: PIKHSEN_NOT_NULL\(\d+\))*\n"
    bare = re.sub(rf"/\*.*?\*/|{attributes}", "", text, flags=re.DOTALL | re.MULTILINE)
    found = {}
    for result, name, parameters in re.findall(r"^(unsigned int) (\w+)\(([^)]*)\);", bare, re.MULTILINE):
        found[name] = (result, [" ".join(it.split()) for it in parameters.split(",")])
    return found


def never_null(parameters):
    """The places of pointers without a length, counted from 1: only these may not be null."""
    plain = [it.removeprefix("const ") for it in parameters]
    return [at for at, it in enumerate(plain, 1) if "*" in it and not it.startswith(("char *", "void *"))]


def numbers_of_sources():
    """The numbers of `status`, by the names that the header gives them."""
    numbers = {name: int(number) for name, number in re.findall(r"const (\w+): u32 = (\d+);", SOURCES["status"])}
    for kind, fault, number in re.findall(r"(\w+Fault)::(\w+) => (\w+),", SOURCES["status"]):
        snake = "TEXT" * (kind == "RangeFault") + re.sub("(?=[A-Z])", "_", fault).upper()
        name = RENAMED.get(f"{kind}::{fault}") or snake.lstrip("_")
        value = int(number) if number.isdigit() else numbers[number]
        if numbers.setdefault(name, value) != value:
            numbers[name] = None
    return numbers


def numbers_of_header():
    """The numbers and what they say."""
    table = HEADER.split("enum pikhsen_status {")[1].split("}")[0]
    found = re.findall(r"PIKHSEN_(\w+) = (\d+),? */\* (.*) \*/", table)
    return {name: (int(number), says) for name, number, says in found}


def numbers_of_module():
    table = MODULE.split("class Status(")[1].split("\nclass ")[0]
    numbers = dict(re.findall(r"^    (\w+) = (\d+)$", table, re.MULTILINE))
    says = dict(re.findall(r"^    Status\.(\w+): ['\"](.*)['\"],$", MODULE, re.MULTILINE))
    return {name: (int(number), says.get(name)) for name, number in numbers.items()}


def numbers_of_page():
    found = re.findall(r"^(\d+)\tPIKHSEN_(\w+)\tT\{\n(.*)\nT\}", PAGE.replace("\\-", "-"), re.MULTILINE)
    return {name: (int(number), says) for number, name, says in found}


def kinds():
    """The numbers of Argon2's types: of the sources, the header and the module."""
    sources = re.findall(r"^        (\d) => Some\(Kind::(\w+)\),", SOURCES["argon2"], re.MULTILINE)
    header = re.findall(r"PIKHSEN_ARGON2(\w+) = (\d)", HEADER.split("enum pikhsen_kind {")[1].split("}")[0])
    module = re.findall(r"^    (\w+) = (\d)$", MODULE.split("class Kind(")[1].split("class ")[0], re.MULTILINE)
    return [{name.upper(): int(it) for it, name in sources}, *({name: int(it) for name, it in each} for each in (header, module))]


def compare_texts(that):
    defined = read("crates/pikhsen_c/specs/Message.antt")
    table = re.findall(r'if status == (\d+) then codes "(.*)"$', defined, re.MULTILINE)
    others = re.findall(r'^    else codes "(.*)"$', defined, re.MULTILINE)
    of_contracts = {int(number): says.replace('\\"', '"') for number, says in table}
    that("sentences of the contracts", (of_contracts, others), (dict(numbers_of_header().values()), ["unknown number"]))
    room = re.search(r"\n#define PIKHSEN_MESSAGE_ROOM (\d+)\n", HEADER)[1]
    short = f"    ensures room {{ {room} ≤ length out.old → result ≡ 0 }}\n"
    that("room of a sentence, of the header and the contract", short in SOURCES["message"], True)
    found = re.findall(r"^PIKHSEN_MUST_CHECK((?: PIKHSEN_NOT_NULL\(\d+\))*)\nunsigned int (\w+)", HEADER, re.MULTILINE)
    must_check = {name: [int(place) for place in re.findall(r"\d+", attributes)] for attributes, name in found}
    that("answers that must be looked at", sorted([*must_check, *ALWAYS_DONE]), sorted(exports()))
    declared = prototypes(HEADER)
    that("header: what may not be null", must_check, {it: never_null(declared[it][1]) for it in must_check})
    that("functions of the header", declared, exports())
    # `wipe_stack` alone makes an `Answer`, of a machine
    machines = {name: (parameters.count(": Machine"), result) for name, parameters, result in declared_exports()}
    expected = {it: (0, "u32") if it in NO_MACHINE else (1, "Answer") for it in machines}
    that("machines of exports, and what they return", machines, expected)
    that("prototypes of the manual page", prototypes(re.sub(r"\n +", " ", PAGE.split("\n.SH ")[2])), declared)
    overheads = (r"\n#define PIKHSEN_FILE_OVERHEAD (\d+)\n", HEADER), (r"PIKHSEN_FILE_OVERHEAD ,\n(\d+), bytes longer", PAGE)
    that("overhead of a file, of the header and the manual page", [re.findall(*it) for it in overheads], [["128"]] * 2)
    asks, title, *_ = PAGE.split("\n")
    that("the manual page asks for tbl", asks, "'\\\" t")
    that("version of the manual page", f'"Pikhsen {VERSION}"' in title, True)
    if is_there("mandoc", "the manual page is not looked at", 1):
        that("manual page", said("mandoc", "-T", "lint", str(TOP / "man/pikhsen.3"), check=False), "")
    if is_there("mypy", "types of the Python module are not looked at", 1):
        that("types of the Python module and of its callers", types(MYPYPATH=str(TOP / "python")), (0, ""))
    number = sum(int(it) * power for it, power in zip(VERSION.split("."), (10000, 100, 1)))
    that("version of the header", re.findall(r"PIKHSEN_VERSION (\d+)u", HEADER), [str(number)])
    that("version of the sources", f"\n    {number}\n}}" in SOURCES["version"], True)


# What passes bytes in some forms, and a text: mypy says so where it need not be told to leave that error out.
CALLER = """import array
import io
import mmap
import pathlib
import pikhsen
import socket
import sys


def costs(file: pikhsen.BytesLike) -> int:
    return pikhsen.info(file).log_n


with mmap.mmap(-1, 128) as file, pikhsen.Encryptor(b"pw") as encryptor:
    print(costs(file), pikhsen.decrypt(file, array.array("B", b"pw"), keep=2), pikhsen.verify("text", bytearray(b"pw")))
    print(encryptor.update(file) + encryptor.finish())
    pikhsen.encrypt_in_place(file, b"pw")
    pikhsen.encrypt_in_place("text", b"pw")  # type: ignore[arg-type]
pikhsen.encrypt_file(sys.stdin.buffer, pathlib.Path("file"), b"pw", progress=print)
pikhsen.decrypt_file(socket.socket().makefile("rb"), io.BytesIO(), b"pw")
pikhsen.info("file")  # type: ignore[arg-type]
pikhsen.encrypt_file(sys.stdin, "file", b"pw")  # type: ignore[arg-type]
"""


def types(*words, **environment):
    """What mypy says of a caller of the module, and of the module."""
    # the oldest Python that docs/LIBRARY.md promises
    strict = ["mypy", "--strict", "--python-version", "3.9", "--no-error-summary", "--cache-dir=/dev/null"]
    return ran(*strict, *words, "-c", CALLER, env={"PATH": os.environ["PATH"], **environment})
