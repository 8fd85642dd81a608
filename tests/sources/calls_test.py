#!/usr/bin/env python3
"""Tests the rules of tests/sources/calls.py: each must find what is put into the compiled code, as no source could be
proved with it in the time of a test. Most are what a body comes to that was proved, and did harm. And those of
tests/sources/sources.sh, over a copy of the sources.

    tests/sources/calls_test.py [FOLDER..]   as calls.py
"""
import copy
import pathlib
import shutil
import subprocess
import sys
import tempfile

import calls
from compiled import Code, nodes
from tree import TOP

BYTE, WORD = {"Int": 8}, {"Int": 64}


def place(local, *steps):
    return {"local": local, "steps": list(steps)}


def copied(local, *steps):
    return {"Copy": place(local, *steps)}


def number(value):
    return {"Int": {"width": 64, "value": value}}


def impl(name, *others):
    return {"Impl": [name, [], list(others)]}


def call(callee, *arguments, by=(), to=0):
    """A call of a function of this name, by these dictionaries, or of a method of an implementation, as it stands in a body."""
    words = {"types": [], "dicts": list(by)}
    return {"Call": [{"Fn": [callee, words]} if isinstance(callee, str) else {"Method": [*callee, words]}, list(arguments), place(to)]}


def assign(to, value):
    return {"Assign": [place(to), value]}


def first(*steps):
    """Puts steps at the beginning of a body."""
    def put(function):
        for it in reversed(steps):
            function["body"][:0] = ["Seq", *it] if isinstance(it, list) else ["Seq", it]
    return put


def at_end(step):
    """Puts a step before the last return of a body."""
    def put(function):
        at = len(function["body"]) - 1 - function["body"][::-1].index("Return")
        function["body"][at:at] = ["Seq", step]
    return put


def branch(on):
    return [{"If": on}, "Skip", "Skip"]


def new(function, kind):
    """The number of a new local of a function."""
    function["locals"].append({"ty": kind, "home": "ValueLocal"})
    return len(function["locals"]) - 1


def array(length):
    """A value of so many bytes on the stack."""
    return lambda function: new(function, {"Array": [BYTE, {"Lit": length}]})


def turns(many):
    return first(["Block", "Loop", assign(0, {"Opd": number(many)})])


def by_words_in_an_array(function):
    """Two bytes that are put into words, which are compared."""
    words, answer = new(function, {"Array": [WORD, {"Lit": 2}]}), new(function, "Bool")
    byte = copied(1, {"Deref": BYTE})
    first({"Assign": [place(words, {"Index": number(0)}), {"Opd": byte}]},
          assign(answer, {"Op2": [{"Lt": "Unsigned"}, copied(words, {"Index": number(0)}), number(9)]}), branch(copied(answer)))(function)


def time_of_a_byte(*steps):
    """A loop over a range to a byte: to that to which these steps lead from what is given."""
    def put(function):
        span = new(function, {"Named": [{"name": "core::ops::Range", "lifetimes": []}, [WORD]]})
        lent, more = new(function, "Ptr"), new(function, "Bool")
        first(assign(span, {"Aggregate": [number(0), copied(1, *steps)]}), assign(lent, {"AddrOf": place(span)}),
              ["Block", "Loop", call("core::slice::slice+T::first", copied(lent), to=more)], branch(copied(more)))(function)
    return put


def amount(*steps):
    """Has a source take a number of its own, a new local to which these steps come, each a function of it."""
    def put(function):
        count = new(function, WORD)
        taking = next(it["Call"] for it in nodes(function["body"]) if "Call" in it and "from_elem" in str(it["Call"][0]))
        taking[1][-1] = copied(count)
        first(*(it(count) for it in steps))(function)
    return put


def want_of_memory(kind):
    """A refusal for want of memory that nothing asked for."""
    def put(function):
        told = new(function, {"Named": [{"name": kind, "lifetimes": []}, []]})
        first(assign(told, {"Aggregate": [number(calls.wants_of_memory()[kind])]}))(function)
    return put


CLONE = impl("std_alloc::string::methods::StringClone", impl("std_heap::GlobalAllocator"), impl("core::clone::Clone+copy"), impl("argon::Destruct++none"))
BLOCKS = "argon::matrix_memory::GlobalMatrixMemory::blocks"
BRANCH, STREAM = first(branch(copied(1, {"Deref": BYTE}))), "pikhsen_c::stream::PikhsenStream::begin"
# A rule, the function, and what is put into it.
TRIALS = [
    ("memory", "argon2_words::request::read_request", first(call((CLONE, 0)))),  # a copy of a word
    ("memory", "argon2_words::request::read_request", first(call("libc::heap::rattle_alloc"))),
    ("memory", "argon2_command::run_memory::GlobalRunMemory::matrix", first(call((CLONE, 0)), call((CLONE, 0)))),  # a source, twice
    ("memory", "pikhsen_c::heap::HeapCallMemory::text", first(call((CLONE, 0)))),  # a trait that is called as a source is
    ("memory", BLOCKS, first(call(BLOCKS.replace("blocks", "numbers")))),  # a source by another
    ("memory", "pikhsen_c::argon2::pikhsen_argon2_hash", first(call("argon_text::decode_memory::GlobalDecodeMemory::decode_base64"))),
    ("memory", BLOCKS, amount(lambda count: assign(count, {"Op2": ["WrapMul", copied(2), number(4)]}))),
    ("memory", BLOCKS, amount(lambda count: assign(count, {"Opd": copied(2)}), lambda count: assign(count, {"Opd": number(1 << 40)}))),
    ("memory", BLOCKS, amount(lambda count: call("core::int::u64::saturating_add", copied(2), to=count))),
    ("memory", BLOCKS, amount(lambda count: assign(count, {"Opd": copied(2)}), lambda count: assign(1, {"AddrOf": place(count)}))),
    ("heap", "argon2_command::run::argon2", first(call(
        "argon2_command::run::run_without_report", by=[impl("argon2_command::run_memory::GlobalRunMemory"), {"Given": 0}]))),
    ("system", "scrypt_run::encrypt::start", first(call("libc::write"))),
    ("counter", "argon2_command::output::output", first(call("argon::ticks::Ticks::new"))),
    ("counter", "argon::segment::fill_next_block", first(call("argon::compression::permute_rows"))),
    ("counter", "romix::romix::romix", first(call("romix::salsa20::column_round"))),  # a core without its tick
    ("counter", "romix::salsa20::core_by_diagonals", first(call("romix::ticks::Ticks::tick"))),
    ("begins", "argon_text::verify_password::verify_keyed", first(call("argon::matrix::Matrix::start"))),
    ("begins", "scrypt_run::encrypt::start", first(["Loop", call("encfile::enc::Enc::start")])),
    ("begins", "argon::matrix::Matrix::start", first(call("argon::first_columns::first_hash"))),
    ("begins", "argon::matrix::Matrix::start", first(call("argon::first_columns::fill_first_two_columns"))),
    ("bytes", "argon_text::verify_password::verify_keyed", BRANCH),  # a comparison that stops at a byte
    ("bytes", "argon_text::verify_password::verify_keyed", by_words_in_an_array),
    ("bytes", "tools::run::Run::push", BRANCH),  # a fault that was not
    ("bytes", "scrypt_run::passphrase::read_passphrase", time_of_a_byte({"Deref": BYTE})),
    ("bytes", "host::reading::is_line_end", time_of_a_byte()),  # which may branch by it
    ("makes", "argon_text::read::read_encoded_with_memory", want_of_memory("argon_text::fault::ReadFault")),
    ("makes", "scrypt_run::encrypt::start", want_of_memory("scrypt_request::refusal::ScryptRefusal")),
    ("raw", "encfile::enc::Enc::finish", first(call("core::mem::forget", by=[impl("argon::Destruct++none")]))),
    ("raw", "pikhsen_c::streaming::decrypt_start_in", first(call(STREAM))),  # a block that nobody frees
    ("raw", "pikhsen_c::streaming::pikhsen_stream_free", first(call(STREAM))),  # keys that stay in memory
    ("stack", "argon::matrix::Matrix::start", array(1 << 26)),
    ("stack", "scrypt_run::decrypt::open", array(1 << 16)),
    ("stack", "argon::matrix::Matrix::hash", first(call("argon::matrix::Matrix::hash"))),
    ("turns", "argon::matrix::Matrix::hash", turns(1 << 64)),
    ("turns", "argon2_command::run::run_without_report", turns(10**9)),
    ("last", "pikhsen_c::scrypt::pikhsen_scrypt", at_end(call("romix::costs::Costs::p"))),
    ("last", "pikhsen_c::streaming::pikhsen_scrypt_encrypt_finish", at_end(call("pikhsen_c::streaming::finish_encryption"))),
]

# A file, and what tests/sources/sources.sh must not take in the place of what stands there.
WRONG = [
    ("tests/sources/whole.sha256", "  crates/system_calls/src/identity.rt", "  crates/host/src/lib.rt"),  # compared with nothing
    ("crates/system_calls/src/real.rt", '"/proc/self/fd/0"', '"/proc/self/fd/ 0"'),
    ("crates/macs/specs/Pbkdf2.antt", "-- T_1", "{-\n-- T_1"),
    ("crates/argon_text_tests/src/tests/near_misses.rt", '"11111111110', '"01111111110'),
    ("crates/scrypt_run/src/encrypt.rt", "Ok(salt)", "let _past = unsafe { std::os::fd::OwnedFd::from_raw_fd(1) };\n    Ok(salt)"),
    ("docs/GATE.md", "- crates/counter/", "- crates/counter/proofs/Count/Proof.antt\n- crates/counter/"),
]


def unfound_in_sources():
    """What is put into a copy of the sources, and not found there."""
    with tempfile.TemporaryDirectory() as folder:
        for part in ("crates", "tests", "docs", "packaging"):
            shutil.copytree(TOP / part, f"{folder}/{part}", ignore=shutil.ignore_patterns("out", "__pycache__"))
        shutil.copy(TOP / "crates.txt", folder)

        def is_taken():
            return subprocess.run([f"{folder}/tests/sources/sources.sh"], capture_output=True).returncode == 0

        yield from () if is_taken() else ["sources.sh refuses a copy as it is"]
        for file, old, new in WRONG:
            path = pathlib.Path(folder, file)
            text = path.read_text(encoding="utf-8")
            path.write_text(text.replace(old, new, 1), encoding="utf-8")
            yield from [f"sources.sh: {file}: {new}"] if old not in text or is_taken() else ()
            path.write_text(text, encoding="utf-8")


def trial(code, then, rule, name, put):
    """Whether a rule finds what is put into a function, of that one or of those above it."""
    kept = code.ours[name]
    changed = copy.deepcopy(kept)
    put(changed)
    code.change(name, changed)
    now = calls.Rules(code, calls.all_called({name}, lambda it: [above for above in then.names if it in then.called(above)]))
    now.returning = then.returning
    now.run()
    code.change(name, kept)
    return any(it.startswith(rule) for it in {*now.wrong, *now.rows} - {*then.wrong, *then.rows})


def main():
    code = Code(calls.libraries(sys.argv[1:]))
    then = calls.Rules(code).run()
    lost = [f"{rule}: {name} is not built" if name not in code.ours else f"{rule}: {name}" for rule, name, put in TRIALS
            if name not in code.ours or not trial(code, then, rule, name, put)]
    with tempfile.TemporaryDirectory() as folder:
        file = pathlib.Path(folder, "tools.rlib/lang/src/out/mod.rt")  # a module that no reader of sources sees
        file.parent.mkdir(parents=True)
        file.touch()
        lost += [] if calls.unseen_in(file.parents[3]) else ["unseen: a module in a folder out"]
    rows = calls.EXCEPTED.read_text(encoding="utf-8")
    for text in rows[: rows.rstrip().rindex("\t") + 1], f"{rows}heap\ttools::arguments::text_of\ta loop\tit has none\n":
        lost += [] if calls.differing(then, text)[1] else ["a row without its reason, or of nothing"]
    lost += unfound_in_sources()
    print("".join(f"FAILED: {it}\n" for it in lost) + f"{len(TRIALS) + len(WRONG) + 4 - len(lost)} passed, {len(lost)} failed")
    return 1 if lost else 0


if __name__ == "__main__":
    sys.exit(main())
