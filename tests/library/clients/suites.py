"""Runs a client's own tests in Python, by pytest, over an adapter in place of the client's module in C. For
tests/library/clients.py, which says how it is called; the words at the end are pytest's, and so is the status.
"""
import importlib.machinery
import pathlib
import re
import sys
import types

import cffi
import hypothesis
import pytest


def declarations(header):
    """What argon2.h declares, as cffi reads it: no comments, no lines of the preprocessor but plain numbers."""
    text = re.sub(r"/\*.*?\*/", "", pathlib.Path(header).read_text(encoding="utf-8"), flags=re.DOTALL)
    numbers = re.findall(r"^#define (ARGON2_\w+) UINT32_C\((\w+)\)$", text, re.MULTILINE)
    text = re.sub(r"^#if defined\(__cplusplus\)$.*?^#endif$", "", text, flags=re.DOTALL | re.MULTILINE)
    text = re.sub(r"^#(?:.*\\\n)*.*$", "", text, flags=re.MULTILINE).replace("ARGON2_PUBLIC", "")
    return text + "".join(f"#define {name} {number}\n" for name, number in numbers)


class Within:
    """The adapter, which gives hypothesis back each example that is out of the limits of pikhsen.h."""

    def __init__(self, lib):
        self.lib = lib

    def __getattr__(self, name):
        return getattr(self.lib, name)

    def argon2_hash(self, *given):
        if not 8 <= given[6] <= 255:
            hypothesis.reject()
        return self.lib.argon2_hash(*given)


def argon2_cffi(adapter, header, is_within):
    """In the folder of its sources: puts the adapter in the place of its bindings."""
    # how long an example takes, and how many are given back, is not judged
    unjudged = [hypothesis.HealthCheck.too_slow, hypothesis.HealthCheck.filter_too_much]
    hypothesis.settings.register_profile("clients", deadline=None, suppress_health_check=unjudged)
    hypothesis.settings.load_profile("clients")
    bindings = types.ModuleType("_argon2_cffi_bindings")
    bindings.ffi = cffi.FFI()
    bindings.ffi.cdef(declarations(header))
    lib = bindings.ffi.dlopen(adapter)
    bindings.lib = Within(lib) if is_within == "within" else lib
    # before 21.2 they were a module of its own
    sys.modules["_argon2_cffi_bindings"] = sys.modules["argon2._ffi"] = bindings
    sys.path[:0] = ["src", "."]


def python_scrypt(adapter):
    """In the folder of the package: puts the adapter, _scrypt.so, in the place of its module in C."""
    module = types.ModuleType("_scrypt")
    module.__spec__ = importlib.machinery.ModuleSpec("_scrypt", None, origin=adapter)
    sys.modules["_scrypt"] = module
    sys.path.insert(0, ".")


if __name__ == "__main__":
    name, adapter, *words = sys.argv[1:]
    if name == "argon2-cffi":
        argon2_cffi(adapter, words.pop(0), words.pop(0))
    else:
        python_scrypt(adapter)
    sys.exit(pytest.main(["-p", "no:cacheprovider", "-q", "-rs", "--tb=line", *words]))
