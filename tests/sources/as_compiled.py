#!/usr/bin/env python3
"""Whether readers of sources by lines (tests/sources/functions.py, tests/pages/contracts.py) see what was compiled: of
each library that is built the same functions, and of each function with clauses the same clauses, by what the compiler
keeps in NAME.rlib/toolchain. So no macro, module or comment hides from them; that files are the same, says calls.py.

    tests/sources/as_compiled.py [FOLDER..]   as calls.py
"""
import json
import pathlib
import re
import sys

sys.path += map(str, pathlib.Path(__file__).resolve().parents[1].iterdir())  # the other folders of tests/
import calls
import contracts
from compiled import functions_of

# What the compiler writes: of a function as a value, of a closure, and of what is derived or has a body in its trait.
MADE = re.compile(r".*(\+\+|::fn::).*|.*(Debug::fmt|Display::fmt|PartialEq::eq|Clone::clone|Iterator::size_hint)")
CLAUSE = re.compile(r'"spelling":"(?:ensures|requires)-(\w+)"')


def compiled_functions(folder):
    """The functions of a library as their sources have them: a trait's own by the file of the trait."""
    for name in functions_of([folder]):
        path = name.removesuffix("+decl").split("::")[1:]
        if not MADE.fullmatch(name):
            yield "::".join(path if not name.endswith("+decl") else [*path[:-2], path[-1]])


def compiled_clauses(folder):
    """The clauses of each function of a library, by its path, as its checked contract has them."""
    found, modules = {}, (folder / "toolchain/checked.json").read_text(encoding="utf-8").splitlines()
    with (folder / "toolchain/checked.a").open("rb") as file:
        for name, start, size, *_ in map(json.loads, modules):
            _, is_contract, path = name.partition("-specs.contracts.")
            if is_contract and not path.endswith(".Key"):
                file.seek(start)
                head = file.read(size).split(b"\n--@ digest")[0].decode("utf-8", "replace")
                found[path.replace(".", "::")] = sorted({*CLAUSE.findall(head)})
    return found


def main():
    wrong, compared = [], 0
    for folder in calls.libraries(sys.argv[1:]):
        crate, made = folder.stem, {*compiled_functions(folder)}
        by_lines = {it.prover_path(crate): it for it in contracts.items(crate) if it.what == "fn"}
        wrong += [f"{crate}: {it}: by lines alone, or compiled alone" for it in sorted({*by_lines} ^ made)]
        if (folder / "toolchain/checked.json").is_file():
            compiled = compiled_clauses(folder)
            for path, it in by_lines.items():
                above, block = path.split("::")[:-1], it.block
                if block and block.trait and not it.clauses:  # these are the trait's
                    continue
                path = "::".join([*above, *([block.name] if block and block.what == "trait" else []), it.name])
                clauses, there = sorted({name for _, name, _ in it.clauses}), compiled.get(path, [])
                compared += bool(clauses)
                if clauses != there:
                    wrong.append(f"{crate}: {path}: {clauses} by lines, and compiled {there}")
    print("\n".join(wrong) or f"functions by lines are as they were compiled; {compared} contracts compared")
    return 1 if wrong else 0


if __name__ == "__main__":
    sys.exit(main())
