"""Figures as pages say them: of docs/benchmarks.tsv, which `make bench` writes, and of the tables that stand in
docs/BENCHMARKS.md by hand; and how many lines the heap has, which is trusted.
"""
import re
import sys

from tree import TOP, read, tables

sys.path.append(str(TOP / "bench"))
import ratios  # noqa: E402

PRINTED = ratios.read(TOP / "docs/benchmarks.tsv")[1]
V2, V3 = "x86-64-v2", "x86-64-v3"
KEY, LOGIN = "key, -r 8 -p 1, --logN", "argon2 -id -t 3 -p 4 -m"
# Kinds of work that pages speak of: the form of their names and sizes in the table.
KINDS = {
    "hashes": r"argon2 .* (16|18)$", "hashes of lanes": r"argon2 .* -p 4 .* (12|16|18)$", "keys": "key", "files": "enc|dec",
    "libsodium": "libsodium -id", "keys of libsodium": "libsodium, -r", "OpenSSL": "OpenSSL",
}
# beside the ratio to the other's time that to our own time for x86-64-v2
for (WORK, SIZE, _), ROW in PRINTED.items():
    ROW["to_v2"] = f"{float(ROW['ours']) / float(PRINTED[WORK, SIZE, V2]['ours']):.2f}"


def span(found):
    return f"{found[0]} to {found[-1]}"


def ratios_of(kind, level="", column="ratio"):
    """The ratios of a kind of work, the least first."""
    return sorted((row[column] for (work, size, at), row in PRINTED.items()
                   if re.match(KINDS[kind], f"{work} {size}") and level in at), key=float)


def times(kind, level="", column="ratio"):
    """Of which part of the time of the other to which one a kind of work took."""
    return span(ratios_of(kind, level, column))


def rows_of_programs():
    """What a reader asks for first, of the table of make bench."""
    for work, size, said in ratios.ROWS:
        v2, v3 = (PRINTED.get((work, size, level)) for level in (V2, V3))
        if v2 and v3:
            theirs, *ours = (f"{float(it):.3f}" for it in (v2["theirs"], v2["ours"], v3["ours"]))
            yield [said, theirs, ours[0], v2["ratio"], ours[1], v3["ratio"], v2["ours_MiB"], v2["theirs_MiB"]]


def by_hand(heading):
    """The rows of a table of docs/BENCHMARKS.md."""
    return [cells for of, cells in tables("BENCHMARKS.md") if of.partition(" (")[0] == heading]


def off(work):
    """What huge pages take off the time of a work, in percent, at the levels, the least first."""
    (plain_v2, with_v2, _, plain_v3, with_v3, _), = (times for of, *times in by_hand("Huge pages") if of == work)
    parts = float(with_v2) / float(plain_v2), float(with_v3) / float(plain_v3)
    return "{} to {} percent off".format(*sorted(round(100 - 100 * part) for part in parts))


def from_python(other):
    """Of which part of the time of another library to which one hashes took, or keys beside hashlib.scrypt."""
    rows = by_hand("The library for C, from Python")[1:]
    return span(sorted(f"{float(ours) / float(theirs):.2f}" for work, by, ours, theirs, _ in rows
                       if by == other and (work.startswith("Argon2") or by == "`hashlib.scrypt`")))


def sentences():
    """By each page the sentences that give figures, as they are in the tables."""
    seconds = {log_n: f"{float(PRINTED[KEY, log_n, V3]['ours']):.1g} seconds" for log_n in ("14", "17", "20")}
    login = " to ".join(f"{float(PRINTED[LOGIN, '16', level]['ours']):.2g}" for level in (V3, V2))
    least, *_, most = map(float, ratios_of("hashes of lanes", column="ratio_elapsed"))
    kept = next(cells for cells in by_hand("A file that is opened with less memory") if cells[:2] == ["2^20", "16"])
    less = sorted(float(row["theirs_MiB"]) - float(row["ours_MiB"])
                  for (work, *_), row in PRINTED.items() if not work.startswith(ratios.LIBRARIES))
    # files of 100 MiB: of machines with instructions for SHA what the page says; of one without (G) its table
    page = " ".join(read("docs/BENCHMARKS.md").split())
    (with_sha,) = re.findall(r"on all such machines ours took (\S+ to \S+) times as long", page)
    of_g = sorted(it for name, *_, files in by_hand("How it is measured") if name == "G" for it in files.split(" and "))
    loads = sorted(float(row["load"]) for row in PRINTED.values())
    of_files = {level: " and ".join(PRINTED[f"{it}, --logN 14, MiB", "100", level]["ratio"] for it in ("enc", "dec"))
                for level in (V2, V3)}
    heap, untraced = (f"`packaging/{it}.c`, {len(read(f'packaging/{it}.c').splitlines())} lines" for it in ("heap", "untraced"))
    return {
        "docs/GATE.md": [heap],
        "README.md": [
            heap, untraced,
            f"hashes {times('hashes')}, keys {times('keys')}",
            f"{of_g[0]} to {of_g[-1]} without SHA instructions, {with_sha} with",
            f"hashes from 4 MiB on, `-p 4` | 1 (threads) | {least:.1f} to {most:.1f} |",
            f"with `--keep 16`: {float(kept[3]):.0f} MiB, and {float(kept[5]):.1f} times the time",
            f"takes 1 GiB and {seconds['20']}", f"takes 64 MiB and {login} seconds",
        ],
        "man/scrypt.1": [
            f"16 MiB and {seconds['14']}", f"128 MiB and {seconds['17']}", f"1 GiB and {seconds['20']}",
            f"{off('a key of N = 2^17, r = 8, p = 1')} the processor time of a key of 128 MiB",
            f"took {times('keys', V3, 'to_v2')} of the processor time of those for v2 for a key, "
            f"and {times('files', V3, 'to_v2')} for a file",
        ],
        "man/scrypt-ask.1": [f"1 GiB and {seconds['20']}"],
        "man/argon2.1": [
            f"{off('`argon2 -id -t 3 -m 16`')} the processor time of three passes over 64 MiB",
            f"{off('`argon2 -id -t 1 -m 18`')} that of one pass over 256 MiB", f"64 MiB, and {login} seconds",
            f"took {times('hashes', V3, 'to_v2')} of the processor time of those for v2",
        ],
        "docs/BENCHMARKS.md": [
            f"`argon2` took {times('hashes', V2)} of the time of Debian's if built for {V2}, "
            f"and {times('hashes', V3)} if built for {V3}",
            f"{times('keys', V2)} for {V2}, and {times('keys', V3)} for {V3}",
            f"{of_files[V2]} for {V2}, {of_files[V3]} for {V3}",
            *(f"{times(it, V2)} of the time of {it} for {V2}, and {times(it, V3)} for {V3}" for it in ratios.LIBRARIES),
            f"has all {len(PRINTED)} rows", f"**Memory**: {less[0]:.1f} to {less[-1]:.1f} MiB less",
            f"hashes took {from_python('argon2-cffi')} of the time of argon2-cffi and {from_python('libsodium')} "
            f"of that of libsodium, and keys {from_python('`hashlib.scrypt`')} of that of `hashlib.scrypt`",
            f"Beside libsodium it was {times('keys of libsodium')}",
            f"On one without (G) they were {' and '.join(of_g[2:])}, {' and '.join(of_g[:2])}",
            f"with `-p 4` it took {1 / most:.2f} to {1 / least:.2f} of our time, from 4 MiB on",
            *(f"{loads[0]:g} to {loads[-1]:g} | {times('hashes', it)} | {times('keys', it)} | {of_files[it]} |"
              for it in (V2, V3)),
        ],
    }
