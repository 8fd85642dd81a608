#!/usr/bin/env python3
"""Draws a table of bench/table.py: for each row that a reader asks for, our processor time beside Debian's, whose time
is 1, at both levels, with the seconds.

    bench/ratios.py docs/benchmarks.tsv docs/benchmarks.svg
"""
import pathlib
import sys
from xml.sax.saxutils import escape

# Each with its work and its size in the table, and with what it is, in words.
ROWS = [
    ("argon2 -id -t 3 -p 4 -m", "16", "Argon2id, 64 MiB, 3 passes, 4 lanes"),
    ("argon2 -id -t 3 -p 1 -m", "16", "Argon2id, 64 MiB, 3 passes"),
    ("argon2 -id -t 1 -p 1 -m", "18", "Argon2id, 256 MiB, 1 pass"),
    ("argon2 -id -t 3 -p 1 -m", "18", "Argon2id, 256 MiB, 3 passes"),
    ("key, -r 8 -p 1, --logN", "14", "key, N = 2^14 (16 MiB)"),
    ("key, -r 8 -p 1, --logN", "17", "key, N = 2^17 (128 MiB)"),
    ("key, -r 8 -p 1, --logN", "20", "key, N = 2^20 (1 GiB)"),
    ("enc, --logN 14, MiB", "10", "scrypt enc, 10 MiB"),
    ("dec, --logN 14, MiB", "10", "scrypt dec, 10 MiB"),
    ("enc, --logN 14, MiB", "100", "scrypt enc, 100 MiB"),
    ("dec, --logN 14, MiB", "100", "scrypt dec, 100 MiB"),
    ("libsodium -id -t 3 -m", "16", "libsodium: 64 MiB, 3 passes"),
    ("libsodium -id -t 1 -m", "18", "libsodium: 256 MiB, 1 pass"),
    ("OpenSSL, -r 8 -p 1, --logN", "17", "OpenSSL: key, N = 2^17"),
    ("libsodium, -r 8 -p 1, --logN", "17", "libsodium: key, N = 2^17"),
]
LEVELS = [("x86-64-v2", "v2", 1), ("x86-64-v3", "v3", 14)]
LIBRARIES = ("libsodium", "OpenSSL")  # not Debian's programs: they stand apart
LEFT, SCALE, STEP, TOP, GAP = 250, 360, 32, 84, 16
SECONDS = LEFT + int(1.45 * SCALE)
WIDTH = SECONDS + 190
# Colours for a light page and for a dark one: page, text, soft text, grid, v2, v3, Debian's. Bars stand out from the page by
# 3 and from each other by 2, as WCAG 2.2 measures contrast.
LIGHT = "#ffffff #1f2328 #59636e #d1d9e0 #4493f8 #0a3069 #cf222e".split()
DARK = "#0d1117 #e6edf3 #9198a1 #3d444d #316dca #a5d6ff #ff7b72".split()
COLOURS = """.page{fill:%s} text{fill:%s} .soft{fill:%s} .grid{stroke:%s} .v2{fill:%s} .v3{fill:%s} .one{stroke:%s}"""
HEAD = f"""<title>Processor time beside Debian's scrypt and argon2</title><style>\
text{{font:13px Helvetica,Arial,"Liberation Sans",sans-serif}} .title{{font-size:17px;font-weight:bold}}
.soft{{font-size:11.5px}} .one{{stroke-width:2}}
{COLOURS % tuple(LIGHT)}
@media (prefers-color-scheme:dark){{{COLOURS % tuple(DARK)}}}</style>"""


def read(path):
    """The first line of a table, and its rows by work, size and level."""
    title, head, *lines = pathlib.Path(path).read_text(encoding="utf-8").splitlines()
    rows = [dict(zip(head.split("\t"), line.split("\t"))) for line in lines]
    return title.lstrip("# "), {(row["work"], row["size"], row["level"]): row for row in rows}


def seconds(text):
    number = float(text)
    return f"{number:.2f} s" if number >= 1 else f"{number * 1000:.0f} ms"


def line(ratio, kind, said, height):
    x = LEFT + ratio * SCALE
    return (f'<line class="{kind}" x1="{x:g}" x2="{x:g}" y1="{TOP - 6}" y2="{height - 28}"/>'
            f'<text class="soft" x="{x:g}" y="{height - 12}" text-anchor="middle">{said}</text>')


def bar(kind, x, y, width, height, at, said):
    """A bar, and beside it at some place what it says."""
    return (f'<rect class="{kind}" x="{x}" y="{y}" width="{width}" height="{height}" rx="2"/>'
            f'<text class="soft" x="{at}" y="{y + 10}">{said}</text>')


def drawn(path):
    """The picture of a table."""
    title, found = read(path)
    rows = [row for row in ROWS if any((*row[:2], level) in found for level, _, _ in LEVELS)]
    height = TOP + STEP * len(rows) + GAP * any(row[0].startswith(LIBRARIES) for row in rows) + 34
    machine, *_, day, _ = title.split("; ")
    parts = [
        f'<svg xmlns="http://www.w3.org/2000/svg" viewBox="0 0 {WIDTH} {height}" width="{WIDTH}" height="{height}">',
        HEAD,
        f'<rect class="page" width="{WIDTH}" height="{height}"/>',
        '<text class="title" x="20" y="28">Processor time beside Debian\'s programs and libraries: shorter is faster</text>',
        f'<text class="soft" x="20" y="47">{escape(machine)}; {escape(day)}; labels: the ratio, our time, Debian\'s time</text>',
        *(bar(kind, x, 57, 14, 11, x + 20, f"built for {level}") for (level, kind, _), x in zip(LEVELS, (20, 180))),
        *(line(part, "grid", f"{part:g}", height) for part in (0, 0.25, 0.5, 0.75, 1.25)),
    ]
    for number, (work, size, said) in enumerate(rows):
        y = TOP + STEP * number + GAP * work.startswith(LIBRARIES)
        parts.append(f'<text x="{LEFT - 10}" y="{y + 18}" text-anchor="end">{said}</text>')
        for level, kind, below in LEVELS:
            row = found.get((work, size, level))
            if row and row["ratio"]:
                times = f"{float(row['ratio']):.2f}: {seconds(row['ours'])} and {seconds(row['theirs'])}"
                parts.append(bar(kind, LEFT, y + below, f"{float(row['ratio']) * SCALE:.0f}", 12, SECONDS, times))
    return "\n".join([*parts, line(1, "one", "1 = Debian's", height), "</svg>"]) + "\n"


if __name__ == "__main__":
    pathlib.Path(sys.argv[2]).write_text(drawn(sys.argv[1]), encoding="utf-8")
