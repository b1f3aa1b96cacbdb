#!/usr/bin/env python3
"""bench/peers/pictures.py [--check]: draws docs/matrix.svg and docs/cost.svg from the tables of docs/PEERS.md.

With --check it writes nothing, and the exit status is 1 if a picture is not the one of its table.
"""

import pathlib
import re
import sys
from html import escape

DOCS = pathlib.Path(__file__).resolve().parents[2] / "docs"
# A picture's width, for a phone; where columns and bars begin; a row's height.
WIDTH, LEFT, ROW = 480, 136, 20
# Of the bars: the width of the longest, and its instructions.
BAR, MOST = 260, 10_500
# What is right for a kind of input. Others are to be rejected.
RIGHT = {"valid": "read", "arc ≥ 2^32": "either", "1.02": "either"}
STYLE = """<style>
text { fill: #222 } .note { fill: #666 } .small { font-size: 11px } .ours, .strong { font-weight: bold }
.other { fill: #8a94b8 } .bar { fill: #0a6 }
.ok { fill: #d8efdf } .rejected { fill: #fbe7b5 } .wrong { fill: #f4b8ae } .either { fill: none } .dark { fill: #222 }
@media (prefers-color-scheme: dark) { text { fill: #e6e6e6 } .note { fill: #a8a8a8 } .dark { fill: #222 } }
</style>"""


def table(name):
    """The head and the rows of the table of PEERS whose first heading this is."""
    page = (DOCS / "PEERS.md").read_text(encoding="utf-8")
    lines = re.search(rf"(?m)^\|{name}\|(?:.*\|\n)+", page)[0].replace("`", "").splitlines()
    head, _, *rows = [line.strip("|").split("|") for line in lines]
    return head[1:], rows


def text(x, y, words, kind="", anchor="middle"):
    kind = f' class="{kind}"' if kind else ""
    return f'<text x="{x:g}" y="{y}" text-anchor="{anchor}"{kind}>{escape(words)}</text>'


def picture(height, title, lines):
    size = f'width="{WIDTH}" height="{height}" viewBox="0 0 {WIDTH} {height}"'
    fonts = 'font-family="Arial, Helvetica, Roboto, sans-serif" font-size="12"'
    head = f'<svg xmlns="http://www.w3.org/2000/svg" {size} {fonts} role="img" aria-labelledby="title">'
    title = f'<title id="title">{escape(title)}</title>'
    return "\n".join([head, title, STYLE, *lines, "</svg>", ""])


def notes(top, *lines):
    """Lines below a picture."""
    return [text(8, top + 16 * index, line, "note", "start") for index, line in enumerate(lines)]


def verdict(heading, cell):
    """The words and the kind of a cell of the matrix. Where inputs are misread, their share comes first."""
    cell = cell.replace(" %", "%")
    if cell == "0":
        return "ok", "ok"
    if cell.endswith(" misread"):
        shares = cell.removesuffix(" misread").split(" rejected, ")
        return " + ".join(reversed(shares)), "wrong"
    if RIGHT.get(heading) == "either":
        return cell, "either"
    share, *rejected = cell.split()
    return share, "rejected" if rejected else "wrong"


def row_of(y, column, name, headings, cells):
    """A row of a table of the matrix, whose columns have this width."""
    yield text(LEFT - 8, y + 14, name, "ours" if name.startswith("this") else "", "end")
    for index, (heading, cell) in enumerate(zip(headings, cells)):
        words, kind = verdict(heading, cell)
        x = LEFT + index * column
        look = {"either": "", "wrong": "dark strong"}.get(kind, "dark")
        yield f'<rect x="{x + 1:g}" y="{y + 1}" width="{column - 2:g}" height="{ROW - 2}" class="{kind}"/>'
        size = " small" if len(words) > 7 else ""
        yield text(x + column / 2, y + 14, words, (look + size).strip())


def table_of(top, title, headings, rows):
    """A table of the matrix: a row for each library, a column for each kind of input."""
    column = (WIDTH - LEFT - 2) / len(headings)
    yield text((LEFT + WIDTH) / 2, top + 14, title, "ours")
    yield text(LEFT - 8, top + 58, "right:", "note small", "end")
    for index, heading in enumerate(headings):
        x = LEFT + (index + 0.5) * column
        lines = heading.split(" ", 1) if column < 60 else [heading]
        yield from (text(x, top + y, words) for y, words in zip((43, 30), reversed(lines)))
        yield text(x, top + 58, RIGHT.get(heading, "rejected"), "note small")
    for y, (name, *cells) in zip(range(top + 64, 10_000, ROW), rows):
        yield from row_of(y, column, name, headings, cells)


def matrix():
    """A table of contents octets, and below it one of texts."""
    lines, bottom = [], 0
    for name, title in ("Octets", "contents octets"), ("Text", "dotted text"):
        headings, rows = table(name)
        lines += table_of(bottom, title, headings, rows)
        bottom += 64 + ROW * len(rows) + 14
    lines += notes(
        bottom + 6,
        "red, bold: the share accepted, or read as another identifier",
        "yellow, or after +: the share of valid inputs that are rejected",
        "no colour: either is right · no row: no such function",
    )
    title = "What each library does with 10,000 test inputs of each kind"
    return picture(bottom + 48, title, lines)


def bars(top, title, values):
    """A bar for each library, the shortest first."""
    yield text(8, top + 14, title, "ours", "start")
    for y, (value, name) in zip(range(top + 22, 10_000, ROW), sorted(values)):
        ours, width = name.startswith("this"), BAR * value / MOST
        kind = "bar" if ours else "other"
        yield text(LEFT - 8, y + 14, name, "ours" if ours else "", "end")
        yield f'<rect x="{LEFT}" y="{y + 2}" width="{width:.1f}" height="{ROW - 4}" class="{kind}"/>'
        yield text(LEFT + 6 + round(width, 1), y + 14, f"{value:,}", "note", "start")


def cost():
    """Instructions of one call, for 7 octets; the build by the Rattle toolchain and C by hand are in PEERS."""
    head, rows = table("Instructions")
    rows = [row for row in rows if row[0] not in ("this library, C, by rt", "by hand in C")]
    lines, bottom = [], 0
    for what, title in ("read", "Text to octets"), ("print", "Octets to text"):
        column = head.index(f"{what}, 7 octets") + 1
        cells = [(row[column].replace(",", ""), row[0].replace(", by cargo", "")) for row in rows]
        values = [(int(cell), name) for cell, name in cells if cell != "–"]
        lines += bars(bottom, title, values)
        bottom += 22 + ROW * len(values) + 14
    example = "Instructions of one call for 1.2.840.10045.2.1"
    lines += notes(bottom + 8, f"{example},", "on x86-64, by valgrind: fewer is better.")
    return picture(bottom + 34, f"{example}, by library", lines)


if sys.argv[1:] not in ([], ["--check"]):
    sys.exit(print(__doc__) if sys.argv[1:] == ["--help"] else __doc__)
for name, svg in ("matrix.svg", matrix()), ("cost.svg", cost()):
    if not sys.argv[1:]:
        (DOCS / name).write_text(svg, encoding="utf-8")
    elif (DOCS / name).read_text(encoding="utf-8") != svg:
        sys.exit(f"docs/{name} is not the picture of docs/PEERS.md")
