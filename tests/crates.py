#!/usr/bin/env python3
"""Draws docs/crates.svg: which crate stands on which, from crates.txt, in the colours of the families of docs/ARCHITECTURE.md's table.

An edge that follows from others is left out. `tests/layout` compares the file with the picture made anew; run this after a change of crates.txt or of the table.
"""
import re
from fnmatch import fnmatch
from functools import cache
from pathlib import Path

TOP = Path(__file__).resolve().parent.parent
PICTURE = TOP / "docs/crates.svg"
CHARACTER, HEIGHT, LEVEL, GAP, MARGIN = 7, 22, 62, 14, 16
SWEEPS = 40

COLOURS = ["#fce98c", "#c7e0f4", "#f6c9b0", "#e3d3f2", "#cfe8c6", "#f3c6d8", "#bfe6e0", "#dcdcdc", "#e8dcb8", "#eef1f4"]
DARK = ["#574808", "#123a57", "#5b3017", "#41305a", "#27471b", "#5a2840", "#174a44", "#3c3f43", "#4b4120", "#22262b"]


def listed():
    """Returns the crates of crates.txt, each with the crates that it lists."""
    lines = [line.partition("#")[0].partition(":") for line in (TOP / "crates.txt").read_text().splitlines()]
    return {head.split()[0]: below.split() for head, _, below in lines if head.strip()}


def families():
    """Returns the families of the table of crates, each with the names, or patterns of names, of its crates."""
    found = {}
    for line in (TOP / "docs/ARCHITECTURE.md").read_text().splitlines():
        if family := re.fullmatch(r"\| \*\*(.*)\*\* \| \|", line):
            found[family[1]] = []
        elif (row := re.match(r"\| `([a-z_*]+)` \| ", line)) and found:
            found[list(found)[-1]].append(row[1])
    return found


def family_faults():
    """Each crate has one row of the table, and each row a crate."""
    rows = [row for names in families().values() for row in names]
    for name in listed():
        own = [row for row in rows if row == name] or [row for row in rows if fnmatch(name, row)]
        if len(own) != 1:
            yield f"docs/ARCHITECTURE.md: {name} has {len(own)} rows in the table of crates"
    for row in rows:
        if not any(fnmatch(name, row) for name in listed()):
            yield f"docs/ARCHITECTURE.md: there is no crate {row}"


def nearest():
    """Returns the crates of this repository, each with those below it that lie below no other one below it."""
    all_below = listed()
    below = {name: [it for it in names if it in all_below] for name, names in all_below.items()}

    @cache
    def reached(name):
        return frozenset(below[name]).union(*map(reached, below[name]))

    return {name: [it for it in names if not any(it in reached(other) for other in names)] for name, names in below.items()}


def levels_of(below):
    """Returns the level of each crate, the lowest being 0: as low as it may stand, but near to the crates above where it has fewer below."""
    above = {name: [it for it in below if name in below[it]] for name in below}
    level = {}
    for name in below:
        place(name, below, level)
    for name in sorted(below, key=level.get, reverse=True):
        if len(above[name]) > len(below[name]):
            level[name] = min(level[it] for it in above[name]) - 1
    return level


def place(name, below, level):
    if name not in level:
        level[name] = 1 + max((place(it, below, level) for it in below[name]), default=-1)
    return level[name]


def rows_of(below, level):
    """Returns the nodes of each level, from the lowest, and the nodes below each: an edge passes each level between by a node of its own, a pair."""
    rows = [[] for _ in range(1 + max(level.values()))]
    under = {}
    for name in below:
        rows[level[name]].append(name)
        under[name] = []
        for it in below[name]:
            last = name
            for between in range(level[name] - 1, level[it], -1):
                node = (name, it, between)
                rows[between].append(node)
                under[last].append(node)
                under[node] = []
                last = node
            under[last].append(it)
    return rows, under


def width(node):
    return CHARACTER * len(node) + 12 if isinstance(node, str) else 4


def mean(items):
    return sum(items) / len(items)


def order(rows, under, over):
    """Sorts each row by where its neighbours stand, upwards and downwards in turn."""
    for sweep in range(SWEEPS):
        upwards = sweep % 2 == 0
        beside = under if upwards else over
        place_of = {node: (at + 0.5) / len(row) for row in rows for at, node in enumerate(row)}
        for row in rows if upwards else reversed(rows):
            row.sort(key=lambda node: mean([place_of[it] for it in beside[node]]) if beside[node] else place_of[node])
            place_of.update({node: (at + 0.5) / len(row) for at, node in enumerate(row)})


def settle(row, wanted):
    """Returns the middles of a row's nodes in their order, as near as they can be to those wanted: groups that would meet move as one."""
    offset, offsets = 0.0, []
    for left, right in zip([None, *row], row):
        offset += (width(left) + width(right)) / 2 + GAP if left is not None else 0
        offsets.append(offset)
    groups = []
    for node, shift in zip(row, offsets):
        groups.append([wanted[node] - shift])
        while len(groups) > 1 and mean(groups[-2]) > mean(groups[-1]):
            groups[-2:] = [groups[-2] + groups[-1]]
    starts = [mean(group) for group in groups for _ in group]
    return {node: start + shift for node, start, shift in zip(row, starts, offsets)}


def middles(rows, under, over):
    """Returns where the middle of each node stands from left to right."""
    middle = {}
    for row in rows:
        middle.update(settle(row, {node: 0.0 for node in row}))
    for sweep in range(SWEEPS):
        for row in rows if sweep % 2 == 0 else reversed(rows):
            wanted = {node: mean([middle[it] for it in under[node] + over[node]] or [middle[node]]) for node in row}
            middle.update(settle(row, wanted))
    left = min(middle[node] - width(node) / 2 for node in middle)
    return {node: round(at - left) + MARGIN for node, at in middle.items()}


def picture():
    """Returns the text of the picture."""
    below = nearest()
    rows, under = rows_of(below, levels_of(below))
    over = {node: [] for node in under}
    for node, names in under.items():
        for it in names:
            over[it].append(node)
    order(rows, under, over)
    middle = middles(rows, under, over)
    names = list(families())
    head = 2 * MARGIN + 18 * ((len(names) + 4) // 5)
    top = {node: head + (len(rows) - 1 - at) * LEVEL for at, row in enumerate(rows) for node in row}
    return svg(under, middle, top, names)


def style():
    """Returns the lines of the style: light, and dark where the reader's pages are."""
    yield "svg{font-family:'DejaVu Sans Mono',Menlo,Consolas,monospace;font-size:11px}"
    yield ".edge{fill:none;stroke:#8b939c}"
    yield "rect{stroke:#8b939c}"
    yield from paints("#1b1f24", "#ffffff", COLOURS)
    yield "@media (prefers-color-scheme:dark){"
    yield from paints("#e8eaed", "#15181c", DARK)
    yield "}"


def paints(text, ground, colours):
    return [f"text{{fill:{text}}}", f".ground{{fill:{ground}}}", *(f".family{at}{{fill:{colour}}}" for at, colour in enumerate(colours))]


def svg(under, middle, top, names):
    across = max(at + width(node) // 2 for node, at in middle.items()) + MARGIN
    down = max(top.values()) + HEIGHT + MARGIN
    lines = [
        f'<svg xmlns="http://www.w3.org/2000/svg" version="1.1" width="{across}" height="{down}" viewBox="0 0 {across} {down}">',
        "<title>Which crate stands on which: each on those to which its lines lead downwards</title>",
        "<style>",
        *style(),
        "</style>",
        f'<path class="ground" d="M0 0H{across}V{down}H0z"/>',
        *legend(names),
    ]
    lines += [edge(node, it, middle, top) for node, below in under.items() for it in below]
    lines += [box(node, middle, top) for node in under if isinstance(node, str)]
    return "\n".join([*lines, "</svg>", ""])


def legend(names):
    for at, name in enumerate(names):
        x, y = MARGIN + 220 * (at % 5), MARGIN + 18 * (at // 5)
        yield f'<rect class="family{at}" x="{x}" y="{y}" width="12" height="12"/><text x="{x + 18}" y="{y + 10}">{name}</text>'


def edge(node, below, middle, top):
    begin = top[node] + (HEIGHT if isinstance(node, str) else HEIGHT // 2)
    end = top[below] + (0 if isinstance(below, str) else HEIGHT // 2)
    half = (begin + end) // 2
    return f'<path class="edge" d="M{middle[node]} {begin}C{middle[node]} {half} {middle[below]} {half} {middle[below]} {end}"/>'


def box(name, middle, top):
    family = next(at for at, rows in enumerate(families().values()) if name in rows or any(fnmatch(name, row) for row in rows if "*" in row))
    left = middle[name] - width(name) // 2
    return (
        f'<rect class="family{family}" x="{left}" y="{top[name]}" width="{width(name)}" height="{HEIGHT}" rx="3"/>'
        f'<text x="{left + 6}" y="{top[name] + 15}">{name}</text>'
    )


if __name__ == "__main__":
    PICTURE.write_text(picture())
