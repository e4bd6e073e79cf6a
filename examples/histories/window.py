#!/usr/bin/env python3
"""window.py PICTURE [--events FIRST LAST | --operations FIRST LAST] [--html]: shows a part of a picture that `ctrie draw` made.

A picture of 20,000 operations is 3.8 million pixels wide. This program writes the part from one event to another, or from the begin of
one operation to the end of another, as a picture of its own: shapes, numbers and colours are those of the whole. Without words it is
at most 4,000 pixels wide: it begins a few events before the first operation that the reason names, or at the first event.
With --html a page is written that has the whole picture, or the part, to scroll through, with the reason above it.

Status 0; 1 where it is no such picture, or has no such part; 2 where the words are no call, or the file can't be read.
"""
import argparse
import re
import sys
from collections import defaultdict
from dataclasses import dataclass

# As crates/scene_svg/specs/Geometry.antt has them: pixels of an event, where the first stands, what is at both sides of all, and what is above the marks.
EVENT, LEFT, SIDES, TOP = 96, 112, 128, 36
# So many events are shown by themselves, 3,968 pixels with the sides, and stand in one piece of a page; so many of them before a fault.
SHOWN, BEFORE = 40, 8
# A number with `late` reaches so far beyond the begin of its bar, and so many characters of a label fit into an event.
REACH, LETTERS = 120, 14
STRETCH = SHOWN * EVENT
SIZE = r'<svg [^>]*width="\d+" height="(\d+)"'
BAR = re.compile(r'<g class="(\w+)"><title>operation (\d+) .*?</title><path d="M(\d+) (\d+)h(-?)(\d+)')
LABEL = re.compile(r'(?<=<text x=")\d+(" y="\d+">)([^<]*)')


class NoPicture(Exception):
    """Why a text isn't one, or has no such part."""


@dataclass
class Bar:
    """The line of a bar, its operation, its colour, and from where to where it goes."""

    line: str
    operation: int
    colour: str
    left: int
    right: int


def bar_of(line):
    colour, operation, x, _, back, width = BAR.match(line).groups()
    left = int(x) - int(width) if back else int(x)
    return Bar(line, int(operation), colour, left, left + int(width))


def near(spans):
    """Returns the places of the spans that touch each stretch of the picture, by the stretch's number."""
    touching = defaultdict(list)
    for at, (left, right) in enumerate(spans):
        for stretch in range(left // STRETCH, right // STRETCH + 1):
            touching[stretch].append(at)
    return touching


def places(touching, left, right):
    """Returns the places of the spans that may touch what lies between these two, in their order."""
    return sorted({at for stretch in range(left // STRETCH, right // STRETCH + 1) for at in touching[stretch]})


def found(pattern, text, what):
    match = re.search(pattern, text, re.DOTALL)
    if not match:
        raise NoPicture(f"this is no picture of ctrie draw: it has no {what}")
    return match[1]


class Picture:
    def __init__(self, text):
        self.height = int(found(SIZE, text, "size"))
        self.style = found(r"<style>\n(.*?)</style>", text, "style")
        self.heading = found(r'<text class="head"[^>]*>(.*?)</text>', text, "heading")
        self.events = int(found(r"events (\d+)$", self.heading, "number of events"))
        self.legend = found(r'(<g transform="translate\(16 .*</g>)\n</svg>', text, "legend")
        self.lanes = [(int(y), label) for y, label in re.findall(r'<path class="lane" d="M0 (\d+)H\d+"/>(.*)', text)]
        self.points = [tuple(map(int, it.split(","))) for it in found(r'<polyline class="order" points="([^"]*)"', text, "order").split()]
        self.bars = [bar_of(line) for line in text.split("\n") if BAR.match(line)]
        reason = re.search(r'(<text class="reason" x="16" y="\d+">)(.*)</text>', text)
        self.reason_head, self.reason = reason.groups() if reason else ("", None)
        self.bottom = self.height - 196
        # The bars and the pieces of the line, by their places, that come near each stretch of the picture.
        self.near_bars = near((it.left, max(it.right, it.left + REACH)) for it in self.bars)
        self.near_lines = near(sorted([one[0], other[0]]) for one, other in zip(self.points, self.points[1:]))

    # ---- which part

    def by_itself(self):
        """The events around the first operation that the reason names, or the first ones."""
        first = min((it.left for it in self.bars if it.colour == "wrong"), default=LEFT)
        first = max(0, min((first - LEFT) // EVENT - BEFORE, self.events - SHOWN))
        return first, min(first + SHOWN, self.events) - 1

    def of_operations(self, first, last):
        bars = {it.operation: it for it in self.bars}
        if first not in bars or last not in bars:
            raise NoPicture("there is no such operation")
        return (bars[first].left - LEFT) // EVENT, min((bars[last].right - LEFT) // EVENT, self.events - 1)

    # ---- what is drawn of it, where the whole has it

    def marks(self, first, last):
        for event in range(first, last + 1):
            x = EVENT * event + LEFT
            yield f'<path class="mark" d="M{x} 56V{self.bottom}"/><text class="time" x="{x}" y="50">{event}</text>'

    def order(self, left, right):
        """The pieces of the line through the bars that come between these two."""
        last, piece = None, []
        for at in places(self.near_lines, left, right):
            if at - 1 != last and piece:
                yield piece
                piece = []
            piece += self.points[at + 1 : at + 2] if piece else self.points[at : at + 2]
            last = at
        if piece:
            yield piece

    def inside(self, left, right):
        for piece in self.order(left, right):
            yield f'<polyline class="order" points="{" ".join(f"{x},{y}" for x, y in piece)}"/>'
        for at in places(self.near_bars, left, right):
            if self.bars[at].left <= right and max(self.bars[at].right, self.bars[at].left + REACH) >= left:
                yield self.bars[at].line

    def named(self, bar_line, left):
        """The line of a bar; where it begins on the left of the part, what stands in it begins with the part."""
        bar = BAR.match(bar_line) and bar_of(bar_line)
        if not bar or bar.left >= left or bar.right <= left:
            return bar_line
        room = max(0, (bar.right - left) * LETTERS // EVENT - 1)
        line = LABEL.sub(lambda it: f"{left + 4}{it[1]}{it[2][:room] if '&' not in it[2] else it[2]}", bar_line)
        return re.sub(r'(?<=class="number" x=")\d+', str(left), line)

    def part(self, first, last):
        """The picture of these events."""
        left, width = EVENT * first + LEFT, EVENT * (last - first + 1) + SIDES
        told = f"{self.heading}; events {first} to {last}"
        width = max(width, 8 * len(told) + SIDES)
        yield '<?xml version="1.0" encoding="UTF-8"?>'
        yield f'<svg xmlns="http://www.w3.org/2000/svg" version="1.1" width="{width}" height="{self.height}" viewBox="0 0 {width} {self.height}">'
        yield f"<title>{told}</title>\n<style>\n{self.style}</style>"
        yield f'<path class="ground" d="M0 0H{width}V{self.height}H0z"/>\n<text class="head" x="16" y="26">{told}</text>'
        for y, label in self.lanes:
            yield f'<path class="lane" d="M0 {y}H{width}"/>{label}'
        # What lies outside is cut off: a picture in the picture has its own edges.
        edge, room = left - 8, EVENT * (last - first + 1) + 16
        yield f'<svg x="{LEFT - 8}" y="0" width="{room}" height="{self.bottom}" viewBox="{edge} 0 {room} {self.bottom}">'
        yield from self.marks(first, last)
        yield from (self.named(line, left) for line in self.inside(edge, edge + room))
        yield "</svg>"
        if self.reason:
            letters = (width - SIDES) // 8
            yield f"{self.reason_head}{self.reason if len(self.reason) <= letters else self.reason[:letters].rpartition(' ')[0] + ' ..'}</text>"
        yield f"{self.legend}\n</svg>"

    # ---- a page

    def piece(self, first, last):
        """These events for a page, without a head: pieces side by side are the picture."""
        left, width = EVENT * first + LEFT - EVENT // 2, EVENT * (last - first + 1)
        yield f'<svg id="e{first}" class="piece" style="width:{width}px" width="{width}" height="{self.bottom - TOP}" viewBox="{left} {TOP} {width} {self.bottom - TOP}">'
        yield from self.marks(first, last)
        for y, _ in self.lanes:
            yield f'<path class="lane" d="M{left} {y}H{left + width}"/>'
        yield from self.inside(left, left + width)
        yield "</svg>"

    def page(self, first, last):
        """An HTML page of these events, or of all of them."""
        pieces = [(at, min(at + SHOWN - 1, last)) for at in range(first, last + 1, SHOWN)]
        yield f'<!doctype html>\n<html lang="en"><meta charset="utf-8"><title>{self.heading}</title>\n<style>\n{self.style}{PAGE_STYLE % (self.bottom - TOP)}</style>'
        yield f"<h1>{self.heading}</h1>"
        if self.reason:
            wrong = self.by_itself()[0] + BEFORE
            yield f'<p class="told">{self.reason}. <a href="#e{next((it for it, to in pieces if it <= wrong <= to), first)}">To where it stands</a></p>'
        links = pieces[:: max(1, len(pieces) // 20)]
        yield f'<p>Events {" ".join(f"""<a href="#e{at}">{at}</a>""" for at, _ in links)}</p>'
        yield f'<div class="scroller"><svg class="names" width="{LEFT - 8}" height="{self.bottom - TOP}" viewBox="0 {TOP} {LEFT - 8} {self.bottom - TOP}">'
        yield f'<path class="ground" d="M0 0H{LEFT}V{self.bottom}H0z"/>'
        yield from (label for _, label in self.lanes)
        yield "</svg>"
        for it in pieces:
            yield from self.piece(*it)
        legend = re.sub(r"translate\(16 \d+\)", "translate(0 16)", self.legend)
        yield f'</div>\n<svg width="820" height="150">{legend}</svg>\n</html>'


PAGE_STYLE = """body{margin:16px;font-family:'DejaVu Sans Mono',Menlo,Consolas,monospace;font-size:12px}
h1{font-size:15px}
.told{color:#b71c1c;font-weight:bold}
.scroller{display:flex;overflow-x:auto}
.scroller svg{flex:none}
.names{position:sticky;left:0;z-index:1}
.piece{content-visibility:auto;contain-intrinsic-height:%dpx;scroll-margin-left:104px}
@media (prefers-color-scheme:dark){body{background:#15181c;color:#e8eaed}a{color:#56b4e9}.told{color:#ff8a80}}
"""


def say(text):
    print(f"window: {text}", file=sys.stderr)


def main():
    words = argparse.ArgumentParser(description=__doc__, formatter_class=argparse.RawDescriptionHelpFormatter)
    words.add_argument("picture")
    which = words.add_mutually_exclusive_group()
    which.add_argument("--events", type=int, nargs=2, metavar=("FIRST", "LAST"))
    which.add_argument("--operations", type=int, nargs=2, metavar=("FIRST", "LAST"))
    words.add_argument("--html", action="store_true")
    asked = words.parse_args()
    try:
        with open(asked.picture, encoding="ascii") as file:
            picture = Picture(file.read())
        part = asked.events or asked.operations and picture.of_operations(*asked.operations)
        part = part or ((0, picture.events - 1) if asked.html else picture.by_itself())
        if picture.events and not 0 <= part[0] <= part[1] < picture.events:
            raise NoPicture("there are no such events")
        for line in (picture.page if asked.html else picture.part)(*part):
            print(line)
        return 0
    except NoPicture as fault:
        say(fault)
        return 1
    except (OSError, UnicodeDecodeError) as fault:
        say(fault)
    return 2


if __name__ == "__main__":
    sys.exit(main())
