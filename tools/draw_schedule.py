#!/usr/bin/env python3
"""Draws a schedule as SVG: a bar for each interval, to scale, with its name at the left and an axis of whole numbers below.

Usage: tools/draw_schedule.py [--order given|begin] [FILE] > day.svg

FILE has what `intervals` writes where it answers yes (docs/FORMATS.md, "Schedules"): `yes` with the number of splits, and
then a line for each interval, with its name and the numbers of its two end points. Without FILE, or where that is `-`, it
is read from standard input. Lines of intervals may be left out, so that some are drawn alone.

The bars stand in the order in which they begin, of those that begin together the first that ends first, and else as
they are given; with --order given all stand as they are given. Where several intervals have the same end point, a thin
dashed line goes through it down to the axis, where its number is bold. Of a name with more than 24 letters the first 21
are shown, and three dots. A browser shows the whole name and the interval where the pointer rests on a bar or its name,
and draws in other colours where the screen is a dark one.

What is no such answer is refused with a sentence that names the line, and status 1: another first line, as `no 3` or a
refusal; no line after it; a line that isn't a name and two whole numbers; an interval that doesn't begin before it ends;
and an end point above 511, the greatest that 256 intervals can have.
"""
import argparse
import html
import re
import sys
from collections import Counter, namedtuple

YES = re.compile(r"yes [0-9]{1,18}")
LINE = re.compile(r"([!-~]{1,64}) ([0-9]{1,18}) ([0-9]{1,18})")
MOST_POINT = 2 * 256 - 1
# the size of letters, the most that one of them is wide, the letters of a name, the height of a row and of its bar, the
# space between a name and its bar, and the edge of the drawing
SIZE, LETTER, NAME_LETTERS, ROW, BAR, SPACE, EDGE = 12, 7.5, 24, 26, 16, 10, 20
# how wide the axis is, where a unit of it is then no less than the one number and no more than the other
WIDTH, NARROW, WIDE = 600, 12, 60
# how many units lie from one number of the axis to the next
STEPS = (1, 2, 5)
STYLE = """<style>
.paper { fill: #fff } text { fill: #222 } .axis { stroke: #777 } .guide { stroke: #a50; stroke-dasharray: 4 3 }
.bar rect { fill: #a9cdf0; stroke: #1f5a92 } .shared { font-weight: bold }
@media (prefers-color-scheme: dark) {
.paper { fill: #0d1117 } text { fill: #e0e4e8 } .axis { stroke: #999 } .guide { stroke: #f0a860 }
.bar rect { fill: #245a8c; stroke: #8cc2f4 }
}
</style>"""

Bar = namedtuple("Bar", "name lo hi")


class Refused(Exception):
    """Why nothing is drawn."""


def ask(holds, sentence):
    """Refuses by a sentence what doesn't hold."""
    if not holds:
        raise Refused(sentence)


# ---- reading


def bar_of(number, line):
    """The interval that a line has."""
    match = LINE.fullmatch(line)
    ask(match, f"line {number} isn't a name and two whole numbers: {line[:60]}")
    bar = Bar(match.group(1), int(match.group(2)), int(match.group(3)))
    ask(bar.lo < bar.hi, f"line {number} has an interval that doesn't begin before it ends: {line[:60]}")
    ask(bar.hi <= MOST_POINT, f"line {number} has an end point above {MOST_POINT}: {line[:60]}")
    return bar


def schedule(text):
    """The intervals of an answer, as they are given."""
    lines = text.splitlines()
    ask(lines, "line 1 isn't there; an answer begins with yes and a number")
    ask(YES.fullmatch(lines[0]), f"line 1 isn't yes and a number, so there are no intervals: {lines[0][:60]}")
    ask(lines[1:], "line 2 isn't there; an answer has an interval at least")
    return [bar_of(number, line) for number, line in enumerate(lines[1:], 2)]


def read(name):
    """The text of a file, or of standard input."""
    if name in (None, "-"):
        return sys.stdin.buffer.read().decode("utf-8", "replace")
    try:
        with open(name, encoding="utf-8", errors="replace") as source:
            return source.read()
    except OSError as fault:
        raise Refused(f"{name} can't be read: {fault.strerror}") from None


# ---- the layout


def in_order(bars, order):
    """The bars from the top down."""
    return bars if order == "given" else sorted(bars, key=lambda bar: (bar.lo, bar.hi))


def shared_points(bars):
    """The end points that several intervals have, in their order."""
    counts = Counter(point for bar in bars for point in (bar.lo, bar.hi))
    return sorted(point for point, count in counts.items() if count > 1)


def shown(name):
    """A name, cut where it is long."""
    return name if len(name) <= NAME_LETTERS else name[:NAME_LETTERS - 3] + "..."


class Chart:
    """Where the rows and the points stand in the drawing."""

    def __init__(self, bars):
        self.last = max(bar.hi for bar in bars)
        self.unit = min(max(WIDTH / self.last, NARROW), WIDE)
        self.left = EDGE + max(len(shown(bar.name)) for bar in bars) * LETTER + SPACE
        self.axis = EDGE + len(bars) * ROW
        self.width, self.height = self.at(self.last) + EDGE, self.axis + SIZE + SPACE + EDGE

    def at(self, point):
        """How far to the right a point is."""
        return self.left + point * self.unit

    def numbers(self, shared):
        """The points whose number stands on the axis, where there is room: those that are shared first, then each step."""
        room, kept = len(str(self.last)) * LETTER + SPACE, []
        step = next(step for step in STEPS if step * self.unit >= room)
        for point in [*shared, *range(0, self.last + 1, step)]:
            if all(abs(point - other) * self.unit >= room for other in kept):
                kept.append(point)
        return sorted(kept)


# ---- the drawing


def text(x, y, said, more):
    """A line of text."""
    return f'<text x="{x:.1f}" y="{y:.1f}" {more}>{html.escape(said)}</text>'


def upright(x, top, bottom, more):
    """A line from top to bottom."""
    return f'<line x1="{x:.1f}" y1="{top:.1f}" x2="{x:.1f}" y2="{bottom:.1f}" {more}/>'


def guide(chart, bars, point):
    """The line through an end point, from the first bar that has it down to the axis."""
    first = next(number for number, bar in enumerate(bars) if point in (bar.lo, bar.hi))
    return upright(chart.at(point), EDGE + first * ROW, chart.axis, 'class="guide"')


def row(chart, number, bar):
    """A bar with its name."""
    top = EDGE + number * ROW + (ROW - BAR) / 2
    title = html.escape(f"{bar.name}: {bar.lo} to {bar.hi}")
    name = text(chart.left - SPACE, top + BAR - 4, shown(bar.name), 'text-anchor="end"')
    wide = (bar.hi - bar.lo) * chart.unit
    return (f'<g class="bar"><title>{title}</title>{name}'
            f'<rect x="{chart.at(bar.lo):.1f}" y="{top:.1f}" width="{wide:.1f}" height="{BAR}"/></g>')


def axis(chart, shared):
    """The axis, with a mark for each point and the numbers."""
    end, y = chart.at(chart.last), chart.axis
    lines = [f'<line x1="{chart.left:.1f}" y1="{y}" x2="{end:.1f}" y2="{y}" class="axis"/>']
    lines += [upright(chart.at(point), y, y + 4, 'class="axis"') for point in range(chart.last + 1)]
    for point in chart.numbers(shared):
        more = 'text-anchor="middle"' + (' class="shared"' if point in shared else "")
        lines.append(text(chart.at(point), y + SIZE + SPACE - 4, str(point), more))
    return lines


def drawing(bars, order="begin"):
    """The text of the drawing."""
    chart, shared = Chart(bars), shared_points(bars)
    lines = [f'<svg xmlns="http://www.w3.org/2000/svg" viewBox="0 0 {chart.width:.0f} {chart.height:.0f}" '
             f'width="{chart.width:.0f}" height="{chart.height:.0f}" font-family="monospace" font-size="{SIZE}">',
             f"<title>a schedule of {len(bars)} interval{'s' * (len(bars) != 1)}</title>", STYLE,
             '<rect width="100%" height="100%" class="paper"/>']
    bars = in_order(bars, order)
    lines += [guide(chart, bars, point) for point in shared]
    lines += [row(chart, number, bar) for number, bar in enumerate(bars)]
    return "\n".join(lines + axis(chart, shared) + ["</svg>"]) + "\n"


def main(words=None):
    parser = argparse.ArgumentParser(description="draws the intervals of a schedule as SVG")
    parser.add_argument("--order", choices=("given", "begin"), default="begin", help="how the bars stand from the top down")
    parser.add_argument("file", nargs="?", help="what intervals writes; else standard input")
    asked = parser.parse_args(words)
    try:
        bars = schedule(read(asked.file))
    except Refused as fault:
        print(f"refused: {fault}", file=sys.stderr)
        return 1
    sys.stdout.write(drawing(bars, asked.order))
    return 0


if __name__ == "__main__":
    sys.exit(main())
