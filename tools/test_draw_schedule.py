#!/usr/bin/env python3
"""Tests of draw_schedule.py. The last line is 'N passed, N failed'.

Usage: tools/test_draw_schedule.py
"""
import pathlib
import random
import re
import subprocess
import sys
import xml.etree.ElementTree as elements

from draw_schedule import LETTER, Refused, drawing, schedule

SVG = "{http://www.w3.org/2000/svg}"
TOOL = pathlib.Path(__file__).with_name("draw_schedule.py")
TOP = TOOL.parent.parent
PICTURE = TOP / "docs" / "day.svg"
TOLD = re.compile(r"^    yes \d+\n(?:    \S+ \d+ \d+\n)+", re.MULTILINE)
DAY = "yes 3\npaint 2 4\ndry 4 5\nmove 6 7\nwork 0 8\nlunch 1 3\n"
CHAIN = "yes 0\na 0 1\nb 1 2\nc 2 3\n"
LONG = "n" * 64

# what it shows, the answer, the order, the bars from the top down, and the end points with a line through them
DRAWN = [
    ("the order in which they begin", DAY, "begin", "work 0 8; lunch 1 3; paint 2 4; dry 4 5; move 6 7", "4"),
    ("the order in which they are given", DAY, "given", "paint 2 4; dry 4 5; move 6 7; work 0 8; lunch 1 3", "4"),
    ("the first that ends where they begin together", "yes 0\na 0 2\nb 0 1\nc 1 2\n", "begin", "b 0 1; a 0 2; c 1 2", "0 1 2"),
    ("equal ones as they are given", "yes 1\nb 0 1\na 0 1\n", "begin", "b 0 1; a 0 1", "0 1"),
    ("one after another", CHAIN, "begin", "a 0 1; b 1 2; c 2 3", "1 2"),
    ("numbers for names", "yes 2\n0 1 2\n1 0 3\n", "begin", "1 0 3; 0 1 2", ""),
    ("one alone", "yes 0\na 0 1\n", "begin", "a 0 1", ""),
    ("some of the lines alone", "yes 3\nlunch 1 3\nmove 6 7\n", "begin", "lunch 1 3; move 6 7", ""),
    ("names that SVG has signs for", 'yes 0\n<a>&"b 0 1\n', "begin", '<a>&"b 0 1', ""),
    ("the last line without its end", CHAIN[:-1], "begin", "a 0 1; b 1 2; c 2 3", "1 2"),
    ("the greatest end point", "yes 0\na 0 511\n", "begin", "a 0 511", ""),
]

# what it shows, the name, what is shown of it
NAMES = [
    ("a short name", "paint", "paint"),
    ("a name that is just shown whole", LONG[:24], LONG[:24]),
    ("a name that is cut", LONG[:25], LONG[:21] + "..."),
    ("the longest name", LONG, LONG[:21] + "..."),
]

# what it shows, the bytes, why they are refused
REFUSED = [
    ("nothing", "", "line 1 isn't there; an answer begins with yes and a number"),
    ("an empty line", "\n", "line 1 isn't yes and a number, so there are no intervals: "),
    ("a no", "no 3\n", "line 1 isn't yes and a number, so there are no intervals: no 3"),
    ("a budget", "budget 0\n", "line 1 isn't yes and a number, so there are no intervals: budget 0"),
    ("a refusal", "refused 19 4\n", "line 1 isn't yes and a number, so there are no intervals: refused 19 4"),
    ("the usage line", "usage\n", "line 1 isn't yes and a number, so there are no intervals: usage"),
    ("lines without a yes", "a 0 1\n", "line 1 isn't yes and a number, so there are no intervals: a 0 1"),
    ("a yes without a number", "yes\na 0 1\n", "line 1 isn't yes and a number, so there are no intervals: yes"),
    ("a yes alone", "yes 3\n", "line 2 isn't there; an answer has an interval at least"),
    ("a scenario", "yes 3\nnodes 2\n0 1 ( m )\n.\n", "line 2 isn't a name and two whole numbers: nodes 2"),
    ("a line between", "yes 0\na 0 1\n\nb 1 2\n", "line 3 isn't a name and two whole numbers: "),
    ("a third number", "yes 0\na 0 1 2\n", "line 2 isn't a name and two whole numbers: a 0 1 2"),
    ("no name", "yes 0\n 0 1\n", "line 2 isn't a name and two whole numbers:  0 1"),
    ("two spaces", "yes 0\na 0  1\n", "line 2 isn't a name and two whole numbers: a 0  1"),
    ("a fraction", "yes 0\na 0 1.5\n", "line 2 isn't a name and two whole numbers: a 0 1.5"),
    ("a number below 0", "yes 0\na 0 1\nb -1 2\n", "line 3 isn't a name and two whole numbers: b -1 2"),
    ("another letter", "yes 0\n\u00e4 0 1\n", "line 2 isn't a name and two whole numbers: \u00e4 0 1"),
    ("a name that is too long", f"yes 0\n{LONG}n 0 1\n", f"line 2 isn't a name and two whole numbers: {LONG[:60]}"),
    ("an interval the other way round", "yes 0\na 0 1\nb 3 2\n", "line 3 has an interval that doesn't begin before it ends: b 3 2"),
    ("an interval that is a point", "yes 0\na 1 1\n", "line 2 has an interval that doesn't begin before it ends: a 1 1"),
    ("an end point too great", "yes 0\na 0 512\n", "line 2 has an end point above 511: a 0 512"),
]


def root(svg):
    return elements.fromstring(svg)


def bars(svg):
    """The bars from the top down: each by the name and the numbers that rest on it."""
    groups = sorted(root(svg).findall(SVG + "g"), key=lambda group: float(group.find(SVG + "rect").get("y")))
    return "; ".join(re.sub(r": (\d+) to (\d+)$", r" \1 \2", group.find(SVG + "title").text) for group in groups)


def lines(svg, kind):
    return [line for line in root(svg).findall(SVG + "line") if line.get("class") == kind]


def places(svg):
    """How far to the right each point is, by the marks of the axis."""
    marks = [line for line in lines(svg, "axis") if line.get("x1") == line.get("x2")]
    return {line.get("x1"): point for point, line in enumerate(marks)}


def guides(svg):
    """The end points with a line through them."""
    place = places(svg)
    return " ".join(str(place[line.get("x1")]) for line in lines(svg, "guide"))


def ends(svg):
    """Where each bar begins and ends, and the two numbers that rest on it."""
    for group in root(svg).findall(SVG + "g"):
        rect, words = group.find(SVG + "rect"), group.find(SVG + "title").text.split()
        x, wide = float(rect.get("x")), float(rect.get("width"))
        yield (x, int(words[-3])), (x + wide, int(words[-1]))


def are_to_scale(svg):
    """Whether each bar stands over its two numbers."""
    at = {point: float(x) for x, point in places(svg).items()}
    return all(abs(at[point] - x) < 0.2 for bar in ends(svg) for x, point in bar)


def reach_bars(svg):
    """Whether each line through an end point goes from the row of its first bar to the axis."""
    bottom = min(float(line.get("y1")) for line in lines(svg, "axis"))
    for line in lines(svg, "guide"):
        x, tops = float(line.get("x1")), []
        for rect, bar in zip(root(svg).findall(f"{SVG}g/{SVG}rect"), ends(svg)):
            if min(abs(end - x) for end, _ in bar) < 0.2:
                tops.append(float(rect.get("y")))
        if len(tops) < 2 or not 0 <= min(tops) - float(line.get("y1")) <= 10 or float(line.get("y2")) != bottom:
            return False
    return True


def numbers(svg):
    """The numbers of the axis, with a sign for bold ones."""
    return " ".join(text.text + "!" * (text.get("class") == "shared") for text in root(svg).findall(SVG + "text"))


def boxes(svg):
    """The box of each text and bar of the drawing, from left, top, right to bottom."""
    for text in root(svg).iter(SVG + "text"):
        x, y, wide = float(text.get("x")), float(text.get("y")), len(text.text) * LETTER
        left = x - (wide if text.get("text-anchor") == "end" else wide / 2)
        yield left, y - 10, left + wide, y + 2
    for rect in root(svg).findall(f"{SVG}g/{SVG}rect"):
        x, y = float(rect.get("x")), float(rect.get("y"))
        yield x, y, x + float(rect.get("width")), y + float(rect.get("height"))


def overlaps(svg):
    """How many pairs of texts and bars overlap, and how many of them leave the drawing."""
    found, (_, _, wide, high) = list(boxes(svg)), map(float, root(svg).get("viewBox").split())
    pairs = sum(a[0] < b[2] and b[0] < a[2] and a[1] < b[3] and b[1] < a[3]
                for k, a in enumerate(found) for b in found[:k])
    return pairs, sum(box[0] < 0 or box[1] < 0 or box[2] > wide or box[3] > high for box in found)


def grown(count, points):
    """An answer with so many random intervals of so many points at most, with short names and long ones."""
    draw = random.Random(count)
    found = [sorted(draw.sample(range(points), 2)) for _ in range(count)]
    place = {point: number for number, point in enumerate(sorted({point for pair in found for point in pair}))}
    return "yes 1\n" + "".join(f"{'name' * (k % 16)}{k % 7} {place[lo]} {place[hi]}\n" for k, (lo, hi) in enumerate(found))


def made(text, order="begin"):
    """The drawing of an answer, or why there is none."""
    try:
        return drawing(schedule(text), order)
    except Refused as fault:
        return str(fault)


def told(name):
    """The answer with intervals that a text of this repository shows."""
    return "".join(TOLD.findall((TOP / name).read_text())[:1]).replace("    ", "")


def run(words, data=""):
    """What the program does: its status, the beginning of what it writes, and what it says."""
    done = subprocess.run([sys.executable, TOOL, *words], input=data, capture_output=True, text=True, check=False)
    return done.returncode, done.stdout[:4], done.stderr


def cases():
    """What each test shows, what was found, and what is expected."""
    for shows, text, order, expected, through in DRAWN:
        svg = made(text, order)
        yield shows, (bars(svg), guides(svg)), (expected, through)
        yield f"to scale: {shows}", (are_to_scale(svg), reach_bars(svg), overlaps(svg)), (True, True, (0, 0))
    for shows, name, expected in NAMES:
        group = root(made(f"yes 0\n{name} 0 1\n")).find(SVG + "g")
        yield shows, (group.find(SVG + "text").text, group.find(SVG + "title").text), (expected, f"{name}: 0 to 1")
    for shows, text, expected in REFUSED:
        yield shows, made(text), expected
    for count, points in ((2, 3), (10, 12), (40, 30), (60, 1000), (256, 20), (256, 100_000)):
        svg = made(grown(count, points))
        yield f"{count} intervals of {points} points", (len(list(ends(svg))), are_to_scale(svg)), (count, True)
        yield f"{count} intervals of {points} points apart", (reach_bars(svg), overlaps(svg)), (True, (0, 0))
    yield "each number where there is room", numbers(made(DAY)), "0 1 2 3 4! 5 6 7 8"
    yield "some numbers else, of shared points first", numbers(made("yes 0\na 0 13\nb 13 53\nc 1 2\n")), \
        "0 5 10 13! 20 25 30 35 40 45 50"
    for name in ("README.md", "docs/EXAMPLES.md"):
        yield f"the day in {name}", told(name), DAY
    yield "the picture of the day", PICTURE.read_text(), made(DAY)
    yield "colours for a dark screen", "(prefers-color-scheme: dark)" in made(DAY), True
    yield "standard input", run([], DAY), (0, "<svg", "")
    yield "standard input by its sign, as it is given", run(["--order", "given", "-"], DAY), (0, "<svg", "")
    yield "a file", run([PICTURE]), (1, "", f"refused: {made(PICTURE.read_text())}\n")
    yield "a refusal", run([], "no 3\n"), (1, "", "refused: line 1 isn't yes and a number, so there are no intervals: no 3\n")
    yield "no file", run(["no-such-file"]), (1, "", "refused: no-such-file can't be read: No such file or directory\n")


def main():
    count = failed = 0
    for shows, found, expected in cases():
        count += 1
        if found != expected:
            failed += 1
            print(f"{shows}: {found!r} in place of {expected!r}")
    print(f"{count - failed} passed, {failed} failed")
    return 1 if failed else 0


if __name__ == "__main__":
    sys.exit(main())
