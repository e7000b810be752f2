#!/usr/bin/env python3
"""Tests of draw_polygons.py. The last line is 'N passed, N failed'.

Usage: tools/test_draw_polygons.py
"""
import math
import pathlib
import subprocess
import sys
import xml.etree.ElementTree as elements

from draw_polygons import APART, Refused, drawing, graph, polygons, relations

SVG = "{http://www.w3.org/2000/svg}"
TOOL = pathlib.Path(__file__).with_name("draw_polygons.py")
TOWN = TOOL.parent.parent / "examples" / "town.polygons"
SQUARES = """# three squares
a POLYGON ((0 0, 10 0, 10 10, 0 10, 0 0))
b polygon((0 0,5 0,5 5.0,0 5,0 0))   # in a corner
c POLYGON ((2 2, 4 2, 4 4, 2 4, 2 2))\r
"""
RELATED = "a b 212F11FF2 TPPi\na c 212FF1FF2 NTPPi\nb c 212FF1FF2 NTPPi\n"

# what it shows, the lines of relations, the edges that are drawn
JOINED = [
    ("arrows from the part to the whole", RELATED, "b TPP a >; c NTPP a >; c NTPP b >"),
    ("pairs in their own direction", "a b 2FF11F212 TPP\na c 2FF1FF212 NTPP\n", "a TPP b >; a NTPP c >"),
    ("no arrows where there is no part", "a b FF2F11212 EC\nb c 212101212 PO\na c 2FFF1FFF2 EQ\n", "a EC b; b PO c; a EQ c"),
    ("no edge for what is apart", "a b FF2FF1212 DC\nb c FF2F01212 EC\n", "b EC c"),
    ("the pairs of a pattern alone", "b c 212FF1FF2 NTPPi\n", "c NTPP b >"),
    ("no pairs", "", ""),
]

# what it shows, the polygons, the relations, why they are refused
REFUSED = [
    ("another geometry", "a POINT (0 0)\n", "", "line 1 isn't a polygon: a POINT (0 0)"),
    ("a hole", "a POLYGON ((0 0, 9 0, 0 9, 0 0), (1 1, 2 1, 1 2, 1 1))\n", "",
     "line 1 isn't a polygon: a POLYGON ((0 0, 9 0, 0 9, 0 0), (1 1, 2 1, 1 2, 1 1))"),
    ("three coordinates", "\na POLYGON ((0 0 0, 9 0 0, 0 9 0, 0 0 0))\n", "", "line 2 has a point without two coordinates"),
    ("a word for a number", "a POLYGON ((0 0, x 0, 0 9, 0 0))\n", "", "line 1 has a coordinate that is no whole number"),
    ("a refusal for relations", SQUARES, "refused 38 1\n", "line 1 of the relations is none: refused 38 1"),
    ("a relation that isn't there", SQUARES, "a b 212F11FF2 TPPi\na c 212F11FF2 IN\n", "line 2 of the relations is none: a c 212F11FF2 IN"),
    ("another polygon file", SQUARES, "a d 212F11FF2 TPPi\n", "line 1 of the relations names d, which is no polygon"),
]


def edges_drawn(svg):
    """The edges in their order, with a sign for an arrow."""
    return "; ".join(line.find(SVG + "title").text + (" >" if line.get("marker-end") else "")
                     for line in elements.fromstring(svg).findall(SVG + "line"))


def texts(svg):
    return [text.text for text in elements.fromstring(svg).iter(SVG + "text")]


def nodes(svg):
    return [(float(node.get("cx")), float(node.get("cy"))) for node in elements.fromstring(svg).iter(SVG + "circle")]


def ends_wrongly(svg):
    """The lines whose ends aren't at the rims of the nodes that they join."""
    tree = elements.fromstring(svg)
    place = {node.find(SVG + "title").text: (float(node.get("cx")), float(node.get("cy"))) for node in tree.iter(SVG + "circle")}
    wrong = []
    for line in tree.iter(SVG + "line"):
        title = line.find(SVG + "title").text
        one, _, two = title.split()
        for name, x, y in ((one, "x1", "y1"), (two, "x2", "y2")):
            if abs(math.dist(place[name], (float(line.get(x)), float(line.get(y)))) - 7) > 0.2:
                wrong.append(title)
    return wrong


def is_within(svg):
    """Whether all nodes lie in the drawing."""
    _, _, wide, high = map(float, elements.fromstring(svg).get("viewBox").split())
    return all(0 <= x <= wide and 0 <= y <= high for x, y in nodes(svg))


def least_distance(svg):
    found = nodes(svg)
    return min(math.dist(p, q) for k, p in enumerate(found) for q in found[:k])


def made(plan, related):
    """The drawing of relations, or why there is none."""
    try:
        found = polygons(plan)
        return graph(found, relations(related, {name for name, _ in found}))
    except Refused as fault:
        return str(fault)


def run(words, data=""):
    """What the program does: its status, the beginning of what it writes, and what it says."""
    done = subprocess.run([sys.executable, TOOL, *words], input=data, capture_output=True, text=True)
    return done.returncode, done.stdout[:4], done.stderr


def cases():
    """What each test shows, what was found, and what is expected."""
    for shows, related, expected in JOINED:
        yield shows, edges_drawn(made(SQUARES, related)), expected
    for shows, plan, related, expected in REFUSED:
        yield shows, made(plan, related), expected
    squares = polygons(SQUARES)
    plan = drawing(squares)
    yield "a plan has the names", texts(plan), ["a", "b", "c"]
    yield "a plan has a shape for each polygon", len(elements.fromstring(plan).findall(SVG + "polygon")), 3
    corner = elements.fromstring(drawing(polygons("z POLYGON ((0 0, 10 0, 0 10, 0 0))"))).find(SVG + "polygon")
    yield "north is up", corner.get("points"), "40.9,859.1 859.1,859.1 40.9,40.9 40.9,859.1"
    edges = relations(RELATED, {"a", "b", "c"})
    for shows, circle in (("at the middles", False), ("on a circle", True)):
        svg = graph(squares, edges, circle)
        yield f"the relations and names, {shows}", texts(svg), ["TPP", "NTPP", "NTPP", "a", "b", "c"]
        yield f"nodes apart, {shows}", least_distance(svg) >= APART, True
        yield f"edges that end at nodes, {shows}", ends_wrongly(svg), []
    town = polygons(TOWN.read_text())
    for circle in (False, True):
        svg = graph(town, [], circle)
        yield "the nodes of a town", (len(nodes(svg)), is_within(svg), least_distance(svg) >= APART), (len(town), True, True)
    same = polygons("".join(f"p{k} POLYGON ((0 0, 9 0, 0 9, 0 0))\n" for k in range(20)))
    yield "nodes of one place go apart", least_distance(graph(same, [])) >= APART - 0.1, True
    yield "no polygons", nodes(graph([], [], True)), []
    yield "a file of relations", run(["--relations", "-", TOWN], "town park 212FF1FF2 NTPPi\n"), (0, "<svg", "")
    yield "a plan alone", run([TOWN]), (0, "<svg", "")
    yield "a refusal", run(["--relations", "-", TOWN], "usage\n"), (1, "", "refused: line 1 of the relations is none: usage\n")
    yield "no file", run(["no-such-file"]), (1, "", "refused: no-such-file can't be read: No such file or directory\n")


def main():
    count = failed = 0
    for shows, found, expected in cases():
        count += 1
        if found != expected:
            failed += 1
            print(f"{shows}: {found!r} in place of {expected!r}")
    print(f"{count - failed} passed, {failed} failed")
    return 1 if failed else 0


if __name__ == "__main__":
    sys.exit(main())
