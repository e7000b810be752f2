#!/usr/bin/env python3
"""Draws a polygon file as SVG, each polygon in a colour of its own with its name at its middle, or how its polygons relate.

Usage: tools/draw_polygons.py FILE > town.svg
       tools/draw_polygons.py --relations RELATIONS [--circle] FILE > relations.svg

FILE is a polygon file such as examples/town.polygons. A `#` begins a comment. The lines are taken as the program takes
them, without its tests; later polygons lie over earlier ones, and all are half transparent. North is up.

RELATIONS has the lines that `relate FILE` writes, and is `-` for standard input. Each polygon is then a node at its
middle, over a pale plan, or with --circle on a circle; nodes that would lie one over another go apart. An edge joins two
polygons that aren't DC and bears the relation. It is an arrow from the part to the whole for TPP, NTPP and their
converses, which are drawn as TPP and NTPP the other way round. Pairs that RELATIONS leaves out have no edge, so that
the pairs of a pattern can be drawn alone.
"""
import argparse
import html
import math
import re
import sys

LINE = re.compile(r"\s*([^\s(),:]+)\s*polygon\s*\(\s*\(([^()]*)\)\s*\)\s*$", re.IGNORECASE)
RELATION = re.compile(r"(\S+) (\S+) ([012F]{9}) (DC|EC|PO|N?TPPi?|EQ)$")
WIDTH, RADIUS, APART, EDGE = 900, 5, 34, 60
# the line of each relation: its colour and its dashes
LINES = {"EC": ("#888", "5 4"), "PO": ("#c60", ""), "TPP": ("#07a", ""), "NTPP": ("#264", ""), "EQ": ("#a05", "")}


class Refused(Exception):
    """Why nothing is drawn."""


def polygons(text):
    """The names and points of the lines."""
    found = []
    for number, line in enumerate(text.split("\n"), 1):
        said = line.split("#")[0].rstrip("\r")
        if not said.strip():
            continue
        match = LINE.match(said)
        if not match:
            raise Refused(f"line {number} isn't a polygon: {said.strip()[:60]}")
        points = [coordinates(number, point) for point in match.group(2).split(",")]
        found.append((match.group(1), points))
    return found


def coordinates(number, text):
    words = text.split()
    if len(words) != 2:
        raise Refused(f"line {number} has a point without two coordinates")
    try:
        return [int(word.split(".")[0]) for word in words]
    except ValueError:
        raise Refused(f"line {number} has a coordinate that is no whole number") from None


def relations(text, names):
    """The edges of the lines of relations: what is joined, from the part to the whole, and by which relation."""
    found = []
    for number, line in enumerate(text.splitlines(), 1):
        match = RELATION.match(line)
        if not match:
            raise Refused(f"line {number} of the relations is none: {line[:60]}")
        one, two, _, relation = match.groups()
        for name in (one, two):
            if name not in names:
                raise Refused(f"line {number} of the relations names {name}, which is no polygon")
        if relation.endswith("i"):
            one, two, relation = two, one, relation[:-1]
        if relation != "DC":
            found.append((one, two, relation))
    return found


def middle(points):
    """The centre of mass of an area, or the mean of its points where it has none."""
    twice = x = y = 0
    for (a, b), (c, d) in zip(points, points[1:] + points[:1]):
        turn = a * d - c * b
        twice, x, y = twice + turn, x + (a + c) * turn, y + (b + d) * turn
    if twice == 0:
        return sum(p[0] for p in points) / len(points), sum(p[1] for p in points) / len(points)
    return x / (3 * twice), y / (3 * twice)


class Plan:
    """Where the points of a plan stand in the drawing."""

    def __init__(self, found):
        xs = [p[0] for _, points in found for p in points] or [0]
        ys = [p[1] for _, points in found for p in points] or [0]
        size = max(max(xs) - min(xs), max(ys) - min(ys), 1)
        edge, self.scale = size / 20, WIDTH / (size * 1.1)
        self.left, self.top = min(xs) - edge, max(ys) + edge
        self.width, self.height = (max(xs) + edge - self.left) * self.scale, (self.top - min(ys) + edge) * self.scale

    def at(self, x, y):
        return (x - self.left) * self.scale, (self.top - y) * self.scale

    def outline(self, name, points, style):
        """The shape of a polygon."""
        corners = " ".join(f"{x:.1f},{y:.1f}" for x, y in (self.at(*p) for p in points))
        return f'<polygon points="{corners}" {style}><title>{html.escape(name)}</title></polygon>'


def label(x, y, text, size=13, style=""):
    return (f'<text x="{x:.1f}" y="{y:.1f}" font-family="sans-serif" font-size="{size}" text-anchor="middle"{style}>'
            f'{html.escape(text)}</text>')


def svg(width, height, lines):
    size = f'viewBox="0 0 {width:.0f} {height:.0f}" width="{width:.0f}" height="{height:.0f}"'
    return "\n".join([f'<svg xmlns="http://www.w3.org/2000/svg" {size}>', *lines, "</svg>"]) + "\n"


def drawing(found):
    """The text of the drawing of a plan."""
    plan, lines = Plan(found), []
    for number, (name, points) in enumerate(found):
        hue = number * 137 % 360
        lines.append(plan.outline(name, points, f'fill="hsl({hue} 60% 60%)" fill-opacity="0.5" '
                                                f'stroke="hsl({hue} 60% 30%)" stroke-width="1.5"'))
    lines += [label(*plan.at(*middle(points)), name) for name, points in found]
    return svg(plan.width, plan.height, lines)


def on_a_circle(names):
    """A place for each name, beginning at the top, and the size of the drawing."""
    radius = max(120.0, len(names) * APART / math.pi)
    size = 2 * (radius + EDGE)
    turn = 2 * math.pi / max(len(names), 1)
    return {name: (size / 2 + radius * math.sin(k * turn), size / 2 - radius * math.cos(k * turn))
            for k, name in enumerate(names)}, size


def apart(places):
    """The places, each moved round itself as far as it takes to keep away from those before it."""
    kept = {}
    for name, (x, y) in places.items():
        tries = [(x, y)] + [(x + ring * APART * math.cos(k * math.pi / 4), y + ring * APART * math.sin(k * math.pi / 4))
                            for ring in range(1, 40) for k in range(8)]
        kept[name] = next((p for p in tries if all(math.dist(p, q) >= APART for q in kept.values())), (x, y))
    return kept


def edge_lines(places, edge):
    """The line of an edge, from the rim of one node to that of the other, and the relation at its middle."""
    one, two, relation = edge
    (a, b), (c, d) = places[one], places[two]
    length = math.dist((a, b), (c, d)) or 1
    x, y = (c - a) / length * (RADIUS + 2), (d - b) / length * (RADIUS + 2)
    colour, dashes = LINES[relation]
    arrow = f' marker-end="url(#{relation})"' if relation.endswith("TPP") else ""
    dashes = f' stroke-dasharray="{dashes}"' if dashes else ""
    title = html.escape(f"{one} {relation} {two}")
    ends = f'x1="{a + x:.1f}" y1="{b + y:.1f}" x2="{c - x:.1f}" y2="{d - y:.1f}"'
    yield (f'<line class="{relation}" {ends} stroke="{colour}" stroke-width="1.5"{dashes}{arrow}>'
           f'<title>{title}</title></line>')
    # nearer to the part than to the whole, so that the relations of a whole's many parts don't lie over one another
    share = 0.4 if arrow else 0.5
    style = f' fill="{colour}" font-weight="bold"'
    yield label(a + (c - a) * share, b + (d - b) * share - 3, relation, 10, style)


def graph(found, edges, circle=False):
    """The text of the drawing of relations."""
    names = [name for name, _ in found]
    if circle:
        places, width = on_a_circle(names)
        height, lines = width, []
    else:
        plan = Plan(found)
        width, height = plan.width, plan.height
        places = apart({name: plan.at(*middle(points)) for name, points in found})
        lines = [plan.outline(name, points, 'fill="none" stroke="#ddd"') for name, points in found]
    for relation in ("TPP", "NTPP"):
        lines.insert(0, f'<marker id="{relation}" viewBox="0 0 8 8" refX="8" refY="4" markerWidth="7" markerHeight="7" '
                        f'orient="auto"><path d="M0 0 L8 4 L0 8 z" fill="{LINES[relation][0]}"/></marker>')
    for edge in edges:
        lines += edge_lines(places, edge)
    for name, (x, y) in places.items():
        lines.append(f'<circle cx="{x:.1f}" cy="{y:.1f}" r="{RADIUS}" fill="#333">'
                     f'<title>{html.escape(name)}</title></circle>')
        lines.append(label(x, y - RADIUS - 4, name))
    return svg(width, height, lines)


def read(path):
    if path == "-":
        return sys.stdin.buffer.read().decode("utf-8", "replace")
    try:
        with open(path, encoding="utf-8", errors="replace") as source:
            return source.read()
    except OSError as fault:
        raise Refused(f"{path} can't be read: {fault.strerror}") from None


def main():
    parser = argparse.ArgumentParser(description=__doc__, formatter_class=argparse.RawDescriptionHelpFormatter)
    parser.add_argument("file", metavar="FILE")
    parser.add_argument("--relations", metavar="RELATIONS", help="the lines of relate, or - for standard input")
    parser.add_argument("--circle", action="store_true", help="the nodes on a circle")
    words = parser.parse_args()
    try:
        found = polygons(read(words.file))
        if words.relations is None:
            text = drawing(found)
        else:
            text = graph(found, relations(read(words.relations), {name for name, _ in found}), words.circle)
    except Refused as fault:
        sys.stderr.write(f"refused: {fault}\n")
        return 1
    sys.stdout.write(text)
    return 0


if __name__ == "__main__":
    sys.exit(main())
