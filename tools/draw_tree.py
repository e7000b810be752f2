#!/usr/bin/env python3
"""Draws the tree of a certificate as SVG: its splits with their edges and parts, its leaves, and the verdict above it.

Usage: tools/draw_tree.py [--leaves N] [FILE] > tree.svg

FILE has one certificate (docs/FORMATS.md, "Certificates"), a line of JSON; without FILE it is read from standard input.
A certificate names no nodes, so nodes are their numbers. A split is a box with its edge. The part that leads to a child
stands above the child, as the names of its base relations: five lines of them at most, and then how many more there
are. A base relation that has no name is `#` and its number. The key above the tree tells the kinds of leaves by their
shapes. Where nodes have steps, a split and an empty leaf say how many, or `sweep`. A browser shows the number of a node
in the list, and the whole part, where the pointer rests.

At most N leaves are drawn, and at most N splits, 40 where the option is left out. In a greater tree some splits are
folded: a triangle stands for the subtree and tells how many splits and leaves of each kind it has. The way to the leaf
where the search ended is kept unfolded first, then what is nearest to the root.

What is no certificate is refused with a sentence, and status 1: bytes that are no JSON text, a key without a value of
the right form, and a list of nodes that is no tree in preorder. Whether the tree shows what the verdict says isn't
looked at.
"""
import argparse
import heapq
import html
import json
import sys
from collections import Counter, namedtuple
from textwrap import wrap

from polygons_of import is_name

MOST_NODES, MOST_BASES, MOST_LEAVES = 256, 64, 40
VERDICTS = {"yes": "there is a scenario", "no": "there is no scenario", "budget": "the search was given up"}
KEY = {
    "split": "the set of two nodes is split into the parts below",
    "empty": "a set has become empty",
    "found": "a scenario was found",
    "open": "the search was given up here",
    "later": "not looked at any more",
    "folded": "subtrees that aren't drawn, with what they have",
}
LEAVES = ("empty", "found", "open", "later")
# the size of letters, the most that one of them is wide, a line, the letters and lines of a part, the space between nodes,
# and the edge of the drawing
SIZE, LETTER, LINE, PART_LETTERS, PART_LINES, SPACE, EDGE = 12, 7.5, 15, 14, 5, 14, 20

Node = namedtuple("Node", "kind edge parts children steps")


class Refused(Exception):
    """Why bytes aren't drawn."""


def ask(holds, sentence):
    """Refuses by a sentence what doesn't hold."""
    if not holds:
        raise Refused(sentence)


def counted(number, word):
    """A number and a word, which takes an s where there isn't one of it."""
    return f"{number} {word}{'s' * (number != 1)}"


# ---- reading


def is_whole(value, limit):
    """A whole number less than the limit; `true` and `1.0` are none."""
    return type(value) is int and 0 <= value < limit


def are_whole(value, limit):
    """A list of such numbers."""
    return isinstance(value, list) and all(is_whole(entry, limit) for entry in value)


def no_number(word):
    """Refuses a word such as NaN, which JSON doesn't have."""
    raise ValueError(f"{word} is no number")


def json_of(data):
    """The JSON value that bytes are."""
    try:
        return json.loads(data.decode("utf-8"), parse_constant=no_number)
    except RecursionError:
        raise Refused("this is nested too deeply") from None
    except ValueError as fault:
        raise Refused(f"this is no JSON text: {fault}") from None


def is_step(value, nodes):
    """Three different nodes."""
    return are_whole(value, nodes) and len(value) == len(set(value)) == 3


def steps_of(number, value, nodes):
    """How many steps a node has, as its label says it."""
    if value == "sweep":
        return "sweep"
    ask(isinstance(value, list), f"node {number} of the tree: its steps aren't \"sweep\" or a list")
    wrong = [step for step in value if not is_step(step, nodes)]
    ask(not wrong, f"node {number} of the tree: {json.dumps(wrong[:1])[1:-1][:40]} is no step of three different nodes")
    return counted(len(value), "step")


def node_of(number, value, version, nodes):
    """A node of the tree."""
    kind = value[0] if isinstance(value, list) and value else None
    ask(kind in ("split", *LEAVES), f"node {number} of the tree is no split and no leaf of a known kind")
    worked = version == 2 and kind in ("split", "empty")
    count = (5 if kind == "split" else 1) + worked
    ask(len(value) == count, f"node {number} of the tree: {kind} has length {len(value)} in place of {count}")
    steps = steps_of(number, value[-1], nodes) if worked else None
    if kind != "split":
        return Node(kind, None, [], [], steps)
    edge, parts, children = value[1:3], value[3], value[4]
    ask(are_whole(edge, nodes) and edge[0] < edge[1],
        f"node {number} of the tree: {json.dumps(edge)[1:-1][:40]} is no edge of {nodes} nodes")
    ask(are_whole(parts, 1 << 64), f"node {number} of the tree: its parts aren't a list of words")
    ask(are_whole(children, 1 << 32), f"node {number} of the tree: its children aren't a list of numbers")
    ask(0 < len(parts) == len(children),
        f"node {number} of the tree: its parts are {len(parts)}, and its children {len(children)}")
    return Node(kind, edge, parts, children, steps)


def ends_of(nodes):
    """For each node of a list in preorder, the number that comes after those of its subtree."""
    ask(nodes, "the tree has no nodes")
    ends = [0] * len(nodes)
    for number in reversed(range(len(nodes))):
        after = number + 1
        for child in nodes[number].children:
            ask(child == after, f"node {number} of the tree: child {child} in place of {after}")
            ask(child < len(nodes), f"node {number} of the tree: there is no node {child}")
            after = ends[child]
        ends[number] = after
    ask(ends[0] == len(nodes), f"node {ends[0]} of the tree is a child of none")
    return ends


def certificate(data):
    """The certificate that bytes are, with its nodes as such and the ends of their subtrees."""
    cert = json_of(data)
    ask(isinstance(cert, dict), "this is no JSON object")
    version, nodes, names = cert.get("version"), cert.get("nodes"), cert.get("relations")
    ask(is_whole(version, 3) and version > 0, "version isn't 1 or 2")
    ask(is_whole(nodes, MOST_NODES + 1) and nodes > 0, f"nodes isn't a number from 1 to {MOST_NODES}")
    ask(isinstance(names, list), "relations isn't a list of names")
    for number, name in enumerate(names):
        ask(isinstance(name, str) and is_name(name), f"entry {number} of relations is no name")
    ask(0 < len(names) <= MOST_BASES, f"relations isn't a list of 1 to {MOST_BASES} names")
    ask(cert.get("verdict") in list(VERDICTS), "verdict isn't \"yes\", \"no\" or \"budget\"")
    ask(cert["verdict"] != "yes" or are_whole(cert.get("scenario"), 256), "scenario isn't a list of base numbers")
    ask(isinstance(cert.get("tree"), list), "tree isn't a list of nodes")
    cert["tree"] = [node_of(number, value, version, nodes) for number, value in enumerate(cert["tree"])]
    return cert, ends_of(cert["tree"])


# ---- choosing


def unfolded(nodes, ends, most):
    """The splits whose children are drawn."""
    stop = next((number for number, node in enumerate(nodes) if node.kind in ("found", "open")), -1)
    opened, leaves = set(), 1
    queue = [(not 0 <= stop < ends[0], 0, 0)]
    while queue:
        _, depth, number = heapq.heappop(queue)
        children = nodes[number].children
        if children and leaves + len(children) - 1 <= most and len(opened) < most:
            opened.add(number)
            leaves += len(children) - 1
            for child in children:
                heapq.heappush(queue, (not child <= stop < ends[child], depth + 1, child))
    return opened


def kinds_of(nodes):
    """The lines of a folded split: how many splits there are, and how many leaves of each kind."""
    counts = Counter(node.kind for node in nodes)
    return [counted(counts["split"], "split")] + [f"{counts[kind]} {kind}" for kind in LEAVES if counts[kind]]


def label(node):
    """The lines of a node that isn't folded: the edge of a split, and how many steps there are."""
    lines = [f"({node.edge[0]}, {node.edge[1]})"] if node.kind == "split" else []
    return lines if node.steps is None else lines + [node.steps]


def names_of(part, names):
    """The names of a part's base relations."""
    return [names[r] if r < len(names) else f"#{r}" for r in range(64) if part >> r & 1] or ["( )"]


def part_lines(names):
    """The lines of a part."""
    lines = wrap(" ".join(names), PART_LETTERS, break_long_words=False, break_on_hyphens=False)
    if len(lines) <= PART_LINES:
        return lines
    kept = lines[:PART_LINES - 1]
    return kept + [f"and {len(names) - len(' '.join(kept).split(' '))} more"]


# ---- the layout


class Drawn:
    """What is drawn of a node: the part above it, its shape, its lines, and later its children and its place."""

    def __init__(self, number, depth, part, cert, ends, opened):
        node = cert["tree"][number]
        self.number, self.depth, self.children = number, depth, []
        self.names = names_of(part, cert["relations"]) if number else []
        self.part = part_lines(self.names)
        self.kind = "folded" if node.kind == "split" and number not in opened else node.kind
        if self.kind == "folded":
            self.lines = kinds_of(cert["tree"][number:ends[number]])
            self.title = f"nodes {number} to {ends[number] - 1}"
        else:
            self.lines = label(node)
            self.title = f"node {number}: {node.kind}"
        self.width = max([len(line) for line in self.part + self.lines] + [2]) * LETTER + SPACE
        self.height = shape_height(self.kind) + len(self.lines) * LINE


def shape_height(kind):
    """How high a shape is without its lines."""
    return {"split": 8, "folded": 30}.get(kind, 20)


def drawn_of(cert, ends, opened):
    """What is drawn, in preorder."""
    todo, drawn = [Drawn(0, 0, 0, cert, ends, opened)], []
    while todo:
        one = todo.pop()
        drawn.append(one)
        if one.kind == "split":
            node = cert["tree"][one.number]
            one.children = [Drawn(child, one.depth + 1, part, cert, ends, opened)
                            for part, child in zip(node.parts, node.children)]
            todo += reversed(one.children)
    return drawn


def spread(drawn):
    """Puts children side by side, as near as what is below them allows in each row, and a node over their middle; returns
    the width."""
    for one in reversed(drawn):
        one.sides = {}
        for child in one.children:
            child.x = max([one.sides[row][1] - left for row, (left, _) in child.sides.items() if row in one.sides], default=0)
            for row, (left, right) in child.sides.items():
                one.sides[row] = one.sides.get(row, (child.x + left,))[0], child.x + right
        middle = one.children[-1].x / 2 if one.children else 0
        for child in one.children:
            child.x -= middle
        one.sides = {row: (left - middle, right - middle) for row, (left, right) in one.sides.items()}
        one.sides[one.depth] = -one.width / 2, one.width / 2
    start = min(left for left, _ in drawn[0].sides.values())
    drawn[0].x = EDGE - start
    for one in drawn:
        for child in one.children:
            child.x += one.x
    return max(right for _, right in drawn[0].sides.values()) - start


def stack(drawn, top):
    """Gives each depth a row, and returns the bottom."""
    for depth in range(max(one.depth for one in drawn) + 1):
        row = [one for one in drawn if one.depth == depth]
        middle = top + max(len(one.part) for one in row) * LINE
        bottom = middle + max(one.height for one in row)
        for one in row:
            one.top, one.y, one.bottom = top, middle, bottom
        reach = max([abs(child.x - one.x) for one in row for child in one.children], default=0)
        top = bottom + min(max(30, reach / 6), 90)
    return bottom


# ---- the drawing


def text(x, y, said, more=' text-anchor="middle"'):
    """A line of text, whose middle is at the point if nothing else is said."""
    return f'<text x="{x:.1f}" y="{y:.1f}" stroke="none"{more}>{html.escape(said)}</text>'


def shape(kind, x, y, width=0, height=0):
    """The shape of a kind, below the point; the width and the height are those of a split's box."""
    if kind == "split":
        return f'<rect x="{x - width / 2:.1f}" y="{y:.1f}" width="{width:.1f}" height="{height:.1f}" rx="4" fill="#eef"/>'
    if kind == "empty":
        return f'<path d="M{x - 8:.1f} {y + 1:.1f}h16v16h-16zl16 16m0 -16l-16 16" fill="#fdd"/>'
    if kind == "found":
        return f'<circle cx="{x:.1f}" cy="{y + 9:.1f}" r="8" fill="#cfc"/><circle cx="{x:.1f}" cy="{y + 9:.1f}" r="3" fill="#000"/>'
    if kind == "open":
        return f'<path d="M{x:.1f} {y:.1f}l9 9l-9 9l-9 -9z" fill="#fec"/>'
    if kind == "later":
        return "".join(f'<circle cx="{x + aside:.1f}" cy="{y + 9:.1f}" r="2" fill="#888"/>' for aside in (-7, 0, 7))
    return f'<path d="M{x:.1f} {y:.1f}l14 26h-28z" fill="#eee"/>'


def group(one):
    """A drawn node with its part and its lines."""
    first = one.y + shape_height(one.kind) - (4 if one.kind == "split" else 0) + SIZE
    width = max([len(line) for line in one.lines] + [1]) * LETTER + 8
    pieces = [f'<g class="{one.kind}"><title>{html.escape(one.title)}</title>', shape(one.kind, one.x, one.y, width, one.height)]
    pieces += [text(one.x, first + row * LINE, line) for row, line in enumerate(one.lines)]
    if one.part:
        start = one.y - len(one.part) * LINE + SIZE - 1
        pieces.append(f'<g class="part"><title>{html.escape(" ".join(one.names))}</title>')
        pieces += [text(one.x, start + row * LINE, line) for row, line in enumerate(one.part)] + ["</g>"]
    return "".join(pieces + ["</g>"])


def way(one, child):
    """The line to a child: down to the end of the row, across, and down to the part."""
    start, end = one.y + one.height, child.y - len(child.part) * LINE
    points = [(one.x, start), (one.x, one.bottom), (child.x, child.top), (child.x, end)]
    return f'<polyline points="{" ".join(f"{x:.1f},{y:.1f}" for x, y in points)}" fill="none"/>'


def key(cert, drawn, top):
    """A line for each kind of node that there is, the bottom and the width."""
    counts = Counter(node.kind for node in cert["tree"])
    counts["folded"] = sum(one.kind == "folded" for one in drawn)
    pieces, said = [], [(kind, f"{counts[kind]} {kind}: {meaning}") for kind, meaning in KEY.items() if counts[kind]]
    for row, (kind, line) in enumerate(said):
        y = top + row * 2 * LINE
        pieces += [shape(kind, EDGE + 15, y, 26, 18), text(EDGE + 40, y + 13, line, "")]
    return pieces, top + len(said) * 2 * LINE, max(len(line) for _, line in said) * LETTER + 40


def drawing(cert, ends, most=MOST_LEAVES):
    """The text of the drawing."""
    drawn = drawn_of(cert, ends, unfolded(cert["tree"], ends, most))
    heading = f"{cert['verdict']}: {VERDICTS[cert['verdict']]}"
    keys, top, wide = key(cert, drawn, EDGE + 4 * LINE)
    width = max(spread(drawn), wide, len(heading) * LETTER * 5 / 3) + 2 * EDGE
    height = stack(drawn, top + LINE) + EDGE
    below = f"{counted(cert['nodes'], 'node')}, {counted(len(cert['relations']), 'base relation')}"
    lines = [f'<svg xmlns="http://www.w3.org/2000/svg" viewBox="0 0 {width:.0f} {height:.0f}" '
             f'width="{width:.0f}" height="{height:.0f}" font-family="monospace" font-size="{SIZE}" stroke="#333">',
             f"<title>{heading}</title>", '<rect width="100%" height="100%" fill="#fff" stroke="none"/>',
             text(EDGE, EDGE + LINE, heading, ' font-size="20" font-weight="bold"'), text(EDGE, EDGE + 2.5 * LINE, below, "")]
    return "\n".join(lines + keys + [way(one, child) for one in drawn for child in one.children]
                     + [group(one) for one in drawn] + ["</svg>"]) + "\n"


def bytes_of(name):
    """The bytes of a file, or of standard input."""
    if name is None:
        return sys.stdin.buffer.read()
    try:
        with open(name, "rb") as source:
            return source.read()
    except OSError as fault:
        raise Refused(f"{name} can't be read: {fault.strerror}") from None


def main(words=None):
    parser = argparse.ArgumentParser(description="draws the tree of a certificate as SVG")
    parser.add_argument("--leaves", type=int, default=MOST_LEAVES, help="how many leaves are drawn at most")
    parser.add_argument("file", nargs="?", help="a certificate; else standard input")
    asked = parser.parse_args(words)
    try:
        cert, ends = certificate(bytes_of(asked.file))
    except Refused as fault:
        print(f"refused: {fault}", file=sys.stderr)
        return 1
    sys.stdout.write(drawing(cert, ends, asked.leaves))
    return 0


if __name__ == "__main__":
    sys.exit(main())
