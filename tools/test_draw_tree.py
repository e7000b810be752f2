#!/usr/bin/env python3
"""Tests of draw_tree.py. The last line is 'N passed, N failed'.

Usage: tools/test_draw_tree.py
"""
import json
import pathlib
import random
import subprocess
import sys
import xml.etree.ElementTree as elements

from draw_tree import KEY, LETTER, Refused, certificate, drawing

SVG = "{http://www.w3.org/2000/svg}"
TOOL = pathlib.Path(__file__).with_name("draw_tree.py")


def cert(tree, verdict="no", version=1, nodes=6, relations=("id", "a", "b"), **more):
    """The line of a certificate."""
    value = {"nodes": nodes, "relations": relations, "tree": tree, "verdict": verdict, "version": version, **more}
    return json.dumps(value).encode()


def split(i, j, parts, children, *steps):
    return ["split", i, j, parts, children, *steps]


EMPTY, FOUND, OPEN, LATER = ["empty"], ["found"], ["open"], ["later"]
# the certificate of docs/FORMATS.md, and those of crates/cert_file
FORMATS = b'{"nodes":2,"relations":["id","a","b"],"scenario":[1],"tree":[["found"]],"verdict":"yes","version":1}\n'
PARTS = cert([split(0, 1, [8, 32], [1, 2]), FOUND, LATER], "yes", nodes=2, scenario=[3],
             relations=["DC", "EC", "PO", "TPP", "NTPP", "TPPi", "NTPPi", "EQ"])
PENTAGONS = cert([split(0, 1, [2, 4], [1, 10]), split(0, 2, [2, 4], [2, 9]), split(0, 3, [2, 4], [3, 4]), EMPTY,
                  split(0, 4, [2, 4], [5, 6]), EMPTY, split(1, 3, [2, 4], [7, 8]), FOUND, LATER, LATER, LATER],
                 "yes", nodes=5, scenario=[1, 1, 2, 2, 2, 1, 2, 2, 1, 1])
TRIANGLES = cert([split(0, 5, [2, 4], [1, 2]), EMPTY, EMPTY])
TRACED = cert([split(0, 5, [2, 4], [1, 2], [[1, 0, 3], [2, 0, 4]]), ["empty", [[1, 0, 5], [3, 0, 5], [3, 1, 5]]],
               ["empty", [[2, 0, 5], [4, 0, 5], [4, 2, 5]]]], version=2)
MIXED = cert([split(0, 5, [2, 4], [1, 2], "sweep"), ["empty", []], ["empty", "sweep"], OPEN], "budget", 2)
ODD = cert([split(5, 0, [18446744073709551615], [4294967295])], nodes=256, relations=["id"])
FAN = split(0, 1, [1, 2, 4], [1, 2, 3])
MANY = [f"r{r}" for r in range(64)]

# what it shows, the certificate, the greatest number of leaves, what is drawn in preorder: a class, its lines and its part
DRAWN = [
    ("a leaf alone", FORMATS, 40, "found"),
    ("a split", PARTS, 40, "split (0, 1); found TPP; later TPPi"),
    ("children left to right", PENTAGONS, 40, "split (0, 1); split (0, 2) a; split (0, 3) a; empty a; "
     "split (0, 4) b; empty a; split (1, 3) b; found a; later b; later b; later b"),
    ("a folded subtree", PENTAGONS, 3, "split (0, 1); split (0, 2) a; folded 3 splits 2 empty 1 found 1 later a; later b; later b"),
    ("the way to the end first", cert([split(0, 1, [2, 4], [1, 4]), split(0, 2, [2, 4], [2, 3]), EMPTY, EMPTY,
                                       split(0, 3, [2, 4], [5, 6]), EMPTY, OPEN], "budget"), 3,
     "split (0, 1); folded 1 split 2 empty a; split (0, 3) b; empty a; open b"),
    ("a root with more children", cert([FAN, EMPTY, EMPTY, EMPTY]), 2, "folded 1 split 3 empty"),
    ("as many splits as leaves", cert([split(0, 1, [7], [x]) for x in range(1, 4)] + [EMPTY]), 2,
     "split (0, 1); split (0, 1) id a b; folded 1 split 1 empty id a b"),
    ("numbers of steps", TRACED, 40, "split (0, 5) 2 steps; empty 3 steps a; empty 3 steps b"),
    ("steps that are swept", cert([split(0, 5, [2, 4], [1, 2], [[0, 1, 2]]), ["empty", []], ["empty", "sweep"]], version=2), 40,
     "split (0, 5) 1 step; empty 0 steps a; empty sweep b"),
    ("names that SVG has signs for", cert([split(0, 1, [1, 6], [1, 2]), EMPTY, OPEN], "budget", relations=["<", "&", ">"]), 40,
     "split (0, 1); empty <; open & >"),
    ("parts without names", cert([split(0, 1, [0, 9], [1, 2]), EMPTY, EMPTY]), 40, "split (0, 1); empty ( ); empty id #3"),
    ("a part of many names", cert([split(0, 1, [2 ** 64 - 1], [1]), EMPTY], relations=MANY), 40,
     "split (0, 1); empty r0 r1 r2 r3 r4 r5 r6 r7 r8 r9 r10 r11 r12 r13 r14 r15 and 48 more"),
    ("other keys and layout", b' { "version" : 1, "verdict" : "no", "other" : [ null ], "scenario" : 7, "tree" : [["empty"]],\n'
     b'"relations" : [ "x" ], "nodes" : 6, "relations" : [ "id" ] } ', 40, "empty"),
]

# what it shows, the bytes, why they are refused
REFUSED = [
    ("no bytes", b"", "this is no JSON text: Expecting value: line 1 column 1 (char 0)"),
    ("two lines", FORMATS * 2, "this is no JSON text: Extra data: line 2 column 1 (char 101)"),
    ("no number", b'{"version":NaN}', "this is no JSON text: NaN is no number"),
    ("a network", b"nodes 2\n", "this is no JSON text: Expecting value: line 1 column 1 (char 0)"),
    ("no UTF-8", b'"\xff"', "this is no JSON text: 'utf-8' codec can't decode byte 0xff in position 1: invalid start byte"),
    ("many brackets", b"[" * 100_000, "this is nested too deeply"),
    ("a list", b"[]", "this is no JSON object"),
    ("no version", b"{}", "version isn't 1 or 2"),
    ("version 3", cert([EMPTY], version=3), "version isn't 1 or 2"),
    ("version 1.0", cert([EMPTY], version=1.0), "version isn't 1 or 2"),
    ("version true", cert([EMPTY], version=True), "version isn't 1 or 2"),
    ("257 nodes", cert([EMPTY], nodes=257), "nodes isn't a number from 1 to 256"),
    ("a number for a name", cert([EMPTY], relations=["a", "1"]), "entry 1 of relations is no name"),
    ("no names", cert([EMPTY], relations=[]), "relations isn't a list of 1 to 64 names"),
    ("65 names", cert([EMPTY], relations=["a"] * 65), "relations isn't a list of 1 to 64 names"),
    ("another verdict", cert([EMPTY], "Yes"), 'verdict isn\'t "yes", "no" or "budget"'),
    ("a list as a verdict", cert([EMPTY], ["yes"]), 'verdict isn\'t "yes", "no" or "budget"'),
    ("a yes alone", cert([FOUND], "yes"), "scenario isn't a list of base numbers"),
    ("a base too great", cert([FOUND], "yes", scenario=[256]), "scenario isn't a list of base numbers"),
    ("no tree", cert(None), "tree isn't a list of nodes"),
    ("an empty tree", cert([]), "the tree has no nodes"),
    ("another kind", cert([FAN, EMPTY, ["Empty"], EMPTY]), "node 2 of the tree is no split and no leaf of a known kind"),
    ("steps in version 1", cert([["empty", "sweep"]]), "node 0 of the tree: empty has length 2 in place of 1"),
    ("no steps in version 2", cert([EMPTY], version=2), "node 0 of the tree: empty has length 1 in place of 2"),
    ("steps of a leaf that isn't worked", cert([["found", "sweep"]], version=2),
     "node 0 of the tree: found has length 2 in place of 1"),
    ("another word for steps", cert([["empty", "Sweep"]], version=2), 'node 0 of the tree: its steps aren\'t "sweep" or a list'),
    ("a step of two", cert([["empty", [[0, 1]]]], version=2), "node 0 of the tree: [0, 1] is no step of three different nodes"),
    ("a part too great", cert([split(0, 1, [2 ** 64], [1]), EMPTY]), "node 0 of the tree: its parts aren't a list of words"),
    ("children that differ in number", cert([split(0, 1, [2, 4], [1]), EMPTY]),
     "node 0 of the tree: its parts are 2, and its children 1"),
    ("no parts", cert([split(0, 1, [], [])]), "node 0 of the tree: its parts are 0, and its children 0"),
    ("an edge and a child that can't be", ODD, "node 0 of the tree: 5, 0 is no edge of 256 nodes"),
    ("a child out of order", cert([split(0, 1, [2, 4], [2, 1]), EMPTY, EMPTY]), "node 0 of the tree: child 2 in place of 1"),
    ("a child that isn't there", cert([split(0, 1, [2, 4], [1, 2]), EMPTY]), "node 0 of the tree: there is no node 2"),
    ("a node under no split", MIXED, "node 3 of the tree is a child of none"),
]


def drawn(svg):
    """What is drawn, in preorder."""
    said = []
    for group in elements.fromstring(svg).findall(SVG + "g"):
        lines = [text.text for text in group.findall(SVG + "text") + group.findall(f"{SVG}g/{SVG}text")]
        said.append(" ".join([group.get("class")] + lines))
    return "; ".join(said)


def made(data, most=40):
    """What is drawn of a certificate, or why it is refused."""
    try:
        return drawn(drawing(*certificate(data), most))
    except Refused as fault:
        return str(fault)


def grown(seed, splits):
    """A certificate with a random tree of so many splits, with long names and with steps."""
    draw, todo, tree = random.Random(seed), [None], []
    while todo:
        above = todo.pop()
        if above:
            above[4].append(len(tree))
        if splits == 0 or (todo and draw.random() < 0.4):
            tree.append(draw.choice([FOUND, OPEN, LATER, ["empty", [[0, 1, 2]] * draw.randrange(20)]]))
            continue
        parts = [draw.randrange(1 << 64) & draw.randrange(1 << 64) for _ in range(draw.choice([1, 2, 2, 3, 9]))]
        tree.append(split(*sorted(draw.sample(range(256), 2)), parts, [], "sweep"))
        splits -= 1
        todo += [tree[-1]] * len(parts)
    return cert(tree, "budget", 2, 256, [f"{'name' * (r % 5)}-{r}" for r in range(50)])


def boxes(svg):
    """The box of each text of the drawing, from left, top, right to bottom."""
    found = []
    for text in elements.fromstring(svg).iter(SVG + "text"):
        x, y, size = float(text.get("x")), float(text.get("y")), float(text.get("font-size", 12))
        wide = len(text.text) * LETTER * size / 12
        left = x - wide / 2 if text.get("text-anchor") else x
        found.append((left, y - size * 0.8, left + wide, y + size * 0.2))
    return found


def overlaps(data, most):
    """How many pairs of texts overlap, and how many texts leave the drawing."""
    svg = drawing(*certificate(data), most)
    found, (_, _, wide, high) = boxes(svg), map(float, elements.fromstring(svg).get("viewBox").split())
    pairs = sum(a[0] < b[2] and b[0] < a[2] and a[1] < b[3] and b[1] < a[3] for k, a in enumerate(found) for b in found[:k])
    return pairs, sum(box[0] < 0 or box[1] < 0 or box[2] > wide or box[3] > high for box in found)


def run(words, data=b""):
    """What the program does: its status, the beginning of what it writes, and what it says."""
    done = subprocess.run([sys.executable, TOOL, *words], input=data, capture_output=True)
    return done.returncode, done.stdout[:4].decode(), done.stderr.decode()


def cases():
    """What each test shows, what was found, and what is expected."""
    for shows, data, most, expected in DRAWN:
        yield shows, made(data, most), expected
    for shows, data, expected in REFUSED:
        yield shows, made(data), expected
    for seed in range(8):
        data = grown(seed, 10 + seed * 500)
        yield f"no text over another, {seed}", overlaps(data, 40), (0, 0)
        yield f"at most so many leaves, {seed}", sum(kind.split()[0] != "split" for kind in made(data).split("; ")) > 40, False
    for kind in ("empty", "found", "open", "later"):
        svg = drawing(*certificate(cert([[kind]], "budget")))
        yield f"a key for {kind}", f">1 {kind}: {KEY[kind]}<" in svg, True
    yield "a chain of 5,000 splits", made(cert([split(0, 1, [7], [x + 1]) for x in range(5000)] + [OPEN], "budget"), 1), \
        "split (0, 1); folded 4999 splits 1 open id a b"
    yield "standard input", run([], TRIANGLES), (0, "<svg", "")
    yield "a refusal", run([], b"{}"), (1, "", "refused: version isn't 1 or 2\n")
    yield "no file", run(["no-such-file"]), (1, "", "refused: no-such-file can't be read: No such file or directory\n")


def main():
    count = failed = 0
    for shows, found, expected in cases():
        count += 1
        if found != expected:
            failed += 1
            print(f"{shows}: {found!r} in place of {expected!r}")
    print(f"{count - failed} passed, {failed} failed")
    return 1 if failed else 0


if __name__ == "__main__":
    sys.exit(main())
