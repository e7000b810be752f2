#!/usr/bin/env python3
"""Computes the DE-9IM matrices that the tests of the crate de9im expect, by exact fractions.

Usage: tools/expected_matrices.py          prints the rows of crates/tests_of_polygons/src/matrices.rt

The way is another than the crate's. The plane is cut at the heights of all vertices and all crossings; between two such
heights the edges don't cross, so that a point in each gap between neighbouring edges speaks for the areas. Each edge is
cut where it meets the other ring; the cuts and the middles of the pieces speak for the boundaries. A point is in a ring
where an odd number of edges crosses the ray from it to the right.
"""
import random
from fractions import Fraction as Q


def edges(ring):
    return list(zip(ring, ring[1:] + ring[:1]))


def cross(a, b, p):
    return (b[0] - a[0]) * (p[1] - a[1]) - (b[1] - a[1]) * (p[0] - a[0])


def is_on_edge(p, a, b):
    return cross(a, b, p) == 0 and min(a[0], b[0]) <= p[0] <= max(a[0], b[0]) and min(a[1], b[1]) <= p[1] <= max(a[1], b[1])


def place(p, ring):
    """I, B or E: where the point lies to the ring."""
    odd = False
    for a, b in edges(ring):
        if is_on_edge(p, a, b):
            return "B"
        if (a[1] <= p[1]) != (b[1] <= p[1]):
            odd ^= a[0] + Q(p[1] - a[1]) * (b[0] - a[0]) / (b[1] - a[1]) > p[0]
    return "I" if odd else "E"


def meetings(a, b, c, d):
    """Points that cut a b where it meets c d: the crossing, or the ends of the common stretch."""
    found = [p for p in (a, b) if is_on_edge(p, c, d)] + [p for p in (c, d) if is_on_edge(p, a, b)]
    along, other = (b[0] - a[0], b[1] - a[1]), (d[0] - c[0], d[1] - c[1])
    turn = along[0] * other[1] - along[1] * other[0]
    if turn != 0:
        t = Q((c[0] - a[0]) * other[1] - (c[1] - a[1]) * other[0]) / turn
        u = Q((c[0] - a[0]) * along[1] - (c[1] - a[1]) * along[0]) / turn
        if 0 <= t <= 1 and 0 <= u <= 1:
            found.append((a[0] + t * along[0], a[1] + t * along[1]))
    return found


def is_simple(ring):
    rim = edges(ring)
    if any(a == b for a, b in rim):
        return False
    for i in range(len(rim)):
        for j in range(i + 1, len(rim)):
            common = set(meetings(*rim[i], *rim[j]))
            wanted = set()
            if j == i + 1:
                wanted.add(rim[j][0])
            if i == 0 and j == len(rim) - 1:
                wanted.add(rim[0][0])
            if not common <= wanted:
                return False
    return True


def boundary_samples(ring, other):
    for a, b in edges(ring):
        cuts = {a, b}
        for c, d in edges(other):
            cuts.update(meetings(a, b, c, d))
        order = sorted(cuts, key=lambda p: (p[0] - a[0]) * (b[0] - a[0]) + (p[1] - a[1]) * (b[1] - a[1]))
        for p in order:
            yield p, False
        for p, q in zip(order, order[1:]):
            yield (Q(p[0] + q[0]) / 2, Q(p[1] + q[1]) / 2), True


def area_samples(one, two):
    rim = edges(one) + edges(two)
    heights = {p[1] for p in one + two}
    for i, e in enumerate(rim):
        for f in rim[:i]:
            heights.update(p[1] for p in meetings(*e, *f))
    heights = sorted(heights)
    for low, high in zip(heights, heights[1:]):
        y = Q(low + high) / 2
        xs = sorted({a[0] + Q(y - a[1]) * (b[0] - a[0]) / (b[1] - a[1]) for a, b in rim if (a[1] <= y) != (b[1] <= y)})
        for left, right in zip(xs, xs[1:]):
            yield ((left + right) / 2, y)


def matrix(one, two):
    areas = {place(p, one) + place(p, two) for p in area_samples(one, two)}
    first = {place(p, two) for p, _ in boundary_samples(one, two)}
    second = {place(p, one) for p, _ in boundary_samples(two, one)}
    stretch = any(place(p, two) == "B" for p, inside in boundary_samples(one, two) if inside)

    def area(name):
        return "2" if name in areas else "F"

    def curve(found):
        return "1" if found else "F"

    bb = "1" if stretch else "0" if "B" in first else "F"
    return "".join([
        area("II"), curve("I" in second), area("IE"),
        curve("I" in first), bb, curve("E" in first),
        area("EI"), curve("E" in second), "2",
    ])


def square(x, y, side):
    return [(x, y), (x + side, y), (x + side, y + side), (x, y + side)]


FAR = 100_000_000
SQUARE = square(0, 0, 10)
LISTED = [
    ("apart", SQUARE, square(20, 0, 5)),
    ("apart, rectangles overlap", [(0, 0), (10, 0), (0, 10)], [(10, 10), (10, 6), (6, 10)]),
    ("touch at a vertex of both", SQUARE, square(10, 10, 5)),
    ("touch at a vertex of one", SQUARE, [(10, 5), (15, 0), (15, 10)]),
    ("touch along a whole edge", SQUARE, square(10, 0, 10)),
    ("touch along a part of an edge", SQUARE, square(10, 2, 3)),
    ("touch along two edges in a row", SQUARE, [(10, 0), (20, 0), (20, 20), (0, 20), (0, 10), (10, 10)]),
    ("touch at two points", [(0, 0), (6, 0), (6, 6), (3, 3), (0, 6)], [(0, 6), (6, 6), (3, 9)]),
    ("a notch filled", [(0, 0), (30, 0), (30, 10), (10, 10), (10, 20), (30, 20), (30, 30), (0, 30)], [(10, 10), (30, 10), (30, 20), (10, 20)]),
    ("same ring", SQUARE, SQUARE),
    ("same ring, other way round", SQUARE, SQUARE[::-1]),
    ("same ring, more vertices", SQUARE, [(10, 10), (10, 0), (5, 0), (0, 0), (0, 10)]),
    ("inside", SQUARE, square(2, 2, 3)),
    ("inside, touching at a vertex", SQUARE, [(0, 0), (5, 2), (2, 5)]),
    ("inside, touching an edge at a point", SQUARE, [(0, 5), (5, 2), (5, 8)]),
    ("inside, sharing a corner", SQUARE, square(0, 0, 5)),
    ("inside, sharing an edge", SQUARE, [(0, 0), (10, 0), (5, 5)]),
    ("inside, other way round", square(2, 2, 3), SQUARE[::-1]),
    ("overlap at corners", SQUARE, square(5, 5, 10)),
    ("overlap along edges", SQUARE, [(5, 0), (15, 0), (15, 10), (5, 10)]),
    ("a cross: no vertex in the other", [(0, 4), (12, 4), (12, 8), (0, 8)], [(4, 0), (8, 0), (8, 12), (4, 12)]),
    ("a star of two triangles", [(0, 0), (12, 0), (6, 9)], [(0, 6), (12, 6), (6, -3)]),
    ("overlap, all vertices of both on both", [(0, 0), (4, 0), (4, 4), (0, 4)], [(0, 0), (4, 4), (0, 4), (2, 3)]),
    ("crosses at thirds", [(0, 0), (3, 0), (3, 1)], [(1, -1), (2, -1), (2, 2), (1, 2)]),
    ("crosses at sevenths", [(0, 0), (7, 3), (7, 5), (0, 1)], [(1, 0), (5, 0), (2, 4)]),
    ("a needle within", SQUARE, [(0, 5), (10, 5), (10, 6)]),
    ("a needle across", SQUARE, [(-5, 5), (15, 5), (15, 6)]),
    ("a needle's tip on an edge", SQUARE, [(10, 5), (30, 4), (30, 6)]),
    ("a needle's tip short of an edge by a hair", [(-FAR, 0), (FAR, 1), (FAR, FAR), (-FAR, FAR)], [(0, 0), (1, -FAR), (-1, -FAR)]),
    ("a needle's tip over an edge by a hair", [(-FAR, 0), (FAR, -1), (FAR, FAR), (-FAR, FAR)], [(0, 0), (1, -FAR), (-1, -FAR)]),
    ("a needle's tip short of a slanted edge by a hair", [(-FAR, -FAR + 1), (FAR, FAR), (-FAR, FAR)], [(0, 0), (FAR, 1 - FAR), (FAR, -FAR)]),
    ("a needle's tip over a slanted edge by a hair", [(-FAR, -FAR), (FAR, FAR - 1), (-FAR, FAR)], [(0, 0), (FAR, 1 - FAR), (FAR, -FAR)]),
    ("a needle's tip on a slanted edge", [(-FAR, -FAR), (FAR, FAR), (-FAR, FAR)], [(0, 0), (FAR, 1 - FAR), (FAR, -FAR)]),
    ("a thin triangle at the limits with itself", [(-FAR, 0), (FAR, 1), (FAR, 0)], [(-FAR, 0), (FAR, 1), (FAR, 0)]),
    ("a triangle in the square of the limits", square(-FAR, -FAR, 2 * FAR), [(-FAR, -FAR), (FAR, -FAR), (0, FAR)]),
    ("the square of the limits with itself, reversed", square(-FAR, -FAR, 2 * FAR), square(-FAR, -FAR, 2 * FAR)[::-1]),
    ("diagonals of the limits", [(-FAR, -FAR), (FAR, FAR), (FAR, FAR - 1)], [(-FAR, FAR), (FAR, -FAR), (FAR, 1 - FAR)]),
    ("a horseshoe round a square", [(0, 0), (12, 0), (12, 12), (8, 12), (8, 4), (4, 4), (4, 12), (0, 12)], square(5, 5, 2)),
    ("a horseshoe touched at both arms", [(0, 0), (12, 0), (12, 12), (8, 12), (8, 4), (4, 4), (4, 12), (0, 12)], square(4, 5, 4)),
    ("a horseshoe's hollow filled", [(0, 0), (12, 0), (12, 12), (8, 12), (8, 4), (4, 4), (4, 12), (0, 12)], [(4, 4), (8, 4), (8, 12), (4, 12)]),
    ("level edges on one line, apart", square(0, 0, 4), [(6, 0), (9, 0), (9, -3)]),
    ("level edges on one line, touching", square(0, 0, 4), [(4, 0), (9, 0), (9, -3)]),
    ("level edges on one line, overlapping from below", square(0, 0, 4), [(2, 0), (9, 0), (5, -3)]),
    ("level edges on one line, overlapping from above", square(0, 0, 4), [(2, 0), (9, 0), (5, 3)]),
]


def random_ring(rng, size, count):
    while True:
        ring = [(rng.randint(0, size), rng.randint(0, size)) for _ in range(count)]
        if len(set(ring)) == count and is_simple(ring):
            return ring


def drawn(wanted):
    """Random pairs on small grids, at most six for each matrix, so that rare matrices are there too."""
    rng = random.Random(9)
    counts, rows = {}, []
    while len(rows) < wanted:
        size = rng.choice([3, 4, 5])
        one, two = random_ring(rng, size, rng.randint(3, 6)), random_ring(rng, size, rng.randint(3, 6))
        found = matrix(one, two)
        if counts.get(found, 0) < 6:
            counts[found] = counts.get(found, 0) + 1
            rows.append(("drawn", one, two))
    return rows


def text(ring):
    return " ".join(f"{x} {y}" for x, y in ring)


def main():
    for title, rows in (("LISTED", LISTED), ("DRAWN", drawn(60))):
        print(f"const {title}: &str = \"\\")
        for name, one, two in rows:
            assert is_simple(one) and is_simple(two), name
            print(f"{name} | {text(one)} | {text(two)} | {matrix(one, two)}")
        print('";')


if __name__ == "__main__":
    main()
