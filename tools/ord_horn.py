#!/usr/bin/env python3
"""Makes the class file of the ORD-Horn subclass of Allen's interval algebra, by its definition.

Usage: tools/ord_horn.py > examples/ord_horn.class

A relation is in ORD-Horn where it can be said by clauses over the end points of the two intervals, each clause a
disjunction of literals a <= b, a = b and a != b of which at most one isn't a != b (Nebel and Bürckert 1995). What a
clause says is the set of the base relations in which one of its literals holds, and clauses together say the
intersection of what each says. So ORD-Horn is the closure under intersection of the sets of single clauses. It has
868 members, the empty relation among them, and is closed under converse, intersection and composition; the program
ends with a message where what it found isn't so.
"""
import itertools
import sys

NAMES = "b m o fi di s eq si d f oi mi bi".split()
FULL = 2 ** len(NAMES) - 1
MEMBERS = 868

# two intervals of the ranks 0 to 3 in each base relation: X-, X+, Y-, Y+
PLACES = {
    "b": (0, 1, 2, 3), "m": (0, 1, 1, 2), "o": (0, 2, 1, 3), "fi": (0, 2, 1, 2), "di": (0, 3, 1, 2), "s": (0, 1, 0, 2),
    "eq": (0, 1, 0, 1), "si": (0, 2, 0, 1), "d": (1, 2, 0, 3), "f": (1, 2, 0, 2), "oi": (1, 3, 0, 2), "mi": (1, 2, 0, 1),
    "bi": (2, 3, 0, 1),
}


def relation(x, y):
    """The base relation of two intervals, by its number."""
    def signs(p):
        return [(a > b) - (a < b) for a in p[:2] for b in p[2:]]
    return next(r for r, name in enumerate(NAMES) if signs(PLACES[name]) == signs(x + y))


def said_by(holds):
    """The set of the base relations in which the end points have a property."""
    return sum(1 << r for r, name in enumerate(NAMES) if holds(PLACES[name]))


def clauses():
    """The sets of single clauses."""
    pairs = [(a, b) for a in (0, 1) for b in (2, 3)]
    other = [said_by(lambda p, a=a, b=b: p[a] != p[b]) for a, b in pairs]
    one = [0]
    for a, b in pairs:
        one.append(said_by(lambda p, a=a, b=b: p[a] <= p[b]))
        one.append(said_by(lambda p, a=a, b=b: p[b] <= p[a]))
        one.append(said_by(lambda p, a=a, b=b: p[a] == p[b]))
    for positive in one:
        for count in range(len(other) + 1):
            for negatives in itertools.combinations(other, count):
                whole = positive
                for literal in negatives:
                    whole |= literal
                yield whole


def ord_horn():
    """The closure of the clauses under intersection, in ascending order."""
    single = set(clauses())
    found = {FULL}
    fresh = {FULL}
    while fresh:
        fresh = {a & b for a in fresh for b in single} - found
        found |= fresh
    return sorted(found)


def compositions():
    """The compositions of base relations, over all intervals of the ranks 0 to 5."""
    intervals = list(itertools.combinations(range(6), 2))
    related = {(x, y): relation(x, y) for x in intervals for y in intervals}
    table = {(r, s): 0 for r in range(len(NAMES)) for s in range(len(NAMES))}
    for x, y, z in itertools.product(intervals, repeat=3):
        table[related[x, y], related[y, z]] |= 1 << related[x, z]
    return table


def members(a):
    return [r for r in range(len(NAMES)) if a >> r & 1]


def check(sets):
    """Stops where the sets aren't a closed class with every base relation."""
    known = set(sets)
    table = compositions()
    rows = {}

    def row(r, b):
        if (r, b) not in rows:
            rows[r, b] = sum_of(table[r, s] for s in members(b))
        return rows[r, b]

    def sum_of(words):
        whole = 0
        for word in words:
            whole |= word
        return whole

    if len(sets) != MEMBERS:
        sys.exit(f"{len(sets)} members and not {MEMBERS}")
    if any(1 << r not in known for r in range(len(NAMES))):
        sys.exit("a base relation is missing")
    for a in sets:
        if sum_of(1 << len(NAMES) - 1 - r for r in members(a)) not in known:
            sys.exit(f"the converse of {a:#x} is missing")
        for b in sets:
            if a & b not in known:
                sys.exit(f"the intersection of {a:#x} and {b:#x} is missing")
            if sum_of(row(r, b) for r in members(a)) not in known:
                sys.exit(f"the composition of {a:#x} and {b:#x} is missing")


def main():
    sets = ord_horn()
    check(sets)
    print("# ORD-Horn, the greatest tractable class of Allen's algebra with all base relations (Nebel and Bürckert 1995);")
    print("# made by tools/ord_horn.py")
    for word in sets:
        print("( " + "".join(NAMES[r] + " " for r in members(word)) + ")")
    print(".")


main()
