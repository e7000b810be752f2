#!/usr/bin/env python3
"""Checks a traced certificate by compositions and intersections alone, for who doubts the program and its proofs.

Usage: tools/check_trace.py CALC CERT [--relations FILE] < NETWORK

CALC is rcc8, allen, point or a table file, CERT what `trace` wrote, and FILE what `relate` wrote of polygons, whose relations
are facts of the network too (docs/FORMATS.md). It writes `accepted`, with status 0; or what is wrong, at which node of the
tree and which step, with status 1; or, to standard error, which input can't be read, with status 2.

This page is all of it: it uses no other file of the repository. net[i][k] is the set of what i may be to k. A step takes from
it only what the sets of (i, j) and (j, k) don't compose to, and the parts of a split have all of its set. So no scenario is
lost, and where each leaf has an empty set there was none. A yes has a scenario, whose triples all compose.
"""
import argparse
import json
import re
import sys
from functools import cache
from itertools import combinations, permutations, product

# RCC-8 (Randell, Cui and Cohn 1992): each row composed with each column, both in this order, by letters; * is all of them
LETTERS = "deptnTN="
RCC8 = """DC    *     deptn  deptn deptn  deptn  d      d     d
          EC    depTN deptT= deptn eptn   ptn    de     d     e
          PO    depTN depTN  *     ptn    ptn    depTN  depTN p
          TPP   d     de     deptn tn     n      deptT= depTN t
          NTPP  d     d      deptn n      n      deptn  *     n
          TPPi  depTN epTN   pTN   ptT=   ptn    TN     N     T
          NTPPi depTN pTN    pTN   pTN    ptnTN= N      N     N
          EQ    d     e      p     t      n      T      N     ="""
# Allen's relations, by how the beginning of the first interval compares with both ends of the second, and then its end
ALLEN = {"<<<<": "b", "<<=<": "m", "<<><": "o", "<<>=": "fi", "<<>>": "di", "=<><": "s", "=<>=": "eq", "=<>>": "si",
         "><><": "d", "><>=": "f", "><>>": "oi", ">=>>": "mi", ">>>>": "bi"}


class Wrong(Exception):
    """What is wrong with a certificate."""


def need(holds, sentence):
    if not holds:
        raise Wrong(sentence)


class Calculus:
    """The base relations in their order, the converse of each, and what each two compose to."""

    def __init__(self, names, converses, compositions):
        self.names, self.all = list(names), frozenset(names)
        self.converse = cache(lambda a: frozenset(converses[r] for r in a))
        self.compose = cache(lambda a, b: frozenset(t for r in a for s in b for t in compositions[r, s]))
        if sorted(names) != sorted(converses) or any(converses[converses[r]] != r for r in names) \
                or not self.compose(self.all, self.all) <= self.all:
            raise ValueError

    def narrow(self, net, i, k, found):
        """Meets what i may be to k with a set, and what k may be to i with its converse."""
        net[i][k] &= found
        net[k][i] &= self.converse(found)


def by_ends(names, things):
    """The calculus of how the ends of things compare, where any three lie as some three of these."""
    relation = {(x, y): names["".join("<=>"[(p >= q) + (p > q)] for p, q in product(x, y))] for x, y in product(things, things)}
    compositions = {}
    for x, y, z in product(things, repeat=3):
        compositions.setdefault((relation[x, y], relation[y, z]), set()).add(relation[x, z])
    return Calculus(names.values(), {r: relation[y, x] for (x, y), r in relation.items()}, compositions)


def lines(data):
    """The lines of a table or a network, with one space between tokens, without comments and the end line."""
    shown = [line.split("#")[0] for line in data.decode("latin-1").split("\n")]
    *found, end = [" ".join(re.findall(r"::|[():,]|[^\s():,]+", line)) for line in shown if line.strip()]
    if end != ".":
        raise ValueError
    return found


def words(form, line):
    """What a line of a form has: a word for W, and a list of words for S, which are in brackets."""
    found = re.fullmatch(form.replace("S", r"\(( .*)\)").replace("W", r"([^ ():,]+)"), line).groups()
    return [piece.split() if piece.startswith(" ") else piece for piece in found]


def calculus(word):
    """A built-in calculus, or that of a table file."""
    if word == "rcc8":
        rows = [line.split() for line in RCC8.split("\n")]
        name = dict(zip(LETTERS, (row[0] for row in rows)))
        compositions = {(r, name[y]): [name[x] for x in (LETTERS if found == "*" else found)]
                        for r, *sets in rows for y, found in zip(LETTERS, sets)}
        return Calculus(name.values(), {name[x]: name.get(x.swapcase(), name[x]) for x in LETTERS}, compositions)
    if word == "allen":
        return by_ends(ALLEN, list(combinations(range(6), 2)))
    if word == "point":
        return by_ends({"<": "<", "=": "=", ">": ">"}, [(0,), (1,), (2,)])
    with open(word, "rb") as file:
        names, _, *rest = lines(file.read())
    compositions = {(r, s): found for r, s, found in (words("W : W :: S", line) for line in rest if " : " in line)}
    return Calculus(*words("names S", names), dict(words("W :: W", line) for line in rest if " : " not in line), compositions)


def network(calc, data, relations):
    """What each node may be to each other, by a network file and the lines of `relate`."""
    first, *facts = lines(data)
    nodes = int(*words("nodes W", first))
    names = words("names S", facts.pop(0))[0] if facts and facts[0].startswith("names (") else []
    if not 0 < nodes <= 256 or len(set(names)) not in (0, nodes):
        raise ValueError
    net = [[calc.all] * nodes for _ in range(nodes)]
    for fact in facts + [re.sub(r" [F012]{9} (\S+)$", r" ( \1 )", line) for line in relations.decode().splitlines()]:
        *pair, found = words("W W S", fact)
        i, k = (int(word) if word.isdigit() else names.index(word) for word in pair)
        if i == k:
            raise ValueError
        calc.narrow(net, i, k, frozenset(found))
    return net


def refute(calc, net, tree):
    """Goes through a tree in preorder. The network of a child is that of its split, whose edge's set is met with a part."""
    waiting = [(0, net, 0, 0, calc.all)]
    for number, node in enumerate(tree):
        need(waiting and waiting[-1][0] == number, f"node {number}: preorder has no child of this number here")
        need(node[0] in ("split", "empty"), f"node {number}: {node[0]} shows nothing")
        _, above, i, k, part = waiting.pop()
        net = [row[:] for row in above]
        calc.narrow(net, i, k, part)
        kind, *split, steps = node
        for at, (i, j, k) in enumerate(steps):
            need(len({i, j, k}) == 3 and 0 <= min(i, j, k) and max(i, j, k) < len(net),
                 f"node {number}, step {at}: {i} {j} {k} aren't three nodes of the network")
            calc.narrow(net, i, k, calc.compose(net[i][j], net[j][k]))
        if kind == "empty":
            need(any(frozenset() in row for row in net), f"node {number}: no set is empty")
            continue
        i, k, parts, children = split
        need(0 <= i < k < len(net), f"node {number}: {i} {k} is no edge of the network")
        need(0 < len(parts) == len(children), f"node {number}: there are {len(parts)} parts and {len(children)} children")
        sets = [frozenset(r for bit, r in enumerate(calc.names) if part >> bit & 1) for part in parts]
        left = net[i][k].difference(*sets)
        need(not left, f"node {number}: the parts leave out {' '.join(sorted(left))}")
        waiting += [(child, net, i, k, part) for child, part in zip(children, sets)][::-1]
    need(not waiting, f"node {len(tree)}: it isn't there")


def realise(calc, net, scenario):
    """Looks whether each relation of a scenario is in its set, and each triple composes."""
    edges = list(combinations(range(len(net)), 2))
    need(len(scenario) == len(edges) and all(0 <= r < len(calc.names) for r in scenario), "each edge needs one base relation")
    for (i, k), r in zip(edges, scenario):
        calc.narrow(net, i, k, frozenset([calc.names[r]]))
        need(net[i][k], f"nodes {i} {k}: the scenario's relation isn't in their set")
    for i, j, k in permutations(range(len(net)), 3):
        need(net[i][k] <= calc.compose(net[i][j], net[j][k]), f"nodes {i} {j} {k}: the scenario's relations don't compose")


def answer(word, source, certificate, relations=b""):
    """The status, and the sentence that is written."""
    what = "the calculus isn't in the form of a table"
    try:
        calc = calculus(word)
        what = "the network isn't in its form, or the relations aren't"
        net = network(calc, source, relations)
        what = "the certificate isn't in its form, or lists no steps"
        cert = json.loads(certificate.decode())
        need(cert["nodes"] == len(net) and cert["relations"] == calc.names, "it is of other nodes or base relations")
        if cert["verdict"] == "yes":
            realise(calc, net, cert["scenario"])
        elif cert["version"] == 2 and cert["verdict"] in ("no", "budget"):
            refute(calc, net, cert["tree"])
        else:
            return 2, f"refused: {what}"
    except Wrong as fault:
        return 1, f"not accepted: {fault}"
    except (AttributeError, LookupError, RecursionError, TypeError, ValueError):
        return 2, f"refused: {what}"
    return 0, "accepted"


def main():
    parser = argparse.ArgumentParser(description="checks a traced certificate")
    parser.add_argument("calculus", help="rcc8, allen, point or a table file")
    parser.add_argument("certificate", help="what trace wrote")
    parser.add_argument("--relations", help="what relate wrote", default="/dev/null")
    asked = parser.parse_args()
    try:
        with open(asked.certificate, "rb") as certificate, open(asked.relations, "rb") as relations:
            status, sentence = answer(asked.calculus, sys.stdin.buffer.read(), certificate.read(), relations.read())
    except OSError as fault:
        status, sentence = 2, f"refused: {fault.filename} can't be read: {fault.strerror}"
    print(sentence, file=sys.stderr if status == 2 else sys.stdout)
    return status


if __name__ == "__main__":
    sys.exit(main())
