#!/usr/bin/env python3
"""Drops from a traced certificate the steps on which nothing rests, and writes what is left.

Usage: tools/trim_trace.py [FILE] > trimmed.cert

FILE has what `trace` wrote (docs/FORMATS.md, "Certificates"); without FILE it is read from standard input. The tool goes
through the tree from its last node to the first, and through the steps of a node from the last to the first. It knows of which
edges the sets matter later on:
- At an empty leaf it is the edge of the last step, which leaves an empty set. If there are no steps, it is each edge.
- At the end of a split it is the split's own edge, since the parts have to have all of its set, and the edges that matter to
  the children.
- A step that narrows an edge which matters is kept, and the two other edges of the step matter before it. Others are dropped.
The sets that matter stay as they were: each leaf still has its empty set, and each split all of its edge's set. So the
program's `check` and check_trace.py accept what is written where they accept what was read.

All else of the certificate stays, and a yes, which its scenario shows, is written as it was read. What is no traced certificate
is refused with a sentence, and status 1. Whether the tree shows what the verdict says isn't looked at.
"""
import argparse
import json
import sys
from itertools import combinations


class Refused(Exception):
    """Why bytes aren't trimmed."""


def ask(holds, sentence):
    """Refuses by a sentence what doesn't hold."""
    if not holds:
        raise Refused(sentence)


def is_whole(value, limit):
    """A whole number less than the limit; `true` and `1.0` are none."""
    return type(value) is int and 0 <= value < limit


def edge(i, k):
    return min(i, k), max(i, k)


def is_step(value, nodes):
    """Three different nodes."""
    return isinstance(value, list) and all(is_whole(node, nodes) for node in value) and len(value) == len(set(value)) == 3


def ask_node(number, node, nodes):
    """Refuses what is no split and no empty leaf with its steps."""
    kind = node[0] if isinstance(node, list) and node else None
    ask(kind in ("split", "empty"), f"node {number} of the tree is no split and no empty leaf")
    ask(len(node) == (6 if kind == "split" else 2), f"node {number} of the tree: {kind} has length {len(node)}")
    ask(isinstance(node[-1], list), f"node {number} of the tree lists no steps")
    for at, step in enumerate(node[-1]):
        ask(is_step(step, nodes), f"node {number} of the tree: step {at} isn't of three different nodes")
    if kind == "split":
        i, k, parts, children = node[1:5]
        ask(is_whole(i, nodes) and is_whole(k, nodes) and i < k, f"node {number} of the tree splits no edge of {nodes} nodes")
        ask(isinstance(parts, list) and isinstance(children, list) and 0 < len(parts) == len(children),
            f"node {number} of the tree hasn't a child for each part")


def kept(steps, matter):
    """The steps that are kept where some edges matter after them; to these are added those that matter before them."""
    found = []
    for i, j, k in reversed(steps):
        if edge(i, k) in matter:
            found.append([i, j, k])
            matter |= {edge(i, j), edge(j, k)}
    return found[::-1]


def trim(tree, nodes):
    """Drops steps from the nodes of a tree. What matters to the children waits for their split, the first child's on top."""
    waiting = []
    for number, node in reversed(list(enumerate(tree))):
        ask_node(number, node, nodes)
        kind, *split, steps = node
        if kind == "split":
            matter = {tuple(split[:2])}
            for child in split[3]:
                ask(waiting and waiting[-1][0] == child, f"node {number} of the tree: its children aren't those of preorder")
                matter |= waiting.pop()[1]
        else:
            matter = {edge(steps[-1][0], steps[-1][2])} if steps else set(combinations(range(nodes), 2))
        node[-1] = kept(steps, matter)
        waiting.append((number, matter))
    ask(tree, "the tree has no nodes")
    for number, _ in reversed(waiting[:-1]):
        raise Refused(f"node {number} of the tree is a child of none")


def trimmed(data):
    """The bytes of a traced certificate without the steps on which nothing rests."""
    try:
        cert = json.loads(data.decode("utf-8"))
        ask(isinstance(cert, dict), "this is no JSON object")
        version, nodes, tree = cert.get("version"), cert.get("nodes"), cert.get("tree")
        ask(cert.get("verdict") in ["yes", "no", "budget"], "verdict isn't \"yes\", \"no\" or \"budget\"")
        ask(is_whole(version, 3) and version > 0, "version isn't 1 or 2")
        ask(is_whole(nodes, 257) and nodes > 0, "nodes isn't a number from 1 to 256")
        ask(isinstance(tree, list), "tree isn't a list of nodes")
        if cert["verdict"] == "yes":
            return data
        ask(version == 2, "this certificate lists no steps; what `trace` writes of it does")
        trim(tree, nodes)
        return json.dumps(cert, separators=(",", ":"), allow_nan=False).encode() + b"\n"
    except RecursionError:
        raise Refused("this is nested too deeply") from None
    except ValueError as fault:
        raise Refused(f"this is no JSON text: {fault}") from None


def bytes_of(name):
    """The bytes of a file, or of standard input."""
    if name is None:
        return sys.stdin.buffer.read()
    try:
        with open(name, "rb") as source:
            return source.read()
    except OSError as fault:
        raise Refused(f"{name} can't be read: {fault.strerror}") from None


def main(words=None):
    parser = argparse.ArgumentParser(description="drops from a traced certificate the steps on which nothing rests")
    parser.add_argument("file", nargs="?", help="what `trace` wrote; else standard input")
    asked = parser.parse_args(words)
    try:
        sys.stdout.buffer.write(trimmed(bytes_of(asked.file)))
    except Refused as fault:
        print(f"refused: {fault}", file=sys.stderr)
        return 1
    return 0


if __name__ == "__main__":
    sys.exit(main())
