#!/usr/bin/env python3
"""Writes the network whose sets have the base relations that some scenario of a network has there: the minimal network. It tries
every list of base relations, and closes and searches nothing.

Usage: .ci/all_scenarios.py CALC < NETWORK
"""
import pathlib
import sys

sys.path.insert(0, str(pathlib.Path(__file__).resolve().parent.parent / "tools"))
from expected_answers import calculus_of, read_network


def scenarios(net):
    """The base relation of each pair, for each scenario; a pair is tried after those of earlier nodes."""
    pairs = [(i, k) for k in range(net.nodes) for i in range(k)]
    bases = {}

    def tried(at):
        if at == len(pairs):
            yield bases
            return
        i, k = pairs[at]
        for base in net.calculus.members(net.words[i, k]):
            if all(net.calculus.table[bases[j, i], base] >> bases[j, k] & 1 for j in range(i)):
                bases[i, k] = base
                yield from tried(at + 1)

    return tried(0)


def main():
    net = read_network(sys.stdin.buffer.read(), calculus_of(sys.argv[1]))
    held = dict.fromkeys(net.words, 0)
    for bases in scenarios(net):
        for pair in held:
            held[pair] |= 1 << bases[pair]
    net.words = held
    sys.stdout.write(net.text())


if __name__ == "__main__":
    main()
