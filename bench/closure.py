#!/usr/bin/env python3
"""Times closing random networks of regions, beside a plain program in C++ on the same inputs in the same run.

Usage: bench/closure.py [NODES ..]      (default: 20 40 80 128)

The plain program, bench/plain_closure.cpp, closes by a queue of edges with the same composition table. Both read the same
file; the time of the program on a network of one node is taken off as the cost of its start. Prints one line for each kind and
size: the median times in milliseconds and their ratio.
"""
import os, random, subprocess, sys, tempfile

from timing import PROGRAM, TOP, timed

BASES = ["DC", "EC", "PO", "TPP", "NTPP", "TPPi", "NTPPi", "EQ"]


def set_with(rng, bases, relation, most, half):
    """A random set of base relations with this one: of up to so many more, or with half of them in the mean."""
    if half:
        chance = (len(bases) / 2 - 1) / (len(bases) - 1)
        return {relation} | {base for base in bases if rng.random() < chance}
    return {relation} | set(rng.sample(bases, rng.randint(0, most)))


def random_network(nodes, degree, seed, half=False):
    """About `degree` facts at each node, each a random set with the relation that random discs of that scale have."""
    rng = random.Random(seed)
    discs = [(rng.uniform(0, 100), rng.uniform(0, 100), rng.choice([4, 9, 20])) for _ in range(nodes)]

    def relation(a, b):
        distance = ((a[0] - b[0]) ** 2 + (a[1] - b[1]) ** 2) ** 0.5
        if distance > a[2] + b[2]:
            return "DC"
        if distance + a[2] < b[2]:
            return "NTPP"
        if distance + b[2] < a[2]:
            return "NTPPi"
        return "PO"

    wanted = nodes * degree // 2
    pairs = [(i, j) for i in range(nodes) for j in range(i + 1, nodes)]
    facts = rng.sample(pairs, min(wanted, len(pairs)))
    lines = [f"nodes {nodes}"]
    for i, j in facts:
        chosen = set_with(rng, BASES, relation(discs[i], discs[j]), 3, half)
        lines.append(f"{i} {j} ( " + " ".join(b for b in BASES if b in chosen) + " )")
    return "\n".join(lines + ["."]) + "\n"


def chain(nodes):
    """Each region is a proper part of the next, so that every edge is derived."""
    lines = [f"nodes {nodes}"] + [f"{i} {i + 1} ( TPP NTPP )" for i in range(nodes - 1)]
    return "\n".join(lines + ["."]) + "\n"


def tree(nodes):
    """Each region is a proper part of the region above it in a binary tree."""
    lines = [f"nodes {nodes}"] + [f"{(i - 1) // 2} {i} ( TPPi NTPPi )" for i in range(1, nodes)]
    return "\n".join(lines + ["."]) + "\n"


def main():
    sizes = [int(word) for word in sys.argv[1:]] or [20, 40, 80, 128]
    with tempfile.TemporaryDirectory() as folder:
        plain = os.path.join(folder, "plain_closure")
        subprocess.run(["g++", "-O2", "-o", plain, os.path.join(TOP, "bench/plain_closure.cpp")], check=True)
        path = os.path.join(folder, "network")

        def write(text):
            with open(path, "w") as file:
                file.write(text)

        write("nodes 1\n.\n")
        start, _, _ = timed(PROGRAM, path, 21)
        plain_start, _, _ = timed([plain], path, 21)
        print(f"start: program {start:.2f} ms, plain {plain_start:.2f} ms")
        for nodes in sizes:
            kinds = [(f"random, degree {d}", random_network(nodes, d, 1000 * nodes + d)) for d in (6, 8, 10, 12, 14)]
            for kind, text in kinds + [("chain", chain(nodes)), ("tree", tree(nodes))]:
                write(text)
                ours, out, status = timed(PROGRAM, path, 7)
                theirs, plain_out, _ = timed([plain], path, 7)
                if out != plain_out:
                    sys.exit(f"the two disagree on {kind} at {nodes} nodes")
                ours, theirs = max(ours - start, 0.001), max(theirs - plain_start, 0.001)
                verdict = "no" if status == 1 else "done"
                print(f"{nodes:4} nodes, {kind:18} {verdict:4}  program {ours:9.2f} ms  plain {theirs:9.2f} ms  ratio {ours / theirs:6.2f}")


if __name__ == "__main__":
    main()
