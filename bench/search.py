#!/usr/bin/env python3
"""Times searches of random networks of regions and of intervals, beside a plain program in C++ on the same inputs in the same run.

Usage: bench/search.py [--program PATH]      (default: the built program)

The plain program, bench/plain_search.cpp, makes the same tree of splits, and both have to write the same bytes. They run in
turn, on one thread each; the time of a run on a network of one node, right before, is taken off as the cost of the start.
Prints one line for each kind: the verdicts and splits of its networks, the sums of their median times in milliseconds, and
the ratio of these.
"""
import argparse, os, random, statistics, subprocess, sys, tempfile
from collections import Counter

from closure import BASES
from timing import PROGRAM, TOP, timed
from workers import INTERVALS

TURNS = 5
BUDGET = "10000"
VERDICTS = {0: "yes", 1: "no", 7: "budget"}
NAMES = {"rcc8": BASES, "allen": INTERVALS}
PARTS, WHOLES = {"TPP", "NTPP"}, {"TPPi", "NTPPi"}


def network_text(nodes, facts):
    lines = [f"{i} {j} ( " + " ".join(sorted(label)) + " )" for (i, j), label in facts.items()]
    return "\n".join([f"nodes {nodes}"] + lines + ["."]) + "\n"


def is_hard(label):
    """Whether none of the three built-in classes can have the set of RCC-8 (Renz and Nebel 1999; docs/FORMATS.md)."""
    if label & PARTS and label & WHOLES and "PO" not in label:
        return True
    return label - {"DC"} in ({"EC", "NTPP", "EQ"}, {"EC", "NTPPi", "EQ"})


def random_network(calculus, nodes, degree, seed):
    """About `degree` facts at each node, half of the base relations in each on average; of regions hard sets alone."""
    rng = random.Random(seed)

    def label():
        while True:
            chosen = {name for name in NAMES[calculus] if rng.random() < 0.5}
            if chosen and (calculus == "allen" or is_hard(chosen)):
                return chosen

    pairs = [(i, j) for i in range(nodes) for j in range(i + 1, nodes)]
    return network_text(nodes, {pair: label() for pair in pairs if rng.random() < degree / (nodes - 1)})


def rectangles(nodes, seed):
    """Each pair with the relation of random rectangles of whole coordinates, and with three others on average."""
    rng = random.Random(seed)

    def side():
        least = rng.randrange(8)
        return least, least + rng.randint(1, 6)

    boxes = [(side(), side()) for _ in range(nodes)]

    def relation(a, b):
        pairs = list(zip(a, b))
        shared = min(min(p[1], q[1]) - max(p[0], q[0]) for p, q in pairs)
        if shared <= 0:
            return "EC" if shared == 0 else "DC"
        if a == b:
            return "EQ"
        for name, order in (("TPP", pairs), ("TPPi", list(zip(b, a)))):
            if all(q[0] <= p[0] and p[1] <= q[1] for p, q in order):
                return "N" + name if all(q[0] < p[0] and p[1] < q[1] for p, q in order) else name
        return "PO"

    facts = {}
    for i in range(nodes):
        for j in range(i + 1, nodes):
            facts[i, j] = {relation(boxes[i], boxes[j])} | {name for name in BASES if rng.random() < 3 / 7}
    return network_text(nodes, facts)


def kinds():
    """What is told of each kind, its calculus and its class, and its networks."""
    for nodes in (30, 40, 50, 60, 80):
        networks = [random_network("rcc8", nodes, 12.5, 1000 * nodes + k) for k in range(5)]
        yield f"{nodes} regions, h8", "rcc8", "h8", networks
        if nodes == 30:
            yield f"{nodes} regions, none", "rcc8", "none", networks
    yield "128 rectangles, h8", "rcc8", "h8", [rectangles(128, k) for k in range(2)]
    ord_horn = os.path.join(TOP, "examples/ord_horn.class")
    for nodes in (30, 40, 50):
        networks = [random_network("allen", nodes, 9, 1000 * nodes + k) for k in range(5)]
        yield f"{nodes} intervals, none", "allen", "none", networks
        yield f"{nodes} intervals, ORD-Horn", "allen", ord_horn, networks


def in_turn(commands, start, path):
    """The median times of the two commands on the file beyond those on the file `start` right before, and what both wrote."""
    times, answers = ([], []), set()
    for _ in range(TURNS):
        for command, column in zip(commands, times):
            begun, _, _ = timed(command, start, 1)
            taken, out, status = timed(command, path, 1)
            column.append(taken - begun)
            answers.add((status, out))
    if len(answers) > 1:
        sys.exit("the two disagree: " + " and ".join(f"status {status}, {out[:40]}" for status, out in sorted(answers)))
    return [max(statistics.median(column), 0.001) for column in times], *answers.pop()


def main():
    options = argparse.ArgumentParser(description=__doc__, formatter_class=argparse.RawDescriptionHelpFormatter)
    options.add_argument("--program", default=PROGRAM[0], metavar="PATH")
    program = options.parse_args().program
    if not os.path.exists(program):
        sys.exit(f"{program} isn't there: `rt ci` or `./higwadel --build` makes it")
    with tempfile.TemporaryDirectory() as folder:
        plain = os.path.join(folder, "plain_search")
        subprocess.run(["g++", "-O2", "-o", plain, os.path.join(TOP, "bench/plain_search.cpp")], check=True)
        start, path = os.path.join(folder, "start"), os.path.join(folder, "network")

        def write(name, text):
            with open(name, "w") as file:
                file.write(text)

        write(start, "nodes 1\n.\n")
        for kind, calculus, name, networks in kinds():
            table = os.path.join(TOP, "examples/allen.table") if calculus == "allen" else calculus
            commands = (
                [program, "solve", calculus, "--class", name, "--budget", BUDGET, "--workers", "1"],
                [plain, table, name, BUDGET],
            )
            verdicts, splits, sums = Counter(), 0, [0, 0]
            for text in networks:
                write(path, text)
                medians, status, out = in_turn(commands, start, path)
                if status not in VERDICTS:
                    sys.exit(out.decode())
                verdicts[VERDICTS[status]] += 1
                splits += int(out.split()[1])
                sums = [total + median for total, median in zip(sums, medians)]
            told = " ".join(f"{count} {verdict}" for verdict, count in sorted(verdicts.items()))
            ours, theirs = sums
            print(
                f"{kind:24} {told:22} {splits:6} splits  "
                f"program {ours:9.2f} ms  plain {theirs:9.2f} ms  ratio {ours / theirs:6.2f}",
                flush=True,
            )


if __name__ == "__main__":
    main()
