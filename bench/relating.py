#!/usr/bin/env python3
"""Times `relate` on 128 polygons, beside a program that has GEOS make the matrices of the same rings in the same run.

Usage: bench/relating.py [VERTICES ..]      (default: 4 64 256)

Needs the built program, and g++ and GEOS's C interface (libgeos-dev) for the other one. Both are timed as a whole: they
start, read the polygons from a file, make the matrix of each pair, and write it; `relate` tests besides that each ring is
simple, and writes names and relations too. The two take turns. Prints one line for each kind and size: the median
milliseconds of both, their ratio with the least and the greatest of single turns, and how many of a sample of matrices
differ. bench/matrices.py times the matrices alone.
"""
import os
import random
import statistics
import sys
import tempfile

from matrices import build_geos, stars, tiles
from timing import PROGRAM, timed

TURNS = 7
SAMPLE = 1000


def write_lines(path, lines):
    with open(path, "w") as file:
        file.writelines(line + "\n" for line in lines)
    return path


def points(ring, mark):
    return mark.join(f"{x} {y}" for x, y in ring)


def measure(program, geos, rings, folder):
    """The milliseconds of both in each turn, and how many matrices of a sample of pairs differ."""
    polygons = write_lines(os.path.join(folder, "rings.polygons"),
                           (f"p{k} POLYGON (({points(ring + ring[:1], ', ')}))" for k, ring in enumerate(rings)))
    plain = write_lines(os.path.join(folder, "rings"), (points(ring, " ") for ring in rings))
    turns = []
    for _ in range(TURNS):
        ours, lines, status = timed([program, "relate", polygons], os.devnull, 1)
        if status != 0:
            sys.exit(f"relate ended with the status {status}: {lines.decode().strip()}")
        others, matrices, _ = timed([geos], plain, 1)
        turns.append((ours, others))
    own = [line.split()[2] for line in lines.splitlines()]
    other = matrices.split()
    if len(own) != len(other):
        sys.exit(f"relate wrote {len(own)} pairs, and GEOS {len(other)}")
    sample = random.Random(0).sample(range(len(own)), min(SAMPLE, len(own)))
    return turns, sum(own[k] != other[k] for k in sample), len(sample)


def main():
    program, sizes = PROGRAM[0], [int(word) for word in sys.argv[1:]] or [4, 64, 256]
    if not os.path.exists(program):
        sys.exit(f"the program isn't built: {program}")
    with tempfile.TemporaryDirectory() as folder:
        geos = build_geos(folder)
        for kind, make in (("stars", stars), ("tiles", tiles)):
            for vertices in sizes:
                turns, differing, sampled = measure(program, geos, make(vertices, vertices), folder)
                ours, others = (statistics.median(column) for column in zip(*turns))
                ratios = sorted(a / b for a, b in turns)
                print(f"{kind} of {vertices:3}: relate {ours:8.1f} ms, GEOS {others:8.1f} ms, ratio {ours / others:5.2f}"
                      f" ({ratios[0]:.2f} to {ratios[-1]:.2f}); {differing} of {sampled} matrices differ", flush=True)


if __name__ == "__main__":
    main()
