#!/usr/bin/env python3
"""Times reading network files of growing size, with nodes by number and by name.

Usage: bench/reading.py [MEGABYTES ..]      (default: 1 2 4 8 16)

Every file has 128 nodes and the same fact on each line, on the last two nodes, which allows all relations, so that nothing is
left to close. The time of the program on a network of one node is taken off as the cost of its start. Prints one line for each
size: the median time in milliseconds, the nanoseconds for each byte, and how they compare with the first size's.
"""
import os, sys, tempfile

from timing import PROGRAM, timed

ALL = "DC EC PO TPP NTPP TPPi NTPPi EQ"
LIMIT = 16_777_216


def by_number(size):
    """Facts whose nodes are numbers."""
    return filled(["nodes 128"], f"126 127 ( {ALL} )", size)


def by_name(size):
    """Facts whose nodes are names of 64 bytes that differ at their ends alone."""
    names = [f"{'n' * 61}{k:03}" for k in range(128)]
    return filled(["nodes 128", "names ( " + " ".join(names) + " )"], f"{names[126]} {names[127]} ( {ALL} )", size)


def filled(head, fact, size):
    room = size - sum(len(line) + 1 for line in head) - 2
    return "\n".join(head + [fact] * (room // (len(fact) + 1)) + ["."]) + "\n"


def main():
    sizes = [int(word) for word in sys.argv[1:]] or [1, 2, 4, 8, 16]
    with tempfile.TemporaryDirectory() as folder:
        path = os.path.join(folder, "network")

        def time_of(text):
            with open(path, "w") as file:
                file.write(text)
            taken, text, status = timed(PROGRAM, path, 7)
            if status != 0:
                sys.exit(text.decode())
            return taken

        start = time_of("nodes 1\n.\n")
        for kind, make in (("number", by_number), ("name", by_name)):
            first = None
            for size in sizes:
                text = make(min(size * 2**20, LIMIT))
                taken = time_of(text) - start
                each = taken / len(text) * 1e6
                first = first or each
                print(f"by {kind}, {size:2} MB: {taken:7.1f} ms, {each:5.1f} ns a byte, {each / first:.2f}")


if __name__ == "__main__":
    main()
