#!/usr/bin/env python3
"""Times searches by four workers beside those by one, on the random networks of bench/search.py, in the same run.

Usage: bench/searchers.py [--program PATH]      (default: the built program)

Both write the same bytes. They run in turn; the time of a run on a network of one node, right before, is taken off as the cost
of the start. Prints one line for each network that splits 400 times or more, or on which the ratio is above 1.2, then one for
each kind of verdict: the sums of the median times in milliseconds, and the ratio of these. Says nothing of fewer than four
processors.
"""
import argparse, os, sys, tempfile
from collections import defaultdict

from search import BUDGET, VERDICTS, in_turn, kinds
from timing import PROGRAM

MANY = 400
GREAT = 1.2


def tell(what, times):
    one, four = times
    print(f"{what:44} one {one:9.2f} ms  four {four:9.2f} ms  ratio {four / one:6.2f}", flush=True)


def main():
    options = argparse.ArgumentParser(description=__doc__, formatter_class=argparse.RawDescriptionHelpFormatter)
    options.add_argument("--program", default=PROGRAM[0], metavar="PATH")
    program = options.parse_args().program
    if not os.path.exists(program):
        sys.exit(f"{program} isn't there: `rt ci` or `./higwadel --build` makes it")
    if len(os.sched_getaffinity(0)) < 4:
        sys.exit("fewer than four processors may be used")
    sums = defaultdict(lambda: [0, 0])
    with tempfile.TemporaryDirectory() as folder:
        start, path = os.path.join(folder, "start"), os.path.join(folder, "network")
        with open(start, "w") as file:
            file.write("nodes 1\n.\n")
        for kind, calculus, name, networks in kinds():
            words = [program, "solve", calculus, "--class", name, "--budget", BUDGET, "--workers"]
            for number, text in enumerate(networks):
                with open(path, "w") as file:
                    file.write(text)
                times, status, out = in_turn(([*words, "1"], [*words, "4"]), start, path)
                if status not in VERDICTS:
                    sys.exit(out.decode())
                splits = int(out.split()[1])
                size = f"{MANY} splits or more" if splits >= MANY else "fewer splits"
                for column, time in enumerate(times):
                    sums[f"{VERDICTS[status]}, {size}"][column] += time
                if splits >= MANY or times[1] > GREAT * times[0]:
                    tell(f"{kind}, network {number}: {VERDICTS[status]}, {splits} splits", times)
    for what, times in sorted(sums.items()):
        tell(f"in all: {what}", times)


if __name__ == "__main__":
    main()
