#!/usr/bin/env python3
"""Times serving scripts of sessions, beside a plain program in C++ on the same scripts in the same run.

Usage: bench/serving.py [--program PROGRAM] [--turns N]

The plain program, bench/plain_serve.cpp, works the lines off on one thread and starts a version from the words of the one
before. The scripts are of 64 sessions at 128 or 256 regions: facts that hold of random rectangles, peeks and asks, and in one
row withdrawals. The program serves them by one worker, in which all is done in turn, and as it does where no number is named.
Each turn runs the three one after another; the ratios are medians of those of a turn. The sets that peeks show may differ; all
else is compared.
"""
import argparse, os, random, subprocess, sys, tempfile

from timing import PROGRAM, TOP, timed_in_turn

NAMES = ["DC", "EC", "PO", "TPP", "NTPP", "TPPi", "NTPPi", "EQ"]


def rectangles(rng, count):
    places = [(rng.randrange(60), rng.randrange(60)) for _ in range(count)]
    return [(x, x + rng.randint(1, 20), y, y + rng.randint(1, 20)) for x, y in places]


def relation(a, b):
    """The relation of RCC-8 of two rectangles (west, east, south, north)."""
    if a == b:
        return "EQ"
    if a[0] > b[1] or b[0] > a[1] or a[2] > b[3] or b[2] > a[3]:
        return "DC"
    if a[0] == b[1] or b[0] == a[1] or a[2] == b[3] or b[2] == a[3]:
        return "EC"
    for one, other, touching, inside in ((a, b, "TPP", "NTPP"), (b, a, "TPPi", "NTPPi")):
        if one[0] >= other[0] and one[1] <= other[1] and one[2] >= other[2] and one[3] <= other[3]:
            return touching if any(one[side] == other[side] for side in range(4)) else inside
    return "PO"


def script(seed, nodes, batches, lines, facts, withdrawals=0, looks=("peek", "ask")):
    """A script of 64 sessions of which this part of the lines are facts, and this part withdrawals; the others look at sets."""
    rng = random.Random(seed)
    drawn, held, stated, text = rectangles(rng, nodes), [], 0, []
    for _ in range(batches):
        new = []
        for _ in range(lines):
            session, kind, (i, j) = rng.randrange(64), rng.random(), rng.sample(range(nodes), 2)
            if kind < facts:
                stated += 1
                new.append((stated, session))
                chosen = {relation(drawn[i], drawn[j])} | set(rng.sample(NAMES, rng.randint(0, 3)))
                text.append(f"s{session} assert {i} {j} ( {' '.join(n for n in NAMES if n in chosen)} )")
            elif kind < facts + withdrawals and held:
                fact, owner = held.pop(rng.randrange(len(held)))
                text.append(f"s{owner} withdraw {fact}")
            else:
                text.append(f"s{session} {rng.choice(looks)} {i} {j}")
        held += new
        text.append("commit")
    return "\n".join(text) + "\n"


def without_peeks(replies):
    """The replies without the sets that peeks show."""
    return [line.split(b"(")[0] if b" peek " in line else line for line in replies.split(b"\n")]


def main():
    parser = argparse.ArgumentParser()
    parser.add_argument("--program", default=PROGRAM[0])
    parser.add_argument("--turns", type=int, default=7)
    asked = parser.parse_args()
    rows = [
        ("50 batches of 200 lines", 128, script(1, 128, 50, 200, 0.5)),
        ("the same, with withdrawals", 128, script(2, 128, 50, 200, 0.5, withdrawals=0.05)),
        ("50 batches of 200 asks and peeks", 128, script(3, 128, 50, 200, 0.01)),
        ("16 batches of 3,125 facts and peeks", 256, script(5, 256, 16, 3125, 0.5, looks=("peek",))),
        ("50 batches of 4,096 lines", 256, script(4, 256, 50, 4096, 0.3)),
    ]
    with tempfile.TemporaryDirectory() as folder:
        plain, path = os.path.join(folder, "plain_serve"), os.path.join(folder, "script")
        subprocess.run(["g++", "-O2", "-o", plain, os.path.join(TOP, "bench/plain_serve.cpp")], check=True)
        for name, nodes, text in rows:
            with open(path, "w") as file:
                file.write(text)
            served = [asked.program, "serve", "rcc8", str(nodes)]
            commands = [[*served, "--workers", "1"], served, [plain, str(nodes)]]
            (one, several, theirs), (_, ratio, plain_ratio), replies = timed_in_turn(commands, path, asked.turns)
            if any(without_peeks(each) != without_peeks(replies[0][0]) for each, _ in replies):
                sys.exit(f"the three disagree on {name}")
            print(f"{name:36} one worker {one:8.1f} ms  none named {several:8.1f} ({ratio:.2f})  plain {theirs:8.1f} ({plain_ratio:.2f})", flush=True)


if __name__ == "__main__":
    main()
