"""What the measures share: where the program is, and how a command is timed."""
import os, shutil, statistics, subprocess, sys, time

TOP = os.path.dirname(os.path.dirname(os.path.abspath(__file__)))
PROGRAM = [os.path.join(TOP, "crates/qsr_main/out/qsr_main"), "close", "rcc8"]


def timed(command, path, turns):
    """The median time in milliseconds of so many runs on the file, with what the last one wrote and its status."""
    times = []
    for _ in range(turns):
        with open(path) as source:
            begun = time.perf_counter()
            done = subprocess.run(command, stdin=source, capture_output=True)
            times.append(time.perf_counter() - begun)
    return statistics.median(times) * 1000, done.stdout, done.returncode


def timed_in_turn(commands, path, turns):
    """Runs the commands on the file in turn, so many times each: the median milliseconds of each, the median of its ratios to the first one of the
    same turn, and what each wrote last and its status."""
    times, last = [[] for _ in commands], [None] * len(commands)
    for _ in range(turns):
        for place, command in enumerate(commands):
            with open(path) as source:
                begun = time.perf_counter()
                done = subprocess.run(command, stdin=source, capture_output=True)
                times[place].append(time.perf_counter() - begun)
            last[place] = (done.stdout, done.returncode)
    medians = [statistics.median(each) * 1000 for each in times]
    ratios = [statistics.median(own / first for own, first in zip(each, times[0])) for each in times]
    return medians, ratios, last


def crates_below(depends):
    """The crates that these stand on, and they themselves, as crates.txt has them."""
    with open(os.path.join(TOP, "crates.txt")) as file:
        listed = dict(line.split(":", 1) for line in file if ":" in line)
    found, left = set(), depends.split()
    while left:
        crate = left.pop()
        if crate not in found:
            found.add(crate)
            left += listed.get(crate, "").split()
    return found


def build_program(folder, name, depends, files):
    """Proves and builds a program of these files over copies of the crates, in the folder; returns its path. What checks kept of the crates that it
    stands on is copied as well, so that it isn't done again."""
    crates, below = os.path.join(folder, "crates"), crates_below(depends)
    for crate in os.listdir(os.path.join(TOP, "crates")):
        left_out = ["must-fail"] if crate in below else ["must-fail", "out"]
        shutil.copytree(os.path.join(TOP, "crates", crate), os.path.join(crates, crate), ignore=shutil.ignore_patterns(*left_out))
    shutil.copy(os.path.join(TOP, "HANDLES"), folder)
    with open(os.path.join(TOP, "crates.txt")) as file:
        listed = file.read()
    with open(os.path.join(folder, "crates.txt"), "w") as file:
        file.write(f"{listed}{name}: {depends}\n")
    own = os.path.join(crates, name)
    for path, text in {"stdin": "", "stdout": "", "proofs/Lib.antt": "", **files}.items():
        path = os.path.join(own, path)
        os.makedirs(os.path.dirname(path), exist_ok=True)
        with open(path, "w") as file:
            file.write(text)
    subprocess.run(["git", "init", "-q"], cwd=folder, check=True)
    built = subprocess.run(["rt", "run"], cwd=own, stdin=subprocess.DEVNULL, stdout=subprocess.PIPE, stderr=subprocess.STDOUT)
    if built.returncode != 0:
        sys.exit(built.stdout.decode(errors="replace"))
    return os.path.join(own, "out", name)
