#!/usr/bin/env python3
"""Times the closure of a network by workers, beside the same on one thread in the same run.

Usage: bench/workers.py [--count | --runs] [NODES ..]      (default: 3 20 64 128 256)

The library has no program of its own, so this writes a small one into a folder for temporary files, with copies of the crates, and has it
proved and built there, which takes as long as proving those crates does where no check was kept. The program reads a network of regions or of intervals
and closes it by `closure_seq`, by one worker and by four, 41 times. All have to end with the same sets. Prints one line for each network: the median
microseconds of each, the ratio of one worker to one thread, and the quartiles of that of four workers to one. Before that it prints how much slower a
thread of a loop without memory runs where four run at once, and what part of its time the loop takes shared out among four (`processors.cpp`, built with
g++ -O2): so much can be had of four processors here.

With --count it counts instructions in place of that (valgrind --tool=callgrind), which others' use of the processors doesn't change: the millions of a
closing on one thread, and of one by four workers together, of which one is the thread that starts the others; what a quarter of that comes to as a part
of the first. That takes a minute or two a network.

With --runs it times whole runs of the program, which rt ci leaves, in place of that: where no number of workers is named and where four are, in turn with
one worker, 21 times each. Prints the median milliseconds of one worker, and the median ratios of the others to it in the same turn.
"""
import glob, os, random, re, statistics, subprocess, sys, tempfile

from closure import chain, random_network, set_with
from timing import PROGRAM as BUILT, TOP, build_program, timed_in_turn

INTERVALS = "b bi m mi o oi s si d di f fi eq".split()
DEPENDS = (
    "calculus_table calculus_builtin compose_fast network_words network_file qsr_lex qsr_outside edge_table narrow_core closure_seq closure_workers"
)

PROGRAM = """//! Closes a network on one thread, by one worker and by four, a few times. Writes a line for each: the microseconds of the three, and
//! whether the same sets came out. A network that begins with a comment is one of intervals, another one of regions.
#![tactic(auto)]

ghost use Rattle.std.specs.Prelude.{◌≡◌, ◌<◌, ◌≤◌, IfSome};
ghost use Rattle.network_words.specs.Network.{IsNetwork};

use calculus_builtin::{allen, rcc8};
use calculus_table::Calculus;
use closure_seq::close;
use closure_workers::close_parallel;
use compose_fast::Fast;
use network_file::read;
use network_words::Net;
use qsr_lex::MAX_TEXT;
use qsr_outside::NoGate;
use std::alloc::Global;
use std::io;
use std::io::Read;
use std::thread::Threads;
use std::time::{Clock, Instant};

/// The microseconds of closing on one thread.
fn on_one_thread(rt: &impl Clock, alloc: Global, net: &mut Net, c: &Fast) -> io::Result<u128>
    requires { IsNetwork c.now net.old.nodes net.old.words }
{
    let start = Instant::now(rt)?;
    let _closed = close(alloc, net, c);
    Ok(start.elapsed(rt)?.as_micros())
}

/// The microseconds of closing by so many workers.
fn by_workers<R: Threads + Sync + Clock>(rt: &R, alloc: Global, net: &mut Net, c: &Fast, workers: u32) -> io::Result<u128>
    requires network { IsNetwork c.now net.old.nodes net.old.words }
    requires some { 0 < workers }
    requires few { workers ≤ 64 }
{
    let start = Instant::now(rt)?;
    let _closed = close_parallel(rt, alloc, net, c, workers, &NoGate);
    Ok(start.elapsed(rt)?.as_micros())
}

/// The microseconds of closing on one thread, by one worker and by four, and whether the same sets came out.
fn timed<R: Threads + Sync + Clock>(rt: &R, alloc: Global, net: &Net, c: &Fast) -> io::Result<(u128, u128, u128, bool)>
    requires { IsNetwork c.now net.now.nodes net.now.words }
{
    let Ok(mut plain) = net.copy() else {
        return Ok((0, 0, 0, false));
    };
    let Ok(mut one) = net.copy() else {
        return Ok((0, 0, 0, false));
    };
    let Ok(mut four) = net.copy() else {
        return Ok((0, 0, 0, false));
    };
    let by_plain = on_one_thread(rt, alloc, &mut plain, c)?;
    let by_one = by_workers(rt, alloc, &mut one, c, 1)?;
    let by_four = by_workers(rt, alloc, &mut four, c, 4)?;
    let same = plain.words() == one.words() && plain.words() == four.words();
    Ok((by_plain, by_one, by_four, same))
}

/// The network and the tables of its calculus.
fn made(alloc: Global, bytes: &[u8], c: &Calculus) -> Option<(Net, Fast)>
    ensures { IfSome result (λ r. IsNetwork r.1 r.0.nodes r.0.words) }
{
    let Ok(fast) = Fast::new(alloc, c) else {
        return None;
    };
    if bytes.len() > MAX_TEXT {
        return None;
    }
    let Ok(net) = read(alloc, bytes, c) else {
        return None;
    };
    Some((net, fast))
}

/// The calculus of the network.
fn calculus(alloc: Global, bytes: &[u8]) -> Option<Calculus> {
    if bytes.len() > 0 && bytes[0] == b'#' {
        allen(alloc).ok()
    } else {
        rcc8(alloc).ok()
    }
}

/// Has the allocator keep memory that is freed, as the reasoner's program does.
fn keep_freed_memory(alloc: Global) {
    let block: Result<Vec<u8>, _> = Vec::with_capacity(alloc, 16 << 20);
    drop(block);
}

fn main(rt: HostRuntime) -> io::Result<()> {
    let alloc = rt.alloc();
    keep_freed_memory(alloc);
    let mut bytes = Vec::new(alloc);
    rt.stdin().read_to_end(&mut bytes)?;
    let Some(c) = calculus(alloc, &bytes) else {
        return Ok(());
    };
    let Some((net, fast)) = made(alloc, &bytes, &c) else {
        return Ok(());
    };
    for _ in 0..41 {
        let (plain, by_one, by_four, same) = timed(&rt, alloc, &net, &fast)?;
        println!(rt; "{plain} {by_one} {by_four} {same}")?;
    }
    Ok(())
}
"""


def interval_network(nodes, degree, seed, half=False):
    """About `degree` facts at each node, each a random set with the relation that random intervals have."""
    rng = random.Random(seed)
    intervals = []
    for _ in range(nodes):
        begin = rng.uniform(0, 100)
        intervals.append((begin, begin + rng.choice([3, 10, 30])))

    def relation(a, b):
        if a[1] < b[0]:
            return "b"
        if b[1] < a[0]:
            return "bi"
        if a[0] < b[0]:
            return "o" if a[1] < b[1] else "di"
        return "oi" if a[1] > b[1] else "d"

    pairs = [(i, j) for i in range(nodes) for j in range(i + 1, nodes)]
    lines = ["# intervals", f"nodes {nodes}"]
    for i, j in rng.sample(pairs, min(nodes * degree // 2, len(pairs))):
        chosen = set_with(rng, INTERVALS, relation(intervals[i], intervals[j]), 4, half)
        lines.append(f"{i} {j} ( " + " ".join(b for b in INTERVALS if b in chosen) + " )")
    return "\n".join(lines + ["."]) + "\n"


def counted(program, text):
    """The millions of instructions of a closing on one thread, of one by four workers, and of those the part of the thread that starts the others."""
    with tempfile.TemporaryDirectory() as folder:
        counts = os.path.join(folder, "counts")
        valgrind = ["valgrind", "--tool=callgrind", "--separate-threads=yes", f"--callgrind-out-file={counts}", program]
        closings = len(subprocess.run(valgrind, input=text, capture_output=True, text=True, check=True).stdout.splitlines())
        others = 0
        for path in glob.glob(f"{counts}-*"):
            if not path.endswith("-01"):
                with open(path) as file:
                    others += sum(int(total) for total in re.findall(r"^totals: (\d+)", file.read(), re.M))
        annotate = ["callgrind_annotate", "--inclusive=yes", f"{counts}-01"]
        lines = subprocess.run(annotate, capture_output=True, text=True, check=True).stdout.replace(",", "")

    def inclusive(name):
        return int(re.search(rf"^ *(\d+) .*{name}", lines, re.M)[1])

    # each closing is made once on one thread and once by one worker
    one = inclusive("closing::close::") / (2 * closings)
    starter = inclusive("worker_times::by_workers") / closings - one
    return one / 1e6, (others / closings + starter) / 1e6, starter / 1e6


def kinds(nodes):
    """Networks of so many nodes, by what they are called."""
    return (
        ("chain", chain(nodes)),
        ("regions, degree 12", random_network(nodes, 12, 1)),
        ("regions, every pair", random_network(nodes, nodes, 1)),
        ("regions, every pair, half of the relations", random_network(nodes, nodes, 1, half=True)),
        ("intervals, degree 12", interval_network(nodes, 12, 1)),
        ("intervals, every pair", interval_network(nodes, nodes, 1)),
        ("intervals, every pair, half of the relations", interval_network(nodes, nodes, 1, half=True)),
    )


def time_runs(sizes):
    """Times whole runs of the program on each network."""
    program = BUILT[0]
    with tempfile.TemporaryDirectory() as folder:
        path = os.path.join(folder, "network")
        for nodes in sizes:
            for kind, text in kinds(nodes):
                with open(path, "w") as file:
                    file.write(text)
                calculus = "allen" if kind.startswith("intervals") else "rcc8"
                commands = [[program, "close", calculus, *words] for words in (["--workers", "1"], [], ["--workers", "4"])]
                medians, ratios, written = timed_in_turn(commands, path, 21)
                if any(each != written[0] for each in written):
                    sys.exit(f"{kind} of {nodes}: the texts differ")
                print(f"{kind}, {nodes} nodes: one worker {medians[0]:.2f} ms, none named {ratios[1]:.2f}, four workers {ratios[2]:.2f}", flush=True)


def main():
    words = sys.argv[1:]
    counts = "--count" in words
    sizes = [int(word) for word in words if not word.startswith("--")] or [3, 20, 64, 128, 256]
    if "--runs" in words:
        time_runs(sizes)
        return
    with tempfile.TemporaryDirectory() as folder:
        loops = os.path.join(folder, "processors")
        subprocess.run(["g++", "-O2", "-std=c++17", "-pthread", "-o", loops, os.path.join(TOP, "bench/processors.cpp")], check=True)
        program = build_program(os.path.join(folder, "program"), "worker_times", DEPENDS, {"src/main.rt": PROGRAM})
        print(f"a thread among four takes {subprocess.run([loops], capture_output=True, text=True, check=True).stdout.strip()}", flush=True)
        for nodes in sizes:
            for kind, text in kinds(nodes):
                if counts:
                    one, four, starter = counted(program, text)
                    print(f"{kind}, {nodes} nodes: one thread {one:.1f} M, four workers {four:.1f}, {starter:.1f} of these the first ({four / 4 / one:.2f})", flush=True)
                    continue
                out = subprocess.run([program], input=text, capture_output=True, text=True, check=True).stdout
                rows = [line.split() for line in out.splitlines()]
                if not rows or any(row[3] != "true" for row in rows):
                    sys.exit(f"{kind} of {nodes}: the sets differ")
                plain, one, four = (statistics.median(int(row[column]) for row in rows) for column in range(3))
                low, middle, high = statistics.quantiles((int(row[2]) / int(row[1]) for row in rows), n=4)
                print(
                    f"{kind}, {nodes} nodes: one thread {plain} us, one worker {one} ({one / plain:.2f}), "
                    f"four workers {four} ({middle:.2f}, {low:.2f}..{high:.2f})",
                    flush=True,
                )


if __name__ == "__main__":
    main()
