#!/usr/bin/env python3
"""Times checks of certificates, beside a plain program in C++ on the same inputs in the same run.

Usage: bench/certificates.py [--program PATH]      (default: the built program)

It makes random networks of regions that have no scenario, has `solve` write their certificates and `trace` the traced ones,
and times `solve`, `check` of both, and the same checks by the plain program, bench/plain_check.cpp, which closes and composes
by tables over pairs of sets. They run in turn; the time of a run on a network of one node is taken off as the cost of the start.
Small programs over the library, which this writes, proves and builds in a folder for temporary files, tell how long reading
the JSON alone, reading the certificate and writing it take, and how long the checks of the tree and of its traced tree take alone,
in turn. Prints for each size the sums of the median times in milliseconds,
the ratios, and what part of the check is reading the JSON alone; and then, for one network, the times of trees that are twice as long each time, since
each hangs the one before it under a split twice.
"""
import argparse, json, os, statistics, subprocess, sys, tempfile

from search import random_network
from timing import PROGRAM, TOP, build_program, timed

TURNS = 5
BUDGET = "10000"
# the megabytes of the longest text that the program takes
LIMIT = 16.7
SIZES = [(20, 4), (30, 4), (40, 2)]
DEPENDS = (
    "cert_file refutation scenario closure_seq compose_fast network_file named_sets line_files qsr_lex network_words calculus_table "
    "calculus_builtin serde_json"
)

PARTS = """//! Reads a certificate as JSON and as a certificate, and writes it again.
//! Writes the microseconds of each, and whether the same bytes came out.
#![tactic(auto)]

use cert_file::{Cert, read, text};
use serde_json::Value;
use std::io;
use std::io::Read;
use std::time::{Clock, Instant};

/// The microseconds of reading the JSON, or nothing where it is none.
fn json_time(rt: &(impl Clock + AllocGlobal), bytes: &[u8]) -> io::Result<Option<u128>> {
    let start = Instant::now(rt)?;
    let is_json = Value::from_slice(rt.alloc(), bytes).is_ok();
    let time = start.elapsed(rt)?.as_micros();
    if is_json { Ok(Some(time)) } else { Ok(None) }
}

/// The certificate, and the microseconds of reading it.
fn timed(
    rt: &(impl Clock + AllocGlobal),
    bytes: &[u8],
) -> io::Result<Option<(Cert, u128)>> {
    if bytes.len() > 16_777_216 {
        return Ok(None);
    }
    let start = Instant::now(rt)?;
    let Ok(certificate) = read(rt.alloc(), bytes) else {
        return Ok(None);
    };
    Ok(Some((certificate, start.elapsed(rt)?.as_micros())))
}

/// Prints the microseconds of writing the certificate, and whether these bytes come out.
fn print_written(
    rt: &HostRuntime,
    certificate: &Cert,
    bytes: &[u8],
) -> io::Result<()> {
    let start = Instant::now(rt)?;
    let Ok(line) = text(rt.alloc(), certificate) else {
        return Ok(());
    };
    let time = start.elapsed(rt)?.as_micros();
    println!(rt; " {time} {}", line.as_bytes() == bytes)
}

fn main(rt: HostRuntime) -> io::Result<()> {
    let mut bytes = Vec::new(rt.alloc());
    rt.stdin().read_to_end(&mut bytes)?;
    let Some(as_json) = json_time(&rt, &bytes)? else {
        return Ok(());
    };
    let Some((certificate, as_certificate)) = timed(&rt, &bytes)? else {
        return Ok(());
    };
    print!(rt; "{as_json} {as_certificate}")?;
    print_written(&rt, &certificate, &bytes)
}
"""


CHECKS = """//! Checks the tree of a certificate and its traced tree in turn. Standard input has the network and then the certificate.
//! Writes for each turn the nanoseconds of both checks, and at last the number of steps.
#![tactic(auto)]

use calculus_builtin::rcc8;
use calculus_table::Calculus;
use network_words::Net;
use refutation::{Steps, Tree, check, trace};
use std::io;
use std::io::Read;
use std::time::{Clock, Instant};

ghost use Rattle.std.specs.Prelude.{◌<◌, ◌^◌, All, length};
ghost use Rattle.network_words.specs.Network.{IsNetwork};
ghost use Rattle.refutation.specs.Tree.{AreFewSteps};

/// Where the certificate begins: after the network's end line.
fn end_of_network(bytes: &[u8]) -> usize {
    for at in 0..bytes.len() {
        if bytes[at..].starts_with(b"\\n.\\n") {
            return at.saturating_add(3);
        }
    }
    0
}

/// The nanoseconds of a check.
fn timed(rt: &(impl Clock + AllocGlobal), net: &Net, c: &Calculus, tree: &Tree) -> io::Result<u128>
    requires network { IsNetwork c.now.algebra net.now.nodes net.now.words }
    requires few { length tree.now < 2 ^ 32 }
    requires steps { All (λ node. AreFewSteps node.steps) tree.now }
{
    let start = Instant::now(rt)?;
    let is_right = check(rt.alloc(), net, c, tree).is_ok();
    let time = start.elapsed(rt)?.as_nanos();
    if is_right { Ok(time) } else { Ok(0) }
}

/// Checks both trees so many times in turn.
fn print_turns(
    rt: &HostRuntime,
    net: &Net,
    c: &Calculus,
    tree: &Tree,
    traced: &Tree,
    turns: u32,
) -> io::Result<()>
    requires network { IsNetwork c.now.algebra net.now.nodes net.now.words }
    requires few { length tree.now < 2 ^ 32 }
    requires steps { All (λ node. AreFewSteps node.steps) tree.now }
    requires traced_few { length traced.now < 2 ^ 32 }
    requires traced_steps { All (λ node. AreFewSteps node.steps) traced.now }
{
    for _ in 0..turns {
        let untraced = timed(rt, net, c, tree)?;
        let traced = timed(rt, net, c, traced)?;
        println!(rt; "{untraced} {traced}")?;
    }
    Ok(())
}

/// Prints the number of steps.
fn print_steps(rt: &HostRuntime, tree: &Tree) -> io::Result<()> {
    let mut steps = 0usize;
    for node in &tree.nodes {
        if let Steps::List(list) = &node.steps {
            steps = steps.saturating_add(list.len());
        }
    }
    println!(rt; "{steps}")
}

/// Traces the tree and checks both.
fn print_checks(rt: &HostRuntime, net: &Net, c: &Calculus, tree: &Tree) -> io::Result<()>
    requires network { IsNetwork c.now.algebra net.now.nodes net.now.words }
    requires few { length tree.now < 2 ^ 32 }
    requires steps { All (λ node. AreFewSteps node.steps) tree.now }
{
    let Ok(traced) = trace(rt.alloc(), net, c, tree) else {
        return Ok(());
    };
    if traced.nodes.len() > 1_000_000 {
        return Ok(());
    }
    print_turns(rt, net, c, tree, &traced, 11)?;
    print_steps(rt, &traced)
}

fn main(rt: HostRuntime) -> io::Result<()> {
    let mut bytes = Vec::new(rt.alloc());
    rt.stdin().read_to_end(&mut bytes)?;
    if bytes.len() > 16_777_216 {
        return Ok(());
    }
    let Ok(c) = rcc8(rt.alloc()) else {
        return Ok(());
    };
    let at = end_of_network(&bytes).min(bytes.len());
    let Ok(net) = network_file::read(rt.alloc(), &bytes[..at], &c) else {
        return Ok(());
    };
    let Ok(certificate) = cert_file::read(rt.alloc(), &bytes[at..]) else {
        return Ok(());
    };
    print_checks(&rt, &net, &c, &certificate.tree)
}
"""


class Files:
    """The files of one network, and the commands over them."""

    def __init__(self, folder, program, plain, parts, checks):
        self.folder, self.program, self.plain, self.parts, self.checks = folder, program, plain, parts, checks
        self.start = self.write("start", "nodes 1\n.\n")
        self.start_certificate = self.written(["solve", "rcc8", "--cert"], self.start, "start.cert")

    def write(self, name, text):
        path = os.path.join(self.folder, name)
        with open(path, "w") as file:
            file.write(text)
        return path

    def written(self, words, network, name):
        """The file of what the command writes."""
        with open(network) as source:
            out = subprocess.run([self.program] + words, stdin=source, stdout=subprocess.PIPE, check=False).stdout.decode()
        return self.write(name, out)

    def beyond_start(self, command, network, start_command):
        """The median time beyond that of the start right before."""
        times = []
        for _ in range(TURNS):
            begun, _, _ = timed(start_command, self.start, 1)
            taken, out, status = timed(command, network, 1)
            if status not in (0, 1):
                sys.exit(f"{' '.join(command)} ended with {status}: {out[:80].decode()}")
            times.append(taken - begun)
        return max(statistics.median(times), 0.001)

    def solving(self, network):
        words = [self.program, "solve", "rcc8", "--class", "none", "--budget", BUDGET, "--workers", "1"]
        return self.beyond_start(words, network, words)

    def checking(self, network, certificate):
        words = [self.program, "check", "rcc8"]
        return self.beyond_start(words + [certificate], network, words + [self.start_certificate])

    def tracing(self, network, certificate):
        words = [self.program, "trace", "rcc8"]
        return self.beyond_start(words + [certificate], network, words + [self.start_certificate])

    def plainly(self, network, certificate):
        return self.beyond_start([self.plain, certificate], network, [self.plain, self.start_certificate])

    def checks_alone(self, network, certificate):
        """The milliseconds of the checks of its tree and of its traced tree, in turn, and the number of steps."""
        with open(network) as first, open(certificate) as second:
            both = first.read() + second.read()
        out = subprocess.run([self.checks], input=both.encode(), capture_output=True, check=True).stdout.decode().split("\n")
        *turns, steps = [[int(word) for word in line.split()] for line in out if line]
        untraced, traced = (statistics.median(column) / 1e6 for column in zip(*turns))
        return untraced, traced, steps[0]

    def json_parts(self, certificate):
        """The milliseconds of reading the JSON, of reading the certificate and of writing it."""
        runs = []
        for _ in range(TURNS):
            with open(certificate) as source:
                *times, same = subprocess.run([self.parts], stdin=source, capture_output=True, check=True).stdout.decode().split()
            if same != "true":
                sys.exit(f"{certificate}: what is written differs from what was read")
            runs.append([int(time) / 1000 for time in times])
        return [statistics.median(column) for column in zip(*runs)]


def refuted(files, nodes, count):
    """The first networks of so many nodes that a search refutes, as files, with their certificates and the traced ones."""
    found = []
    for seed in range(1000 * nodes, 1000 * nodes + 100):
        network = files.write(f"{seed}.net", random_network("rcc8", nodes, 12.5, seed))
        certificate = files.written(["solve", "rcc8", "--class", "none", "--budget", BUDGET, "--cert"], network, f"{seed}.cert")
        with open(certificate) as file:
            told = json.load(file)
        if told["verdict"] != "no" or len(told["tree"]) <= 10:
            continue
        traced = files.written(["trace", "rcc8", certificate], network, f"{seed}.traced")
        if size_of(traced) < LIMIT:
            found.append((network, certificate, traced, len(told["tree"])))
        if len(found) == count:
            break
    return found


def doubled(certificate):
    """The same with its tree twice under a new first node, which narrows nothing."""
    def moved(by):
        return [[n[0], n[1], n[2], n[3], [child + by for child in n[4]]] + n[5:] if n[0] == "split" else n for n in tree]

    tree = certificate["tree"]
    first = ["split", 0, 1, [255, 255], [1, 1 + len(tree)]] + ([[]] if certificate["version"] == 2 else [])
    return {**certificate, "tree": [first] + moved(1) + moved(1 + len(tree))}


def size_of(path):
    return os.path.getsize(path) / 1e6


def main():
    options = argparse.ArgumentParser(description=__doc__, formatter_class=argparse.RawDescriptionHelpFormatter)
    options.add_argument("--program", default=PROGRAM[0], metavar="PATH")
    program = options.parse_args().program
    if not os.path.exists(program):
        sys.exit(f"{program} isn't there: `rt ci` or `./higwadel --build` makes it")
    with tempfile.TemporaryDirectory() as folder:
        plain = os.path.join(folder, "plain_check")
        subprocess.run(["g++", "-O2", "-o", plain, os.path.join(TOP, "bench/plain_check.cpp")], check=True)
        parts = build_program(os.path.join(folder, "parts"), "certificate_parts", DEPENDS, {"src/main.rt": PARTS})
        checks = build_program(os.path.join(folder, "checks"), "certificate_checks", DEPENDS, {"src/main.rt": CHECKS})
        files = Files(folder, program, plain, parts, checks)
        for nodes, count in SIZES:
            found = refuted(files, nodes, count)
            tell_size(files, nodes, found)
        tell_growth(files, found[0])


def tell_size(files, nodes, found):
    """One line for the certificates as they are written, and one for the traced ones."""
    solve = sum(files.solving(network) for network, _, _, _ in found)
    trace = sum(files.tracing(network, certificate) for network, certificate, _, _ in found)
    many = sum(count for _, _, _, count in found)
    print(f"{nodes} regions, {len(found)} networks, {many} nodes of trees: solve {solve:.1f} ms, trace {trace:.1f} ms")
    alone, traced, steps = (sum(column) for column in zip(*(files.checks_alone(row[0], row[1]) for row in found)))
    print(f"  the check of the tree alone {alone:.2f} ms, of the traced one, {steps} steps, {traced:.2f} ms: {traced / alone:.2f}")
    for kind, place in (("untraced", 1), ("traced", 2)):
        check = sum(files.checking(row[0], row[place]) for row in found)
        other = sum(files.plainly(row[0], row[place]) for row in found)
        reading, whole, writing = (sum(column) for column in zip(*(files.json_parts(row[place]) for row in found)))
        print(
            f"  {kind:8} {sum(size_of(row[place]) for row in found):6.2f} MB  check {check:8.1f} ms  plain {other:8.1f} ms  "
            f"ratio {check / other:5.2f}  to solve {check / solve:5.2f}  JSON read {reading:7.1f} ms, {reading / check:4.0%} of the check, "
            f"as a certificate {whole:7.1f} ms, written {writing:7.1f} ms",
            flush=True,
        )


def tell_growth(files, row):
    """The check of a tree that is twice as long each time, with its steps and without."""
    network = row[0]
    for kind, place in (("untraced", 1), ("traced", 2)):
        with open(row[place]) as file:
            certificate = json.load(file)
        first = None
        while True:
            path = files.write("doubled", json.dumps(certificate, separators=(",", ":")) + "\n")
            if size_of(path) > LIMIT or len(certificate["tree"]) > 200_000:
                break
            each = files.checking(network, path) / len(certificate["tree"]) * 1000
            first = first or each
            print(f"{kind}, {len(certificate['tree']):7} nodes, {size_of(path):6.2f} MB: {each:7.1f} us a node, {each / first:.2f}", flush=True)
            certificate = doubled(certificate)


if __name__ == "__main__":
    main()
