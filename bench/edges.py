#!/usr/bin/env python3
"""Times the narrowing of every triple on atomic words, beside the same on plain words in the same run.

Usage: bench/edges.py [NODES ..]      (default: 128)

The library has no program of its own, so this writes a small one into a folder for temporary files, with copies of the crates, and has it
proved and built there, which takes as long as proving those crates does where no check was kept. The program reads a network of regions, opens a
table of edge words over it, and narrows each triple once by `narrow_from`, through one pass; then it narrows each triple once on the
words of the network itself, by the same composition. Both have to end with the same sets. Prints one line for each network: the median
nanoseconds of a triple, and the ratio.
"""
import statistics, subprocess, sys, tempfile

from closure import chain, random_network
from timing import build_program

TURNS = 11
DEPENDS = "calculus_table calculus_builtin compose_fast network_words network_file qsr_lex edge_table narrow_core"

PROGRAM = """//! Narrows every triple of a network of regions once on the atomic words of a table, by one pass, and once on the words of the network itself.
//! Writes the microseconds of both, and whether the same sets came out.
#![tactic(auto)]

ghost use Rattle.std.specs.Prelude.{◌≡◌};
ghost use Rattle.network_words.specs.Edge.{IsProperTriple};
ghost use Rattle.network_words.specs.Network.{IsNetwork};
ghost use Rattle.edge_table.specs.Opening.{IsPassOf, algebra_of};

use calculus_builtin::rcc8;
use calculus_table::Compose;
use compose_fast::Fast;
use edge_table::{OpenNet, Pass, Snapshot, open};
use network_file::read;
use network_words::Net;
use qsr_lex::MAX_TEXT;
use std::io;
use std::io::Read;
use std::time::{Clock, Instant};

/// Narrows every triple by the pass and its snapshot.
fn sweep_table(table: &OpenNet, pass: &mut Pass, c: &Fast, snap: &mut Snapshot)
    requires pass { IsPassOf table.now pass.old }
    requires calculus { c.now ≡ algebra_of table.now.opening }
    requires snap { snap.old ≡ pass.old.actor.seen }
    ensures { snap.new ≡ pass.new.actor.seen }
{
    let nodes = table.nodes();
    for i in 0..nodes {
        for j in 0..nodes {
            for k in 0..nodes {
                if i != j && j != k && i != k {
                    let _less = table.narrow_from(pass, c, snap, i, j, k);
                }
            }
        }
    }
}

/// Narrows one triple.
fn narrow_words(net: &mut Net, c: &Fast, i: u32, j: u32, k: u32)
    requires network { IsNetwork c.now net.old.nodes net.old.words }
    requires proper { IsProperTriple net.old.nodes i j k }
    ensures network { IsNetwork c.now net.new.nodes net.new.words }
    ensures nodes { net.new.nodes ≡ net.old.nodes }
{
    let along = c.compose(net.get(c, i, j), net.get(c, j, k));
    net.narrow(c, i, k, along);
}

/// Narrows every triple of the network.
fn sweep_words(net: &mut Net, c: &Fast)
    requires { IsNetwork c.now net.old.nodes net.old.words }
{
    let nodes = net.nodes();
    for i in 0..nodes {
        for j in 0..nodes {
            for k in 0..nodes {
                if i != j && j != k && i != k {
                    narrow_words(net, c, i, j, k);
                }
            }
        }
    }
}

/// The microseconds of both sweeps, and whether the same sets came out.
fn timed(rt: &(impl Clock + AllocGlobal), mut net: Net, c: &Fast) -> io::Result<(u128, u128, bool)>
    requires { IsNetwork c.now net.nodes net.words }
{
    let Ok((table, mut pass)) = open(rt.alloc(), &net, c, 1) else {
        return Ok((0, 0, false));
    };
    let Ok(mut snap) = Snapshot::new(rt.alloc(), net.edges()) else {
        return Ok((0, 0, false));
    };
    table.refresh(&mut pass, &mut snap);
    let start = Instant::now(rt)?;
    sweep_table(&table, &mut pass, c, &mut snap);
    let atomic = start.elapsed(rt)?.as_micros();
    let start = Instant::now(rt)?;
    sweep_words(&mut net, c);
    let plain = start.elapsed(rt)?.as_micros();
    Ok((atomic, plain, net.words() == snap.words()))
}

fn main(rt: HostRuntime) -> io::Result<()> {
    let alloc = rt.alloc();
    let mut bytes = Vec::new(alloc);
    rt.stdin().read_to_end(&mut bytes)?;
    let Ok(calculus) = rcc8(alloc) else {
        return Ok(());
    };
    let Ok(fast) = Fast::new(alloc, &calculus) else {
        return Ok(());
    };
    if bytes.len() > MAX_TEXT {
        return Ok(());
    }
    let Ok(net) = read(alloc, &bytes, &calculus) else {
        return Ok(());
    };
    let (atomic, plain, same) = timed(&rt, net, &fast)?;
    println!(rt; "{atomic} {plain} {same}")
}
"""

SWEEP_TABLE = """use Rattle.std.proofs.Common.{◌≡◌}
use Rattle.edge_table.specs.Opening.{IsPassOf}
use Rattle.edge_sweeps.proofs.sweep_table.Given as goal

abbrev pub invariant-loop-i : goal.invariant-loop-i
invariant-loop-i l = record { pass : IsPassOf l.table l.pass; snap : l.snap ≡ l.pass.actor.seen }

abbrev pub invariant-loop-j : goal.invariant-loop-j
invariant-loop-j l = record { pass : IsPassOf l.table l.pass; snap : l.snap ≡ l.pass.actor.seen }

abbrev pub invariant-loop-k : goal.invariant-loop-k
invariant-loop-k l = record { pass : IsPassOf l.table l.pass; snap : l.snap ≡ l.pass.actor.seen }
"""

SWEEP_WORDS = """use Rattle.std.proofs.Common.{◌≡◌}
use Rattle.network_words.specs.Network.{IsNetwork}
use Rattle.edge_sweeps.proofs.sweep_words.Given as goal

abbrev pub invariant-loop-i : goal.invariant-loop-i
invariant-loop-i l = record { network : IsNetwork l.c l.net.nodes l.net.words; nodes : l.net.nodes ≡ l.fn.net.nodes }

abbrev pub invariant-loop-j : goal.invariant-loop-j
invariant-loop-j l = record { network : IsNetwork l.c l.net.nodes l.net.words; nodes : l.net.nodes ≡ l.fn.net.nodes }

abbrev pub invariant-loop-k : goal.invariant-loop-k
invariant-loop-k l = record { network : IsNetwork l.c l.net.nodes l.net.words; nodes : l.net.nodes ≡ l.fn.net.nodes }
"""

NARROW_WORDS = """use Rattle.std.proofs.Common.{sym, subst}
use Rattle.network_words.specs.Network.{Network, IsNetwork}
use Rattle.network_words.proofs.Refinements.{IsNetwork-narrowed_at}
use Rattle.edge_sweeps.proofs.narrow_words.Goals as goal

pub returns-clause-network : goal.returns-clause-network
returns-clause-network c =
    subst (λ (net : Network). IsNetwork c.args.c.now net.nodes net.words) (sym c.narrow.ensures)
    (IsNetwork-narrowed_at c.args.c.now c.args.net.now.nodes c.args.net.now.words c.args.i c.args.k c.compose-along.result c.requires.network)
"""


FILES = {
    "src/main.rt": PROGRAM,
    "proofs/sweep_table/Invariants.antt": SWEEP_TABLE,
    "proofs/sweep_words/Invariants.antt": SWEEP_WORDS,
    "proofs/narrow_words/Answers.antt": NARROW_WORDS,
}


def main():
    sizes = [int(word) for word in sys.argv[1:]] or [128]
    with tempfile.TemporaryDirectory() as folder:
        program = build_program(folder, "edge_sweeps", DEPENDS, FILES)
        for nodes in sizes:
            for kind, text in (("chain", chain(nodes)), ("random, degree 12", random_network(nodes, 12, 1))):
                runs = []
                for _ in range(TURNS):
                    atomic, plain, same = subprocess.run([program], input=text, capture_output=True, text=True, check=True).stdout.split()
                    if same != "true":
                        sys.exit(f"{kind} of {nodes}: the sets differ")
                    runs.append((int(atomic), int(plain)))
                triples = nodes * (nodes - 1) * (nodes - 2)
                atomic, plain = (statistics.median(column) * 1000 / triples for column in zip(*runs))
                ratio = statistics.median(a / p for a, p in runs)
                print(f"{kind}, {nodes} nodes: atomic {atomic:.1f} ns, plain {plain:.1f} ns, ratio {ratio:.2f}", flush=True)


if __name__ == "__main__":
    main()
