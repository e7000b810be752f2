#!/usr/bin/env python3
"""Times a search's narrowings on a path of closed networks, beside the same done by closing copies anew.

Usage: bench/path.py [NODES ..]      (default: 128)

The library has no program of its own, so this writes a small one into a folder for temporary files, with copies of the crates, and has it
proved and built there, which takes as long as proving those crates does where no check was kept. The program reads a network of regions and
walks down and up as a search for a scenario does: it narrows an edge to its least base relation, and where a set becomes empty it goes back
and narrows the edge to the others; where every edge has one base relation it goes back as well. It writes the steps down first. Then it takes
the same steps on a new path, and a twentieth of them on copies that are closed anew. Both have to end with the same sets. Prints one line for
each network: the milliseconds of all steps on the path, and the microseconds of a step on the path and on copies.
"""
import statistics, subprocess, sys, tempfile

from closure import BASES, chain, random_network
from timing import build_program

TURNS = 7
DEPENDS = "calculus_table calculus_builtin compose_fast network_words closure_seq"

PROGRAM = """//! Walks on a path of closed networks as a search does, and on copies that are closed anew.
//! Writes the steps and the microseconds of all of them on the path, and then the steps on copies, their microseconds, and whether the same sets
//! came out.
#![tactic(auto)]

ghost use Rattle.std.specs.Prelude.{◌≡◌, ◌<◌, IsTrue, IfOk};
ghost use Rattle.network_words.specs.Network.{IsNetwork};

use calculus_builtin::rcc8;
use calculus_table::{Compose, Memory, Rel};
use closure_seq::{ClosedPath, Work, close_with};
use compose_fast::{Fast, without};
use network_words::{Net, edge_between};
use std::alloc::Global;
use std::io;
use std::io::Read;
use std::time::{Clock, Instant};

/// How many turns a search takes: some 7,900 narrowings and as many steps back.
const TURNS: u32 = 7_900;

/// One step of a walk.
#[derive(Clone, Copy)]
enum Step {
    Narrow { edge: u32, set: Rel },
    Back,
}

fn is_network(net: &Net, c: &Fast) -> bool
    ensures { IsTrue result → IsNetwork c.now net.now.nodes net.now.words }
{
    let _nodes = net.nodes();
    let full = c.full();
    for word in net.words() {
        if !Rel::of(*word).within(full) {
            return false;
        }
    }
    true
}

/// The network that the bytes tell, three by three: first the number of nodes less one, then two nodes and a set for each fact.
fn net_of(alloc: Global, bytes: &[u8], c: &Fast) -> Option<Net> {
    let last = u32::from(*bytes.first()?);
    let Ok(mut net) = Net::new(alloc, last + 1, c.full()) else {
        return None;
    };
    for k in 1..bytes.len() / 3 {
        let i = u32::from(bytes[3 * k]);
        let j = u32::from(bytes[3 * k + 1]);
        if i < j && j < net.nodes() && net.nodes() <= 256 {
            let edge = edge_between(net.nodes(), i, j);
            if edge < net.edges() {
                net.set(edge, Rel::of(u64::from(bytes[3 * k + 2])));
            }
        }
    }
    Some(net)
}

/// The first edge of more than one base relation from `from` on, or else before it.
fn open_edge(path: &ClosedPath, from: u32) -> Option<u32> {
    let edges = path.edges();
    for k in 0..edges {
        let edge = if k < edges - from.min(edges) { from.min(edges) + k } else { k };
        if edge < edges && path.word(edge).count() > 1 {
            return Some(edge);
        }
    }
    None
}

/// Takes a step on the path, if it can be taken.
fn take(path: &mut ClosedPath, step: &Step) -> Result<(), Memory> {
    match *step {
        Step::Narrow { edge, set } => {
            if edge < path.edges() && set.within(path.word(edge)) {
                path.narrow(edge, set)?;
            }
        }
        Step::Back => {
            if !path.is_first() {
                path.back();
            }
        }
    }
    Ok(())
}

/// A set's least member alone.
fn first_of(word: Rel) -> Rel {
    if word.is_empty() { word } else { Rel::single(word.least()) }
}

/// A set without its least member.
fn others_of(word: Rel) -> Rel {
    if word.is_empty() { word } else { without(word, word.least()) }
}

/// The set of an edge.
fn word_of(path: &ClosedPath, edge: u32) -> Rel {
    if edge < path.edges() { path.word(edge) } else { Rel::EMPTY }
}

/// The next edge of more than one base relation from `from` on, where no set is empty.
fn next_open(path: &ClosedPath, from: u32) -> Option<u32> {
    if path.is_empty() { None } else { open_edge(path, from) }
}

/// Where a search stands. For each level it keeps the edge and the set that is still to be tried in its place, which is empty where nothing is.
#[derive(Drop)]
struct Search {
    edges: Vec<u32>,
    sets: Vec<Rel>,
    from: u32,
}

impl Search {
    /// Keeps what is to be tried in the place of a level.
    fn keep(&mut self, edge: u32, others: Rel) -> Result<(), Memory> {
        let Ok(()) = self.edges.push(edge) else {
            return Err(Memory);
        };
        let Ok(()) = self.sets.push(others) else {
            return Err(Memory);
        };
        Ok(())
    }

    /// A narrowing to the least member of the next open edge, or nothing where there is none.
    fn down(&mut self, path: &ClosedPath) -> Result<Option<Step>, Memory> {
        let Some(edge) = next_open(path, self.from) else {
            return Ok(None);
        };
        let word = word_of(path, edge);
        self.keep(edge, others_of(word))?;
        self.from = edge.wrapping_mul(40_503).wrapping_add(7) % 8_128;
        Ok(Some(Step::Narrow { edge, set: first_of(word) }))
    }

    /// What is to be tried in the place of the last level, or nothing.
    fn other(&mut self) -> Result<Option<Step>, Memory> {
        let edge = self.edges.pop().unwrap_or(0);
        let set = self.sets.pop().unwrap_or(Rel::EMPTY);
        if set.is_empty() {
            return Ok(None);
        }
        self.keep(edge, Rel::EMPTY)?;
        Ok(Some(Step::Narrow { edge, set }))
    }
}

/// Takes a step on the path and writes it down.
fn note(steps: &mut Vec<Step>, path: &mut ClosedPath, step: Step) -> Result<(), Memory> {
    take(path, &step)?;
    let Ok(()) = steps.push(step) else {
        return Err(Memory);
    };
    Ok(())
}

/// The steps of so many turns of a search: one down, or one back and what is to be tried in that place.
fn steps_of(alloc: Global, path: &mut ClosedPath, turns: u32) -> Result<Vec<Step>, Memory> {
    let mut steps = Vec::new(alloc);
    let mut search = Search { edges: Vec::new(alloc), sets: Vec::new(alloc), from: 0 };
    for _ in 0..turns {
        if let Some(step) = search.down(path)? {
            note(&mut steps, path, step)?;
        } else {
            note(&mut steps, path, Step::Back)?;
            if let Some(step) = search.other()? {
                note(&mut steps, path, step)?;
            }
        }
    }
    Ok(steps)
}

/// Takes the steps on the path.
fn walk(path: &mut ClosedPath, steps: &[Step]) -> Result<(), Memory> {
    for step in steps {
        take(path, step)?;
    }
    Ok(())
}

/// A copy of the network with another set of an edge, closed.
fn closed_copy(net: &Net, c: &Fast, work: &mut Work, edge: u32, set: Rel) -> Result<Net, Memory>
    requires { work.old.nodes ≡ net.now.nodes }
    ensures nodes { IfOk result (λ next. next.nodes ≡ net.now.nodes) }
    ensures room { work.new.nodes ≡ work.old.nodes }
{
    let mut next = net.copy()?;
    if edge < next.edges() {
        next.set(edge, set);
    }
    if is_network(&next, c) {
        close_with(&mut next, c, work);
    }
    Ok(next)
}

/// The network below, or the top where there is none.
fn copy_below(top: Net, below: &mut Vec<Net>) -> Net
    ensures { result.nodes ≡ top.nodes }
{
    match below.pop() {
        Some(last) if last.nodes() == top.nodes() => last,
        _ => top,
    }
}

/// Takes the steps on copies of the network, each closed anew. Returns the top.
fn walk_copies(alloc: Global, net: &Net, c: &Fast, steps: &[Step]) -> Result<Net, Memory> {
    let _nodes = net.nodes();
    let mut work = Work::new(alloc, net.nodes())?;
    let mut top = closed_copy(net, c, &mut work, net.edges(), Rel::EMPTY)?;
    let mut below = Vec::new(alloc);
    for step in steps {
        match *step {
            Step::Narrow { edge, set } => {
                let next = closed_copy(&top, c, &mut work, edge, set)?;
                let Ok(()) = below.push(top) else {
                    return Err(Memory);
                };
                top = next;
            }
            Step::Back => {
                top = copy_below(top, &mut below);
            }
        }
    }
    Ok(top)
}

/// Whether the top of the path has the sets of the network.
fn is_same(path: &ClosedPath, net: &Net) -> bool {
    for edge in 0..net.edges() {
        if edge >= path.edges() || edge >= net.edges() || path.word(edge) != net.word(edge) {
            return false;
        }
    }
    true
}

/// The microseconds that the steps take on a path, or nothing out of memory.
fn path_time(rt: &impl Clock, path: &mut ClosedPath, steps: &[Step]) -> io::Result<Option<u128>> {
    let start = Instant::now(rt)?;
    let walked = walk(path, steps);
    let time = start.elapsed(rt)?.as_micros();
    if walked.is_err() {
        return Ok(None);
    }
    Ok(Some(time))
}

/// The microseconds that the steps take on copies, and whether the top then has the sets of the path's.
fn copies_time(
    rt: &(impl Clock + AllocGlobal),
    net: &Net,
    c: &Fast,
    path: &ClosedPath,
    steps: &[Step],
) -> io::Result<Option<(u128, bool)>> {
    let start = Instant::now(rt)?;
    let walked = walk_copies(rt.alloc(), net, c, steps);
    let time = start.elapsed(rt)?.as_micros();
    let Ok(top) = walked else {
        return Ok(None);
    };
    Ok(Some((time, is_same(path, &top))))
}

/// A new path of the network, after the steps.
fn path_after(alloc: Global, net: &Net, c: &Fast, steps: &[Step]) -> Result<ClosedPath, Memory>
    requires { IsNetwork c.now net.now.nodes net.now.words }
{
    let mut path = ClosedPath::new(alloc, net, c)?;
    walk(&mut path, steps)?;
    Ok(path)
}

/// The steps of a walk on a network.
fn steps_on(alloc: Global, net: &Net, c: &Fast) -> Result<Vec<Step>, Memory>
    requires { IsNetwork c.now net.now.nodes net.now.words }
{
    let mut path = ClosedPath::new(alloc, net, c)?;
    steps_of(alloc, &mut path, TURNS)
}

/// Prints the number of steps and the microseconds that they take on a new path.
fn print_path(rt: &HostRuntime, net: &Net, c: &Fast, steps: &[Step]) -> io::Result<()>
    requires { IsNetwork c.now net.now.nodes net.now.words }
{
    let Ok(mut path) = ClosedPath::new(rt.alloc(), net, c) else {
        return Ok(());
    };
    let Some(time) = path_time(rt, &mut path, steps)? else {
        return Ok(());
    };
    println!(rt; "{} {time}", steps.len())
}

/// Prints the number of steps, the microseconds that they take on copies, and whether the sets are those of a path.
fn print_copies(rt: &HostRuntime, net: &Net, c: &Fast, steps: &[Step]) -> io::Result<()>
    requires { IsNetwork c.now net.now.nodes net.now.words }
{
    let Ok(path) = path_after(rt.alloc(), net, c, steps) else {
        return Ok(());
    };
    let Some((time, same)) = copies_time(rt, net, c, &path, steps)? else {
        return Ok(());
    };
    println!(rt; "{} {time} {same}", steps.len())
}

/// Walks on the network, and prints the times.
fn print_times(rt: &HostRuntime, net: &Net, c: &Fast) -> io::Result<()>
    requires { IsNetwork c.now net.now.nodes net.now.words }
{
    let Ok(steps) = steps_on(rt.alloc(), net, c) else {
        return Ok(());
    };
    print_path(rt, net, c, &steps)?;
    print_copies(rt, net, c, &steps[..steps.len() / 20])
}

/// RCC-8, or nothing out of memory.
fn calculus(alloc: Global) -> Option<Fast> {
    let Ok(calculus) = rcc8(alloc) else {
        return None;
    };
    Fast::new(alloc, &calculus).ok()
}

fn main(rt: HostRuntime) -> io::Result<()> {
    let mut bytes = Vec::new(rt.alloc());
    rt.stdin().read_to_end(&mut bytes)?;
    let Some(fast) = calculus(rt.alloc()) else {
        return Ok(());
    };
    let Some(net) = net_of(rt.alloc(), &bytes, &fast) else {
        return Ok(());
    };
    if !is_network(&net, &fast) {
        return Ok(());
    }
    print_times(&rt, &net, &fast)
}
"""

IS_NETWORK = """use Rattle.std.proofs.Common.{ℕ, ◌<◌, slice_index}
use Rattle.calculus_table.specs.Rel.{IsWithin}
use Rattle.path_walks.proofs.is_network.Given as goal

abbrev pub invariant-loop-word : goal.invariant-loop-word
invariant-loop-word l = (k : ℕ) → k < l.word-index → IsWithin (slice_index l.net.words k) l.full
"""

WALK_COPIES = """use Rattle.std.proofs.Common.{◌≡◌}
use Rattle.path_walks.proofs.walk_copies.Given as goal

abbrev pub invariant-loop-step : goal.invariant-loop-step
invariant-loop-step l = record { room : l.work.nodes ≡ l.net.nodes; top : l.top.nodes ≡ l.net.nodes }
"""

FILES = {
    "src/main.rt": PROGRAM,
    "proofs/is_network/Invariants.antt": IS_NETWORK,
    "proofs/walk_copies/Invariants.antt": WALK_COPIES,
}


def packed(text):
    """The network of a text as bytes, three by three: the nodes less one, then two nodes and the set of each fact."""
    first, *facts = text.split("\n")
    data = [int(first.split()[1]) - 1, 0, 0]
    for fact in facts:
        if fact not in ("", "."):
            i, j, *names = fact.split()
            data += [int(i), int(j), sum(1 << BASES.index(name) for name in names if name in BASES)]
    return bytes(data)


def main():
    sizes = [int(word) for word in sys.argv[1:]] or [128]
    with tempfile.TemporaryDirectory() as folder:
        program = build_program(folder, "path_walks", DEPENDS, FILES)
        for nodes in sizes:
            for kind, text in (("chain", chain(nodes)), ("random, degree 12", random_network(nodes, 12, 1))):
                runs = []
                for _ in range(TURNS):
                    *counts, same = subprocess.run([program], input=packed(text), capture_output=True, check=True).stdout.decode().split()
                    if same != "true":
                        sys.exit(f"{kind} of {nodes}: the sets differ")
                    runs.append([int(word) for word in counts])
                steps, on_path, some, on_copies = (statistics.median(column) for column in zip(*runs))
                print(
                    f"{kind}, {nodes} nodes: {steps:.0f} steps on the path {on_path / 1000:.1f} ms, "
                    f"a step {on_path / steps:.1f} us, on copies {on_copies / some:.0f} us",
                    flush=True,
                )


if __name__ == "__main__":
    main()
