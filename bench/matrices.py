#!/usr/bin/env python3
"""Times the matrices of all pairs of 128 rings, beside GEOS on the same rings in the same run.

Usage: bench/matrices.py [VERTICES ..]      (default: 4 64 256)

Needs g++ and GEOS's C interface (libgeos-dev). The library has no program of its own, so this writes a small one into a
folder for temporary files, with copies of the crates that it calls, and has it proved and built there. Both programs read
the same rings and write the matrix of each pair, and the two outputs are compared. Prints one line for each kind and size:
the median milliseconds for all pairs, without reading and writing, their ratio, and those for reading and making the rings.
"""
import math, os, random, shutil, statistics, subprocess, sys, tempfile

from timing import TOP

RINGS = 128
TURNS = 7

PROGRAM = """//! Reads rings, one a line as `x y x y ..`, and writes the matrix of each pair. The microseconds go to standard error.
#![tactic(auto)]

use de9im::{Matrix, matrix};
use poly_exact::{Point, Ring};
use std::alloc::Global;
use std::io;
use std::time::Instant;

/// The points of one line.
fn points(alloc: Global, line: &str) -> io::Result<Vec<Point>> {
    let mut points = Vec::new(alloc);
    let mut first: Option<i64> = None;
    for word in line.split_whitespace() {
        let number = word.parse::<i64>().unwrap_or(0);
        first = match first {
            None => Some(number),
            Some(x) => {
                points.push(Point { x, y: number })?;
                None
            }
        };
    }
    Ok(points)
}

/// The matrix of each pair.
fn matrices(alloc: Global, rings: &[Ring]) -> io::Result<Vec<Matrix>> {
    let mut all = Vec::new(alloc);
    for i in 0..rings.len() {
        for j in i + 1..rings.len() {
            all.push(matrix(&rings[i], &rings[j]).map_err(|_| io::Error::from(io::ErrorKind::OutOfMemory))?)?;
        }
    }
    Ok(all)
}

fn main(rt: HostRuntime) -> io::Result<()> {
    let alloc = rt.alloc();
    let begun = Instant::now(&rt)?;
    let mut rings = Vec::new(alloc);
    for line in rt.lines(alloc) {
        let points = points(alloc, line?.as_str())?;
        if points.len() < 1000 {
            if let Ok(ring) = Ring::new(alloc, &points) {
                rings.push(ring)?;
            }
        }
    }
    let reading = begun.elapsed(&rt)?.as_micros();
    let start = Instant::now(&rt)?;
    let all = matrices(alloc, &rings)?;
    let pairs = start.elapsed(&rt)?.as_micros();
    for m in &all {
        if let Ok(text) = m.text(alloc) {
            println!(rt; "{text}")?;
        }
    }
    eprintln!(rt; "{reading} {pairs}")
}
"""


def build_ours(folder):
    """Proves and builds the program over copies of the two crates; returns its path."""
    crates = os.path.join(folder, "crates")
    for name in ("poly_exact", "de9im"):
        shutil.copytree(os.path.join(TOP, "crates", name), os.path.join(crates, name))
    shutil.copy(os.path.join(TOP, "HANDLES"), folder)
    with open(os.path.join(folder, "crates.txt"), "w") as file:
        file.write("poly_exact:\nde9im: poly_exact\nring_pairs: poly_exact de9im\n")
    source = os.path.join(crates, "ring_pairs", "src")
    os.makedirs(source)
    for name in ("stdin", "stdout"):
        open(os.path.join(crates, "ring_pairs", name), "w").close()
    with open(os.path.join(source, "main.rt"), "w") as file:
        file.write(PROGRAM)
    subprocess.run(["git", "init", "-q"], cwd=folder, check=True)
    subprocess.run(["rt", "run"], cwd=os.path.join(crates, "ring_pairs"), check=True, capture_output=True)
    return os.path.join(crates, "ring_pairs", "out", "ring_pairs")


def build_geos(folder):
    path = os.path.join(folder, "geos_matrices")
    subprocess.run(["g++", "-O2", "-o", path, os.path.join(TOP, "bench/geos_matrices.cpp"), "-lgeos_c"], check=True)
    return path


def stars(vertices, seed):
    """Star-shaped rings that overlap at random."""
    rng = random.Random(seed)
    rings = []
    for _ in range(RINGS):
        x, y, size = rng.randint(0, 10**7), rng.randint(0, 10**7), rng.randint(5 * 10**5, 2 * 10**6)
        ring = []
        for k in range(vertices):
            angle, reach = 2 * math.pi * k / vertices, size * rng.uniform(0.6, 1.0)
            ring.append((x + round(reach * math.cos(angle)), y + round(reach * math.sin(angle))))
        rings.append(ring)
    return rings


def tiles(vertices, seed):
    """A map of 16 times 8 tiles with jagged sides, which neighbours share vertex by vertex."""
    rng = random.Random(seed)
    side, parts, sides = 10**6, vertices // 4, {}

    def points(x, y, right):
        """The side that begins at a corner, to the right or upwards, without its end."""
        if (x, y, right) not in sides:
            along = [side * k // parts for k in range(parts)]
            # near a corner the side keeps close to the grid, so that it doesn't cross the next one
            limits = [min(a, side - a, side // 2) // 4 for a in along]
            offsets = [rng.randint(-limit, limit) for limit in limits]
            sides[x, y, right] = [(x * side + a, y * side + o) if right else (x * side + o, y * side + a) for a, o in zip(along, offsets)]
        return sides[x, y, right]

    def back(points, end):
        return [end] + points[:0:-1]

    rings = []
    for x in range(16):
        for y in range(8):
            corner = ((x + 1) * side, (y + 1) * side)
            rings.append(points(x, y, True) + points(x + 1, y, False)
                         + back(points(x, y + 1, True), corner) + back(points(x, y, False), (x * side, (y + 1) * side)))
    return rings


def run(program, text):
    done = subprocess.run([program], input=text, capture_output=True, text=True, check=True)
    return done.stdout, [int(word) / 1000 for word in done.stderr.split()]


def main():
    sizes = [int(word) for word in sys.argv[1:]] or [4, 64, 256]
    with tempfile.TemporaryDirectory() as folder:
        ours, geos = build_ours(folder), build_geos(folder)
        for kind, make in (("stars", stars), ("tiles", tiles)):
            for vertices in sizes:
                text = "".join(" ".join(f"{x} {y}" for x, y in ring) + "\n" for ring in make(vertices, vertices))
                times, differing = [], 0
                for _ in range(TURNS):
                    out, own = run(ours, text)
                    geos_out, other = run(geos, text)
                    differing = sum(a != b for a, b in zip(out.split(), geos_out.split()))
                    if len(out) != len(geos_out):
                        sys.exit(f"a ring of {kind} with {vertices} vertices was refused")
                    times.append(own + other)
                read, pairs, geos_read, geos_pairs = (statistics.median(column) for column in zip(*times))
                print(f"{kind} of {vertices:3}: pairs {pairs:8.2f} ms, GEOS {geos_pairs:8.2f} ms, ratio {pairs / geos_pairs:5.3f};"
                      f" rings {read:7.2f} ms, GEOS {geos_read:6.2f} ms; {differing} matrices differ", flush=True)


if __name__ == "__main__":
    main()
