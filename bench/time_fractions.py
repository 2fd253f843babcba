#!/usr/bin/env python3
"""Times the sums and products of crates/sm_frac beside the same by the machine's own 128-bit arithmetic (time_fractions.c).

Run at the top of the repository: python3 bench/time_fractions.py

The script copies the crate to a temporary folder, adds a program there that reads fractions and times them, and has rt prove
and build it as it builds the repository's own programs. The peer is built by cc -O2, once with Euclid's algorithm and once
with the binary one. All three run on the same operands, and their results are compared. Where rt or cc is missing, the
script says so and ends.
"""

import os
import random
import shutil
import subprocess
import sys
import tempfile
from math import gcd
from pathlib import Path

TOP = Path(__file__).resolve().parent.parent
PAIRS = 1000
ROUNDS = 100
REPEATS = 9

PROGRAM = """\
//! Times sums and products of the fractions on standard input, one pair a line.
#![tactic(auto)]

use sm_frac::Frac;
use std::io;
use std::time::{Clock, Instant};

#[derive(Clone, Copy)]
struct Pair {
    left: Frac,
    right: Frac,
}

#[derive(Clone, Copy)]
struct Outcome {
    nanos: u128,
    parts: u128,
    passed: u64,
}

fn pair_of(line: &str) -> Option<Pair> {
    let mut words = line.split_whitespace();
    let left = Frac::new(words.next()?.parse().ok()?, words.next()?.parse().ok()?)?;
    let right = Frac::new(words.next()?.parse().ok()?, words.next()?.parse().ok()?)?;
    Some(Pair { left, right })
}
""" + "".join(
    f"""
fn time_{name}(rt: &impl Clock, pairs: &[Pair], rounds: u64) -> io::Result<Outcome> {{
    let (mut parts, mut passed) = (0u128, 0u64);
    let start = Instant::now(rt)?;
    for _ in 0..rounds {{
        for pair in pairs {{
            match pair.left.{name}(pair.right) {{
                Ok(found) => parts = parts.wrapping_add(found.n().cast_unsigned()).wrapping_add(found.d().cast_unsigned()),
                Err(_) => passed = passed.wrapping_add(1),
            }}
        }}
    }}
    let nanos = start.elapsed(rt)?.as_nanos();
    Ok(Outcome {{ nanos, parts, passed }})
}}
"""
    for name in ("plus", "times")
) + """
fn main(rt: HostRuntime) -> io::Result<()> {
    let mut rounds = 1;
    for word in std::env::args(&rt)? {
        if let Ok(number) = word.as_str().parse() {
            rounds = number;
        }
    }
    let mut pairs = Vec::new(rt.alloc());
    let text = io::read_to_string(rt.alloc(), rt.reader())?;
    for line in text.as_str().lines() {
        if let Some(pair) = pair_of(line) {
            pairs.push(pair)?;
        }
    }
    let sums = time_plus(&rt, &pairs, rounds)?;
    println!(rt; "plus {} {:032x} {}", sums.nanos, sums.parts, sums.passed)?;
    let products = time_times(&rt, &pairs, rounds)?;
    println!(rt; "times {} {:032x} {}", products.nanos, products.parts, products.passed)?;
    Ok(())
}
"""


def number(rng, bits):
    """A number of exactly so many bits."""
    return rng.getrandbits(bits - 1) | 1 << (bits - 1)


def lowest(n, d):
    return gcd(n, d) == 1


def random_pair(rng, bits):
    """Two fractions whose four parts have so many bits and nothing else in common."""
    n, d, m, e = (number(rng, bits) for _ in range(4))
    return (n, d, -m, e) if lowest(n, d) and lowest(m, e) else None


def sum_pair(rng, bits):
    """Denominators that share all but 5 bits, so that the sum is in range."""
    shared, left, right = number(rng, bits - 5), number(rng, 5), number(rng, 5)
    n, m = number(rng, bits), number(rng, bits)
    d, e = shared * left, shared * right
    return (n, d, -m, e) if d != e and lowest(n, d) and lowest(m, e) else None


def product_pair(rng, bits):
    """Each numerator shares half of its bits with the other denominator, so that the product is in range."""
    x, y, p, q, s, t = (number(rng, bits // 2) for _ in range(6))
    n, d, m, e = p * x, q * y, s * y, t * x
    return (n, d, -m, e) if lowest(n, d) and lowest(m, e) else None


def alike_pair(rng, bits):
    """One denominator."""
    n, m, d = (number(rng, bits) for _ in range(3))
    return (n, d, -m, d) if lowest(n, d) and lowest(m, d) else None


def whole_pair(rng, bits):
    """Whole numbers."""
    return (number(rng, bits), 1, -number(rng, bits), 1)


FAMILIES = [
    ("whole numbers, 40 bits", whole_pair, 40, ("plus", "times")),
    ("one denominator, 40 bits", alike_pair, 40, ("plus",)),
    ("20 bits", random_pair, 20, ("plus", "times")),
    ("60 bits", random_pair, 60, ("plus", "times")),
    ("120 bits, in range", sum_pair, 120, ("plus",)),
    ("120 bits, in range", product_pair, 120, ("times",)),
    ("120 bits, all pass", random_pair, 120, ("plus", "times")),
]


def operands(pair_of, bits):
    rng = random.Random(f"{pair_of.__name__} {bits}")
    pairs = []
    while len(pairs) < PAIRS:
        pair = pair_of(rng, bits)
        if pair is not None:
            pairs.append(pair)
    return "".join(" ".join(map(str, pair)) + "\n" for pair in pairs)


def build_program(folder):
    """The program over a copy of the crate, proved and built by rt."""
    crate = folder / "crates" / "sm_frac"
    shutil.copytree(TOP / "crates" / "sm_frac", crate, ignore=shutil.ignore_patterns("out", "must-fail"))
    source = folder / "crates" / "bench_frac" / "src"
    source.mkdir(parents=True)
    (source / "main.rt").write_text(PROGRAM)
    (folder / "crates.txt").write_text("sm_frac:\nbench_frac: sm_frac\n")
    shutil.copy(TOP / "HANDLES", folder)
    done = subprocess.run(["rt", "run"], cwd=source.parent, stdin=subprocess.DEVNULL, capture_output=True, text=True)
    if done.returncode != 0:
        sys.exit(done.stdout + done.stderr)
    return source.parent / "out" / "bench_frac"


def build_peer(folder, name, gcd_number):
    peer = folder / name
    source = TOP / "bench" / "time_fractions.c"
    subprocess.run([os.environ.get("CC", "cc"), "-O2", f"-DGCD={gcd_number}", "-o", peer, source], check=True)
    return peer


def run_all(programs, text):
    """Of each program and operation the least nanoseconds, and the results. The programs take turns, so that a busy moment
    of the machine meets all of them."""
    best = [{} for _ in programs]
    for _ in range(REPEATS):
        for kept, program in zip(best, programs):
            done = subprocess.run([program, str(ROUNDS)], input=text, capture_output=True, text=True, check=True)
            for line in done.stdout.splitlines():
                name, nanos, *results = line.split()
                time = int(nanos) / (PAIRS * ROUNDS)
                kept[name] = (min(time, kept.get(name, (time,))[0]), results)
    return best


def main():
    for tool in ("rt", os.environ.get("CC", "cc")):
        if shutil.which(tool) is None:
            print(f"skipped: {tool} is not installed")
            return
    with tempfile.TemporaryDirectory() as name:
        folder = Path(name)
        ours = build_program(folder)
        euclid = build_peer(folder, "euclid", 0)
        binary = build_peer(folder, "binary", 1)
        print("| Operands | Operation | sm_frac, ns | C, Euclid, ns | C, binary, ns | Ratio to the faster |")
        print("|---|---|---|---|---|---|")
        for label, pair_of, bits, operations in FAMILIES:
            text = operands(pair_of, bits)
            found, *peers = run_all((ours, euclid, binary), text)
            for operation in operations:
                time, results = found[operation]
                if any(peer[operation][1] != results for peer in peers):
                    sys.exit(f"the results of {operation} differ at {label}")
                first, second = (peer[operation][0] for peer in peers)
                ratio = time / min(first, second)
                print(f"| {label} | `{operation}` | {time:.0f} | {first:.0f} | {second:.0f} | {ratio:.2f} |")


if __name__ == "__main__":
    main()
