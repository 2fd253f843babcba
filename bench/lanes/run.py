#!/usr/bin/env python3
"""Times the kernels of sm_lanes beside plain loops in C and Rust, in one run, and prints the ratios as tables.

It copies the repository's crates into a temporary folder, adds a program that calls each kernel, has `rt` prove and
build it, and compiles the peers of this folder: the plain loops by gcc with vectors switched off, and the same loops
as gcc -O3 and rustc vectorise them. All are built for one processor, x86-64-v2, which is what `rt` builds for. The
programs take turns, and the least time of each counts. All must print the same sums over the answers.

Where a loop's code lies in memory changes the time of a short loop up to twofold: unaligned, two loops that differ in
`&` and `|` alone took times 1.5 apart. So each peer is built in four layouts, and in each row its best one counts. The
program of sm_lanes has one layout.

    python3 bench/lanes/run.py [--rounds N] [--keep FOLDER]
"""

import argparse
import shutil
import subprocess
import sys
import tempfile
from pathlib import Path

HERE = Path(__file__).resolve().parent
TOP = HERE.parent.parent
CPU = "x86-64-v2"
PROGRAM = "lanes_bench"
OURS = "sm_lanes"
PLAIN = "plain loop, gcc -O2"
ALIGNMENTS = [None, 16, 32, 64]

MAIN = """\
//! Times each kernel. A line has its name, the words, the time of all calls in nanoseconds, the calls, and a sum over
//! the answers.
#![tactic(auto)]

ghost use Rattle.std.specs.Prelude.{◌≡◌, ℕ, ◌+◌, ◌<◌, ◌≤◌, length, pos};
ghost use Rattle.sm_lanes.specs.Numbers.{number_at, SumsFit, AddsOver};

use std::alloc::{AllocError, Global};
use std::time::Instant;

fn main(rt: HostRuntime) -> anyhow::Result<()> {
    for len in [1usize, 8, 65, 1024, 65536] {
        let calls = 4_000_000 / (len + 16) + 1;
        measure_words(&rt, len, calls)?;
        measure_numbers(&rt, len, calls)?;
    }
    Ok(())
}

fn measure_words(rt: &HostRuntime, len: usize, calls: usize) -> anyhow::Result<()> {
    let mut words = sample(rt.alloc(), len, 1)?;
    let mut others = sample(rt.alloc(), len, 2)?;
    time_words(rt, "and_into", &mut words, &others, calls)?;
    words = sample(rt.alloc(), len, 1)?;
    time_words(rt, "or_into", &mut words, &others, calls)?;
    words = sample(rt.alloc(), len, 1)?;
    time_words(rt, "count_ones", &mut words, &others, calls)?;
    others = vec![in rt.alloc(); u64::MAX; len]?;
    time_words(rt, "is_subset", &mut words, &others, calls)?;
    words = vec![in rt.alloc(); 0; len]?;
    time_words(rt, "first_one", &mut words, &others, calls)?;
    words = vec![in rt.alloc(); 0; len]?;
    time_words(rt, "last_one", &mut words, &others, calls)
}

fn measure_numbers(rt: &HostRuntime, len: usize, calls: usize) -> anyhow::Result<()> {
    let mut numbers: Vec<i64> = vec![in rt.alloc(); 0; len]?;
    if calls <= 4_000_000 {
        add_over_calls(rt, &mut numbers, calls)?;
    }
    numbers = sample_numbers(rt.alloc(), len)?;
    time_numbers(rt, "max_over", &mut numbers, calls)?;
    time_numbers(rt, "first_above", &mut numbers, calls)
}

fn time_words(rt: &HostRuntime, name: &str, words: &mut [u64], others: &[u64], calls: usize) -> anyhow::Result<()> {
    if words.is_empty() || words.len() != others.len() || words.len() > 65536 {
        return Ok(());
    }
    match name {
        "and_into" => and_into_calls(rt, words, others, calls),
        "or_into" => or_into_calls(rt, words, others, calls),
        "count_ones" => count_ones_calls(rt, words, others, calls),
        "is_subset" => is_subset_calls(rt, words, others, calls),
        "first_one" => first_one_calls(rt, words, others, calls),
        _ => last_one_calls(rt, words, others, calls),
    }
}

fn time_numbers(rt: &HostRuntime, name: &str, numbers: &mut [i64], calls: usize) -> anyhow::Result<()> {
    if numbers.is_empty() {
        return Ok(());
    }
    match name {
        "max_over" => max_over_calls(rt, numbers, calls),
        _ => first_above_calls(rt, numbers, calls),
    }
}

fn report(rt: &HostRuntime, name: &str, len: usize, start: &Instant, calls: usize, sum: u64) -> anyhow::Result<()> {
    let time = start.elapsed(rt)?.as_nanos();
    println!(rt; "{name} {len} {time} {calls} {sum}")?;
    Ok(())
}

fn sample(alloc: Global, len: usize, seed: u64) -> Result<Vec<u64>, AllocError> {
    let mut words = Vec::new(alloc);
    let mut state = seed;
    for _ in 0..len {
        state = next(state);
        words.push(state)?;
    }
    Ok(words)
}

fn sample_numbers(alloc: Global, len: usize) -> Result<Vec<i64>, AllocError> {
    let mut numbers = Vec::new(alloc);
    let mut state = 3;
    for _ in 0..len {
        state = next(state);
        numbers.push((state >> 24) as i64)?;
    }
    Ok(numbers)
}

fn next(state: u64) -> u64 {
    state
        .wrapping_mul(6364136223846793005)
        .wrapping_add(1442695040888963407)
}
"""

WORDS = """
fn {name}_calls(rt: &HostRuntime, words: &mut [u64], others: &[u64], calls: usize) -> anyhow::Result<()>
    requires same {{ length words.old ≡ length others.now }}
    requires some {{ 0 < length words.old }}
    requires short {{ length words.old ≤ 65536 }}
{{
    let mut sum = 0u64;
    let start = Instant::now(rt)?;
    for _ in 0..calls {{
{call}
    }}
    report(rt, "{name}", words.len(), &start, calls, sum)
}}
"""

NUMBERS = """
fn {name}_calls(rt: &HostRuntime, numbers: &mut [i64], calls: usize) -> anyhow::Result<()>
    requires some {{ 0 < length numbers.old }}
{{
    let len = numbers.len();
    let mut sum = 0u64;
    let start = Instant::now(rt)?;
    for _ in 0..calls {{
{call}
    }}
    report(rt, "{name}", len, &start, calls, sum)
}}
"""

SUMS = """
fn add_over_calls(rt: &HostRuntime, numbers: &mut [i64], calls: usize) -> anyhow::Result<()>
    requires zeros { (k : ℕ) → number_at numbers.old k ≡ pos 0 }
    requires few { calls ≤ 4000000 }
{
    let len = numbers.len();
    let mut sum = 0u64;
    let start = Instant::now(rt)?;
    for call in 0..calls {
        add_over(numbers, len, 1);
        if let Some(number) = numbers.first() {
            sum = sum.wrapping_add(number.unsigned_abs());
        }
    }
    report(rt, "add_over", len, &start, calls, sum)
}
"""

# Each kernel is called by a function that isn't inlined, as the peers' kernels aren't.
WRAPPED = """
#[inline(never)]
fn {name}({parameters}){result}
{requires}{{
    sm_lanes::{name}({arguments}){end}
}}
"""

SAME = "    requires same {{ length {0} ≡ length others.now }}\n"
SHORT = "    requires short { length words.now ≤ 65536 }\n"
WHOLE = "    requires whole { length numbers.now ≡ to }\n"
SUM = """\
    requires whole { length numbers.old ≡ to }
    requires fits { SumsFit numbers.old 0 to amount }
    ensures { AddsOver numbers.old numbers.new 0 to amount }
"""

KERNELS = [
    ("and_into", "words: &mut [u64], others: &[u64]", "", SAME.format("words.old")),
    ("or_into", "words: &mut [u64], others: &[u64]", "", SAME.format("words.old")),
    ("count_ones", "words: &[u64]", "u64", SHORT),
    ("is_subset", "words: &[u64], others: &[u64]", "bool", SAME.format("words.now")),
    ("first_one", "words: &[u64]", "Option<usize>", SHORT),
    ("last_one", "words: &[u64]", "Option<usize>", SHORT),
    ("add_over", "numbers: &mut [i64], to: usize, amount: i64", "", SUM),
    ("max_over", "numbers: &[i64], to: usize", "Option<i64>", WHOLE),
    ("first_above", "numbers: &[i64], bound: i64", "Option<usize>", ""),
]

# After each call something of the data depends on its answer, so that no compiler takes it out of the loop.
WORD_CALLS = {
    "and_into": ["words[0] ^= sum & 1;", "and_into(words, others);", "sum = sum.wrapping_add(words[0]);"],
    "or_into": ["words[0] ^= sum & 1;", "or_into(words, others);", "sum = sum.wrapping_add(words[0]);"],
    "count_ones": ["words[0] ^= sum & 1;", "sum = sum.wrapping_add(count_ones(words));"],
    "is_subset": ["words[0] ^= sum & 1;", "sum = sum.wrapping_add(u64::from(is_subset(words, others)));"],
    "first_one": [
        "let last = words.len() - 1;",
        "words[last] = (sum & 2) + 2;",
        "sum = sum.wrapping_add(first_one(words).map_or(0, |place| (place as u64).wrapping_add(1)));",
    ],
    "last_one": [
        "words[0] = (sum & 2) + 1;",
        "sum = sum.wrapping_add(last_one(words).map_or(0, |place| (place as u64).wrapping_add(1)));",
    ],
}

NUMBER_CALLS = {
    "max_over": [
        "numbers[0] = (sum & 1) as i64;",
        "sum = sum.wrapping_add(max_over(numbers, len).map_or(0, |most| most.unsigned_abs()));",
    ],
    "first_above": [
        "numbers[0] = (sum & 1) as i64;",
        "sum = sum.wrapping_add(u64::from(first_above(numbers, 1 << 40).is_none()));",
    ],
}

SUMS_INVARIANT = """\
use Rattle.std.proofs.Common.{◌≡◌, ℕ, ◌<◌, length}
use Rattle.std.specs.Prelude.{pos}
use Rattle.sm_lanes.specs.Numbers.{number_at}
use Rattle.lanes_bench.proofs.add_over_calls.Given as goal

abbrev pub invariant-loop-call : goal.invariant-loop-call
invariant-loop-call l = (k : ℕ) → k < length l.numbers → number_at l.numbers k ≡ pos l.call
"""


def source():
    def calls(lines):
        return "\n".join(" " * 8 + line for line in lines)

    text = MAIN + SUMS
    for name, parameters, result, requires in KERNELS:
        arguments = [parameter.split(":")[0] for parameter in parameters.split(", ")]
        if arguments[0] == "numbers":
            arguments.insert(1, "0")
        text += WRAPPED.format(
            name=name,
            parameters=parameters,
            result=f" -> {result}" if result else "",
            requires=requires,
            arguments=", ".join(arguments),
            end="" if result else ";",
        )
    for name, lines in WORD_CALLS.items():
        text += WORDS.format(name=name, call=calls(lines))
    for name, lines in NUMBER_CALLS.items():
        text += NUMBERS.format(name=name, call=calls(lines))
    return text


def run(command, cwd):
    done = subprocess.run(command, cwd=cwd, stdout=subprocess.PIPE, stderr=subprocess.STDOUT, text=True)
    if done.returncode:
        sys.exit(f"{' '.join(map(str, command))} failed:\n{done.stdout[-4000:]}")


def build_ours(folder):
    if not shutil.which("rt"):
        sys.exit("rt is not installed: there is nothing to measure")
    shutil.copy(TOP / "HANDLES", folder)
    shutil.copytree(TOP / "crates", folder / "crates", ignore=shutil.ignore_patterns("out"))
    lines = (TOP / "crates.txt").read_text()
    (folder / "crates.txt").write_text(f"{lines}{PROGRAM}: {OURS} anyhow\n")
    crate = folder / "crates" / PROGRAM
    (crate / "src").mkdir(parents=True)
    (crate / "src" / "main.rt").write_text(source())
    proof = crate / "proofs" / "add_over_calls"
    proof.mkdir(parents=True)
    (proof / "Invariants.antt").write_text(SUMS_INVARIANT)
    run(["rt", "run"], crate)
    return crate / "out" / PROGRAM


def build_peers(folder):
    """The programs of each peer, one for each layout of its code."""
    peers = {}
    if shutil.which("gcc"):
        for name, flags in {PLAIN: ["-O2", "-fno-tree-vectorize"], "gcc -O3": ["-O3"]}.items():
            peers[name] = []
            for bytes_ in ALIGNMENTS:
                aligned = [f"-falign-functions={bytes_}", f"-falign-loops={bytes_}"] if bytes_ else []
                program = folder / f"peer{flags[0]}-{bytes_}"
                run(["gcc", *flags, *aligned, f"-march={CPU}", HERE / "peer.c", "-o", program], folder)
                peers[name].append(program)
    else:
        print("gcc is not installed: its loops are skipped")
    if shutil.which("rustc"):
        peers["rustc -O3"] = []
        for bytes_ in ALIGNMENTS:
            aligned = ["-C", f"llvm-args=-align-all-nofallthru-blocks={bytes_.bit_length() - 1}"] if bytes_ else []
            program = folder / f"peer-rust-{bytes_}"
            flags = ["-C", "opt-level=3", "-C", f"target-cpu={CPU}", *aligned]
            run(["rustc", *flags, HERE / "peer.rs", "-o", program], folder)
            peers["rustc -O3"].append(program)
    else:
        print("rustc is not installed: its loops are skipped")
    return peers


def measure(programs, rounds):
    """The least time of a call in nanoseconds, by name, kernel and words."""
    best, sums = {}, {}
    turns = [(name, program) for name, layouts in programs.items() for program in layouts]
    for _ in range(rounds):
        for name, program in turns:
            for line in subprocess.run([program], stdout=subprocess.PIPE, text=True, check=True).stdout.splitlines():
                kernel, words, time, calls, total = line.split()
                case = (kernel, int(words))
                if sums.setdefault(case, total) != total:
                    sys.exit(f"{name} answers otherwise at {case}")
                best[name, *case] = min(best.get((name, *case), float("inf")), int(time) / int(calls))
    return best


def show(programs, best):
    peers = [name for name in programs if name != OURS]
    kernels = list(dict.fromkeys(kernel for _, kernel, _ in best))
    sizes = sorted({words for _, _, words in best})
    print("| Kernel | Words | sm_lanes, ns a call | " + " | ".join(f"{peer}, ratio" for peer in peers) + " |")
    print("|---|--:|--:|" + "--:|" * len(peers))
    for kernel in kernels:
        for words in sizes:
            ours = best[OURS, kernel, words]
            ratios = " | ".join(f"{best[peer, kernel, words] / ours:.2f}" for peer in peers)
            print(f"| {kernel} | {words:,} | {ours:,.1f} | {ratios} |")


def main():
    parser = argparse.ArgumentParser(description=__doc__.splitlines()[0])
    parser.add_argument("--rounds", type=int, default=60, help="how often each program runs")
    parser.add_argument("--keep", type=Path, help="build in this new folder, and keep it")
    options = parser.parse_args()
    folder = options.keep or Path(tempfile.mkdtemp(prefix="lanes-bench-"))
    try:
        folder.mkdir(parents=True, exist_ok=options.keep is None)
        programs = {OURS: [build_ours(folder)], **build_peers(folder)}
        show(programs, measure(programs, options.rounds))
    finally:
        if not options.keep:
            shutil.rmtree(folder, ignore_errors=True)


if __name__ == "__main__":
    main()
