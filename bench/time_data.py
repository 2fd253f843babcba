#!/usr/bin/env python3
"""Times Tables::add of crates/sm_data on files of comma-separated fields of 16 MB, and prints bytes per second.

Run at the top of the repository: python3 bench/time_data.py

The script copies the crate and those below it to a temporary folder, adds a program there that reads a file from standard
input and times the call, and has rt prove and build it. Beside it stands Python's own csv module, with int() of each field.
Both have to find as many records. Where rt is missing, the script says so and ends.
"""

import csv
import io
import random
import shutil
import subprocess
import sys
import tempfile
import time
from pathlib import Path

TOP = Path(__file__).resolve().parent.parent
CRATES = ["sm_base", "sm_words", "sm_data"]
SIZE = 16_777_216
REPEATS = 5

PROGRAM = """\
//! Times how long a file of comma-separated fields on standard input takes to become a table.
#![tactic(auto)]

use sm_data::{Table, Tables};
use std::io;
use std::time::Instant;

fn main(rt: HostRuntime) -> io::Result<()> {
    let text = io::read_to_string(rt.alloc(), rt.reader())?;
    let start = Instant::now(&rt)?;
    let mut tables = Tables::new(rt.alloc());
    let is_read = tables.add("t.csv", text.as_bytes()).is_ok();
    let nanos = start.elapsed(&rt)?.as_nanos();
    let rows = match tables.get("t") {
        Some(Table::Grid(rows)) => rows.len(),
        _ => 0,
    };
    println!(rt; "{is_read} {nanos} {rows}")?;
    Ok(())
}
"""

FAMILIES = [
    ("8 fields of 1 to 10 digits", 8, 10),
    ("64 fields of 1 to 10 digits", 64, 10),
    ("1 field of 1 to 10 digits", 1, 10),
    ("4 fields of 1 digit", 4, 1),
]


def text_of(fields, digits):
    rng = random.Random(f"{fields} {digits}")
    lines, size = [], 0
    while True:
        numbers = [rng.randrange(min(10 ** rng.randint(1, digits), 2**31)) for _ in range(fields)]
        line = ",".join(map(str, numbers)) + "\n"
        if size + len(line) > SIZE:
            return "".join(lines)
        lines.append(line)
        size += len(line)


def build(folder):
    for name in CRATES:
        shutil.copytree(TOP / "crates" / name, folder / "crates" / name, ignore=shutil.ignore_patterns("out", "must-fail"))
    source = folder / "crates" / "bench_data" / "src"
    source.mkdir(parents=True)
    (source / "main.rt").write_text(PROGRAM)
    lines = (TOP / "crates.txt").read_text().splitlines()
    kept = [line for line in lines if line.split(":")[0] in CRATES]
    (folder / "crates.txt").write_text("\n".join(kept + ["bench_data: sm_data"]) + "\n")
    shutil.copy(TOP / "HANDLES", folder)
    done = subprocess.run(["rt", "run"], cwd=source.parent, stdin=subprocess.DEVNULL, capture_output=True, text=True)
    if done.returncode != 0:
        sys.exit(done.stdout + done.stderr)
    return source.parent / "out" / "bench_data"


def run_ours(program, text):
    best, rows = None, None
    for _ in range(REPEATS):
        done = subprocess.run([program], input=text, capture_output=True, text=True, check=True)
        is_read, nanos, rows = done.stdout.split()
        if is_read != "true":
            sys.exit("the file was refused")
        best = min(int(nanos) / 1e9, best or 1e9)
    return best, int(rows)


def run_python(text):
    best, rows = None, None
    for _ in range(REPEATS):
        start = time.perf_counter()
        rows = [[int(field) for field in record] for record in csv.reader(io.StringIO(text))]
        best = min(time.perf_counter() - start, best or 1e9)
    return best, len(rows)


def main():
    if shutil.which("rt") is None:
        print("skipped: rt is not installed")
        return
    with tempfile.TemporaryDirectory() as name:
        program = build(Path(name))
        print("| Records | Count | sm_data, seconds | MB a second | Python csv and int, seconds |")
        print("|---|--:|--:|--:|--:|")
        for label, fields, digits in FAMILIES:
            text = text_of(fields, digits)
            seconds, rows = run_ours(program, text)
            peer, peer_rows = run_python(text)
            if rows != peer_rows:
                sys.exit(f"{rows} records here, {peer_rows} there")
            print(f"| {label} | {rows:,} | {seconds:.2f} | {len(text) / seconds / 1e6:.1f} | {peer:.2f} |")


if __name__ == "__main__":
    main()
