#!/usr/bin/env python3
"""Times `sm_step::read` over a log of mixed lines, beside `wc -l` and a plain reader in C.

It writes a log of some megabytes, copies the repository's crates into a temporary folder, adds a program that reads the
log's lines, has `rt` prove and build it, and compiles `peer.c`, which goes over the same bytes and takes the numbers out
of them, without a test of any rule. The programs take turns, and the least time of each counts.

    python3 bench/lines/run.py [--megabytes N] [--rounds N]
"""

import argparse
import random
import shutil
import subprocess
import tempfile
import time
from pathlib import Path

HERE = Path(__file__).resolve().parent
TOP = HERE.parent.parent

MAIN = """\
//! Reads each line of the log that the first argument names.
#![tactic(auto)]

use sm_step::read;
use std::alloc::Global;
use std::fs;
use std::time::Instant;

fn length_of_first(bytes: &[u8]) -> usize {
    match bytes.iter().position(|b| *b == b'\\n') {
        Some(at) if at < bytes.len() => at + 1,
        _ => bytes.len(),
    }
}

fn is_line(alloc: Global, bytes: &[u8]) -> bool {
    read(alloc, bytes).is_ok()
}

fn main(rt: HostRuntime) -> anyhow::Result<()> {
    let bytes = fs::read(&rt, "/tmp/simpl-mixed.log")?;
    let start = Instant::now(&rt)?;
    let mut rest = bytes.as_slice();
    let mut lines: u64 = 0;
    for _ in 0..u64::MAX {
        let end = length_of_first(rest);
        if end == 0 || end > rest.len() {
            break;
        }
        if is_line(rt.alloc(), &rest[..end]) {
            lines = lines.wrapping_add(1);
        }
        rest = &rest[end..];
    }
    let nanoseconds = start.elapsed(&rt)?.as_nanos();
    println!(rt; "{lines} {nanoseconds}")?;
    Ok(())
}
"""


def line(r):
    kind = r.randrange(10)
    n = r.randrange
    if kind < 4:
        return f"node {n(2**20)} {n(2**20)} v{n(200)}{r.choice(['<=', '>=', '=', '!='])}{n(1000)}"
    if kind < 6:
        return f"infer sum {n(100)} {n(2)} -> v{n(200)}<={n(1000)} v{n(200)}>={n(50)}"
    if kind == 6:
        return "close cost " + " ".join(f"{2 * n(100) + 1}/{2 ** n(1, 9)}@lin.{i}" for i in range(8))
    if kind == 7:
        return "sol 1 " + " ".join(str(n(10**6) - 500000) for _ in range(40))
    if kind == 8:
        return "infer hall 3 " + ",".join(map(str, sorted(r.sample(range(100), 9)))) + f" -> v{n(100)}!={n(100)}"
    return "close floor"


def main():
    options = argparse.ArgumentParser()
    options.add_argument("--megabytes", type=int, default=100)
    options.add_argument("--rounds", type=int, default=3)
    given = options.parse_args()
    log = Path("/tmp/simpl-mixed.log")
    r = random.Random(1)
    sample = "".join(line(r) + "\n" for _ in range(100_000))
    log.write_text(sample * (given.megabytes * 1_000_000 // len(sample) + 1))
    size = log.stat().st_size
    with tempfile.TemporaryDirectory() as name:
        folder = Path(name)
        for part in ["crates", "HANDLES", "crates.txt"]:
            source = TOP / part
            if source.is_dir():
                shutil.copytree(source, folder / part, ignore=shutil.ignore_patterns("out"))
            else:
                shutil.copy(source, folder / part)
        crate = folder / "crates" / "lines_bench"
        (crate / "src").mkdir(parents=True)
        (crate / "src" / "main.rt").write_text(MAIN)
        with (folder / "crates.txt").open("a") as out:
            out.write("lines_bench: sm_step anyhow\n")
        (folder / ".git").mkdir()
        built = subprocess.run(["rt", "run"], cwd=crate, stdout=subprocess.PIPE, stderr=subprocess.STDOUT, text=True)
        if built.returncode != 0:
            raise SystemExit(built.stdout[-3000:])
        peer = folder / "peer"
        subprocess.run(["cc", "-O2", "-o", peer, HERE / "peer.c"], check=True)
        best = {}
        for _ in range(given.rounds):
            for what, command in [("sm_step::read", [crate / "out" / "lines_bench"]), ("plain reader, C", [peer, log]), ("wc -l", ["wc", "-l", log])]:
                start = time.perf_counter()
                answer = subprocess.run(command, stdout=subprocess.PIPE, text=True, check=True).stdout.split()
                took = time.perf_counter() - start
                if what != "wc -l":
                    took = int(answer[1]) / 1e9
                best[what] = min(best.get(what, took), took)
                lines = answer[0]
        print(f"{size} bytes, {lines} lines")
        for what, took in best.items():
            print(f"| {what} | {took:.3f} s | {size / took / 1e6:,.0f} MB/s |")


if __name__ == "__main__":
    main()
