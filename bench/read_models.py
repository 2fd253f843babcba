#!/usr/bin/env python3
"""Times the reader of models, sm_syntax, on generated models of 1, 4 and 16 MB.

Run at the top of the repository: python3 bench/read_models.py

The script copies the crate to a temporary folder, adds a program there that reads standard input and times one call of
`parse`, and has rt prove and build it as it builds the repository's own programs. Each model is read five times, and the
least time counts. Where rt is missing, the script says so and ends.
"""

import random
import shutil
import subprocess
import sys
import tempfile
from pathlib import Path

TOP = Path(__file__).resolve().parent.parent
ROUNDS = 5

PROGRAM = """\
//! Times the reading of the model on standard input.
#![tactic(auto)]

use std::io;
use std::time::Instant;
use sm_syntax::parse;

fn main(rt: HostRuntime) -> io::Result<()> {
    let text = io::read_to_string(rt.alloc(), rt.reader())?;
    let start = Instant::now(&rt)?;
    let found = parse(rt.alloc(), text.as_str().as_bytes());
    let nanos = start.elapsed(&rt)?.as_nanos();
    println!(rt; "{nanos} {}", found.is_ok())?;
    Ok(())
}
"""


def expression(random_, depth):
    terms = []
    for _ in range(random_.randint(1, 4)):
        factor = random_.choice([str(random_.randint(0, 10**6)), f"x[i,{random_.randint(0, 99)}]", "capacity"])
        if depth and random_.random() < 0.2:
            factor = f"({expression(random_, depth - 1)})"
        elif depth and random_.random() < 0.1:
            factor = f"sum({expression(random_, depth - 1)} for i in I, j in J if i < j)"
        terms.append(f"{random_.randint(1, 99)}*{factor}")
    return " + ".join(terms)


def constraint(random_):
    x = [expression(random_, 2) for _ in range(3)]
    return random_.choice([
        f"post {x[0]} <= {x[1]} infer bounds relax on;",
        f"post forall i in I, j in J if i < j : {x[0]} >= {x[1]};",
        f"post logic ([{x[0]} <= 3] or not [{x[1]} = 0]) implies all([{x[2]} != 1] for i in I);",
        f"post when [{x[0]} = 1], [{x[1]} >= 2] then {x[2]} = 5 sub 3;",
        f"post cumulative({x[0]}; {x[1]}, 3, 1 when [x = 1] for i in I; {x[2]}, 2, 1);",
        f"post element({x[0]}, [{x[1]}, 7, 9], {x[2]});",
        f"# {x[0]}",
    ])


def model(size):
    random_ = random.Random(size)
    lines, length = ["index I = 0..9; index J = 0..99; var x[I,J] : set 0..5;"], 0
    while length < size:
        lines.append(constraint(random_))
        length += len(lines[-1]) + 1
    lines.append("minimise x[0,0];\n")
    return "\n".join(lines).encode()


def main():
    if not shutil.which("rt"):
        sys.exit("rt is not installed: there is nothing to measure")
    folder = Path(tempfile.mkdtemp(prefix="read-models-"))
    try:
        shutil.copy(TOP / "HANDLES", folder)
        for name in ("sm_words", "sm_syntax"):
            shutil.copytree(TOP / "crates" / name, folder / "crates" / name, ignore=shutil.ignore_patterns("out"))
        (folder / "crates.txt").write_text("sm_words:\nsm_syntax: sqlite_items thiserror sm_words\nread_bench: sm_syntax\n")
        crate = folder / "crates" / "read_bench"
        (crate / "src").mkdir(parents=True)
        (crate / "src" / "main.rt").write_text(PROGRAM)
        built = subprocess.run(["rt", "run"], cwd=crate, input="", stdout=subprocess.PIPE, stderr=subprocess.STDOUT, text=True)
        program = crate / "out" / "read_bench"
        if not program.exists():
            sys.exit(f"rt run failed:\n{built.stdout[-4000:]}")
        print("| Megabytes | Seconds | Million bytes a second |\n|--:|--:|--:|")
        for megabytes in [1, 4, 16]:
            text = model(megabytes * 10**6)
            best = float("inf")
            for _ in range(ROUNDS):
                words = subprocess.run([program], input=text, stdout=subprocess.PIPE, check=True).stdout.split()
                if words[1] != b"true":
                    sys.exit("the model isn't read")
                best = min(best, int(words[0]) / 1e9)
            print(f"| {megabytes} | {best:.3f} | {len(text) / best / 1e6:.1f} |")
    finally:
        shutil.rmtree(folder, ignore_errors=True)


if __name__ == "__main__":
    main()
