#!/usr/bin/env python3
"""Times the program from a model text to its flat model, on texts of 3, 6, 13 and 17 MB with up to 4,194,304 terms, and on a short text
that comes to as many terms by sums.

usage: (cd crates/simpl && rt run -- solve data/first.simpl) && python3 bench/read_and_expand.py

Each model has a real variable, so that the program reads it, expands it within all limits, and then says `error early` without a
search: the time is that of reading and expanding. Each is run five times; the least time and the greatest memory count.
"""
import resource
import string
import subprocess
import sys
import tempfile
import time
from pathlib import Path

PROGRAM = Path(__file__).resolve().parent.parent / "crates/simpl/out/simpl"
LETTERS = string.ascii_letters + "_"
NAMES = [a + b for a in LETTERS for b in LETTERS + string.digits if a + b not in ("if", "in", "or", "on")][:1024]
ROUNDS = 5


def rows(count):
    """A text with this many rows of 1,024 terms."""
    declared = "".join(f"var {name} : set 0..1;" for name in NAMES)
    row = "+".join(NAMES)
    return declared + "var r : real 0..1;" + f"post {row}>=1;\n" * count + "satisfy;"


def sums(count):
    """A short text that comes to the same rows."""
    return (f"index N = 0..1023; index K = 1..{count}; var x[N] : set 0..1; var r : real 0..1; "
            "post forall k in K : sum(x[i] for i in N) >= 1; satisfy;")


def run(path):
    started = time.perf_counter()
    child = subprocess.run([PROGRAM, "solve", path], stdout=subprocess.PIPE)
    assert child.returncode == 13, child
    return time.perf_counter() - started


def main():
    if not PROGRAM.exists():
        sys.exit("build the program first: (cd crates/simpl && rt run -- solve data/first.simpl)")
    whole = rows(4096)
    models = [("1,024 rows", rows(1024), 1024), ("2,048 rows", rows(2048), 2048), ("4,096 rows", whole, 4096),
              ("4,096 rows and a comment to 16 MB", whole + "#" + "x" * (16777216 - len(whole) - 1), 4096), ("4,096 rows by sums", sums(4096), 4096)]
    print("| Model | Bytes | Terms | Seconds | Most memory so far, MB |\n|---|--:|--:|--:|--:|")
    for name, text, count in models:
        with tempfile.NamedTemporaryFile("w", suffix=".simpl") as file:
            file.write(text)
            file.flush()
            least = min(run(file.name) for _ in range(ROUNDS))
        memory = resource.getrusage(resource.RUSAGE_CHILDREN).ru_maxrss / 1024
        print(f"| {name} | {len(text):,} | {count * 1024:,} | {least:.2f} | {memory:.0f} |")


main()
