#!/usr/bin/env python3
"""Times propose of crates/sm_quick beside solve_lp, GLPK's glpsol --exact and QSopt_ex's esolver on relaxations of usual models.

Run at the top of the repository: python3 bench/time_quick.py

The script copies the crates to a temporary folder, adds programs there that read a linear program and time one call, and has
rt prove and build them. Where rt is missing it says so and ends; a peer that isn't installed has empty columns. The time of a
peer is that of its whole run less that of a run on a program of one column. A run of solve_lp that takes a minute is stopped,
and its columns are empty; so is one of a peer after ten.
"""

import random
import shutil
import tempfile
from pathlib import Path

from linear_programs import build_program, compare, esolver, glpsol, our_text, ours, ratio, shown
from time_lp import program_of

ROUNDS = 20
PATH_LIMIT = 60  # seconds of solve_lp
BIG = 2**31


def assignment(people, posts):
    """Each of the first people has one post of `posts`, no post has two; the cost of all is a column of its own, defined by a row."""
    rng = random.Random(f"assignment {people} {posts}")
    columns = [(-BIG, BIG, 1)] + [(0, 1, 0) for _ in range(people * posts)]
    at = lambda i, k: 1 + i * posts + k
    rows = [([(0, 1)] + [(at(i, k), -rng.randint(1, 99)) for i in range(people) for k in range(posts)], True, 0)]
    rows += [([(at(i, k), 1) for k in range(posts)], True, 1) for i in range(people)]
    rows += [([(at(i, k), -1) for i in range(people)], False, -1) for k in range(posts)]
    return columns, rows


def cover(rows_count, columns_count):
    """Each row asks for at least one of some columns."""
    rng = random.Random(f"cover {rows_count} {columns_count}")
    columns = [(0, 1, rng.randint(1, 20)) for _ in range(columns_count)]
    rows = []
    for _ in range(rows_count):
        named = sorted(rng.sample(range(columns_count), rng.randint(3, 8)))
        rows.append(([(j, 1) for j in named], False, 1))
    return columns, rows


def transport(sources, sinks):
    """Each sink gets what it asks for, no source gives more than it has."""
    rng = random.Random(f"transport {sources} {sinks}")
    asked = [rng.randint(5, 40) for _ in range(sinks)]
    has = [sum(asked) // sources + rng.randint(3, 9) for _ in range(sources)]
    columns = [(0, 50, rng.randint(1, 30)) for _ in range(sources * sinks)]
    rows = [([(i * sinks + k, 1) for i in range(sources)], False, asked[k]) for k in range(sinks)]
    rows += [([(i * sinks + k, -1) for k in range(sinks)], False, -has[i]) for i in range(sources)]
    return columns, rows


def lot_sizing(periods):
    """In each period: what is made, what is kept, and whether the machine is set up, which costs, and without which nothing is made."""
    rng = random.Random(f"lots {periods}")
    columns, rows = [], []
    for t in range(periods):
        asked = rng.randint(5, 40)
        columns += [(0, 100, rng.randint(1, 5)), (0, 200, 1), (0, 1, rng.randint(40, 120))]
        made, kept, setup = 3 * t, 3 * t + 1, 3 * t + 2
        before = [(kept - 3, 1)] if t else []
        rows.append((before + [(made, 1), (kept, -1)], True, asked))
        rows.append(([(made, -1), (setup, 100)], False, 0))
    return columns, rows


PROGRAMS = [
    ("assignment 8 x 8", assignment(8, 8)),
    ("assignment 18 x 18", assignment(18, 18)),
    ("assignment 19 x 20", assignment(19, 20)),
    ("cover 60 x 200", cover(60, 200)),
    ("cover 100 x 400", cover(100, 400)),
    ("transport 6 x 8", transport(6, 8)),
    ("transport 10 x 20", transport(10, 20)),
    ("lots of 12 periods", lot_sizing(12)),
    ("lots of 30 periods", lot_sizing(30)),
    ("lots of 100 periods", lot_sizing(100)),
    ("dense", program_of(40, 1.0)),
    ("dense", program_of(100, 1.0)),
    ("sparse", program_of(400, 3 / 400)),
]


def less(seconds, start):
    return None if seconds is None else max(seconds - start, 1e-5)


def main():
    if shutil.which("rt") is None:
        print("skipped: rt is not installed")
        return
    with tempfile.TemporaryDirectory() as name:
        folder = Path(name)
        quick, path = build_program(folder, "propose"), build_program(folder, "solve_lp")
        one = ([(0, 1, 1)], [([(0, 1)], False, 1)])
        glpsol_start, esolver_start = glpsol(folder, one, 20)[0] or 0, esolver(folder, one, 20)[0] or 0
        print(f"A run on one column: glpsol {glpsol_start * 1e3:.1f} ms, esolver {esolver_start * 1e3:.1f} ms\n")
        print("| Program | Columns | Rows | propose | ms | solve_lp, ms | Ratio | glpsol --exact, ms | Ratio | esolver, ms | Ratio |")
        print("|---|--:|--:|---|--:|--:|--:|--:|--:|--:|--:|")
        for title, program in PROGRAMS:
            kind, seconds, cost = ours(quick, our_text(program), ROUNDS)
            _, path_seconds, path_cost = ours(path, our_text(program), 1, PATH_LIMIT)
            exact, _, value = glpsol(folder, program, ROUNDS)
            other, other_value = esolver(folder, program, ROUNDS)
            for found in (path_cost, value, other_value):
                compare(cost, found)
            exact, other = less(exact, glpsol_start), less(other, esolver_start)
            print(
                f"| {title} | {len(program[0])} | {len(program[1])} | {kind} | {shown(seconds)} | {shown(path_seconds)} | {ratio(seconds, path_seconds)}"
                f" | {shown(exact)} | {ratio(seconds, exact)} | {shown(other)} | {ratio(seconds, other)} |",
                flush=True,
            )


if __name__ == "__main__":
    main()
