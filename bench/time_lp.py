#!/usr/bin/env python3
"""Times solve_lp of crates/sm_lp beside GLPK's exact simplex (glpsol --exact) and QSopt_ex's esolver on the same programs.

Run at the top of the repository: python3 bench/time_lp.py

The script copies the crates to a temporary folder, adds a program there that reads a linear program and times solve_lp, and
has rt prove and build it as it builds the repository's own programs. Where rt is missing the script says so and ends; a peer
that isn't installed has empty columns. Where two find an optimum their costs are compared. A run that takes ten minutes is
stopped. The moves of ours are counted by the same rule, in whole numbers over one denominator.
"""

import random
import shutil
import tempfile
from pathlib import Path

from linear_programs import build_program, compare, esolver, glpsol, our_text, ours, ratio, shown

# columns, and the share of them that a row names; the one that takes longest comes last
PROGRAMS = [(size, share) for size in (10, 40, 100) for share in (1.0, 3 / size)] + [(400, 3 / 400), (400, 1.0)]


def program_of(size, share):
    """So many columns, half as many rows; each row names this share of the columns, and a point of whole numbers satisfies all."""
    rng = random.Random(f"{size} {share}")
    columns = [(0, 10, rng.randint(1, 9)) for _ in range(size)]
    point = [rng.randint(0, 10) for _ in range(size)]
    rows = []
    for _ in range(size // 2):
        named = sorted(rng.sample(range(size), max(2, int(size * share))))
        terms = [(j, rng.randint(1, 5)) for j in named]
        rows.append((terms, False, sum(a * point[j] for j, a in terms) - rng.randint(0, 5)))
    return columns, rows


def first_table(columns, rows):
    """The first dictionary: a row for each row and for each column's greatest end, then the goal; the constant is last."""
    n = len(columns)
    table = []
    for terms, _, bound in rows:
        row = [0] * (n + 1)
        for j, a in terms:
            row[j] = a
        row[n] = sum(a * columns[j][0] for j, a in terms) - bound
        table.append(row)
    for j, (least, greatest, _) in enumerate(columns):
        table.append([-int(k == j) for k in range(n)] + [greatest - least])
    table.append([column[2] for column in columns] + [0])
    return table


def next_move(table, basic, nonbasic):
    """The row and the column of the least number that needs a move, or None at an optimum."""
    n, goal = len(nonbasic), len(basic)
    needs = [(basic[i], i, None) for i in range(goal) if table[i][n] < 0]
    needs += [(nonbasic[j], None, j) for j in range(n) if table[goal][j] < 0]
    if not needs:
        return None
    _, r, c = min(needs, key=lambda need: need[0])
    if c is None:
        enter = [(nonbasic[j], j) for j in range(n) if table[r][j] > 0]
        return (r, min(enter)[1]) if enter else None
    return min((basic[i], i) for i in range(goal) if table[i][c] < 0)[1], c


def pivot(table, denominator, r, c):
    """Exchanges a row's number and a column's. All entries are over one denominator, and each division is exact
    (Edmonds 1967, Bareiss 1968)."""
    p, turned = table[r][c], table[r]
    sign = 1 if p > 0 else -1
    for i, row in enumerate(table):
        q = row[c]
        if i == r:
            continue
        if q == 0:
            table[i] = [sign * (x * p // denominator) if x else 0 for x in row]
        else:
            table[i] = [sign * ((x * p - q * y) // denominator) for x, y in zip(row, turned)]
            table[i][c] = sign * q
    table[r] = [-sign * x for x in turned]
    table[r][c] = sign * denominator
    return abs(p)


def moves(columns, rows):
    """How many moves the rule of the least number makes."""
    table, denominator = first_table(columns, rows), 1
    n, goal = len(columns), len(table) - 1
    basic, nonbasic = [n + i for i in range(goal)], list(range(n))
    count = 0
    while (move := next_move(table, basic, nonbasic)) is not None:
        r, c = move
        denominator = pivot(table, denominator, r, c)
        basic[r], nonbasic[c] = nonbasic[c], basic[r]
        count += 1
    return count


def main():
    if shutil.which("rt") is None:
        print("skipped: rt is not installed")
        return
    with tempfile.TemporaryDirectory() as name:
        folder = Path(name)
        program = build_program(folder, "solve_lp")
        print("| Columns | Share named | sm_lp | Moves | sm_lp, ms | glpsol --exact, ms | Its pivots | Ratio | esolver, ms | Ratio |")
        print("|--:|--:|---|--:|--:|--:|--:|--:|--:|--:|")
        for size, share in PROGRAMS:
            linear = program_of(size, share)
            rounds = 3 if size < 100 else 1
            kind, seconds, cost = ours(program, our_text(linear), rounds)
            # counting takes Python days on the dense program of 400 columns
            count = f"{moves(*linear):,}" if size < 400 or share < 1 else ""
            exact, pivots, value = glpsol(folder, linear, rounds)
            other, other_value = esolver(folder, linear, rounds)
            compare(cost, value)
            compare(cost, other_value)
            print(
                f"| {size} | {share:.2f} | {kind} | {count} | {shown(seconds)} | {shown(exact)} | {pivots or ''} | {ratio(seconds, exact)}"
                f" | {shown(other)} | {ratio(seconds, other)} |",
                flush=True,
            )


if __name__ == "__main__":
    main()
