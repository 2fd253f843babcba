"""Small linear programs, and their least costs by their vertices in unbounded fractions.

Every vertex of the feasible set is where as many of its bounds are tight as there are columns. The set is bounded, so the
least cost is that of a vertex, and where no vertex is feasible no point is.
"""
from fractions import Fraction
from itertools import combinations


def solve(matrix, right):
    n = len(right)
    m = [[Fraction(x) for x in row] + [Fraction(b)] for row, b in zip(matrix, right)]
    for c in range(n):
        p = next((r for r in range(c, n) if m[r][c] != 0), None)
        if p is None:
            return None
        m[c], m[p] = m[p], m[c]
        m[c] = [x / m[c][c] for x in m[c]]
        for r in range(n):
            if r != c and m[r][c] != 0:
                m[r] = [x - m[r][c] * y for x, y in zip(m[r], m[c])]
    return [row[n] for row in m]


def optimum(columns, rows, cost):
    n = len(columns)
    halves = []
    for terms, equal, bound in rows:
        a = [0] * n
        for j, x in terms:
            a[j] = x
        halves.append((a, bound))
        if equal:
            halves.append(([-x for x in a], -bound))
    for j, (low, high) in enumerate(columns):
        unit = [int(k == j) for k in range(n)]
        halves.append((unit, low))
        halves.append(([-x for x in unit], -high))
    best = None
    for some in combinations(halves, n):
        x = solve([a for a, _ in some], [b for _, b in some])
        if x is None:
            continue
        if any(sum(p * q for p, q in zip(a, x)) < b for a, b in halves):
            continue
        value = sum((Fraction(c) * v for c, v in zip(cost, x)), Fraction(0))
        if best is None or value < best:
            best = value
    return best


PROGRAMS = [
    # columns, rows (terms, equal, bound), cost
    ([(0, 1), (0, 1)], [([(0, 3), (1, 2)], False, 2), ([(0, 1), (1, 4)], False, 1)], [1, 1]),
    ([(0, 5)], [([(0, 1)], False, 7)], [0]),
    ([], [], []),
    ([(0, 1), (0, 1)], [([(0, -2147483647)], False, -1), ([(1, -2147483648)], False, -1)], [1, 1]),
    # a column that stands at its greatest end
    ([(0, 3), (-2, 4)], [], [-5, 2]),
    ([(-3, 3), (1, 2)], [([(0, 2), (1, 3)], True, 1)], [3, -7]),
    # equalities with both signs of multipliers
    ([(0, 10), (0, 10), (0, 10)], [([(0, 1), (1, 1), (2, 1)], True, 6), ([(0, 1), (1, -1)], True, 1)], [2, 3, 1]),
    ([(0, 10), (0, 10), (0, 10)], [([(0, 1), (1, 1), (2, 1)], True, 6), ([(0, 1), (1, -1)], True, 1)], [-2, -3, -1]),
    # equalities that contradict each other, and twice the same
    ([(0, 9), (0, 9)], [([(0, 1), (1, 1)], True, 4), ([(0, 2), (1, 2)], True, 9)], [1, 1]),
    ([(0, 9), (0, 9)], [([(0, 1), (1, 1)], True, 4), ([(0, 2), (1, 2)], True, 8)], [1, 2]),
    # E. Beale's example, on which the greatest coefficient's rule cycles (times 50)
    ([(0, 100), (0, 100), (0, 100), (0, 100)],
     [([(0, -25), (1, 6000), (2, 4), (3, -900)], False, 0), ([(0, -50), (1, 9000), (2, 2), (3, -300)], False, 0), ([(2, -1)], False, -1)],
     [-75, 15000, -2, 600]),
    # V. Chvatal's example, on which it cycles too (times 10)
    ([(0, 50), (0, 50), (0, 50), (0, 50)],
     [([(0, -5), (1, 55), (2, 25), (3, -90)], False, 0), ([(0, -5), (1, 15), (2, 5), (3, -10)], False, 0), ([(0, -1)], False, -1)],
     [-100, 570, 90, 240]),
    # V. Klee's and G. Minty's cube of three columns
    ([(0, 1), (0, 100), (0, 10000)],
     [([(0, -1)], False, -1), ([(0, -20), (1, -1)], False, -100), ([(0, -200), (1, -20), (2, -1)], False, -10000)],
     [-100, -10, -1]),
    # a point at which many rows meet
    ([(0, 4), (0, 4)],
     [([(0, 1), (1, 1)], False, 2), ([(0, 2), (1, 1)], False, 3), ([(0, 1), (1, 2)], False, 3), ([(0, 3), (1, 3)], False, 6), ([(0, 1), (1, -1)], True, 0)],
     [7, 5]),
    # boxes of one point
    ([(2, 2), (-1, -1)], [([(0, 1), (1, 1)], False, 1)], [3, 4]),
    ([(2, 2), (-1, -1)], [([(0, 1), (1, 1)], False, 2)], [3, 4]),
    # an empty row that holds, and one that doesn't
    ([(0, 1)], [([], False, -3)], [-1]),
    ([(0, 1)], [([], False, 3)], [-1]),
    # denominators with several primes
    ([(0, 7), (0, 7), (0, 7)], [([(0, 2), (1, 3)], False, 1), ([(1, 5), (2, 7)], False, 3), ([(0, 11), (2, 13)], False, 5)], [1, 1, 1]),
    # infeasible only by three rows at once
    ([(0, 1), (0, 1), (0, 1)], [([(0, 1), (1, -1)], False, 1), ([(1, 1), (2, -1)], False, 0), ([(2, 1)], False, 1)], [1, 1, 1]),
    # no cost at all
    ([(-4, 4), (-4, 4)], [([(0, 3), (1, 5)], True, 1)], [0, 0]),
]

if __name__ == "__main__":
    for columns, rows, cost in PROGRAMS:
        print(columns, rows, cost, "->", optimum(columns, rows, cost))
