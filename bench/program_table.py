"""Cases of linear programs. What is expected of them comes from the rule of the least number in unbounded fractions, from the
vertices where they are few, and from the combination of the rows, step by step."""

from fractions import Fraction
from functools import lru_cache
from math import lcm

import fraction_table as table
import lp_table

MAX = table.MAX


# ---- the path


def halves_of(rows):
    """Each row as rows that are at least their bounds."""
    for terms, equal, bound in rows:
        yield terms, bound
        if equal:
            yield [(j, -a) for j, a in terms], -bound


def first_dictionary(columns, rows, cost):
    """The slacks by what the columns are above their least ends, with the constant last and the goal as the last row."""
    n = len(columns)

    def written(terms, constant):
        row = [Fraction(0)] * (n + 1)
        for j, a in terms:
            row[j] += a
        row[n] = sum((Fraction(a) * columns[j][0] for j, a in terms), Fraction(0)) + constant
        return row

    entries = [written(terms, -bound) for terms, bound in halves_of(rows)]
    for k, (least, greatest) in enumerate(columns):
        row = [Fraction(0)] * (n + 1)
        row[k], row[n] = Fraction(-1), Fraction(greatest - least)
        entries.append(row)
    entries.append(written(list(enumerate(cost)), 0))
    return entries


def move_of(entries, basic, nonbasic):
    """The row and the column of the next move, or the row of which no point is, or None at an optimal basis."""
    n, goal = len(nonbasic), entries[-1]
    needs = [(number, "row", i) for i, number in enumerate(basic) if entries[i][n] < 0]
    needs += [(number, "column", j) for j, number in enumerate(nonbasic) if goal[j] < 0]
    if not needs:
        return None
    _, kind, place = min(needs)
    if kind == "row":
        entering = [(nonbasic[j], j) for j in range(n) if entries[place][j] > 0]
        return (place, min(entering)[1]) if entering else (place, None)
    leaving = [(basic[i], i) for i in range(len(basic)) if entries[i][place] < 0]
    return min(leaving)[1], place


def pivot(entries, r, c):
    q = 1 / entries[r][c]
    row = [-a * q for a in entries[r]]
    row[c] = q
    for i, other in enumerate(entries):
        if i != r and other[c] != 0:
            factor = other[c]
            entries[i] = [b + factor * a for a, b in zip(row, other)]
            entries[i][c] = factor * q
    entries[r] = row


def path(columns, rows, cost):
    """The last basis of the path with its multipliers, and the point or None."""
    n = len(columns)
    entries = first_dictionary(columns, rows, cost)
    slacks = len(entries) - 1
    basic, nonbasic = list(range(n, n + slacks)), list(range(n))
    while (move := move_of(entries, basic, nonbasic)) is not None and move[1] is not None:
        r, c = move
        pivot(entries, r, c)
        basic[r], nonbasic[c] = nonbasic[c], basic[r]

    def of_slack(number):
        if move is None:
            return entries[-1][nonbasic.index(number)] if number in nonbasic else Fraction(0)
        if basic[move[0]] == number:
            return Fraction(1)
        return -entries[move[0]][nonbasic.index(number)] if number in nonbasic else Fraction(0)

    multipliers, slack = [], n
    for _, equal, _ in rows:
        multipliers.append(of_slack(slack) - (of_slack(slack + 1) if equal else 0))
        slack += 2 if equal else 1
    point = None
    if move is None:
        point = [columns[j][0] + (entries[basic.index(j)][n] if j in basic else 0) for j in range(n)]
    return sorted(basic), multipliers, point


# ---- the check of a proposal


class Passed(Exception):
    pass


def step(name, left, right):
    result = table.OPERATIONS[name](left, right)
    if result is None:
        raise Passed(f"passed {name} {shown(left)} {shown(right)}")
    return result


def combination(columns, rows, target, constant, multipliers):
    """The bound that the multipliers give: first the remaining coefficients, then the rows, the constant and the columns."""
    sums = [Fraction(0)] * len(columns)
    for (terms, _, _), y in zip(rows, multipliers):
        for j, a in terms:
            sums[j] = step("plus", sums[j], step("times", y, Fraction(a)))
    rest = [step("minus", Fraction(f), total) for f, total in zip(target, sums)]
    bound = Fraction(0)
    for (_, _, b), y in zip(rows, multipliers):
        bound = step("plus", bound, step("times", y, Fraction(b)))
    if constant is not None:
        bound = step("plus", bound, Fraction(constant))
    for r, (least, greatest) in zip(rest, columns):
        if r != 0:
            bound = step("plus", bound, step("times", r, Fraction(least if r > 0 else greatest)))
    return bound


def are_lawful(rows, multipliers):
    return len(rows) == len(multipliers) and all(equal or y >= 0 for (_, equal, _), y in zip(rows, multipliers))


def holds(row, point):
    terms, equal, bound = row
    value = sum((Fraction(a) * point[j] for j, a in terms), Fraction(0))
    return value == bound if equal else value >= bound


def pair_outcome(program, constant, denominator, values, multipliers):
    columns, rows, cost = program
    if denominator < 1 or len(values) != len(columns):
        return "refuted"
    point = [Fraction(value, denominator) for value in values]
    inside = all(least <= x <= greatest for x, (least, greatest) in zip(point, columns))
    if not inside or not are_lawful(rows, multipliers) or not all(holds(row, point) for row in rows):
        return "refuted"
    try:
        value = Fraction(0)
        for c, x in zip(cost, point):
            value = step("plus", value, step("times", Fraction(c), x))
        value = step("plus", value, Fraction(constant))
        return "certified" if value == combination(columns, rows, cost, constant, multipliers) else "refuted"
    except Passed as passed:
        return str(passed)


def contradiction_outcome(program, multipliers):
    columns, rows, _ = program
    if not are_lawful(rows, multipliers):
        return "refuted"
    try:
        return "certified" if combination(columns, rows, [0] * len(columns), None, multipliers) > 0 else "refuted"
    except Passed as passed:
        return str(passed)


# ---- lines


def shown(number):
    return f"{number.numerator}/{number.denominator}"


def program_text(program):
    columns, rows, cost = program
    words = [len(columns)]
    for (least, greatest), c in zip(columns, cost):
        words += [least, greatest, c]
    words.append(len(rows))
    for terms, equal, bound in rows:
        words += [int(equal), bound, len(terms)]
        for j, a in terms:
            words += [j, a]
    return " ".join(str(word) for word in words)


def fractions_text(fractions):
    return " ".join([str(len(fractions))] + [f"{f.numerator} {f.denominator}" for f in fractions])


def least_of(program):
    """The least cost, which the multipliers prove."""
    columns, rows, cost = program
    _, multipliers, point = path(columns, rows, cost)
    if point is None:
        assert contradiction_outcome(program, multipliers) == "certified"
        return "infeasible"
    denominator = lcm(1, *(x.denominator for x in point))
    assert pair_outcome(program, 0, denominator, [x * denominator for x in point], multipliers) == "certified"
    return shown(sum((Fraction(c) * x for c, x in zip(cost, point)), Fraction(0)))


def least_case(title, program):
    least = least_of(program)
    return f"program least {title} {program_text(program)}", f"{title} {least} certified {least} certified"


def path_case(title, program):
    columns, rows, cost = program
    basis, multipliers, point = path(columns, rows, cost)
    words = [title, "basis"] + basis
    if point is not None:
        denominator = lcm(1, *(x.denominator for x in point))
        words += ["denominator", denominator, "point"] + [x * denominator for x in point]
    words += ["multipliers"] + [shown(y) for y in multipliers] + [least_of(program), "certified"]
    return f"program path {title} {program_text(program)}", " ".join(str(word) for word in words)


def pair_case(title, program, constant, denominator, values, multipliers):
    words = [constant, denominator, len(values)] + values
    line = f"program pair {title} {program_text(program)} {' '.join(str(word) for word in words)} {fractions_text(multipliers)}"
    return line, f"{title} {pair_outcome(program, constant, denominator, values, multipliers)}"


def contradiction_case(title, program, multipliers):
    line = f"program contradiction {title} {program_text(program)} {fractions_text(multipliers)}"
    return line, f"{title} {contradiction_outcome(program, multipliers)}"


# ---- the cases

TITLES = [
    "least_of_two_rows", "row_above_the_box", "no_columns", "two_great_numbers", "greatest_ends", "equality_at_an_end",
    "two_equalities", "two_equalities_with_negative_costs", "equalities_that_contradict", "one_equality_twice", "beale",
    "chvatal", "klee_and_minty", "many_rows_at_one_point", "boxes_of_one_point", "boxes_of_one_point_outside",
    "empty_row_that_holds", "empty_row_that_fails", "denominators_of_several_primes", "infeasible_by_three_rows", "no_cost",
]  # fmt: skip


def of_one_column(ends, number, equal, bound, cost):
    return [ends], [([(0, number)], equal, bound)], [cost]


def pairs():
    """Proposals, right ones and ones in which one sentence of the definition is broken."""
    half = Fraction(1, 2)
    two = ([(0, 1), (0, 1)], [([(0, 3), (1, 2)], False, 2), ([(0, 1), (1, 4)], False, 1)], [1, 1])
    right = [Fraction(3, 10), Fraction(1, 10)]
    yield "right", two, 0, 10, [6, 1], right
    yield "greater_denominator", two, 0, 20, [12, 2], right
    yield "dearer", two, 0, 10, [7, 1], right
    yield "outside_a_row", two, 0, 30, [19, 2], right
    yield "short_point", two, 0, 10, [6], right
    yield "long_point", two, 0, 10, [6, 1, 0], right
    yield "few_multipliers", two, 0, 10, [6, 1], right[:1]
    yield "with_a_constant", two, -7, 10, [6, 1], right
    yield "dearer_with_a_constant", two, 7, 10, [7, 1], right
    free = of_one_column((0, 1), 0, False, 0, 0)
    none = [Fraction(0)]
    yield "inside", free, 0, 2, [1], none
    yield "above_the_box", free, 0, 2, [3], none
    yield "below_the_box", free, 0, 2, [-1], none
    yield "denominator_zero", free, 0, 0, [0], none
    yield "denominator_below_zero", free, 0, -1, [0], none
    yield "wrong_sign", of_one_column((0, 1), -1, False, -1, 1), 0, 1, [1], [Fraction(-1)]
    yield "equality_of_any_sign", of_one_column((0, 1), -1, True, -1, 1), 0, 1, [1], [Fraction(-1)]
    yield "row_missed", of_one_column((0, 1), 1, False, 1, 0), 0, 1, [0], none
    yield "equality_passed", of_one_column((0, 1), 1, True, 0, 0), 0, 1, [1], none
    costly = of_one_column((-2, 3), 0, False, 0, -4)
    yield "greatest_end", costly, 0, 1, [3], none
    yield "least_end", costly, 0, 1, [-2], none
    yield "product_passes", of_one_column((0, 1), 4, False, 0, 0), 0, 1, [0], [Fraction(2**126)]
    # the rows come before the constant, and both before the columns
    low = of_one_column((0, 1), 0, False, -1, 0)
    yield "constant_passes", low, -1, 1, [0], [Fraction(MAX)]
    yield "constant_at_the_end", low, 1, 1, [0], [Fraction(MAX)]
    yield "greatest_constant", free, 2**63 - 1, 1, [0], none
    yield "least_constant", free, -(2**63), 1, [0], none
    yield "constant_of_a_fraction", of_one_column((0, 1), 2, False, 1, 1), 3, 2, [1], [half]


def contradictions():
    yield "many_multipliers", ([(0, 1), (0, 1)], [([(0, 3), (1, 2)], False, 2), ([(0, 1), (1, 4)], False, 1)], [1, 1]), [Fraction(0)] * 3
    yield "above_zero", of_one_column((0, 5), 1, False, 7, 0), [Fraction(1)]
    yield "zero", of_one_column((0, 5), 1, False, 5, 0), [Fraction(1)]
    yield "product_passes_without_a_point", of_one_column((0, 1), 4, False, 0, 0), [Fraction(2**126)]
    great = Fraction(2**126)
    # the columns alone would pass
    yield "one_running_sum", ([(1, 1), (1, 1)], [([(0, -1), (1, -1)], False, -1)], [0, 0]), [great]
    yield "sum_of_a_column_passes", ([(0, 1)], [([(0, 1)], False, 0), ([(0, 1)], False, 0)], [0]), [great, great]
    yield "last_column_passes", ([(1, 1), (1, 1)], [([(0, -1), (1, -1)], False, 0)], [0, 0]), [great]


UNSOLVABLE = [
    ("column_named_twice", ([(0, 1)], [([(0, 1), (0, 2)], False, 0)], [0])),
    ("no_such_column", ([(0, 1)], [([(1, 1)], False, 0)], [0])),
    ("ends_out_of_order", ([(1, 0)], [], [0])),
    ("great_end", ([(0, 2**31 + 1)], [], [0])),
    ("great_number", ([(0, 1)], [([(0, 2**42 + 1)], False, 0)], [0])),
    ("great_bound", ([(0, 1)], [([(0, 1)], False, 2**80 + 1)], [0])),
    ("great_cost", ([(0, 1)], [], [-(2**42) - 1])),
]


def cases():
    for title, (columns, rows, cost) in zip(TITLES, lp_table.PROGRAMS):
        best = lp_table.optimum(columns, rows, cost)
        assert least_of((columns, rows, cost)) == ("infeasible" if best is None else shown(best))
        yield least_case(title, (columns, rows, cost))
        yield path_case(title, (columns, rows, cost))
    for pair in pairs():
        yield pair_case(*pair)
    for contradiction in contradictions():
        yield contradiction_case(*contradiction)
    for title, program in UNSOLVABLE:
        yield f"program least {title} {program_text(program)}", f"{title} unsolvable"
    edge = ([(-(2**31), 2**31)], [([(0, 2**42)], False, -(2**80))], [2**42])
    yield path_case("greatest_sizes", edge)


# ---- drawn and great ones


class Generator:
    """D. Knuth's linear congruential generator ("The Art of Computer Programming", volume 2)."""

    def __init__(self, state):
        self.state = state

    def draw(self, least, greatest):
        self.state = (self.state * 6364136223846793005 + 1442695040888963407) % 2**64
        return least + (self.state >> 33) % (greatest - least + 1)


def drawn_program(generator):
    draw = generator.draw
    count = draw(1, 6)
    columns, cost, rows = [], [], []
    for _ in range(count):
        least = draw(-5, 3)
        columns.append((least, least + draw(0, 6)))
        cost.append(draw(-7, 7))
    for _ in range(draw(0, 6)):
        terms = []
        for column in range(count):
            if draw(0, 2) > 0:
                terms.append((column, draw(-4, 4)))
        equal = draw(0, 3) == 0
        rows.append((terms, equal, draw(-6, 6)))
    return columns, rows, cost


def cost_of_pair(i, j):
    return (31 * (i + 1) * (i + 3) * (j + 2) * (j + 5) + 17 * i + 29 * j) % 97


def assignment(count):
    """So many to as many, with a last column for the cost that a row defines."""
    columns, cost, rows = [], [], []
    terms = [(count * count, 1)]
    for i in range(count):
        for j in range(count):
            columns.append((0, 1))
            cost.append(0)
            terms.append((i * count + j, -cost_of_pair(i, j)))
        rows.append(([(i * count + k, 1) for k in range(count)], True, 1))
        rows.append(([(i + count * k, 1) for k in range(count)], True, 1))
    rows.append((terms, True, 0))
    return columns + [(0, 2000)], rows, cost + [1]


def least_assignment(count):
    """The least cost of an assignment, by the sets of those that are taken. A fraction of assignments costs no less (G. Birkhoff, 1946)."""

    @lru_cache(maxsize=None)
    def least(taken):
        i = taken.bit_count()
        if i == count:
            return 0
        return min(cost_of_pair(i, j) + least(taken | 1 << j) for j in range(count) if not taken >> j & 1)

    return least(0)


def wide_program(count, number, greatest, bound):
    """400 columns and 400 rows. Each row names so many columns behind its own, all with numbers of this size."""
    columns = [(0, greatest)] * 400
    cost = [1 + i * i % 11 for i in range(400)]
    rows = [([((i + k * k) % 400, number - k) for k in range(count)], False, bound) for i in range(400)]
    return columns, rows, cost


def great_cases():
    generator = Generator(2026)
    for k in range(400):
        yield least_case(f"drawn_{k}", drawn_program(generator))
    title = "assignment_of_eighteen"
    yield f"program quick {title} {program_text(assignment(18))}", f"{title} {least_assignment(18)}/1 certified"
    # the least cost is QSopt_ex 2.5.10's
    title = "sparse_program_of_greatest_size"
    yield f"program quick {title} {program_text(wide_program(2, 5, 9, 5))}", f"{title} 1715021333/1562500 certified"
    # whether there is an answer is not said, but one is right
    title = "greatest_bounds"
    yield f"program right {title} {program_text(wide_program(20, 2**42, 2**31, 2**80))}", f"{title} certified"
    title = "greatest_numbers"
    yield f"program right {title} {program_text(wide_program(20, 2**42, 9, 2**43))}", f"{title} certified"
