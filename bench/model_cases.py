"""Small models of each kind: some by hand, some that look random."""

from dataclasses import dataclass, field
from random import Random

from model_kinds import (
    Constraint, alldiff, assign, circuit, cumulative, disjunctive, element, indexsum, linear, logic, packing, when,
)  # fmt: skip

GREAT = 2**31
FINE = 2**52


@dataclass
class Case:
    name: str
    domains: list
    constraint: Constraint
    # by how much the box passes the domains on each side
    wider: int = 1
    # the same points over other denominators
    same_over: tuple = (3,)
    # denominators, scales and boxes
    further: list = field(default_factory=list)


def span(low, high):
    return list(range(low, high + 1))


@dataclass
class Range:
    """What lies between two ends, of a variable of kind `int` or `real`."""

    kind: str
    low: int
    high: int

    def __contains__(self, value):
        return self.low <= value <= self.high and (self.kind == "real" or value.denominator == 1)

    def __iter__(self):
        return iter([self.low, self.high])


def whole(low, high):
    return Range("int", low, high)


def real(low, high):
    return Range("real", low, high)


def line_of(domain):
    """The entry that declares a variable."""
    word = domain.kind if isinstance(domain, Range) else "var"
    return word + "".join(f" {value}" for value in domain)


def halves(*ends):
    return (2, 1, list(ends))


LINEAR = [
    Case("at most", [span(-1, 2), span(-2, 2)], linear([(0, 2), (1, -3)], "<=", 1), further=[halves((-3, 5), (-5, 5))]),
    Case("at least", [span(-1, 2), span(-2, 2)], linear([(0, 2), (1, -3)], ">=", 1), further=[halves((-3, 5), (-5, 5))]),
    Case("equal", [span(-1, 2), span(-2, 2)], linear([(0, 2), (1, -3)], "=", 1), further=[halves((-3, 5), (-5, 5)), (3, 1, [(-4, 6), (-6, 6)])]),
    Case("equal, of three", [span(0, 2), [-3, 0, 1], [0, 2]], linear([(0, 1), (1, -2), (2, -1)], "=", 0)),
    Case("only the second of three", [span(0, 1), span(-2, 2), span(0, 1)], linear([(1, -1)], ">=", 0)),
    Case("five", [span(0, 1)] * 5, linear([(0, 5), (1, -4), (2, 3), (3, -2), (4, 1)], "<=", 2)),
    Case("great numbers", [[-GREAT, -GREAT + 1], [GREAT - 1, GREAT]], linear([(0, GREAT), (1, GREAT)], "=", 0), 0, (1, FINE)),
    Case("great bound", [[-2, -1, 0, 1, 2]], linear([(0, GREAT)], ">=", -GREAT), same_over=(FINE,), further=[(FINE, 1, [(-FINE - 1, -FINE + 1)])]),
    Case("values past the greatest", [[GREAT - 1, GREAT]], linear([(0, 1)], "<=", GREAT - 1), 0, (2, FINE)),
    Case("fewer values", [span(0, 2), span(0, 2)], linear([(0, 1), (1, 1)], "=", 1), further=[(1, 1, [(0, 2)]), (1, 1, [])]),
    Case("more values", [span(0, 2)], linear([(0, 1)], "=", 1), further=[(1, 1, [(0, 2), (0, 1)])]),
    Case("of each kind", [span(0, 1), whole(-1, 1), real(-1, 1)], linear([(0, 2), (1, 1), (2, -2)], "<=", 1), further=[halves((-1, 3), (-3, 3), (-3, 3))]),
    Case("of real variables", [real(-1, 1), real(0, 2)], linear([(0, 3), (1, -2)], "=", 1), further=[halves((-3, 3), (-1, 5)), (3, 1, [(-4, 4), (-1, 7)])]),
    Case("of a whole variable", [whole(-2, 2)], linear([(0, 3)], ">=", -4), further=[halves((-6, 6)), (3, 1, [(-8, 8)])]),
    Case("of one number", [whole(1, 1), real(1, 1)], linear([(0, 1), (1, 1)], "=", 2), further=[halves((1, 3), (1, 3))]),
    Case("great ends", [whole(GREAT - 1, GREAT), real(-GREAT, 1 - GREAT)], linear([(0, 1), (1, 1)], "<=", 0), 0, (2, FINE), [(2, 1, [(2 * GREAT - 3, 2 * GREAT), (-2 * GREAT, 3 - 2 * GREAT)])]),
] + [
    Case(f"no terms, 0 {cmp} {bound}", [span(0, 1)], linear([], cmp, bound))
    for cmp in ("<=", ">=", "=") for bound in (-1, 0, 1)
]  # fmt: skip

LOGIC = [
    Case("each test", [span(-1, 2), span(-2, 1)], logic([(0, "<=", 0), (1, "=", 1)], [(0, ">=", 1), (1, "!=", -1)])),
    Case("no clause", [span(0, 1)], logic()),
    Case("each test of a range", [whole(-1, 2), whole(-2, 1)], logic([(0, "<=", 0), (1, "=", 1)], [(0, ">=", 1), (1, "!=", -1)]), further=[halves((-3, 5), (-5, 3))]),
    Case("a clause without literals", [span(0, 1)], logic([(0, "=", 0)], [])),
    Case("one literal", [span(-1, 2)], logic([(0, "!=", 1)]), further=[halves((-3, 5))]),
    Case("a literal and its complement", [span(-1, 2)], logic([(0, "<=", 0), (0, ">=", 1)]), further=[halves((-3, 5))]),
    Case("a gap", [span(-2, 3)], logic([(0, "<=", -1), (0, ">=", 2)], [(0, "!=", -2)])),
    Case("no value", [span(0, 2)], logic([(0, "=", 0)], [(0, "=", 1)])),
    Case("great bounds", [[GREAT - 1, GREAT]], logic([(0, ">=", GREAT + 1), (0, "<=", -GREAT - 1), (0, "=", GREAT)]), 0, (FINE,)),
    Case("three of four", [span(0, 1)] * 4, logic([(0, "=", 1), (2, "=", 1)], [(0, "=", 0), (3, "=", 1)], [(2, "!=", 1), (3, "!=", 1)])),
]

WHEN = [
    Case("one literal", [span(-1, 2), span(-1, 2)], when([(0, ">=", 1)], [(1, 2)], "<=", 1), further=[halves((-3, 5), (-3, 5))]),
    Case("two literals", [span(-1, 1), span(0, 2), span(0, 2)], when([(0, "=", 0), (1, "!=", 2)], [(1, 1), (2, 1)], "=", 2)),
    Case("no literal", [span(-1, 2)], when([], [(0, 1)], ">=", 1), further=[halves((-3, 5))]),
    Case("no terms, never", [span(-1, 2)], when([(0, "<=", 0)], [], ">=", 1)),
    Case("no terms, always", [span(-1, 2)], when([(0, "<=", 0)], [], "<=", 1)),
    Case("literals that exclude each other", [span(0, 2)], when([(0, "=", 0), (0, "=", 1)], [], "=", 1)),
    Case("the row's own variable", [span(-2, 2)], when([(0, ">=", 0)], [(0, 1)], "=", 1)),
    Case("a real row", [whole(-1, 2), real(-1, 2)], when([(0, ">=", 1)], [(0, 1), (1, 2)], "<=", 2), further=[halves((-2, 4), (-2, 4))]),
]

ALLDIFF = [
    Case("three", [span(-1, 1), span(0, 2), span(1, 2)], alldiff(0, 1, 2)),
    Case("two of three", [span(0, 1)] * 3, alldiff(2, 0), further=[halves((0, 2), (0, 2), (0, 2))]),
    Case("a position twice", [span(0, 2)] * 2, alldiff(0, 1, 0)),
    Case("none", [span(0, 1)], alldiff()),
    Case("one", [span(0, 2)], alldiff(0)),
    Case("four of five", [span(0, 3)] * 5, alldiff(4, 2, 0, 1), 0),
    Case("thirds", [span(0, 1)] * 2, alldiff(0, 1), further=[(3, 1, [(-2, 4), (-2, 4)])]),
]

ELEMENT = [
    Case("numbers", [span(-1, 3), span(-2, 7)], element(0, 1, [5, -2, 7]), further=[halves((-1, 5), (-3, 5))]),
    Case("variables", [span(0, 2), span(-1, 1), span(0, 1), span(0, 1)], element(0, 1, ["v2", "v3", -1])),
    Case("variables at halves", [span(0, 2), span(0, 1), span(0, 1)], element(0, 1, ["v2", 1]), further=[halves((0, 3), (-1, 3), (0, 2))]),
    Case("x among the entries", [span(0, 2), span(0, 3)], element(0, 1, [3, "v0", "v1"])),
    Case("z among the entries", [span(0, 2), span(-1, 1)], element(0, 1, ["v1", "v1"])),
    Case("x is z", [span(-1, 3)], element(0, 0, [2, 1, "v0", 0])),
    Case("no entries", [span(-1, 1), span(0, 1)], element(0, 1, [])),
    Case("ranges", [span(0, 2), whole(-1, 2), whole(0, 1)], element(0, 1, ["v2", 2, "v1"])),
    Case("great entries", [span(0, 1), [GREAT - 1, GREAT]], element(0, 1, [GREAT, -GREAT]), 0, (FINE,)),
]

TABLES = [
    ("two tables", [span(-1, 2), span(0, 3), span(-2, 6)], 2, [(0, [3, -1]), (1, [1, 0, 4])]),
    ("a variable twice", [span(0, 2), span(2, 7)], 1, [(0, [1, 2, 3]), (0, [2, 2, 4])]),
    ("z is picked by", [span(0, 2), span(-1, 3)], 1, [(0, [0, 1, 2]), (1, [0, 0, 1, -1])]),
    ("an empty table", [span(-1, 1), span(-1, 1)], 1, [(0, [])]),
    ("no picks", [span(-2, 2)], 0, []),
    ("one pick", [span(-1, 3), span(-4, 2)], 1, [(0, [2, -4, 0])]),
    ("the same place", [span(0, 1), span(0, 1), span(0, 1)], 2, [(0, [1, 1]), (1, [0, 0])]),
    ("three tables", [span(0, 2)] * 3 + [span(5, 7)], 3, [(0, [1, 2, 3]), (1, [3, 1, 2]), (2, [2, 3, 1])]),
    ("z is a range", [span(0, 2), span(0, 1), whole(-1, 4)], 2, [(0, [0, 1, 3]), (1, [1, 0])]),
    ("great members", [span(0, 1), span(0, 1), [-1, 0]], 2, [(0, [GREAT, -GREAT]), (1, [GREAT, -GREAT])]),
]
INDEXSUM = [Case(name, domains, indexsum(z, *picks), further=[(2, 1, [(0, 3)] * len(domains))]) for name, domains, z, picks in TABLES]
ASSIGN = [Case(name, domains, assign(z, *picks), further=[(2, 1, [(0, 3)] * len(domains))]) for name, domains, z, picks in TABLES]

TASKS = [
    ("two", [span(-2, 2), span(-1, 3)], [(0, 2, 1), (1, 3, 1)]),
    ("three", [span(0, 3), span(0, 3), span(1, 2)], [(0, 2, 1), (1, 1, 2), (2, 2, 1)]),
    ("no time", [span(-1, 2), span(0, 3)], [(0, 0, 9), (1, 3, 1)]),
    ("no time at all", [span(0, 2), span(0, 2)], [(0, 0, 9), (1, 0, 9)]),
    ("no demand", [span(-1, 2), span(0, 2)], [(0, 2, 0), (1, 2, 1)]),
    ("too much", [span(-1, 1)], [(0, 1, 3)]),
    ("no tasks", [span(0, 1)], []),
    ("a start twice", [span(-1, 1)], [(0, 1, 1), (0, 1, 1)]),
    ("a start twice, once without time", [span(-1, 1)], [(0, 1, 1), (0, 0, 2)]),
    ("one is absent at 0", [span(0, 2), span(0, 2), span(0, 1)], [(0, 2, 1), (1, 2, 1, (2, "=", 1))]),
    ("absent by a range", [span(0, 2), span(0, 2), whole(-1, 1)], [(0, 2, 1), (1, 2, 1, (2, ">=", 0))]),
    ("both may be absent", [span(0, 2), span(0, 2), span(-1, 1)], [(0, 2, 1, (2, "<=", 0)), (1, 2, 2, (2, ">=", 0))]),
    ("absent by their own starts", [span(-1, 2), span(-1, 2)], [(0, 3, 1, (0, "!=", 0)), (1, 1, 2, (0, ">=", 1))]),
    ("four", [span(0, 3)] * 4, [(0, 1, 1), (1, 1, 1), (2, 2, 1), (3, 1, 1)]),
]
CUMULATIVE = [
    Case(f"{name}, capacity {capacity}", domains, cumulative(capacity, *tasks), further=[(2, 1, [(-1, 3)] * len(domains))])
    for name, domains, tasks in TASKS for capacity in (0, 1, 2)
]  # fmt: skip
DISJUNCTIVE = [
    Case(name, domains, disjunctive(*((start, duration, *present) for start, duration, _, *present in tasks)), further=[(2, 1, [(-1, 3)] * len(domains))])
    for name, domains, tasks in TASKS
]  # fmt: skip

PACKING = [
    Case("two groups", [span(-1, 2), span(0, 1), span(0, 9)], packing(2, [(3, 0), (2, 5)], (0, 2, [1, 3]), (1, 1, [0, 1])), 0, further=[(2, 1, [(-1, 3), (0, 3), (0, 12)])]),
    Case("three items", [span(0, 1)] * 3 + [span(2, 6)], packing(3, [(2, 1), (1, 2)], (0, 1, [0, 1]), (1, 1, [1, 0]), (2, 1, [0, 2]))),
    Case("z is a range", [span(0, 1)] * 2 + [whole(0, 14)], packing(2, [(9, 4), (9, 7)], (0, 1, [0, 1]), (1, 1, [0, 2])), 0),
    Case("opened once", [span(0, 1)] * 2 + [span(0, 14)], packing(2, [(9, 4), (9, 7)], (0, 1, [0, 1]), (1, 1, [0, 2]))),
    Case("no room, no sizes", [span(0, 1)] * 2 + [span(0, 4)], packing(2, [(0, 1), (0, 2)], (0, 0, [0, 0]), (1, 1, [1, 1]))),
    Case("only sizes of 0", [span(0, 2)] * 2 + [span(0, 6)], packing(2, [(0, 1), (0, 2), (0, 3)], (0, 0, [0, 1, 0]), (1, 0, [1, 0, 0]))),
    Case("costs below 0", [span(0, 1)] * 2 + [span(-5, 2)], packing(2, [(5, 0), (5, 1)], (0, 3, [-2, -1]), (1, 3, [-3, 1]))),
    Case("no items", [span(-1, 2)], packing(0, [(3, 1)])),
    Case("no groups", [span(-1, 1), span(0, 1)], packing(1, [], (0, 1, []))),
    Case("no groups and no items", [span(-1, 1)], packing(0, [])),
    Case("z is an item's group", [span(0, 2)], packing(0, [(1, 0), (1, 0), (1, 0)], (0, 1, [1, 2, 2]))),
    Case("one group for two items", [span(0, 1), span(2, 8)], packing(1, [(5, 1), (3, 2)], (0, 2, [1, 2]), (0, 2, [2, 3]))),
    Case("costs of items outside", [span(-1, 3), span(0, 3), span(-3, 3)], packing(2, [(1, 0), (1, 0)], (0, 1, [1, 2]), (1, 1, [-1, -2]))),
]

CIRCUIT = [
    Case("no nodes", [span(0, 1)], circuit()),
    Case("one node", [span(-1, 2)], circuit(0)),
    Case("two nodes", [span(-1, 2)] * 2, circuit(0, 1), further=[halves((-1, 4), (-1, 4))]),
    Case("two nodes, turned", [span(0, 1), span(0, 2)], circuit(1, 0)),
    Case("three nodes", [span(0, 2)] * 3, circuit(0, 1, 2)),
    Case("three nodes, turned", [span(0, 2)] * 3, circuit(2, 0, 1)),
    Case("four nodes", [span(0, 3)] * 4, circuit(0, 1, 2, 3), 0),
    Case("five nodes", [[1, 2], [2, 3], [3, 4], [0, 4], [0, 1, 2]], circuit(0, 1, 2, 3, 4), 0),
    Case("a variable twice", [span(0, 2)] * 2, circuit(0, 0)),
    Case("a variable twice of three", [span(0, 2)] * 2, circuit(0, 1, 0)),
]

KINDS = {
    "linear": LINEAR, "logic": LOGIC, "when": WHEN, "alldiff": ALLDIFF, "element": ELEMENT, "indexsum": INDEXSUM,
    "cumulative": CUMULATIVE, "disjunctive": DISJUNCTIVE, "packing": PACKING, "circuit": CIRCUIT, "assign": ASSIGN,
}  # fmt: skip


def named():
    for kind, cases in KINDS.items():
        for case in cases:
            case.name = f"{kind}: {case.name}"
            # four variables and more aren't tried outside of their domains
            case.wider = case.wider if len(case.domains) < 4 else 0
            yield case


CASES = list(named())


# ---- cases that look random


class Draw:
    """Parts that look random, of models with so many variables."""

    def __init__(self, seed, count):
        self.random = Random(seed)
        self.count = count

    def number(self):
        return self.random.randint(-2, 3)

    def amount(self, most):
        return self.random.randint(0, most)

    def amount_above(self, most):
        """An amount that is seldom 0."""
        return self.random.choice([0] + [*range(1, most + 1)] * 3)

    def var(self):
        return self.random.randrange(self.count)

    def domain(self):
        return sorted(self.random.sample(range(-1, 4), self.random.randint(2, 4)))

    def literal(self):
        return (self.var(), self.random.choice(["<=", ">=", "=", "!="]), self.number())

    def literals(self, most):
        return [self.literal() for _ in range(self.amount(most))]

    def terms(self):
        variables = sorted(self.random.sample(range(self.count), self.random.randint(1, self.count)))
        return [(var, self.random.choice([-3, -2, -1, 1, 2, 3])) for var in variables]

    def row(self):
        return self.terms(), self.random.choice(["<=", ">=", "="]), self.number()

    def numbers(self, most):
        return [self.number() for _ in range(self.random.randint(1, most))]

    def picks(self):
        return [(var, self.numbers(4)) for var in range(self.count - 1)]

    def tasks(self):
        for var in range(self.count):
            yield (var, self.amount_above(3), self.amount_above(2), *self.literals(1))

    def entries(self):
        return [self.random.choice([number, f"v{self.var()}"]) for number in self.numbers(4)]

    def packing(self):
        groups = [(self.random.randint(1, 4), self.amount(2)) for _ in range(self.random.randint(1, 3))]
        items = [(var, self.amount(3), [self.number() for _ in groups]) for var in range(self.count - 1)]
        return packing(self.count - 1, groups, *items)

    def constraint(self, kind):
        last = self.count - 1
        match kind:
            case "linear":
                return linear(*self.row())
            case "logic":
                return logic(*(self.literals(1) + [self.literal()] for _ in range(self.random.randint(1, 4))))
            case "when":
                return when(self.literals(2), *self.row())
            case "alldiff":
                return alldiff(*self.random.sample(range(self.count), self.random.randint(2, self.count)))
            case "element":
                return element(0, last, self.entries())
            case "indexsum":
                return indexsum(last, *self.picks())
            case "assign":
                return assign(last, *self.picks())
            case "cumulative":
                return cumulative(self.random.randint(1, 2), *self.tasks())
            case "disjunctive":
                return disjunctive(*((start, duration, *present) for start, duration, _, *present in self.tasks()))
            case "packing":
                return self.packing()
            case "circuit":
                return circuit(*self.random.sample(range(self.count), self.count))


def drawn():
    for kind in KINDS:
        for number in range(12):
            count = 2 + number % 3
            draw = Draw(f"{kind} {number}", count)
            domains = [draw.domain() for _ in range(count)]
            if kind in ("indexsum", "assign", "packing"):
                # z has room for sums
                domains[-1] = span(-4, 8)
            further = [(2, 1, [(-1, 3)] * count)] if count < 4 else []
            yield Case(f"{kind}: drawn {number}", domains, draw.constraint(kind), 0, (7, FINE), further)


# ---- tags: a name, how many variables, the constraints, each with its subproblem or none, and the goal

TASK_LITERAL = (3, "=", 1)
ONE_OF_EACH = [
    linear([(1, 2), (3, -1)], "<=", 4), logic([(1, "=", 0)], [], [(3, "!=", 1), (4, "<=", 1)]), when([(0, "=", 0)], [(2, 1)], "=", 1),
    alldiff(4, 2), element(1, 3, [5, "v4", 2]), indexsum(2, (4, [0, 1]), (1, [2])), cumulative(2, (0, 1, 1), (2, 1, 1, TASK_LITERAL)),
    disjunctive((1, 1), (2, 0, TASK_LITERAL)), packing(4, [(5, 1)], (0, 1, [2]), (2, 1, [3])), circuit(3, 1), assign(0, (3, [0, 1]), (4, [1, 1])),
]  # fmt: skip
TOUCHED = [linear([(0, 1)], "<=", 1), linear([(1, 1)], "<=", 1)]

TAGGED = [(f"only {constraint.kind}", 5, [(7, constraint)], "goal satisfy 0") for constraint in ONE_OF_EACH]
TAGGED += [(f"{constraint.kind} without a tag", 5, [(None, constraint)], "goal satisfy 0") for constraint in ONE_OF_EACH]
TAGGED += [
    ("all kinds", 5, [(number, constraint) for number, constraint in enumerate(ONE_OF_EACH)], "goal satisfy 0"),
    ("all kinds in one", 6, [(0, constraint) for constraint in ONE_OF_EACH], "goal satisfy 0"),
    ("all kinds in one but the last", 6, [(0, constraint) for constraint in ONE_OF_EACH[:-1]] + [(None, ONE_OF_EACH[-1])], "goal satisfy 0"),
    ("each its own", 2, [(4095, TOUCHED[0]), (0, TOUCHED[1])], "goal satisfy 0"),
    ("in two", 3, [(1, alldiff(0, 1)), (2, alldiff(1, 2))], "goal satisfy 0"),
    ("in one twice", 3, [(1, alldiff(0, 1)), (1, alldiff(1, 2))], "goal satisfy 0"),
    ("first untagged", 3, [(None, alldiff(0, 1)), (2, alldiff(1, 2))], "goal satisfy 0"),
    ("last untagged", 3, [(1, alldiff(0, 1)), (None, alldiff(1, 2))], "goal satisfy 0"),
    ("in two after one twice", 2, [(1, alldiff(0)), (1, alldiff(0, 1)), (2, alldiff(0))], "goal satisfy 0"),
    ("in none", 2, [(1, alldiff(0))], "goal satisfy 0"),
    ("in the goal alone", 2, [(1, alldiff(0))], "goal minimise 0 1:1"),
    ("in the goal too", 2, [(1, alldiff(0))], "goal minimise 0 0:1 1:1"),
    ("no constraints", 2, [], "goal maximise 3 0:1"),
    ("constraints without variables", 1, [(1, alldiff()), (2, linear([], "<=", 0)), (3, logic([]))], "goal satisfy 0"),
]
