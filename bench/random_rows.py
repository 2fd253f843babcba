#!/usr/bin/env python3
"""Writes crates/rows/data/random.rows: models of two variables with numbers that look random, their least values by a plain
search, logs of them with lines dropped, swapped and altered, and what a plain replay tells of each.

The replay follows the rules for the lines of a search alone (docs/LOG.md, docs/DEFINITIONS.md): header, node, violated, close
floor, sol and the verdicts. It knows nothing of the program.
"""
import math
import random
import re

VALUES = range(4)


class Model:
    """Rows: x and y times numbers, at least or at most a bound; a goal to be minimised."""

    def __init__(self, draw):
        self.rows = [((draw(), draw()), ">=", draw()), ((draw(), draw()), "<=", draw())]
        self.goal = (draw(), draw())

    def text(self):
        rows = "".join(f"post 0*x{part(a, 'x')}{part(b, 'y')} {sign} {c}; " for (a, b), sign, c in self.rows)
        a, b = self.goal
        return f"var x : set 0..3; var y : set 0..3; {rows}minimise 0*x{part(a, 'x')}{part(b, 'y')};"

    def holds(self, row, point):
        (a, b), sign, c = self.rows[row]
        total = a * point[0] + b * point[1]
        return total >= c if sign == ">=" else total <= c

    def solves(self, point):
        return all(self.holds(row, point) for row in range(2))

    def cost(self, point):
        return self.goal[0] * point[0] + self.goal[1] * point[1]

    def least(self):
        costs = [self.cost((x, y)) for x in VALUES for y in VALUES if self.solves((x, y))]
        return min(costs) if costs else None

    def verdict(self):
        return "infeasible" if self.least() is None else f"optimal {self.least()}"


def part(number, name):
    return f" {'-' if number < 0 else '+'} {abs(number)}*{name}"


def floor_of(model, store):
    return sum(number * (min(values) if number > 0 else max(values)) for number, values in zip(model.goal, store))


class Node:
    def __init__(self, model, store, parent):
        self.store = store
        self.floor = floor_of(model, store) if parent is None else max(parent.floor, floor_of(model, store))
        self.closed = False
        self.literals = []

    def is_open(self):
        return not self.closed and not self.literals


def kept(literal, value):
    _, test, bound = literal
    return {"<=": value <= bound, ">=": value >= bound, "=": value == bound, "!=": value != bound}[test]


def complement(literal):
    variable, test, bound = literal
    if test == "<=":
        return (variable, ">=", bound + 1)
    if test == ">=":
        return (variable, "<=", bound - 1)
    return (variable, "!=" if test == "=" else "=", bound)


def narrowed(store, literal):
    variable = literal[0]
    return [[v for v in values if i != variable or kept(literal, v)] for i, values in enumerate(store)]


NUMBER = r"(0|[1-9][0-9]*)"
WHOLE = r"(0|-?[1-9][0-9]*)"
FORMS = [
    ("header", re.compile(r"simpl-log 1")),
    ("node", re.compile(rf"node {NUMBER} {NUMBER} v{NUMBER}(<=|>=|=|!=){WHOLE}")),
    ("violated", re.compile(rf"violated {NUMBER}")),
    ("close", re.compile(r"close floor")),
    ("sol", re.compile(rf"sol {NUMBER}((?: (?:0|-?[1-9][0-9]*))*)")),
    ("optimal", re.compile(rf"verdict optimal {WHOLE}")),
    ("infeasible", re.compile(r"verdict infeasible")),
]


class Replay:
    def __init__(self, model):
        self.model = model
        self.begun = False
        self.ended = False
        self.nodes = [Node(model, [list(VALUES), list(VALUES)], None)]
        self.focus = self.nodes[0]
        self.best = None

    def is_refuted(self):
        return all(node.closed or len(node.literals) == 2 for node in self.nodes)

    def is_ended(self, node):
        return self.best is not None and node.floor > self.best[0] - 1

    def node(self, found):
        number, parent = int(found[1]), int(found[2])
        literal = (int(found[3]), found[4], int(found[5]))
        if number != len(self.nodes) or parent >= len(self.nodes):
            return "order"
        over = self.nodes[parent]
        if over.closed or len(over.literals) == 2:
            return "order"
        if over.literals:
            if literal != complement(over.literals[0]):
                return "law"
        elif literal[0] > 1:
            return "law"
        else:
            values = over.store[literal[0]]
            count = sum(kept(literal, v) for v in values)
            if count in (0, len(values)):
                return "law"
        over.literals.append(literal)
        self.nodes.append(Node(self.model, narrowed(over.store, literal), over))
        self.focus = self.nodes[-1]
        return None

    def violated(self, row):
        if row > 1:
            return "law"
        numbers = self.model.rows[row][0]
        if any(number and len(values) > 1 for number, values in zip(numbers, self.focus.store)):
            return "law"
        if self.model.holds(row, [values[0] for values in self.focus.store]):
            return "law"
        self.focus.closed = True
        return None

    def sol(self, denominator, values):
        if len(values) != 2 or any(v % denominator or v // denominator not in VALUES for v in values):
            return "law"
        point = [v // denominator for v in values]
        if not self.model.solves(point):
            return "law"
        if self.best is not None and self.model.cost(point) >= self.best[0]:
            return "law"
        self.best = (self.model.cost(point), point)
        return None

    def apply(self, line):
        """The cause for which a line isn't applied, if it isn't."""
        for name, form in FORMS:
            found = form.fullmatch(line)
            if found:
                break
        else:
            return "grammar"
        if name == "sol":
            denominator, values = int(found[1]), [int(v) for v in found[2].split()]
            if denominator == 0 or math.gcd(denominator, *values) != 1:
                return "grammar"
        if self.ended or (name == "header") == self.begun:
            return "order"
        self.begun = True
        if name == "node":
            return self.node(found)
        if name in ("violated", "close") and not self.focus.is_open():
            return "order"
        if name == "violated":
            return self.violated(int(found[1]))
        if name == "close":
            if not self.is_ended(self.focus):
                return "law"
            self.focus.closed = True
        if name == "sol":
            return self.sol(denominator, values)
        if name == "optimal":
            self.ended = self.is_refuted() and self.best is not None and int(found[1]) == self.best[0]
            return None if self.ended else "verdict"
        if name == "infeasible":
            self.ended = self.is_refuted() and self.best is None
            return None if self.ended else "verdict"
        return None


def told(model, lines):
    replay = Replay(model)
    verdict = None
    for number, line in enumerate(lines, 1):
        cause = replay.apply(line)
        if cause:
            return 4, f"refused {number} {cause}"
        verdict = line
    if replay.ended:
        return 0, "accepted " + verdict[len("verdict "):]
    return 4, f"refused {len(lines) + 1} end"


def search(model):
    """A log: depth first, each domain split in its middle."""
    lines = ["simpl-log 1"]
    best = [None]

    def visit(number, store, floor):
        floor = max(floor, floor_of(model, store))
        if best[0] is not None and floor >= best[0]:
            lines.append("close floor")
            return
        open_ones = [i for i in (0, 1) if len(store[i]) > 1]
        if not open_ones:
            point = [values[0] for values in store]
            for row in range(2):
                if not model.holds(row, point):
                    lines.append(f"violated {row}")
                    return
            best[0] = model.cost(point)
            lines.append(f"sol 1 {point[0]} {point[1]}")
            lines.append("close floor")
            return
        variable = open_ones[0]
        values = store[variable]
        literal = (variable, "<=", values[(len(values) - 1) // 2])
        for child in (literal, complement(literal)):
            count[0] += 1
            lines.append(f"node {count[0]} {number} v{child[0]}{child[1]}{child[2]}")
            visit(count[0], narrowed(store, child), floor)

    count = [0]
    visit(0, [list(VALUES), list(VALUES)], -(10**9))
    lines.append("verdict " + model.verdict())
    return lines


def below(text):
    return "".join(f"  | {line}\n" for line in text.split("\n"))


def solved(number, model):
    status = 1 if model.least() is None else 0
    print(f"case random model {number}\nwords solve m\nfile m\n{below(model.text())}status {status}\nlast\n  | verdict {model.verdict()}\n")


def checked_search(number, model):
    print(f"case log of random model {number}\nwords solve m\nfile m\n{below(model.text())}keep l\nwords check m l\nstatus 0\nout\n  | accepted {model.verdict()}\n  | \n")


def checked(name, model, lines):
    status, answer = told(model, lines)
    log = "".join(line + "\n" for line in lines)
    print(f"case {name}\nwords check m l\nfile m\n{below(model.text())}file l\n{below(log)}status {status}\nout\n  | {answer}\n  | \n")


def altered(line):
    return re.sub("[0-9]", lambda digit: str((int(digit[0]) + 1) % 10), line)


def main():
    numbers = random.Random(1)
    models = [Model(lambda: numbers.randint(-3, 3)) for _ in range(200)]
    for number, model in enumerate(models):
        solved(number, model)
    for number, model in enumerate(models[:60]):
        checked_search(number, model)
    for number, model in enumerate(models[:5]):
        lines = search(model)
        checked(f"log {number}", model, lines)
        for at, line in enumerate(lines[:30]):
            checked(f"log {number} without line {at + 1}", model, lines[:at] + lines[at + 1:])
            if at + 1 < len(lines):
                checked(f"log {number} with line {at + 1} behind the next", model, lines[:at] + [lines[at + 1], line] + lines[at + 2:])
            checked(f"log {number} with the digits of line {at + 1} altered", model, lines[:at] + [altered(line)] + lines[at + 1:])


main()
