"""The kinds of constraints by plain meanings, over lists of numbers, and how a table writes them.

A constraint has the lines of a table, the variables that it names, and a function from the values of all variables to whether
it holds. The values are fractions.
"""

from collections import defaultdict
from dataclasses import dataclass
from math import lcm
from operator import eq, ge, le, ne
from typing import Callable

COMPARE = {"<=": le, ">=": ge, "=": eq, "!=": ne}


@dataclass
class Constraint:
    kind: str
    lines: list
    variables: list
    holds: Callable


def is_true(literal, x):
    var, test, bound = literal
    return COMPARE[test](x[var], bound)


def literal_text(literal):
    return " ".join(str(part) for part in literal)


def joined(words):
    return "".join(f" {word}" for word in words)


def row_text(terms, cmp, bound):
    return f"{cmp} {bound}" + joined(f"{var}:{coefficient}" for var, coefficient in terms)


def row_holds(terms, cmp, bound, x):
    return COMPARE[cmp](sum(coefficient * x[var] for var, coefficient in terms), bound)


def index_of(value, count):
    """The value as an index into a list of this length, or None."""
    return int(value) if value.denominator == 1 and 0 <= value < count else None


def linear(terms, cmp, bound):
    return Constraint(
        "linear",
        ["row " + row_text(terms, cmp, bound)],
        [var for var, _ in terms],
        lambda x: row_holds(terms, cmp, bound, x),
    )


def logic(*clauses):
    return Constraint(
        "logic",
        ["clause" + joined(literal_text(literal) for literal in clause) for clause in clauses] + ["logic"],
        [literal[0] for clause in clauses for literal in clause],
        lambda x: all(any(is_true(literal, x) for literal in clause) for clause in clauses),
    )


def when(literals, terms, cmp, bound):
    return Constraint(
        "when",
        ["if" + joined(literal_text(literal) for literal in literals), "when " + row_text(terms, cmp, bound)],
        [literal[0] for literal in literals] + [var for var, _ in terms],
        lambda x: any(not is_true(literal, x) for literal in literals) or row_holds(terms, cmp, bound, x),
    )


def alldiff(*positions):
    return Constraint(
        "alldiff",
        ["alldiff" + joined(positions)],
        list(positions),
        lambda x: len({x[var] for var in positions}) == len(positions),
    )


def element(x_var, z, entries):
    """An entry is a number, or a text: v and the number of a variable."""

    def holds(x):
        listed = [x[int(entry[1:])] if isinstance(entry, str) else entry for entry in entries]
        index = index_of(x[x_var], len(listed))
        return index is not None and listed[index] == x[z]

    named = [int(entry[1:]) for entry in entries if isinstance(entry, str)]
    return Constraint("element", [f"element {x_var} {z}" + joined(entries)], [x_var, z] + named, holds)


def pick_lines(picks):
    return [f"pick {var}" + joined(table) for var, table in picks]


def chosen(picks, x):
    """What the variables choose of their tables, or None where one chooses nothing."""
    members = []
    for var, table in picks:
        index = index_of(x[var], len(table))
        if index is None:
            return None
        members.append(table[index])
    return members


def indexsum(z, *picks):
    def holds(x):
        members = chosen(picks, x)
        return members is not None and sum(members) == x[z]

    return Constraint("indexsum", pick_lines(picks) + [f"indexsum {z}"], [z] + [var for var, _ in picks], holds)


def assign(z, *picks):
    def holds(x):
        members = chosen(picks, x)
        places = [x[var] for var, _ in picks]
        return members is not None and len(set(places)) == len(places) and sum(members) == x[z]

    return Constraint("assign", pick_lines(picks) + [f"assign {z}"], [z] + [var for var, _ in picks], holds)


def task_lines(tasks):
    return [f"task {start} {duration} {demand}" + joined(literal_text(literal) for literal in present) for start, duration, demand, *present in tasks]


def task_variables(tasks):
    return [task[0] for task in tasks] + [literal[0] for task in tasks for literal in task[3:]]


def loads(tasks, x, weight_of):
    """The weights of the tasks that are there, at each instant at which one runs. Time goes in steps so small that each task
    starts and ends at one, and a task takes each step from its start up to its end."""
    steps = lcm(*(x[start].denominator for start, *_ in tasks)) if tasks else 1
    load = defaultdict(int)
    for start, duration, demand, *present in tasks:
        if all(is_true(literal, x) for literal in present):
            first = int(x[start] * steps)
            for instant in range(first, first + duration * steps):
                load[instant] += weight_of(demand)
    return load.values()


def cumulative(capacity, *tasks):
    return Constraint(
        "cumulative",
        task_lines(tasks) + [f"cumulative {capacity}"],
        task_variables(tasks),
        lambda x: all(load <= capacity for load in loads(tasks, x, lambda demand: demand)),
    )


def disjunctive(*tasks):
    """A task has no demand here, but a table writes 1."""
    demanding = [(start, duration, 1, *present) for start, duration, *present in tasks]
    return Constraint(
        "disjunctive",
        task_lines(demanding) + ["disjunctive"],
        task_variables(demanding),
        lambda x: all(load <= 1 for load in loads(demanding, x, lambda _: 1)),
    )


def packing(z, groups, *items):
    """A group has a capacity and a cost of opening it; an item its variable, its size and its costs by group."""

    def holds(x):
        load, total = [0] * len(groups), 0
        used = set()
        for var, size, costs in items:
            group = index_of(x[var], len(groups))
            if group is None:
                return False
            used.add(group)
            load[group] += size
            total += costs[group]
        fits = all(load[group] <= capacity for group, (capacity, _) in enumerate(groups))
        return fits and x[z] == total + sum(groups[group][1] for group in used)

    lines = [
        "capacities" + joined(capacity for capacity, _ in groups),
        "opening" + joined(cost for _, cost in groups),
    ]
    lines += [f"item {var} {size}" + joined(costs) for var, size, costs in items]
    return Constraint("packing", lines + [f"packing {z}"], [z] + [item[0] for item in items], holds)


def circuit(*successors):
    def holds(x):
        count = len(successors)
        following = [index_of(x[var], count) for var in successors]
        if None in following:
            return False
        met, node = [], 0
        while node not in met and count:
            met.append(node)
            node = following[node]
        return len(met) == count and node == 0

    return Constraint("circuit", ["circuit" + joined(successors)], list(successors), holds)
