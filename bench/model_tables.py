#!/usr/bin/env python3
"""Writes the tables of crates/test_models and the answers that are expected of them, by the plain meanings of model_kinds.py
and the limits of model_limits.py.

Run at the top of the repository: python3 bench/model_tables.py
"""

from fractions import Fraction
from itertools import product
from pathlib import Path

import model_cases
import model_limits

CRATE = Path(__file__).resolve().parent.parent / "crates" / "test_models"


def points(denominator, scale, box, count):
    """All points of the box as lists of fractions, and 0 for each variable that has no side."""
    for numbers in product(*(range(low, high + 1) for low, high in box)):
        point = [Fraction(number * scale, denominator) for number in numbers]
        yield point + [Fraction(0)] * (count - len(point))


def digits(answers):
    return "".join("1" if answer else "0" for answer in answers)


def question(case, word, denominator, scale, box):
    """A question and its answer."""
    domains, constraint = case.domains, case.constraint
    count = len(domains)

    def fits(x):
        return all(value in domain for value, domain in zip(x, domains))

    def solves(x):
        return len(box) == count and fits(x) and constraint.holds(x)

    is_so = {"holds": constraint.holds, "fits": fits, "solves": solves}[word]
    ends = "".join(f" {low} {high}" for low, high in box)
    return f"{word} {denominator} {scale}{ends}", digits(is_so(x) for x in points(denominator, scale, box, count))


def box_of(case, wider):
    return [(min(domain) - wider, max(domain) + wider) for domain in case.domains]


def questions(case):
    box = box_of(case, case.wider)
    for word in ("holds", "fits", "solves"):
        yield question(case, word, 1, 1, box)
    for denominator in case.same_over:
        yield question(case, "holds", denominator, denominator, box)
        yield question(case, "solves", denominator, denominator, box_of(case, 0))
    for denominator, scale, sides in case.further:
        yield question(case, "holds", denominator, scale, sides)
        yield question(case, "solves", denominator, scale, sides)


def kind_rows(cases):
    for case in cases:
        lines = [model_cases.line_of(domain) for domain in case.domains]
        asked = list(questions(case))
        lines += case.constraint.lines + ["goal satisfy 0", "model"] + [line for line, _ in asked]
        yield case.name, lines, ["model"] + [answer for _, answer in asked]


def limit_rows():
    for name, lines, is_model in model_limits.cases():
        yield name, lines, ["model" if is_model else "no model"]


def sub_of(tagged, variable):
    subs = {sub for sub, constraint in tagged if variable in constraint.variables}
    return subs.pop() if len(subs) == 1 else None


def sub_rows():
    for name, count, tagged, goal in model_cases.TAGGED:
        lines = ["var 0 1 2"] * count
        for sub, constraint in tagged:
            lines += ([] if sub is None else [f"sub {sub}"]) + constraint.lines
        asked = sorted({sub for sub, _ in tagged if sub is not None})
        lines += [goal, "model", "in"] + [f"in {sub}" for sub in asked + [4094]] + ["kinds"]
        subs = [sub_of(tagged, variable) for variable in range(count)]
        answers = [digits(sub == one for sub in subs) for one in [None] + asked + [4094]]
        yield name, lines, ["model"] + answers + ["".join(f" {constraint.kind}" for _, constraint in tagged)]


def main():
    tables = [
        ("kinds", kind_rows(model_cases.CASES)),
        ("drawn", kind_rows(model_cases.drawn())),
        ("limits", limit_rows()),
        ("subs", sub_rows()),
    ]
    output = []
    for name, rows in tables:
        table = []
        for case, lines, answers in rows:
            answer = ["answer"] + [f"  | {line}" for line in answers]
            table += ["\n".join([f"case {case}"] + [line.rstrip() for line in lines] + answer) + "\n"]
            output += ["\n" + "\n".join([f"case {case}"] + answer) + "\n"]
        (CRATE / "data" / f"{name}.table").write_text("\n".join(table))
    (CRATE / "stdout").write_text("".join(output))


main()
