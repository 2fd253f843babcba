#!/usr/bin/env python3
"""Writes crates/test_texts/data/formulas.table: formulas in postfix form with the clauses that their definition gives.

The clauses come from the definition alone: negations go down to the literals, the clauses of `and` follow each other, and those
of `or` are joined, each of the first with each of the second. Of each formula that is shown, all values from 0 to 2 of its
variables are tried: the clauses hold exactly where the formula does.
"""
import itertools
import random

COMPLEMENTS = {"<=": (">=", 1), ">=": ("<=", -1), "=": ("!=", 0), "!=": ("=", 0)}
MOST = 2**64 - 1


def complement(literal):
    var, test, bound = literal
    other, shift = COMPLEMENTS[test]
    return (var, other, bound + shift)


def parts_of(formula, negated):
    """Whether the parts, each with its negation, follow each other or are joined."""
    kind, *inner = formula
    if kind == "implies":
        return negated, [(inner[0], not negated), (inner[1], negated)]
    if kind == "iff":
        first, second = inner
        if negated:
            return False, [(("implies", first, second), True), (("implies", second, first), True)]
        return True, [(("implies", first, second), False), (("implies", second, first), False)]
    return (kind == "and") != negated, [(part, negated) for part in inner]


def clauses(formula, negated=False):
    if formula[0] == "literal":
        return [[complement(formula[1]) if negated else formula[1]]]
    if formula[0] == "not":
        return clauses(formula[1], not negated)
    follow, parts = parts_of(formula, negated)
    if follow:
        return [clause for part, turned in parts for clause in clauses(part, turned)]
    if any(counts(part)[turned] == 0 for part, turned in parts):
        return []
    joined = [[]]
    for part, turned in parts:
        joined = [before + behind for before in joined for behind in clauses(part, turned)]
    return joined


def counts(formula):
    """How many clauses the formula and its negation have, up to 2^64 - 1."""
    kind, *inner = formula
    if kind == "literal":
        return 1, 1
    if kind == "not":
        plain, turned = counts(inner[0])
        return turned, plain
    each = [counts(part) for part in inner]
    if kind == "implies":
        (first, not_first), (second, not_second) = each
        return capped(not_first * second), capped(first + not_second)
    if kind == "iff":
        (first, not_first), (second, not_second) = each
        forth = (capped(not_first * second), capped(first + not_second))
        back = (capped(not_second * first), capped(second + not_first))
        return capped(forth[0] + back[0]), capped(forth[1] * back[1])
    total = [1, 1]
    for index in (0, 1):
        follow = (kind == "and") == (index == 0)
        value = 0 if follow else 1
        for part in each:
            value = capped(value + part[index]) if follow else capped(value * part[index])
        total[index] = value
    return tuple(total)


def capped(count):
    return min(count, MOST)


def postfix(formula):
    kind, *inner = formula
    if kind == "literal":
        return text_of(inner[0])
    words = [postfix(part) for part in inner]
    words.append(f"{kind}:{len(inner)}" if kind in ("and", "or") else kind)
    return " ".join(words)


def text_of(literal):
    return f"{literal[0]}{literal[1]}{literal[2]}"


def is_true(literal, values):
    value, bound = values[literal[0]], literal[2]
    return {"<=": value <= bound, ">=": value >= bound, "=": value == bound, "!=": value != bound}[literal[1]]


def holds(formula, values):
    kind, *inner = formula
    if kind == "literal":
        return is_true(inner[0], values)
    each = [holds(part, values) for part in inner]
    return {
        "not": lambda: not each[0],
        "and": lambda: all(each),
        "or": lambda: any(each),
        "implies": lambda: not each[0] or each[1],
        "iff": lambda: each[0] == each[1],
    }[kind]()


def shown(name, formula):
    found = clauses(formula)
    lines = ["  | clause" + "".join(" " + text_of(literal) for literal in clause) + "\n" for clause in found]
    print(f"case {name}\nformula {postfix(formula)}\nanswer\n{''.join(lines)}")


def counted(name, formula):
    count = counts(formula)[0]
    if count > 4096:
        answer = f"{count} clauses are too many"
    else:
        found = clauses(formula)
        assert len(found) == count
        answer = f"{count} clauses of {sum(len(clause) for clause in found)} literals"
    print(f"case {name}\ncount {postfix(formula)}\nanswer\n  | {answer}\n")


def lit(var, test, bound):
    return ("literal", (var, test, bound))


def some_pair(count):
    """Some of so many formulas that a variable is 0 and 1."""
    return ("or", *[("and", lit(var, "=", 0), lit(var, "=", 1)) for var in range(count)])


def tower(height):
    top = lit(0, "=", 0)
    for var in range(height):
        top = ("iff", top, lit(var, "=", 1))
    return top


def drawn(numbers, depth):
    kind = numbers.choice(["literal", "not", "and", "and", "or", "or", "implies", "iff"]) if depth else "literal"
    if kind == "literal":
        return lit(numbers.randrange(5), numbers.choice(["<=", ">=", "=", "!="]), numbers.randrange(3))
    if kind == "not":
        return ("not", drawn(numbers, depth - 1))
    count = numbers.randrange(4) if kind in ("and", "or") else 2
    return (kind, *[drawn(numbers, depth - 1) for _ in range(count)])


def main():
    a, b, c, d = lit(0, "<=", 3), lit(1, ">=", 2), lit(2, "=", 5), lit(3, "!=", 7)
    shown("each of both", ("and", a, b))
    shown("alternatives are joined in order", ("or", ("and", a, b), ("and", c, d)))
    shown("neither", ("not", ("or", a, c)))
    shown("nothing holds without a clause", ("and",))
    shown("one empty clause", ("or",))
    shown("an implication is an alternative", ("implies", a, b))
    shown("an exception", ("not", ("implies", a, b)))
    shown("a rule", ("implies", ("and", a, b), ("or", c, d)))
    shown("an equivalence is two implications", ("iff", a, b))
    shown("one of two", ("not", ("iff", a, b)))
    shown("twice not", ("not", ("not", a)))
    print("case a bound of 2^62\nformula 0<=4611686018427387904\nanswer\n  | a bound is too great\n")
    shown("a bound below 2^62", ("not", lit(0, "<=", 2**62 - 1)))
    counted("4,096 clauses", some_pair(12))
    counted("8,192 clauses", some_pair(13))
    counted("2^63 clauses", some_pair(63))
    counted("2^64 clauses", some_pair(64))
    counted("a tower of 60 equivalences", tower(60))
    shown("no part is built beside one without clauses", ("or", some_pair(63), ("and",)))
    shown("nor before one", ("or", ("and",), some_pair(63)))
    numbers = random.Random(1)
    for number in range(300):
        formula = drawn(numbers, 3)
        if counts(formula)[0] <= 24:
            found = clauses(formula)
            for values in itertools.product(range(3), repeat=5):
                assert holds(formula, values) == all(any(is_true(l, values) for l in clause) for clause in found)
            shown(f"random formula {number}", formula)
        else:
            counted(f"random formula {number}", formula)


main()
