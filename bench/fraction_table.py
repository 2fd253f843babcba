"""Fractions in 128 bits by unbounded integers, and the cases of their table."""

from fractions import Fraction
from math import gcd

MAX = 2**127 - 1


def within(*numbers):
    return all(abs(number) <= MAX for number in numbers)


def plus(left, right):
    """The sum, unless a numerator over the least common denominator, their sum or that denominator is out of range."""
    shared = gcd(left.denominator, right.denominator)
    first = left.numerator * (right.denominator // shared)
    second = right.numerator * (left.denominator // shared)
    common = left.denominator * (right.denominator // shared)
    return left + right if within(first, second, first + second, common) else None


def times(left, right):
    product = left * right
    return product if within(product.numerator, product.denominator) else None


OPERATIONS = {
    "plus": plus,
    "minus": lambda left, right: plus(left, -right),
    "times": times,
    "over": lambda left, right: times(left, 1 / right),
}

LARGE_PRIME = 5 * 10**36 + 1
while any(LARGE_PRIME % k == 0 for k in range(2, 1000)):
    LARGE_PRIME += 2

ROOT = 13043817825332782213  # an odd number near 2^63.5: ROOT * (ROOT - 2) fits, and twice that doesn't

ROWS = [
    ("plus", Fraction(1, 3), Fraction(1, 6)),
    ("plus", Fraction(2**126), Fraction(2**126)),
    ("minus", Fraction(2**126), Fraction(2**126)),
    # the ends of the range
    ("plus", Fraction(MAX), Fraction(0)),
    ("plus", Fraction(MAX - 1), Fraction(1)),
    ("plus", Fraction(MAX), Fraction(1)),
    ("plus", Fraction(-MAX), Fraction(-1)),
    ("minus", Fraction(-MAX), Fraction(1)),
    ("minus", Fraction(1 - MAX), Fraction(1)),
    ("minus", Fraction(MAX), Fraction(MAX)),
    ("plus", Fraction(MAX), Fraction(-MAX)),
    # one denominator
    ("plus", Fraction(1, MAX), Fraction(1, MAX)),
    ("plus", Fraction(MAX - 3, MAX - 1), Fraction(1, MAX - 1)),
    ("plus", Fraction(MAX, 2), Fraction(1, 2)),
    ("minus", Fraction(7, 12), Fraction(1, 12)),
    # denominators with a large common factor
    ("plus", Fraction(1, 6 * LARGE_PRIME), Fraction(1, 10 * LARGE_PRIME)),
    ("minus", Fraction(5, 6 * LARGE_PRIME), Fraction(1, 10 * LARGE_PRIME)),
    ("plus", Fraction(1, 2**126), Fraction(1, 3 * 2**100)),
    ("plus", Fraction(1, 2**100), Fraction(1, 3 * 2**100)),
    # out of range over the common denominator, and in range in lowest terms
    ("plus", Fraction(1, 2 * ROOT), Fraction(1, 2 * (ROOT - 2))),
    ("plus", Fraction(2**126, 3), Fraction(-(2**126), 5)),
    # 64 bits and one more
    ("plus", Fraction(2**63 - 1, 2**63 - 2), Fraction(2**63 - 2, 2**63 - 1)),
    ("times", Fraction(-(2**63)), Fraction(2**63)),
    ("times", Fraction(2**63, 2**64 - 1), Fraction(2**64 - 1, 2**62)),
    # products
    ("times", Fraction(2**64), Fraction(2**63)),
    ("times", Fraction(-(2**64)), Fraction(2**63)),
    ("times", Fraction(1, 2**64), Fraction(1, 2**63)),
    ("times", Fraction(2**126, 3), Fraction(3, 2**125)),
    ("times", Fraction(MAX, MAX - 1), Fraction(MAX - 1, MAX)),
    ("times", Fraction(MAX), Fraction(-1)),
    ("times", Fraction(0), Fraction(MAX, 2)),
    ("times", Fraction(7 * 2**80, 9 * 5**20), Fraction(27 * 5**30, 2**90)),
    # quotients
    ("over", Fraction(1), Fraction(-MAX)),
    ("over", Fraction(1, MAX), Fraction(2)),
    ("over", Fraction(MAX, 3), Fraction(MAX, 2)),
    ("over", Fraction(-MAX, 2), Fraction(-1, 2)),
    ("over", Fraction(0), Fraction(-5, 7)),
]

COMPARED = [
    (Fraction(MAX, MAX - 1), Fraction(MAX - 1, MAX - 2)),
    (Fraction(MAX - 1, MAX - 2), Fraction(MAX, MAX - 1)),
    (Fraction(-MAX, MAX - 1), Fraction(1 - MAX, MAX - 2)),
    (Fraction(MAX, 2), Fraction(MAX, 2)),
    (Fraction(-MAX, 2), Fraction(1, MAX)),
    (Fraction(0), Fraction(-1, MAX)),
    (Fraction(1, 3), Fraction(1, 2)),
]

ROUNDED = [
    Fraction(7, 2),
    Fraction(-7, 2),
    Fraction(1, MAX),
    Fraction(-1, MAX),
    Fraction(MAX, 2),
    Fraction(-MAX, 2),
    Fraction(-MAX),
    Fraction(0),
]

# numerators and denominators, in lowest terms and in range or not
PARTS = [(0, 1), (-3, 2), (MAX, MAX - 1), (-MAX, 1), (2, 4), (0, 2), (1, 0), (1, -1), (-(2**127), 1), (MAX, MAX)]

LIMIT = 2**52
MULTIPLES = [(LIMIT, 1), (LIMIT, LIMIT), (6, 4), (2**26 + 1, 2**26 - 1), (2**26 + 1, 2**26), (2**51, 3)]
