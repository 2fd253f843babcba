#!/usr/bin/env python3
"""Writes the tables of crates/test_numbers and the answers that are expected of them, by the rules alone: in unbounded
integers and fractions, and by definitions that go element by element.

Run at the top of the repository: python3 bench/number_tables.py
"""

from fractions import Fraction
from math import ceil, floor, gcd, lcm
from pathlib import Path

import fraction_table as table
import list_table
import program_table

CRATE = Path(__file__).resolve().parent.parent / "crates" / "test_numbers"


def parts(number):
    return f"{number.numerator} {number.denominator}"


def shown(number):
    return f"{number.numerator}/{number.denominator}"


# ---- texts

TEXTS = [
    ("0", 0),
    ("-1", -1),
    ("17", 17),
    ("-9223372036854775809", -9223372036854775809),
    ("170141183460469231731687303715884105727", 2**127 - 1),
    ("-170141183460469231731687303715884105728", -(2**127)),
] + [
    (text, None)
    for text in [
        "-", "--1", "-0", "00", "+1", "01", "-01", "1x", "1_000", "\u0661",
        "170141183460469231731687303715884105728", "-170141183460469231731687303715884105729",
        "340282366920938463463374607431768211456", "-340282366920938463463374607431768211457",
    ]
]  # fmt: skip

# no words
BYTES = [(b"", None), (b" 1", None), (b"1 ", None), (b"\xff1", None), (b"-12", -12)]


def texts():
    for text, number in TEXTS:
        yield f"text word {text}", "word " + ("none" if number is None else str(number))
    for text, number in BYTES:
        yield " ".join(["text bytes", str(len(text))] + [str(byte) for byte in text]), "bytes " + ("none" if number is None else str(number))


# ---- fractions


def fractions():
    for name, left, right in table.ROWS:
        result = table.OPERATIONS[name](left, right)
        outcome = f"passed {name} {shown(left)} {shown(right)}" if result is None else shown(result)
        yield f"fraction {name} {parts(left)} {parts(right)}", f"{name} {outcome}"
    for left, right in table.COMPARED:
        order = "less" if left < right else "greater" if left > right else "equal"
        yield f"fraction compare {parts(left)} {parts(right)}", f"compare {order}"
    for number in table.ROUNDED:
        yield f"fraction floor {parts(number)}", f"floor {floor(number)}"
        yield f"fraction ceil {parts(number)}", f"ceil {ceil(number)}"
    for n, d in table.PARTS:
        fits = d > 0 and table.within(n, d) and gcd(n, d) == 1
        yield f"fraction new {n} {d}", f"new {n}/{d}" if fits else "new none"
    yield f"fraction whole {-(2**63)}", f"whole {-(2**63)}/1"
    for left, right in table.MULTIPLES:
        multiple = lcm(left, right)
        outcome = str(multiple) if multiple <= table.LIMIT else f"passed lcm {left}/1 {right}/1"
        yield f"fraction lcm {left} {right}", f"lcm {outcome}"
    for left, right in [(0, 0), (0, 7), (2**64 - 1, 2**32 - 1), (2**63, 3 * 2**62)]:
        yield f"fraction gcd {left} {right}", f"gcd {gcd(left, right)}"


# ---- devices

TEXT = "solution.x=1;optimal.1;"


def devices():
    # the fourth fetch fails: a file is fetched until nothing is left, or one byte more than is wanted was
    yield "memory shelf 1 4 2 a old a 12345 4 a 5 a 4 a 9 b 9", "shelf 12345 found 5 fault fault"
    yield f"memory sink 1000 8 1 3 {TEXT}", "sink fault " + TEXT[:16]
    yield f"memory sink 20 8 0 {TEXT}", "sink fault " + TEXT[:20]
    yield f"memory sink 23 1 0 {TEXT}", "sink taken " + TEXT
    yield f"memory null {TEXT}", "null taken"
    yield "disk message 7", " on.disk"
    yield "disk message 6", " found 7"
    yield "disk absent 7", " fault"


def main():
    tables = [
        ("texts", texts()),
        ("fractions", fractions()),
        ("lists", list_table.cases()),
        ("devices", devices()),
        ("programs", program_table.cases()),
        ("drawn", program_table.great_cases()),
    ]
    data = CRATE / "data"
    data.mkdir(exist_ok=True)
    (data / "message").write_text("on.disk")
    answers = []
    for name, cases in tables:
        lines = []
        for line, answer in cases:
            lines.append(line)
            answers.append(answer)
        (data / name).write_text("".join(line + "\n" for line in lines))
    (CRATE / "stdout").write_text("".join(answer + "\n" for answer in answers))


if __name__ == "__main__":
    main()
