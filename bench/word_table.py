#!/usr/bin/env python3
"""Prints cases of what the words of a store are, with the answers by the rule alone.

usage: word_table.py > crates/test_logs/data/words.table

The rule: the base is the greatest multiple of 64 at or below the least declared value, and place p of the words, bit p % 64 of
word p // 64, is 1 exactly where base + p is in the domain. There are as many words as the greatest declared value needs. A
variable that isn't a set has none. Literals narrow a domain before some of the questions; the base stays.
"""

BOUND = 2**31  # the greatest value of a variable, and its negation the least

# a name, the values that are declared, and the literals that narrow them one after the other
SETS = [
    ("one value at a multiple of 64", [0], []),
    ("one value between two multiples of 64", [70], []),
    ("the last place of a word and the first of the next", [63, 64], []),
    ("the first and the last place of a word", [64, 127], []),
    ("values around 0: the base is below 0", [-1, 0, 1], []),
    ("the least value is a multiple below 0", [-64, -63, 0], []),
    ("the least value is one below a multiple", [-65, -64, 63], []),
    ("a word between others is 0", [0, 130, 131], []),
    ("all places of two words", list(range(-64, 64)), []),
    ("each third value of four words", list(range(-100, 100, 3)), []),
    ("the least value that there is", [-BOUND, -BOUND + 1, -BOUND + 64], []),
    ("the greatest value that there is", [BOUND - 64, BOUND - 1, BOUND], []),
    ("as wide as a set can be: the base is its least value", [0, 1000, 4095], []),
    ("as wide as a set can be: the base is 63 below its least value", [-1, 2000, 4094], []),
    ("the base stays where the first word is emptied", [0, 1, 64, 65], [">=64"]),
    ("the words stay as many where the last is emptied", [0, 1, 64, 65], ["<=5"]),
    ("a value in the middle is taken out", [-3, 62, 63, 64], ["!=63"]),
    ("one value is left", [-3, 62, 63, 64], ["=63"]),
    ("cut from both sides within one word", list(range(10, 50)), [">=13", "<=15"]),
    ("cut from both sides, across words", list(range(-70, 140)), [">=-65", "<=128", "!=0", "!=64"]),
    ("emptied by a bound", [5, 6], [">=7"]),
    ("emptied by a value that isn't in it", [5, 7, 200], ["=6"]),
]

TESTS = {
    "<=": lambda value, bound: value <= bound,
    ">=": lambda value, bound: value >= bound,
    "!=": lambda value, bound: value != bound,
    "=": lambda value, bound: value == bound,
}


def narrowed(values, literal):
    sign = literal.rstrip("-0123456789")
    bound = int(literal[len(sign) :])
    return [value for value in values if TESTS[sign](value, bound)]


def truth(values, literal):
    """What the literal is at all values that are left."""
    kept = narrowed(values, literal)
    if kept == values:
        return "true" if values else "open"
    return "open" if kept else "false"


def words_line(declared, left):
    base = declared[0] // 64 * 64
    words = [0] * ((declared[-1] - base) // 64 + 1)
    for value in left:
        words[(value - base) // 64] |= 1 << (value - base) % 64
    return f"base {base} words {words}"


def print_case(name, kind, declared, literals, lines):
    print(f"\ncase {name}\nvar {kind} {' '.join(str(value) for value in declared)}\ngoal satisfy\nmodel")
    for literal in literals:
        print(f"narrow v0{literal}")
    print("words 0\nanswer\n  | model")
    for line in lines:
        print(f"  | {line}")


def main():
    for name, declared, literals in SETS:
        lines, left = [], declared
        for literal in literals:
            lines += [truth(left, literal), "changes" if narrowed(left, literal) != left else "stays"]
            left = narrowed(left, literal)
        print_case(name, "set", declared, literals, lines + [words_line(declared, left)])
    print_case("a range has no words", "int", [0, 5], [], ["no set"])
    print_case("a real variable has no words", "real", [0, 5], [], ["no set"])


main()
