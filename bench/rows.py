#!/usr/bin/env python3
"""Prints what a test program that reads tables of cases has to put, from the expected answers that stand in the tables.

usage: rows.py CRATE > crates/CRATE/stdout

Reads the tables that crates/CRATE/args names, in data/, and keeps of each case its name, the keys that show something, and what
stands behind and below these. The expected answers were written by hand, or by a script of bench/ from the rules alone.
"""
import sys

SHOWN = {
    "rows": ("status", "out", "first", "last", "count", "aside", "aside_first", "aside_last"),
    "test_logs": ("answer",),
    "test_texts": ("answer",),
}


def main():
    crate = sys.argv[1]
    names = open(f"crates/{crate}/args", encoding="utf-8").read().split()
    for name in names:
        shown = False
        for line in open(f"crates/{crate}/data/{name}", encoding="utf-8", newline="\n"):
            key = line.split(" ")[0].strip()
            if line.startswith("  "):
                if shown:
                    sys.stdout.write(line)
            elif key == "case":
                sys.stdout.write("\n" + line)
                shown = False
            else:
                shown = key in SHOWN[crate]
                if shown:
                    sys.stdout.write(line)


main()
