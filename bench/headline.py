#!/usr/bin/env python3
"""Prints the modules of definitions that the clause of `run` rests on, in reading order, each with its first sentence.

usage: headline.py [--others | --check]

It begins at the modules that sm_run/src/running.rt names, and follows their `use` lines: first what is nearest to the clause. A module
that declares a type of the code is named by the type. With --others it prints the modules of the crates that
are not reached; with --check it says whether docs/HEADLINE.md lists exactly these in its two tables.
"""
import re
import sys
from pathlib import Path

TOP = Path(__file__).resolve().parent.parent
START = TOP / "crates/sm_run/src/running.rt"
USE = re.compile(r"^(?:ghost )?use Rattle\.(\w+)\.specs\.([\w.]+?)(?:\.\{| as |;|$)", re.M)


def module_of(crate, path):
    """The file of a module of definitions, and its name; of a type of the code its declaration, which has no file."""
    parts = path.split(".")
    if parts[0] == "declared":
        return None
    for end in range(len(parts), 0, -1):
        file = TOP / "crates" / crate / "specs" / ("/".join(parts[:end]) + ".antt")
        if file.exists():
            return crate, ".".join(parts[:end]), file
    return None


def used_by(text):
    for crate, path in USE.findall(text):
        found = module_of(crate, path)
        if found:
            yield found


def sentence(file):
    lines = []
    for line in file.read_text(encoding="utf-8").split("\n"):
        if not line.startswith("--"):
            break
        lines.append(line[2:].strip())
    return " ".join(lines)


def reached():
    """Breadth first: the modules that the clause names, those that these name, and so on."""
    seen, order = set(), list(used_by(START.read_text(encoding="utf-8")))
    for crate, name, file in order:
        if (crate, name) not in seen:
            seen.add((crate, name))
            yield crate, name, file
            order.extend(used_by(file.read_text(encoding="utf-8")))


def row(crate, name, file):
    return f"| `{crate}` | {name} | {sentence(file)} |"


def others(rows):
    """The modules of definitions that the clause doesn't reach: of proofs, and of what the program doesn't call yet."""
    for file in sorted((TOP / "crates").glob("*/specs/**/*.antt")):
        crate = file.relative_to(TOP / "crates").parts[0]
        name = ".".join(file.relative_to(TOP / "crates" / crate / "specs").with_suffix("").parts)
        if name != "Lib" and row(crate, name, file) not in rows:
            yield row(crate, name, file)


def main():
    rows = [row(*found) for found in reached()]
    rest = list(others(rows))
    if "--check" in sys.argv:
        page = (TOP / "docs/HEADLINE.md").read_text(encoding="utf-8").split("\n")
        same = [line for line in page if line.startswith("| `")] == rows + rest
        print("the page lists exactly these" if same else "the page lists others")
        sys.exit(0 if same else 1)
    print("\n".join(rest if "--others" in sys.argv else rows))


main()
