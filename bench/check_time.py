#!/usr/bin/env python3
"""Prints what it costs to prove a crate, function by function.

usage: check_time.py CRATE [--most N] [--edits]

Drops what earlier checks of the crate kept (crates/CRATE/out), proves it with one job, and prints the processor seconds of the
whole and the seconds by the clock before each function was done, dearest first; on a quiet processor the two agree. The first
function has the reading of the libraries in it. Crates below it that aren't built are built first, and count: run it twice then.
With --edits it also tries the crate's must-fail edits, and prints their seconds.
"""
import os
import shutil
import subprocess
import sys
import time


def processor_seconds():
    times = os.times()
    return times.children_user + times.children_system


def timed_check(folder):
    rows, rest = [], []
    check = subprocess.Popen(["rt", "check", "--jobs", "1"], cwd=folder, stdout=subprocess.PIPE, stderr=subprocess.STDOUT, text=True)
    last = time.time()
    for line in check.stdout:
        now = time.time()
        if line.startswith("checked "):
            rows.append((now - last, line[len("checked "):].split(",")[0]))
            last = now
        elif line.startswith(("logic=", "rt:", "so far")) or ": no proof" in line:
            rest.append(line)
    check.wait()
    return rows, rest


def main():
    words = sys.argv[1:]
    crate = words[0]
    most = int(words[words.index("--most") + 1]) if "--most" in words else 20
    folder = f"crates/{crate}"
    shutil.rmtree(f"{folder}/out", ignore_errors=True)
    before = processor_seconds()
    rows, rest = timed_check(folder)
    print(f"{crate}: {processor_seconds() - before:.0f} processor seconds, {len(rows)} functions")
    for seconds, name in sorted(rows, reverse=True)[:most]:
        print(f"{seconds:8.1f}  {name}")
    print("".join(rest[-3:]), end="")
    if "--edits" in words:
        before = processor_seconds()
        subprocess.run(["rt", "must-fail", crate], check=False)
        print(f"{crate}: {processor_seconds() - before:.0f} processor seconds for its edits")


main()
