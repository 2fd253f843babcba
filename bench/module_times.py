#!/usr/bin/env python3
"""Prints which modules a check of a crate spent its time on.

usage: module_times.py CRATE [LEAST]

Run it behind bench/check_time.py CRATE. A check with one job keeps each module that it made and checked as a file, so the time
between two files is what the later one cost. Of a function, `Lts` is what its code does: it is dear where a value that owns memory
is dropped. Prints those that took LEAST seconds (2 if left out) or more, dearest first, with the size of the file.
"""
import os
import sys


def kept_files(folder):
    """The times of the files below a folder, with their names and sizes, in order."""
    kept = []
    for place, _, names in os.walk(folder):
        for name in names:
            status = os.stat(os.path.join(place, name))
            kept.append((status.st_mtime, name, status.st_size))
    return sorted(kept)


def main():
    crate = sys.argv[1]
    least = float(sys.argv[2]) if len(sys.argv) > 2 else 2.0
    files = kept_files(f"crates/{crate}/out/incremental")
    rows = [(late - early, name, size) for (early, _, _), (late, name, size) in zip(files, files[1:]) if late - early >= least]
    for seconds, name, size in sorted(rows, reverse=True):
        print(f"{seconds:8.1f} {size / 1e6:8.1f} MB  {name}")


main()
