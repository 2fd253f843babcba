#!/usr/bin/env python3
"""Runs the gate, and prints the processor seconds of each crate: of its proof, of its edits, and of building and running it.

usage: gate_time.py [COMMAND ..]        (by default: rt ci)

Looks at the processes below the command four times a second. What is checked in the repository is the proof, what is checked
outside it an edit; what is neither is building and running. Processes that live shorter than a look are missing, so the
last line compares the sum with what the system counted.
"""
import collections
import os
import subprocess
import sys
import threading
import time

TICK = os.sysconf("SC_CLK_TCK")


def processes():
    """Each process with its parent, its start and its processor seconds so far."""
    found = {}
    for name in os.listdir("/proc"):
        if not name.isdigit():
            continue
        try:
            with open(f"/proc/{name}/stat", encoding="utf-8", errors="replace") as file:
                fields = file.read().rsplit(")", 1)[1].split()
        except OSError:
            continue
        found[int(name)] = (int(fields[1]), int(fields[19]), (int(fields[11]) + int(fields[12])) / TICK)
    return found


def read(path):
    try:
        with open(path, "rb") as file:
            return file.read().decode(errors="replace").split("\0")
    except OSError:
        return []


def kind_of(pid, known):
    """The crate of a process and what is done with it; a child of one that is known counts with its parent."""
    words = read(f"/proc/{pid}/cmdline")
    crate = words[words.index("--crate-name") + 1] if "--crate-name" in words[:-1] else None
    if crate and "check" in words[:3]:
        try:
            inside = "/crates/" in os.readlink(f"/proc/{pid}/cwd")
        except OSError:
            inside = True
        return crate, "proof" if inside and "must-fail" not in " ".join(words) else "edits"
    return (crate, "building") if crate else known


def watch(root, seconds, done):
    kinds = {}
    while not done.is_set():
        now = processes()
        below = {root}
        grown = True
        while grown:
            more = {pid for pid, (parent, _, _) in now.items() if parent in below} - below
            grown = bool(more)
            below |= more
        for pid in sorted(below):
            if pid in now:
                parent, start, spent = now[pid]
                key = (pid, start)
                if kinds.get(key, (None, "other"))[0] is None:
                    kinds[key] = kind_of(pid, kinds.get((parent, now.get(parent, (0, 0))[1]), (None, "other")))
                seconds[key] = (kinds[key], spent)
        time.sleep(0.25)


def main():
    command = sys.argv[1:] or ["rt", "ci"]
    begun = time.time()
    before = os.times()
    child = subprocess.Popen(command)
    seconds, done = {}, threading.Event()
    watcher = threading.Thread(target=watch, args=(child.pid, seconds, done))
    watcher.start()
    status = child.wait()
    done.set()
    watcher.join()
    after = os.times()
    counted = after.children_user + after.children_system - before.children_user - before.children_system
    table = collections.defaultdict(collections.Counter)
    for kind, spent in seconds.values():
        table[kind[0] or "-"][kind[1]] += spent
    columns = ("proof", "edits", "building", "other")
    print("crate".ljust(18) + "".join(column.rjust(10) for column in columns))
    for crate in sorted(table, key=lambda it: -sum(table[it].values())):
        print(crate.ljust(18) + "".join(f"{table[crate][column]:10.0f}" for column in columns))
    seen = sum(sum(row.values()) for row in table.values())
    print(f"{seen / 60:.1f} processor minutes seen, {counted / 60:.1f} counted; {(time.time() - begun) / 60:.1f} minutes by the clock; status {status}")
    return status


sys.exit(main())
