#!/usr/bin/env python3
"""Times searches that go deep, and the checks of their logs, by one program or by two in turns, with their peak memory.

usage: time_dives.py PROGRAM [BEFORE] [--rounds N]

PROGRAM is what `rt run` builds, crates/simpl/out/simpl; BEFORE is the same of an older commit, built in a checkout of its own.
With both, each round runs one after the other, and a ratio is the older one's number divided by the newer one's. The least time
and the least peak of all rounds count. Seconds are those of the processor; a peak is the greatest resident set of the process.
A run that wants more than 12 GB is shown as `none`.
"""
import os
import re
import resource
import subprocess
import sys
import tempfile
from pathlib import Path

# the status for want of memory, and the bytes that a run may take
OUT_OF_MEMORY = 12
MEMORY = 12 << 30

EXAMPLE = Path(__file__).resolve().parent.parent / "examples" / "first" / "eight.simpl"


def dive(count, domain):
    """Variables without a constraint: the first leaf is a solution."""
    return "".join(f"var x{i} : set {domain};\n" for i in range(count)) + "satisfy;\n"


def models():
    for count in (500, 1000, 2000, 4000):
        yield f"dive, {count:,} variables 0..1", dive(count, "0..1")
    yield "dive, 4,096 variables 0..63", dive(4096, "0..63")
    text = EXAMPLE.read_text()
    for bound in (30, 40, 50, 60):
        yield f"eight.simpl, bound {bound}", re.sub(r">= \d+", f">= {bound}", text)


def limit_memory():
    resource.setrlimit(resource.RLIMIT_AS, (MEMORY, MEMORY))


def run(words, output):
    """The processor's seconds and the peak in megabytes of a run; none where it ran out of memory."""
    with open(output, "wb") as log, tempfile.NamedTemporaryFile("r") as told:
        # a child's peak begins with that of the process that it was forked from, so that is a small one
        timed = ["/usr/bin/time", "-q", "-o", told.name, "-f", "%M", *words]
        timed_run = subprocess.Popen(timed, stdout=log, preexec_fn=limit_memory)
        _, status, usage = os.wait4(timed_run.pid, 0)
        peak = told.read().split()[-1]
    code = os.waitstatus_to_exitcode(status)
    if code == OUT_OF_MEMORY:
        return None
    if code not in (0, 1):
        sys.exit(f"{' '.join(words)}: status {code}")
    return usage.ru_utime + usage.ru_stime, int(peak) / 1024


def least(programs, words, outputs, rounds):
    best = [(1e9, 1e9)] * len(programs)
    for _ in range(rounds):
        for k, program in enumerate(programs):
            if best[k] is None:
                continue
            found = run([program, *words[k]], outputs[k])
            best[k] = found and (min(best[k][0], found[0]), min(best[k][1], found[1]))
    return best


def row(name, best):
    cells = [f"{best[0][0]:.3f}", f"{best[0][1]:.1f}"]
    if len(best) == 2 and best[1] is None:
        cells += ["none", f"over {MEMORY >> 20:,}", "-", "-"]
    elif len(best) == 2:
        cells += [f"{best[1][0]:.3f}", f"{best[1][1]:.1f}"]
        cells += [f"{best[1][0] / max(best[0][0], 0.001):.1f}", f"{best[1][1] / best[0][1]:.1f}"]
    print(f"| {name} | " + " | ".join(cells) + " |", flush=True)


def main():
    words = sys.argv[1:]
    rounds = int(words[words.index("--rounds") + 1]) if "--rounds" in words else 3
    programs = [os.path.abspath(word) for word in words[:2] if not word.startswith("--") and not word.isdigit()]
    head = ["s", "MB"] + (["before, s", "before, MB", "time, ratio", "memory, ratio"] if len(programs) == 2 else [])
    print("| Run | " + " | ".join(head) + " |")
    print("|---|" + "--:|" * len(head))
    with tempfile.TemporaryDirectory() as folder:
        for name, text in models():
            model = f"{folder}/model.simpl"
            Path(model).write_text(text)
            logs = [f"{folder}/log{k}" for k in range(len(programs))]
            best = least(programs, [["solve", model]] * len(programs), logs, rounds)
            row(f"solve {name}", best)
            # a program that has no log checks the newer one's
            whole = [log if it else logs[0] for log, it in zip(logs, best)]
            checks = [["check", model, log] for log in whole]
            row(f"check {name}", least(programs, checks, [os.devnull] * len(programs), rounds))


main()
