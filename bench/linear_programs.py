"""What the measurements of linear programs share: programs and their texts, ours and the peers on them.

A program is (columns, rows): a column is (least end, greatest end, cost), a row is (terms, equal, bound) with terms as
(column, number); it is at least its bound, or equal to it.
"""

import re
import shutil
import subprocess
import sys
import time
from fractions import Fraction
from pathlib import Path

TOP = Path(__file__).resolve().parent.parent
LIMIT = 600  # seconds for one run of anybody
PATIENCE = 20  # seconds after which no further run is begun

MAIN = """\
//! Times the linear program on standard input.
#![tactic(auto)]

USES
use sm_certificate::{LpRow, Program, is_solvable};
use sqlite_items::Items;
use std::alloc::Global;
use std::io;
use std::time::Instant;

fn column_of(line: &str) -> Option<(i64, i64, i64)> {
    let mut words = line.split_whitespace();
    let first: i64 = words.next()?.parse().ok()?;
    let second: i64 = words.next()?.parse().ok()?;
    let third: i64 = words.next()?.parse().ok()?;
    if words.next().is_some() { None } else { Some((first, second, third)) }
}

fn term_of(word: &str) -> Option<(u32, i64)> {
    let (column, number) = word.split_once(':')?;
    Some((column.parse().ok()?, number.parse().ok()?))
}

fn row_of(alloc: Global, line: &str) -> Result<LpRow, io::Error> {
    let mut terms = Vec::new(alloc);
    let mut bound: i128 = 0;
    let mut equal = false;
    for word in line.split_whitespace() {
        match term_of(word) {
            Some(term) => terms.push(term)?,
            None => match word.parse() {
                Ok(number) => bound = number,
                Err(_) => equal = true,
            },
        }
    }
    Ok(LpRow { terms: Items::from_vec(terms), equal, bound })
}

fn cost_at(program: &Program, point: &[i128]) -> i128 {
    let mut sum: i128 = 0;
    for (number, value) in program.cost.as_slice().iter().zip(point.iter()) {
        sum = sum.wrapping_add((*number as i128).wrapping_mul(*value));
    }
    sum
}

fn main(rt: HostRuntime) -> io::Result<()> {
    let mut columns = Vec::new(rt.alloc());
    let mut cost = Vec::new(rt.alloc());
    let mut rows = Vec::new(rt.alloc());
    let text = io::read_to_string(rt.alloc(), rt.reader())?;
    for line in text.as_str().lines() {
        match column_of(line) {
            Some(column) => {
                columns.push((column.0, column.1))?;
                cost.push(column.2)?;
            }
            None => rows.push(row_of(rt.alloc(), line)?)?,
        }
    }
    let program = Program {
        columns: Items::from_vec(columns),
        rows: Items::from_vec(rows),
        cost: Items::from_vec(cost),
    };
    if !is_solvable(&program) {
        println!(rt; "unsolvable")?;
        return Ok(());
    }
    let start = Instant::now(&rt)?;
    let answer = CALL(rt.alloc(), &program);
    let nanos = start.elapsed(&rt)?.as_nanos();
    match &answer {
ARMS
        Err(_) => println!(rt; "memory {nanos}")?,
    }
    Ok(())
}
"""

ARMS = """\
        Ok(FOUND::Optimal { denominator, point, .. }CLOSE => {
            let sum = cost_at(&program, point);
            println!(rt; "optimal {nanos} {sum} {denominator}")?;
        }
        Ok(FOUND::Infeasible { .. }CLOSE => println!(rt; "infeasible {nanos}")?,
"""

# the crate of a call, what stands below it, and what it answers
CALLS = {
    "solve_lp": (
        "sm_lp",
        ["sm_frac", "sm_certificate", "sm_lp"],
        "use sm_lp::{LpAnswer, solve_lp};",
        ARMS.replace("FOUND", "LpAnswer").replace("CLOSE", ")") + '        Ok(LpAnswer::Passed { .. }) => println!(rt; "passed {nanos}")?,',
    ),
    "propose": (
        "sm_quick",
        ["sm_frac", "sm_certificate", "sm_quick"],
        "use sm_certificate::Proposal;\nuse sm_quick::propose;",
        ARMS.replace("FOUND", "Some(Proposal").replace("CLOSE", "))") + '        Ok(None) => println!(rt; "none {nanos}")?,',
    ),
}


def crate_line(name):
    """The line of crates.txt that says on what a crate stands."""
    for line in (TOP / "crates.txt").read_text().splitlines():
        if line.startswith(name + ":"):
            return line
    sys.exit(f"crates.txt has no {name}")


def build_program(folder, call):
    """Proves and builds a program that times the call on the linear program on standard input."""
    crate, below, uses, arms = CALLS[call]
    folder = folder / call
    for name in below:
        shutil.copytree(TOP / "crates" / name, folder / "crates" / name, ignore=shutil.ignore_patterns("out", "must-fail"))
    source = folder / "crates" / "bench_lp" / "src"
    source.mkdir(parents=True)
    text = MAIN.replace("USES", uses).replace("CALL", call).replace("ARMS", arms)
    (source / "main.rt").write_text(text)
    lines = [crate_line(name) for name in below] + ["bench_lp: " + " ".join(sorted({"sqlite_items", "sm_certificate", crate}))]
    (folder / "crates.txt").write_text("\n".join(lines) + "\n")
    shutil.copy(TOP / "HANDLES", folder)
    done = subprocess.run(["rt", "run"], cwd=source.parent, stdin=subprocess.DEVNULL, capture_output=True, text=True)
    program = source.parent / "out" / "bench_lp"
    if not program.exists():
        sys.exit(done.stdout + done.stderr)
    return program


def our_text(program):
    columns, rows = program
    lines = ["%d %d %d" % column for column in columns]
    for terms, equal, bound in rows:
        lines.append(" ".join(f"{j}:{a}" for j, a in terms) + (" =" if equal else "") + f" {bound}")
    return "\n".join(lines) + "\n"


def sum_text(terms):
    return " ".join(f"{'-' if a < 0 else '+'} {abs(a)} x{j}" for j, a in terms)


def lp_text(program):
    """The program in the format of CPLEX, which both peers read. A line has one term or a few, since a reader may cut it."""
    columns, rows = program
    lines = ["Minimize", " cost: " + "\n ".join(sum_text([(j, c)]) for j, (_, _, c) in enumerate(columns)), "Subject To"]
    for i, (terms, equal, bound) in enumerate(rows):
        lines.append(f" r{i}: " + "\n ".join(sum_text([term]) for term in terms) + f" {'=' if equal else '>='} {bound}")
    lines += ["Bounds"] + [f" {low} <= x{j} <= {high}" for j, (low, high, _) in enumerate(columns)] + ["End"]
    return "\n".join(lines) + "\n"


def timed(words, rounds, text=None, limit=LIMIT):
    """The least time of some runs, in seconds, and what the last one put; None where one took longer than the limit."""
    best, out = None, ""
    begun = time.perf_counter()
    for _ in range(rounds):
        start = time.perf_counter()
        if best is not None and start - begun > PATIENCE:
            break
        try:
            done = subprocess.run(words, input=text, capture_output=True, text=True, timeout=limit)
        except subprocess.TimeoutExpired:
            return None, ""
        taken = time.perf_counter() - start
        best = taken if best is None else min(best, taken)
        out = done.stdout
    return best, out


def ours(program, text, rounds, limit=LIMIT):
    """What our call finds (optimal, infeasible, passed, none, stopped), its seconds, and the cost."""
    best = ("stopped", None, None)
    for _ in range(rounds):
        _, out = timed([program], 1, text, limit)
        words = out.split()
        if not words:
            return best
        seconds = int(words[1]) / 1e9
        if best[1] is None or seconds < best[1]:
            best = (words[0], seconds, Fraction(int(words[2]), int(words[3])) if words[0] == "optimal" else None)
    return best


def glpsol(folder, program, rounds):
    """The whole run of glpsol --exact: its seconds, pivots, and cost. All None where it isn't installed or took too long."""
    if shutil.which("glpsol") is None:
        return None, None, None
    path, out = folder / "program.lp", folder / "glpsol.txt"
    path.write_text(lp_text(program))
    seconds, text = timed(["glpsol", "--lp", path, "--exact", "--nopresol", "-o", out], rounds)
    if seconds is None:
        return None, None, None
    found = re.findall(r"^\*?\s*(\d+):", text, re.M)
    value = re.search(r"Objective:\s+cost = (\S+)", out.read_text())
    return seconds, int(found[-1]) if found else None, float(value.group(1)) if value else None


def esolver(folder, program, rounds):
    """The whole run of esolver: its seconds and exact cost. All None where it isn't installed or took too long."""
    if shutil.which("esolver") is None:
        return None, None
    path, out = folder / "program.lp", folder / "esolver.sol"
    path.write_text(lp_text(program))
    out.unlink(missing_ok=True)
    seconds, _ = timed(["esolver", "-L", "-O", out, path], rounds)
    if seconds is None or not out.exists():
        return seconds, None
    value = re.search(r"Value = (\S+)", out.read_text())
    return seconds, Fraction(value.group(1)) if value else None


def compare(cost, value):
    """Ends where a peer's cost isn't ours."""
    if cost is not None and value is not None and abs(float(cost) - float(value)) > 1e-6 * max(1, abs(float(cost))):
        sys.exit(f"the costs differ: {cost} and {value}")


def shown(seconds):
    """Milliseconds, with three figures or so."""
    if seconds is None:
        return ""
    ms = seconds * 1e3
    return f"{ms:.3f}" if ms < 1 else f"{ms:.1f}" if ms < 100 else f"{ms:,.0f}"


def ratio(first, second):
    if first is None or second is None:
        return ""
    return f"{first / second:.2g}" if first < 10 * second else f"{first / second:.0f}"
