#!/usr/bin/env python3
"""Runs each pass of simplification alone, by crates/pass_runs, on texts of four kinds and of growing size, and prints what it did:
the user seconds without the reading, the steps that were enough, the clauses that it removed, the variables that are left, and the
ratios of seconds and steps to those at half the size. At the end it says which ratios are above 2.5. For elimination it also prints
what MiniSat's own preprocessing takes for the same text, and how many variables that leaves, where the machine has minisat.

    bmc N      about N clauses: two counters of seven bits that step side by side from any state, unrolled
    sort N     about N clauses: pairs of sorting networks of different wiring over sixteen lines, each pair with the same bits and
               outputs that must differ somewhere, as many as are needed
    wide N     about N clauses: one such pair, over as many lines as are needed
    random N   N clauses of random 3-SAT with 4.2 clauses for each variable

A pass reports no steps at its fixpoint; so --steps looks, by halving, for a limit that is just enough, within a twentieth.

Usage: bench/passes.py [--runs N] [--steps] [--sizes N ..] [KIND ..]
    --runs N    takes the best of so many processes (3)
    --steps     looks for the steps too, which takes some fifteen runs more for each
    --sizes     25000, 50000 and 100000 if none is named
    KIND        all four if none is named
"""
import argparse
import os
import random
import re
import shutil
import subprocess
import sys
import tempfile

from families import Script, count_up

TOP = os.path.dirname(os.path.dirname(os.path.abspath(__file__)))
PROGRAM = os.path.join(TOP, "crates", "pass_runs", "out", "pass_runs")
PASSES = ("equivalences", "subsumption", "vivification", "blocked", "elimination")
AMPLE = 2**62
WANTED = 2.5


def bmc(size):
    """The transitions of two counters, until there are so many clauses."""
    script = Script()
    one = [script.new_var() for _ in range(7)]
    other = [script.new_var() for _ in range(7)]
    while len(script.statements) < size:
        choice = script.new_var()
        one, other = count_up(script, one, choice), count_up(script, other, -choice)
    return script


def compare_swap(script, lines, low, high):
    """The lesser of two bits goes to the low line, and the greater to the high one."""
    one, other = lines[low], lines[high]
    lines[low] = script.and_gate(one, other)
    lines[high] = -script.and_gate(-one, -other)


def bubble(script, lines):
    for end in range(len(lines) - 1, 0, -1):
        for low in range(end):
            compare_swap(script, lines, low, low + 1)


def odd_even(script, lines):
    for turn in range(len(lines)):
        for low in range(turn % 2, len(lines) - 1, 2):
            compare_swap(script, lines, low, low + 1)


def differ(script, count):
    """Clauses that say that two sorting networks over so many lines make something else of the same bits."""
    inputs = [script.new_var() for _ in range(count)]
    one, other = list(inputs), list(inputs)
    bubble(script, one)
    odd_even(script, other)
    script.clause(*(script.xor_gate(a, b) for a, b in zip(one, other)))


def sort(size):
    script = Script()
    while len(script.statements) < size:
        differ(script, 16)
    return script


def wide(size):
    """An exchange has six clauses, and a pair of networks over n lines has about n * n of them."""
    script = Script()
    differ(script, max(2, int((size / 6) ** 0.5)))
    return script


def random_3sat(size):
    draw = random.Random(size)
    script = Script()
    variables = [script.new_var() for _ in range(max(3, int(size / 4.2)))]
    for _ in range(size):
        script.clause(*(v if draw.random() < 0.5 else -v for v in draw.sample(variables, 3)))
    return script


KINDS = {"bmc": bmc, "sort": sort, "wide": wide, "random": random_3sat}


def dimacs(script):
    """The clauses of a script as a DIMACS text."""
    clauses = [lits for lits in script.statements if isinstance(lits, list)]
    lines = [f"p cnf {script.vars} {len(clauses)}"]
    lines += [" ".join(map(str, lits)) + " 0" for lits in clauses]
    return "\n".join(lines) + "\n"


def run(text, name, limit, runs):
    """The user seconds of reading a text and running a pass, the best of so many processes, and the line that it printed."""
    best = None
    for _ in range(runs):
        with tempfile.TemporaryFile("w+") as given, tempfile.TemporaryFile("w+") as printed:
            given.write(f"{text}run {name} {limit}\n")
            given.seek(0)
            child = subprocess.Popen([PROGRAM], stdin=given, stdout=printed)
            _, status, used = os.wait4(child.pid, 0)
            child.returncode = status
            printed.seek(0)
            row = (used.ru_utime, printed.read().strip())
        best = row if best is None or row[0] < best[0] else best
    return best


REPORT = re.compile(
    r"(fixpoint|limit at (\d+)), (\d+) removed; (\d+) clauses, (\d+) literals, (\d+) variables, (\d+) on the stack"
)


def report_of(line):
    """Whether a fixpoint was reached, how many clauses were removed, and how many variables are left."""
    found = REPORT.fullmatch(line)
    if not found:
        sys.exit(f"not understood: {line}")
    return found[1] == "fixpoint", int(found[3]), int(found[6])


def enough(text, name):
    """A limit with which the pass comes to its fixpoint, at most a twentieth above the least."""
    low, high = -1, 1
    while not report_of(run(text, name, high, 1)[1])[0]:
        low, high = high, high * 8
    if report_of(run(text, name, 0, 1)[1])[0]:
        return 0
    low = max(low, 0)
    while high - low > max(1, high // 20):
        middle = (low + high) // 2
        if report_of(run(text, name, middle, 1)[1])[0]:
            high = middle
        else:
            low = middle
    return high


def minisat(text):
    """The seconds of MiniSat's preprocessing, as it says them itself, and the variables that it leaves."""
    with tempfile.TemporaryDirectory() as folder:
        given, left = os.path.join(folder, "given.cnf"), os.path.join(folder, "left.cnf")
        with open(given, "w", encoding="ascii") as file:
            file.write(text)
        command = ["minisat", "-verb=1", f"-dimacs={left}", given]
        said = subprocess.run(command, stdout=subprocess.PIPE, stderr=subprocess.STDOUT, text=True).stdout
        with open(left, encoding="ascii") as file:
            head = next(line for line in file if line.startswith("p cnf"))
        seconds = re.search(r"Simplification time: +([0-9.]+) s", said)
        return float(seconds[1]), int(head.split()[2])


def ratio(now, before):
    return f"{now / before:5.2f}" if before and before > 0.005 else "     "


def measure(kind, sizes, runs, with_steps):
    """Prints a row for each pass and size; answers the ratios that are above what is wanted."""
    above = []
    texts = [(size, dimacs(KINDS[kind](size))) for size in sizes]
    reading = [run(text, "none", 0, runs)[0] for _, text in texts]
    before_vars = [report_of(run(text, "none", 0, 1)[1])[2] for _, text in texts]
    for name in PASSES:
        last_seconds = last_steps = None
        for (size, text), read, stood in zip(texts, reading, before_vars):
            whole, line = run(text, name, AMPLE, runs)
            _, removed, left = report_of(line)
            seconds = max(whole - read, 0.0)
            steps = enough(text, name) if with_steps else None
            row = f"{kind:7} {size:7} {name:13} {seconds:8.3f} {ratio(seconds, last_seconds)}"
            if with_steps:
                row += f" {steps:12} {ratio(steps, last_steps)}"
            row += f" {removed:8} removed, {left} of {stood} variables left"
            if name == "elimination" and shutil.which("minisat"):
                pre, kept = minisat(text)
                row += f"; MiniSat {pre:.2f} s, {kept} left"
            print(row, flush=True)
            for what, now, old in (("seconds", seconds, last_seconds), ("steps", steps, last_steps)):
                if now and old and old > 0.05 and now / old > WANTED:
                    above.append(f"{kind} {size} {name}: {what} {now / old:.2f}")
            last_seconds, last_steps = seconds, steps
    return above


def main():
    parser = argparse.ArgumentParser(description="Runs each pass alone on texts of growing size.")
    parser.add_argument("--runs", type=int, default=3)
    parser.add_argument("--steps", action="store_true")
    parser.add_argument("--sizes", type=int, nargs="+", default=[25_000, 50_000, 100_000])
    parser.add_argument("kinds", nargs="*", metavar="KIND")
    args = parser.parse_args()
    if not os.path.exists(PROGRAM):
        sys.exit("build it first: (cd crates/pass_runs && rt run < stdin)")
    above = []
    for kind in args.kinds or KINDS:
        above += measure(kind, args.sizes, args.runs, args.steps)
    for row in above:
        print(f"above {WANTED}: {row}")


if __name__ == "__main__":
    main()
