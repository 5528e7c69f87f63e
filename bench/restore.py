#!/usr/bin/env python3
"""Shows what restoration costs, by the stack's height: crates/restore_runs parks N clauses that
share no variable, and then adds clauses or restores entries. For each run it prints the user
seconds, those without the parking, and the ratio of the latter to those at half of the height.

    park N      the parking alone
    clean N     then 10,000 clauses are added, each with what it needs restored first: nothing
    half N      then every second entry is restored, in one call
    single N    then 100 entries are restored, each by a call of its own

Usage: bench/restore.py [--runs N] [--times N] [HEIGHT ..]
    --runs N    takes the best of so many processes (3)
    --times N   has each process do a run so many times, and prints the mean (5)
    HEIGHT      25000, 50000 and 100000 if none is named
"""
import argparse
import os
import subprocess
import sys
import tempfile

TOP = os.path.dirname(os.path.dirname(os.path.abspath(__file__)))
PROGRAM = os.path.join(TOP, "crates", "restore_runs", "out", "restore_runs")
RUNS = ("park", "clean", "half", "single")
ADDED, SINGLE = 10_000, 100


def measure(line, runs, times):
    """The user seconds of a run and the lines that were printed; the best of so many processes,
    of which each does it so many times."""
    best = None
    for _ in range(runs):
        with tempfile.TemporaryFile("w+") as given, tempfile.TemporaryFile("w+") as printed:
            given.write((line + "\n") * times)
            given.seek(0)
            child = subprocess.Popen([PROGRAM], stdin=given, stdout=printed)
            _, status, used = os.wait4(child.pid, 0)
            child.returncode = status
            printed.seek(0)
            row = (used.ru_utime / times, printed.read().splitlines())
        best = row if best is None or row < best else best
    return best


def wanted(name, height):
    """What a run prints that did all it was asked for."""
    restored = {"park": 0, "clean": 0, "half": height // 2, "single": min(SINGLE, height)}[name]
    firm = ADDED if name == "clean" else restored
    left = height - restored
    return f"{name} {height}: {restored} restored; {firm} firm, {left} on the stack"


def main():
    parser = argparse.ArgumentParser(description="Shows what restoration costs.")
    parser.add_argument("--runs", type=int, default=3)
    parser.add_argument("--times", type=int, default=5)
    parser.add_argument("heights", nargs="*", type=int, default=[25_000, 50_000, 100_000])
    args = parser.parse_args()
    if not os.path.exists(PROGRAM):
        print("build it first: (cd crates/restore_runs && rt run < stdin)", file=sys.stderr)
        return 2
    print(f"{'run':<15} {'user seconds':>12} {'without parking':>16} {'ratio':>6}")
    seconds, wrong = {}, 0
    for height in args.heights:
        for name in RUNS:
            whole, printed = measure(f"{name} {height}", args.runs, args.times)
            seconds[name, height] = whole if name == "park" else whole - seconds["park", height]
            half = seconds.get((name, height // 2))
            ratio = "" if half is None else f"{seconds[name, height] / max(half, 0.0001):6.2f}"
            own = "" if name == "park" else f"{seconds[name, height]:14.4f} s"
            bad = printed != [wanted(name, height)] * args.times
            wrong += bad
            row = f"{name + ' ' + str(height):<15} {whole:>10.4f} s {own:>16} {ratio}"
            print(row + (" !" if bad else ""), flush=True)
    if wrong:
        print(f"{wrong} runs that did something else", file=sys.stderr)
    return 1 if wrong else 0


if __name__ == "__main__":
    sys.exit(main())
