#!/usr/bin/env python3
"""Shows how the time of the store and of the kernel grows with the number of clauses: crates/kernel_runs adds and removes them, or parks and
restores them. For each run it prints the user seconds at each number and the ratio to those at half of it, and at the end which ratios
are above 2.3, and whether 50,000 of 100,000 parked clauses are restored in less than a second.

    add N       N clauses that share a literal come to a store, and leave it in another order
    jump N      the same, where each clause that leaves is far from the one before: so the caches count too, which hold the less the more
                clauses there are, though the steps are the same
    shared N    N clauses that share a literal come to a kernel, are parked, and restored from the newest to the oldest
    apart N     the same with clauses that share none
    spread N    N clauses are parked, and every second one is restored from the newest to the oldest

Usage: bench/kernel.py [--runs N] [--times N] [RUN ..]
    --runs N    takes the best of so many processes (3)
    --times N   has each process do a run so many times, since one takes a few hundredths of a second, and prints the mean (5)
    RUN         as 'shared 50000'; the usual ones if none is named
"""
import argparse
import os
import subprocess
import sys
import tempfile

TOP = os.path.dirname(os.path.dirname(os.path.abspath(__file__)))
PROGRAM = os.path.join(TOP, "crates", "kernel_runs", "out", "kernel_runs")
WANTED = 2.3
USUAL = [f"{name} {n}" for name in ("add", "jump") for n in (250_000, 500_000, 1_000_000)] + [
    f"{name} {n}" for name in ("shared", "apart", "spread") for n in (50_000, 100_000, 200_000)
]


def measure(line, runs, times):
    """The user seconds of a run, the peak of memory in MiB and the lines that were printed; the best of so many processes, of which each does
    it so many times."""
    best = None
    for _ in range(runs):
        with tempfile.TemporaryFile("w+") as given, tempfile.TemporaryFile("w+") as printed:
            given.write((line + "\n") * times)
            given.seek(0)
            child = subprocess.Popen([PROGRAM], stdin=given, stdout=printed, stderr=subprocess.DEVNULL)
            _, status, used = os.wait4(child.pid, 0)
            child.returncode = status
            printed.seek(0)
            row = (used.ru_utime / times, used.ru_maxrss / 1024, printed.read().splitlines())
        best = row if best is None or row < best else best
    return best


def is_whole(name, count, times, lines):
    """Whether each run did all that it was asked for: what it prints has as many clauses as it should."""
    back = {"add": 0, "jump": 0, "shared": count, "apart": count, "spread": (count + 1) // 2}[name]
    left = 0 if name in ("add", "jump") else count - back
    wanted = f"{name} {count}: {count} came, {count} went, {back} came back; {back} in the store, {left} on the stack"
    return lines == [wanted] * times


def main():
    parser = argparse.ArgumentParser(description="Shows how the time of the store and of the kernel grows.")
    parser.add_argument("--runs", type=int, default=3)
    parser.add_argument("--times", type=int, default=5)
    parser.add_argument("lines", nargs="*", default=USUAL)
    args = parser.parse_args()
    if not os.path.exists(PROGRAM):
        print("build the program first: (cd crates/kernel_runs && rt run < stdin)", file=sys.stderr)
        return 2
    print(f"{'run':<16} {'user seconds':>12} {'peak':>7} {'ratio':>6}")
    seconds, ratios, wrong = {}, {}, 0
    for line in args.lines:
        name, count = line.split()[0], int(line.split()[1])
        seconds[name, count], peak, printed = measure(line, args.runs, args.times)
        half = seconds.get((name, count // 2))
        if half is not None:
            ratios[line] = seconds[name, count] / max(half, 0.001)
        whole = is_whole(name, count, args.times, printed)
        wrong += not whole
        shown = f"{ratios[line]:6.2f}" if line in ratios else ""
        print(f"{line:<16} {seconds[name, count]:>10.3f} s {peak:>5.0f} M {shown}" + ("" if whole else " !"), flush=True)
    above = [line for line, ratio in ratios.items() if ratio > WANTED]
    if ratios:
        print(f"more than {WANTED} times the time of half the number: {', '.join(above) or 'none'}")
    spread = seconds.get(("spread", 100_000))
    if spread is not None:
        print(f"50000 of 100000 parked and restored in {spread:.3f} s ({'less' if spread < 1 else 'not less'} than a second)")
    if wrong:
        print(f"{wrong} runs that did something else", file=sys.stderr)
    return 1 if wrong else 0


if __name__ == "__main__":
    sys.exit(main())
