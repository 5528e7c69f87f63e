#!/usr/bin/env python3
"""Shows how time and memory grow with the input: chains of clauses of three literals with one query that unit propagation answers,
beside MiniSat and CaDiCaL where their programs are there (Debian's packages minisat and cadical). It makes its own data, prints a
table, and asserts nothing.

Usage: bench/reading.py [CLAUSES ..]   (200000, 400000 and 1333333, which has 4 million literals, if none are named)
"""
import os
import shutil
import subprocess
import sys
import tempfile

TOP = os.path.dirname(os.path.dirname(os.path.abspath(__file__)))
PROGRAM = os.path.join(TOP, "crates", "icnf_runner", "out", "icnf_runner")


def chain(clauses):
    """Variables 1 and 2 are true, and each two neighbours imply the next variable, as a text of DIMACS."""
    rows = ["1 0\n", "2 0\n"] + [f"-{k} -{k + 1} {k + 2} 0\n" for k in range(1, clauses + 1)]
    return "".join([f"p cnf {clauses + 2} {len(rows)}\n", *rows])


def incremental(text):
    """The same clauses and the same query as iCNF."""
    return "p inccnf\n" + text.split("\n", 1)[1] + "a 0\n"


def measure(command, text):
    """The processor seconds that a command takes on a text, and its peak of memory in MiB; the best of three runs."""
    best = None
    for _ in range(3):
        with tempfile.NamedTemporaryFile("w", suffix=".cnf") as given:
            given.write(text)
            given.flush()
            with open(given.name) as stdin:
                words = [given.name if word == "{}" else word for word in command]
                child = subprocess.Popen(words, stdin=stdin, stdout=subprocess.DEVNULL, stderr=subprocess.DEVNULL)
                _, status, used = os.wait4(child.pid, 0)
                child.returncode = status
        row = (used.ru_utime + used.ru_stime, used.ru_maxrss / 1024)
        best = row if best is None or row < best else best
    return best


def main():
    if not os.path.exists(PROGRAM):
        print("build the program first: ./icnf_runner < examples/planning.icnf", file=sys.stderr)
        return 2
    sizes = [int(word) for word in sys.argv[1:]] or [200_000, 400_000, 1_333_333]
    others = [("minisat", ["minisat", "-verb=0", "-no-pre", "{}"]), ("cadical", ["cadical", "-q", "-n", "{}"])]
    others = [(name, words) for name, words in others if shutil.which(name)]
    print(f"{'clauses':>9} {'bytes':>10} {'seconds':>8} {'peak':>7} {'of bytes':>9} " + " ".join(f"{name:>24}" for name, _ in others))
    before = None
    for size in sizes:
        text = chain(size)
        seconds, peak = measure([PROGRAM], incremental(text))
        cells = [f"{t:.3f} s ({seconds / t:.2f}) {m:5.0f} M" for t, m in (measure(words, text) for _, words in others)]
        print(f"{size:>9} {len(text):>10} {seconds:>8.3f} {peak:>5.0f} M {peak * 2**20 / len(text):>9.1f} " + " ".join(f"{c:>24}" for c in cells))
        if before is not None:
            print(f"{'':>20} {seconds / before[1]:>8.2f} times the time for {size / before[0]:.2f} times the clauses")
        before = size, seconds
    return 0


if __name__ == "__main__":
    sys.exit(main())
