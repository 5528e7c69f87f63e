#!/usr/bin/env python3
"""Counts what the program does on inputs with one query, beside MiniSat and CaDiCaL: conflicts, microseconds a conflict, decisions,
propagated literals, and millions of these a second. It makes its own data and asserts nothing.

The program prints no counts. Its conflicts are found through its budget: the least budget under which the query is answered is the
number of conflicts that it takes. Its decisions and propagated literals are the calls that callgrind counts, in a build whose calls are
not folded into their callers: that of Rattle's own compiler, which takes the same steps (`rt run --backend rattle` in
crates/icnf_runner; copy out/icnf_runner away, and `rt run` builds the usual one again).

Usage: bench/counts.py [--plain PROGRAM] [FAMILY ..]
    --plain PROGRAM  that build; without it and valgrind nothing is said of decisions and propagated literals
    FAMILY           a family of bench/families.py that asks one query, as 'random 200 426 1'; 'bmc1 K' is the last query of 'bmc K'
"""
import argparse
import os
import re
import shutil
import subprocess
import sys
import tempfile

import families

USUAL = [f"random {n} 426 {seed}" for n in (150, 200) for seed in (1, 2)] + ["random 200 450 1", "pigeons 7", "bmc1 30"]
# The calls that are counted: a literal is decided, and one is appended to the trail as implied.
DECIDED, IMPLIED = "trail_state::trail::Trail::decide", "trail_state::trail::Trail::append"


def text_of(family):
    """The clauses and the one query of a family; 'bmc1 K' is the last query of 'bmc K' alone."""
    name, *numbers = family.split()
    script = families.FAMILIES[name.rstrip("1")](*map(int, numbers))
    if name.endswith("1"):
        last = [s for s in script.statements if isinstance(s, tuple)][-1]
        script.statements = [s for s in script.statements if not isinstance(s, tuple)] + [last]
    return script.icnf()


def timed(command, text):
    """The processor seconds of a command on a text (the best of three), its output and what it wrote to standard error."""
    best = None
    for _ in range(3):
        before = os.times()
        done = subprocess.run(command, input=text, capture_output=True, text=True)
        after = os.times()
        took = after.children_user + after.children_system - before.children_user - before.children_system
        best = took if best is None else min(best, took)
    return best, done.stdout, done.stderr


def answered(budget, text):
    """Whether the query is answered within so many conflicts."""
    done = subprocess.run([families.PROGRAM, "--conflicts", str(budget)], input=text, capture_output=True, text=True)
    return "UNKNOWN" not in done.stdout


def conflicts_of(text):
    """The least budget under which the query is answered."""
    high = 1
    while not answered(high, text):
        high *= 2
    low = high // 2
    while low + 1 < high:
        middle = (low + high) // 2
        low, high = (low, middle) if answered(middle, text) else (middle, high)
    return high


def calls_of(program, text):
    """How many literals are decided and how many are implied, as callgrind counts the calls of a program; None where it is missing."""
    if program is None or not shutil.which("valgrind"):
        return None
    with tempfile.TemporaryDirectory() as folder:
        out = os.path.join(folder, "out")
        words = ["valgrind", "--tool=callgrind", f"--callgrind-out-file={out}", program]
        subprocess.run(words, input=text, capture_output=True, text=True)
        names, counts, called = {}, {}, None
        with open(out) as lines:
            for line in lines:
                named = re.match(r"(c?)fn=\((\d+)\)(?: (.*))?", line)
                if named:
                    if named[3]:
                        names[named[2]] = named[3].strip()
                    called = named[2] if named[1] else called
                elif line.startswith("calls="):
                    counts[called] = counts.get(called, 0) + int(line[6:].split()[0])
    found = {names.get(number): count for number, count in counts.items()}
    return found.get(DECIDED, 0), found.get(IMPLIED, 0)


def row(name, seconds, conflicts, decisions=None, passed=None):
    """A line of the table; what is not known is left out."""
    each = f"{seconds / conflicts * 1e6:8.1f}" if conflicts else " " * 8
    rate = f"{passed / seconds / 1e6:6.2f}" if passed else " " * 6
    cells = f"{conflicts if conflicts is not None else '':>9} {each} {decisions or '':>10} {passed or '':>11} {rate}"
    print(f"  {name:<8} {seconds:8.3f} {cells}", flush=True)


def main():
    parser = argparse.ArgumentParser(description="Counts what the program does on inputs with one query.")
    parser.add_argument("--plain")
    parser.add_argument("families", nargs="*", default=USUAL)
    args = parser.parse_args()
    if not os.path.exists(families.PROGRAM):
        print("build the program first: ./icnf_runner < examples/planning.icnf", file=sys.stderr)
        return 2
    print("            seconds conflicts  us each  decisions  propagated  M/sec")
    with tempfile.TemporaryDirectory() as folder:
        others = families.peers(folder)
        for family in args.families:
            text = text_of(family)
            print(family)
            seconds, _, _ = timed([families.PROGRAM], text)
            row("this", seconds, conflicts_of(text), *(calls_of(args.plain, text) or ()))
            for name, program in others:
                seconds, printed, said = timed([program], text)
                found = {word: int(number) for word, number in re.findall(r"(\w+):? +(\d+)", said or printed)}
                row(name, seconds, found.get("conflicts"), found.get("decisions"), found.get("propagations"))
    return 0


if __name__ == "__main__":
    sys.exit(main())
