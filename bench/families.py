#!/usr/bin/env python3
"""Times the program on families of inputs beside MiniSat and CaDiCaL, each asked query by query through its library. It makes its
own data, compares all answers, and prints for each family the processor seconds, the peak of memory, and the ratios.

    pigeons H          H + 1 pigeons in H holes: no model
    random N R S       3-SAT over N variables with R / 100 clauses a variable, by the seed S
    counter B          bounded model checking of a counter of B bits that may pause: one query a step, until it reaches its end
    bmc K              K steps of two counters of 7 bits, of which one counts at each step: can both be at 24? One query a step
    easy N             2 N clauses of three literals over N variables, which have many models
    wide N             the same over 500 variables, beside a clause of the variable N alone
    short Q A          Q queries of two assumptions over 33,000 variables and 100,000 clauses. A: 0 for random clauses (most queries have
                       a model), 1 for chains of implications in which the two assumptions fail together
    features Q         Q queries of ten assumptions over 16,000 variables, with a clause more every three queries
    grow N             3-SAT over N variables from 3 to 4.6 clauses a variable, a query at every ten clauses
    hard Q             Q queries of 6 assumptions over 130 variables at 4.2 clauses a variable

Usage: bench/families.py [--seconds N] [--runs N] [--also PROGRAM] [FAMILY ..]
    --seconds N      gives up on a run after so many seconds (60)
    --runs N         takes the best of so many runs (1)
    --also PROGRAM   times another program that reads iCNF too, as an earlier build of this one
    FAMILY           as 'pigeons 7'; all of the usual ones if none is named
MiniSat and CaDiCaL take part where g++ finds their libraries (Debian's packages minisat and libcadical-dev).
"""
import argparse
import math
import os
import random
import shutil
import signal
import subprocess
import sys
import tempfile

TOP = os.path.dirname(os.path.dirname(os.path.abspath(__file__)))
PROGRAM = os.path.join(TOP, "crates", "icnf_runner", "out", "icnf_runner")
PEERS = os.path.join(TOP, "bench", "peers")
USUAL = (
    ["pigeons 6", "pigeons 7", "pigeons 8"]
    + [f"random {n} 426 {seed}" for n in (150, 180, 200, 220) for seed in (1, 2, 3)]
    + [f"random {n} 450 {seed}" for n in (150, 200, 220) for seed in (1, 2)]
    + ["counter 5", "counter 6", "bmc 30", "bmc 60", "easy 100000", "wide 100000"]
    + ["short 1000 0", "short 10000 1", "features 2000", "grow 200", "hard 500"]
)


class Script:
    """Statements in order: a clause is a list of literals, a query a tuple of assumptions."""

    def __init__(self):
        self.statements = []
        self.vars = 0

    def new_var(self):
        self.vars += 1
        return self.vars

    def clause(self, *lits):
        self.vars = max([self.vars] + [abs(lit) for lit in lits])
        self.statements.append(list(lits))

    def query(self, *lits):
        self.statements.append(tuple(lits))

    def queries(self):
        return sum(isinstance(s, tuple) for s in self.statements)

    def icnf(self):
        lines = ["p inccnf"]
        for s in self.statements:
            lines.append(("a " if isinstance(s, tuple) else "") + " ".join(map(str, [*s, 0])))
        return "\n".join(lines) + "\n"

    # Tseitin's clauses of small gates; each gives the variable of its output.

    def xor_gate(self, a, b):
        out = self.new_var()
        for x, y, z in ((1, 1, -1), (1, -1, 1), (-1, 1, 1), (-1, -1, -1)):
            self.clause(x * a, y * b, z * out)
        return out

    def and_gate(self, *ins):
        out = self.new_var()
        for lit in ins:
            self.clause(-out, lit)
        self.clause(out, *[-lit for lit in ins])
        return out


def pigeons(holes):
    script = Script()
    at = [[script.new_var() for _ in range(holes)] for _ in range(holes + 1)]
    for row in at:
        script.clause(*row)
    for hole in range(holes):
        for one in range(holes + 1):
            for other in range(one + 1, holes + 1):
                script.clause(-at[one][hole], -at[other][hole])
    script.query()
    return script


def three_lits(draw, count):
    return [v * draw.choice((1, -1)) for v in draw.sample(range(1, count + 1), 3)]


def random_3sat(count, ratio, seed):
    script, draw = Script(), random.Random(seed)
    for _ in range(round(ratio * count / 100)):
        script.clause(*three_lits(draw, count))
    script.query()
    return script


def count_up(script, bits, enable):
    """The bits of a number one higher, where the enable bit is true."""
    then, carry = [], enable
    for bit in bits:
        then.append(script.xor_gate(bit, carry))
        carry = script.and_gate(bit, carry)
    return then


def counter(bits):
    script = Script()
    now = [script.new_var() for _ in range(bits)]
    for bit in now:
        script.clause(-bit)
    for _ in range(2**bits - 1):
        now = count_up(script, now, script.new_var())
        script.query(script.and_gate(*now))
    return script


def bmc(steps):
    script, target, bits = Script(), 24, 7
    one = [script.new_var() for _ in range(bits)]
    other = [script.new_var() for _ in range(bits)]
    for bit in one + other:
        script.clause(-bit)
    for _ in range(steps):
        choice = script.new_var()
        one, other = count_up(script, one, choice), count_up(script, other, -choice)
        signs = [1 if target >> k & 1 else -1 for k in range(bits)] * 2
        script.query(script.and_gate(*(sign * bit for sign, bit in zip(signs, one + other))))
    return script


def easy(count):
    script, draw = Script(), random.Random(count)
    for _ in range(2 * count):
        script.clause(*three_lits(draw, count))
    script.query()
    return script


def wide(last):
    script = easy(500)
    script.statements.insert(0, [last])
    script.vars = max(script.vars, last)
    return script


def short(queries, chains):
    script, draw, count = Script(), random.Random(queries), 33_000
    if chains:
        for v in range(1, count):
            script.clause(-v, v + 1) if v % 33 else None
        for _ in range(100_000 - len(script.statements)):
            script.clause(*three_lits(draw, count), draw.randint(1, count))
        for _ in range(queries):
            first = 33 * draw.randrange(count // 33) + draw.randint(1, 16)
            script.query(first, -(first + draw.randint(1, 15)))
    else:
        for _ in range(100_000):
            script.clause(*three_lits(draw, count))
        for _ in range(queries):
            script.query(*(v * draw.choice((1, -1)) for v in draw.sample(range(1, count + 1), 2)))
    return script


def features(queries):
    script, draw, count = Script(), random.Random(queries), 16_000
    for child in range(2, count + 1):
        parent = draw.randrange(max(1, child - 400), child)
        script.clause(-child, parent)
        if child % 7 == 0:
            script.clause(-parent, child)
    for _ in range(count // 4):
        script.clause(-draw.randint(1, count), -draw.randint(1, count), draw.randint(1, count))
    for number in range(queries):
        if number % 3 == 0:
            script.clause(-draw.randint(1, count), -draw.randint(1, count), draw.randint(1, count))
        script.query(*(v * draw.choice((1, -1)) for v in draw.sample(range(1, count + 1), 10)))
    return script


def grow(count):
    script, draw = Script(), random.Random(count)
    for number in range(round(4.6 * count)):
        script.clause(*three_lits(draw, count))
        if number >= 3 * count and number % 10 == 0:
            script.query()
    return script


def hard(queries):
    script, draw, count = Script(), random.Random(queries), 130
    for _ in range(round(4.2 * count)):
        script.clause(*three_lits(draw, count))
    for _ in range(queries):
        script.query(*(v * draw.choice((1, -1)) for v in draw.sample(range(1, count + 1), 6)))
    return script


FAMILIES = {
    "pigeons": pigeons, "random": random_3sat, "counter": counter, "bmc": bmc, "easy": easy, "wide": wide,
    "short": short, "features": features, "grow": grow, "hard": hard,
}


def write_family(family, path):
    """Writes a family's text to a file and gives the number of its queries. A process of its own does it, so that this one stays small:
    the peak of a child counts from its parent's size on."""
    read, write = os.pipe()
    if os.fork() == 0:
        name, *numbers = family.split()
        script = FAMILIES[name](*map(int, numbers))
        with open(path, "w") as file:
            file.write(script.icnf())
        os.write(write, str(script.queries()).encode())
        os._exit(0)
    os.close(write)
    os.wait()
    with os.fdopen(read) as pipe:
        return int(pipe.read())


def run(command, path, seconds):
    """The processor seconds, the peak in MiB and the answers of a command; None where it takes longer or fails."""
    with open(path) as given, tempfile.TemporaryFile("w+") as printed:
        child = subprocess.Popen(command, stdin=given, stdout=printed, stderr=subprocess.DEVNULL)
        signal.signal(signal.SIGALRM, lambda *_: child.kill())
        signal.alarm(math.ceil(seconds))
        _, status, used = os.wait4(child.pid, 0)
        signal.alarm(0)
        child.returncode = status
        if os.WIFSIGNALED(status):
            return None
        printed.seek(0)
        answers = [line.startswith("s S") for line in printed if line.startswith("s ")]
        return used.ru_utime + used.ru_stime, used.ru_maxrss / 1024, answers


def peers(folder):
    """The programs over the libraries of MiniSat and CaDiCaL that can be built here."""
    built = []
    for name in ("minisat", "cadical"):
        program = os.path.join(folder, name)
        source = os.path.join(PEERS, name + ".cpp")
        words = ["g++", "-O2", "-o", program, source, "-l" + name]
        if shutil.which("g++") and subprocess.run(words, stderr=subprocess.DEVNULL).returncode == 0:
            built.append((name, program))
    return built


def compare(family, solvers, folder, args):
    """The row of a family, and whether its answers differ."""
    path = os.path.join(folder, "family.icnf")
    asked, cells, known, rows = write_family(family, path), [], None, []
    for _, program in solvers:
        results = [run([program], path, args.seconds) for _ in range(args.runs)]
        rows.append(min((r for r in results if r), default=None))
    differ = False
    for result in rows:
        if result is None:
            cells.append(f"> {args.seconds:.0f} s")
            continue
        seconds, peak, answers = result
        known = answers if known is None else known
        differ = differ or answers != known or len(answers) != asked
        ratio = f"{rows[0][0] / max(seconds, 0.001):6.2f}" if rows[0] else "      "
        cells.append(f"{seconds:7.3f} s {ratio} {peak:4.0f} M")
    print(f"{family:<16} {asked:>6} " + " ".join(f"{cell:>23}" for cell in cells) + (" !" if differ else ""), flush=True)
    return rows, differ


def main():
    parser = argparse.ArgumentParser(description="Times the program on families of inputs.")
    parser.add_argument("--seconds", type=float, default=60)
    parser.add_argument("--runs", type=int, default=1)
    parser.add_argument("--also")
    parser.add_argument("families", nargs="*", default=USUAL)
    args = parser.parse_args()
    if not os.path.exists(PROGRAM):
        print("build the program first: ./icnf_runner < examples/planning.icnf", file=sys.stderr)
        return 2
    with tempfile.TemporaryDirectory() as folder:
        solvers = [("this", PROGRAM)] + ([("also", args.also)] if args.also else []) + peers(folder)
        print("processor seconds, how many times the other's time this program takes, and the peak of memory")
        print(f"{'family':<16} {'asked':>6} " + " ".join(f"{name:>23}" for name, _ in solvers))
        table, wrong = [], 0
        for family in args.families:
            rows, differ = compare(family, solvers, folder, args)
            table.append(rows)
            wrong += differ
        for k, (name, _) in enumerate(solvers[1:], 1):
            both = [(r[0], r[k]) for r in table if r[0] and r[k]]
            if both:
                mean = math.exp(sum(math.log(max(a[0], 0.001) / max(b[0], 0.001)) for a, b in both) / len(both))
                print(f"against {name}: {mean:.2f} times its time, as a geometric mean over {len(both)} families")
    if wrong:
        print(f"{wrong} families with answers that differ", file=sys.stderr)
    return 1 if wrong else 0


if __name__ == "__main__":
    sys.exit(main())
