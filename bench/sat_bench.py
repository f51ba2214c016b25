#!/usr/bin/env python3
"""Times `taco sat` beside minisat and cadical, where they are installed, on families of formulas.

    python3 bench/sat_bench.py [PROGRAM]

PROGRAM is bin/taco where it is not given. Each family is a list of formulas of growing size. For each formula the
seconds of each solver are printed, and how many clauses taco and minisat learnt (taco's are the lines of its log, so
they are known of a refutation alone); for each family the ratio of the geometric means of the times. All answers
must agree. A run that takes more than LIMIT seconds is cut, and counts as LIMIT.

The families:

- pigeons: n pigeons do not fit into n - 1 holes.
- random: clauses of three literals, 4.26 for each variable, from a fixed seed; some have a solution and some have none.
- parity: the sum modulo 2 of the same variables, in two orders, is not the same; it is.
- colouring: a random graph, of 2.2 edges for each vertex, has three colours.
- multiplier: two array multipliers with their operands exchanged give different bits; they do not.
"""

import math
import os
import random
import re
import shutil
import subprocess
import sys
import tempfile
import time

LIMIT = 60


class Formula:
    def __init__(self):
        self.vars = 0
        self.clauses = []

    def new(self):
        self.vars += 1
        return self.vars

    def add(self, *lits):
        self.clauses.append(lits)

    def both(self, a, b):
        out = self.new()
        self.add(-out, a)
        self.add(-out, b)
        self.add(out, -a, -b)
        return out

    def differ(self, a, b):
        out = self.new()
        self.add(-out, a, b)
        self.add(-out, -a, -b)
        self.add(out, -a, b)
        self.add(out, a, -b)
        return out

    def either(self, a, b):
        return -self.both(-a, -b)

    def text(self):
        lines = [f"p cnf {self.vars} {len(self.clauses)}"]
        lines.extend(" ".join(map(str, clause)) + " 0" for clause in self.clauses)
        return "\n".join(lines) + "\n"


def pigeons(count):
    formula = Formula()
    sits = [[formula.new() for _ in range(count - 1)] for _ in range(count)]
    for row in sits:
        formula.add(*row)
    for hole in range(count - 1):
        for one in range(count):
            for other in range(one):
                formula.add(-sits[one][hole], -sits[other][hole])
    return formula


def threes(count, seed):
    chance = random.Random(seed)
    formula = Formula()
    formula.vars = count
    for _ in range(round(4.26 * count)):
        chosen = chance.sample(range(1, count + 1), 3)
        formula.add(*[var * chance.choice((1, -1)) for var in chosen])
    return formula


def parity(count, seed):
    chance = random.Random(seed)
    formula = Formula()
    inputs = [formula.new() for _ in range(count)]
    outs = []
    for order in (inputs, chance.sample(inputs, count)):
        out = order[0]
        for var in order[1:]:
            out = formula.differ(out, var)
        outs.append(out)
    formula.add(formula.differ(*outs))
    return formula


def colouring(count, seed):
    chance = random.Random(seed)
    formula = Formula()
    has = [[formula.new() for _ in range(3)] for _ in range(count)]
    for vertex in has:
        formula.add(*vertex)
    edges = set()
    while len(edges) < round(2.2 * count):
        edges.add(tuple(sorted(chance.sample(range(count), 2))))
    for one, other in sorted(edges):
        for colour in range(3):
            formula.add(-has[one][colour], -has[other][colour])
    return formula


def product(formula, left, right):
    """The bits of an array multiplier, row by row."""
    width = len(left)
    rows = [[formula.both(a, b) for a in left] for b in right]
    bits = [rows[0][0]]
    row = rows[0][1:] + [None]
    for partial in rows[1:]:
        carry = None
        summed = []
        for a, b in zip(row, partial):
            terms = [term for term in (a, b, carry) if term is not None]
            if len(terms) == 1:
                total, carry = terms[0], None
            elif len(terms) == 2:
                total, carry = formula.differ(*terms), formula.both(*terms)
            else:
                half = formula.differ(terms[0], terms[1])
                total = formula.differ(half, terms[2])
                carry = formula.either(formula.both(terms[0], terms[1]), formula.both(half, terms[2]))
            summed.append(total)
        bits.append(summed[0])
        row = summed[1:] + [carry]
    bits.extend(bit for bit in row if bit is not None)
    return bits[: 2 * width]


def multiplier(width):
    formula = Formula()
    left = [formula.new() for _ in range(width)]
    right = [formula.new() for _ in range(width)]
    one = product(formula, left, right)
    other = product(formula, right, left)
    formula.add(*[formula.differ(a, b) for a, b in zip(one, other)])
    return formula


FAMILIES = {
    "pigeons": [(f"{n} pigeons", pigeons(n)) for n in (7, 8, 9)],
    "random": [(f"{n} variables, seed {seed}", threes(n, seed)) for n in (100, 130, 160) for seed in (1, 2, 3)],
    "parity": [(f"{n} variables", parity(n, 1)) for n in (12, 16, 20)],
    "colouring": [(f"{n} vertices, seed {seed}", colouring(n, seed)) for n in (100, 150, 200) for seed in (1, 2)],
    "multiplier": [(f"{n} bits", multiplier(n)) for n in (4, 5, 6)],
}


def timed(words):
    begun = time.perf_counter()
    try:
        done = subprocess.run(words, capture_output=True, text=True, timeout=LIMIT, check=False)
    except subprocess.TimeoutExpired:
        return LIMIT, None, ""
    return time.perf_counter() - begun, done.returncode, done.stdout


def by_taco(program, path):
    seconds, _, out = timed([program, "sat", path])
    lines = out.splitlines()
    if not lines:
        return seconds, None, None
    learnt = len(lines) - 1 if lines[0] == "s UNSATISFIABLE" else None
    return seconds, lines[0] == "s SATISFIABLE", learnt


def by_minisat(path):
    seconds, status, out = timed(["minisat", path])
    found = re.search(r"conflicts\s*:\s*(\d+)", out)
    return seconds, {10: True, 20: False}.get(status), int(found.group(1)) if found else None


def by_cadical(path):
    seconds, status, _ = timed(["cadical", "-q", path])
    return seconds, {10: True, 20: False}.get(status), None


def mean(seconds):
    return math.exp(sum(math.log(max(one, 0.001)) for one in seconds) / len(seconds))


def main():
    top = os.path.dirname(os.path.dirname(os.path.abspath(__file__)))
    program = sys.argv[1] if len(sys.argv) > 1 else os.path.join(top, "bin", "taco")
    solvers = {"taco": lambda path: by_taco(program, path)}
    if shutil.which("minisat"):
        solvers["minisat"] = by_minisat
    if shutil.which("cadical"):
        solvers["cadical"] = by_cadical
    ratios = []
    with tempfile.TemporaryDirectory() as folder:
        path = os.path.join(folder, "formula.cnf")
        for family, formulas in FAMILIES.items():
            times = {name: [] for name in solvers}
            for title, formula in formulas:
                with open(path, "w", encoding="ascii") as file:
                    file.write(formula.text())
                row = {name: solve(path) for name, solve in solvers.items()}
                answers = {it[1] for it in row.values() if it[1] is not None}
                if len(answers) > 1:
                    sys.exit(f"{family}, {title}: the answers differ: {row}")
                answer = {True: "sat", False: "unsat"}.get(next(iter(answers), None), "none")
                told = [f"{name} {it[0]:.3f} s" + (f" ({it[2]} learnt)" if it[2] is not None else "") for name, it in row.items()]
                print(f"{family}: {title}, {formula.vars} variables, {len(formula.clauses)} clauses: {answer}: " + ", ".join(told), flush=True)
                for name, it in row.items():
                    times[name].append(it[0])
            for name in solvers:
                if name != "taco":
                    ratio = mean(times["taco"]) / mean(times[name])
                    print(f"{family}: taco takes {ratio:.2f} times as long as {name}", flush=True)
                    if name == "minisat":
                        ratios.append(ratio)
    if ratios:
        print(f"all families: {mean(ratios):.2f} times as long as minisat, in the geometric mean")


if __name__ == "__main__":
    main()
