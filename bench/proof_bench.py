#!/usr/bin/env python3
"""Times `taco proof` on logs of growing size, and prints seconds for each megabyte.

    python3 bench/proof_bench.py [PROGRAM]

PROGRAM is bin/taco where it is not given. The seconds for a megabyte should stay about the same from
one size to the next: a step that grows with the square of the log would double them.

Two families of logs are made, each up to the greatest size that the program reads:

- chain: x1, and x1 -> x2 -> .. -> xn. Each line derives the next variable from the line before it.
- wide: a million equal clauses, and lines that name clauses all over them.
"""

import os
import subprocess
import sys
import tempfile
import time

MEGABYTE = 1_000_000
GREATEST = 4_194_304


def chain(size):
    """A formula and a log of about `size` bytes together with the answer that is expected."""
    clauses = ["1 0\n"]
    lines = []
    length = 0
    var = 1
    # The clause of a variable's implication has the number var + 1; the count of clauses comes later,
    # so the hints are made in a second pass.
    while length < size and var < 100_000:
        clauses.append(f"-{var} {var + 1} 0\n")
        length += 2 * len(str(var)) + 18
        var += 1
    count = len(clauses)
    known = 1
    for place in range(1, var):
        lines.append(f"{place + 1} 0 {known} {place + 1} 0\n")
        known = count + place
    # The rest derives the last variable again and again.
    again = f"{var} 0 {known} 0\n"
    room = size - sum(map(len, lines))
    lines.extend([again] * max(0, room // len(again)))
    cnf = f"p cnf {var} {count}\n" + "".join(clauses)
    return cnf, "".join(lines), f"valid {len(lines)}"


def wide(size):
    """Lines that each name one of a million clauses."""
    count = 1_000_000
    cnf = f"p cnf 1 {count}\n" + "1 0\n" * count
    lines = []
    length = 0
    hint = 1
    while True:
        line = f"1 0 {hint} 0\n"
        if length + len(line) > size:
            break
        lines.append(line)
        length += len(line)
        hint = (hint + 7919 * 101) % count + 1
    return cnf, "".join(lines), f"valid {len(lines)}"


def seconds(program, cnf, log, expected):
    with tempfile.TemporaryDirectory() as folder:
        paths = []
        for name, text in (("F.cnf", cnf), ("F.log", log)):
            path = os.path.join(folder, name)
            with open(path, "w", encoding="ascii", newline="") as file:
                file.write(text)
            paths.append(path)
        start = time.monotonic()
        run = subprocess.run([program, "proof", *paths], capture_output=True, text=True, check=False)
        taken = time.monotonic() - start
    answer = run.stdout.strip()
    if answer != expected:
        sys.exit(f"{program} answered {answer!r} (status {run.returncode}) for {expected!r}")
    return taken


def main():
    program = sys.argv[1] if len(sys.argv) > 1 else os.path.join("bin", "taco")
    if not os.path.exists(program):
        sys.exit(f"{program} is not there: build it first")
    print("family     log MB   seconds   seconds/MB")
    for family in (chain, wide):
        for size in (MEGABYTE // 2, MEGABYTE, 2 * MEGABYTE, 4 * MEGABYTE):
            cnf, log, expected = family(min(size, GREATEST))
            taken = seconds(program, cnf, log, expected)
            length = len(log) / MEGABYTE
            print(f"{family.__name__:8} {length:8.2f} {taken:9.2f} {taken / length:12.3f}")


if __name__ == "__main__":
    main()
