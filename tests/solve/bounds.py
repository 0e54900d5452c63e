"""Counts what `numarun solve` takes, reading and writing too, on problems that each of its two ways is for, and how much memory it
has at most: `bounds.py PROGRAM`. Without valgrind nothing is counted, and a line says so."""

import os
import random
import sys

HERE = os.path.dirname(os.path.abspath(__file__))
sys.path[:0] = [os.path.join(HERE, ".."), os.path.join(HERE, "..", "..", "benches", "solver")]
from callgrind import has_valgrind, instructions
from families import FAMILIES, HARD, SIZES, text
from program import run

# How many millions of instructions 256 rows on 1,023 CPUs may take. The first three take 5,100, 2,300 and 4,700 by the solver alone. The
# others take few turns of it.
BOUNDS = {"products": 1000, "geometric": 1000, "last-takes-all": 1000, "spread-95": 335, "held-pairs-2-nodes-95": 16, "nested": 225}
# The same of 1,024 rows on 4,095 CPUs, and how many MiB it may have: it takes 30, and room for each CPU of each row would be 33 more.
LARGEST = {"nested": (1900, 45)}


def problem(name, size):
    """The text of a family's problem with these CPUs and rows."""
    last, rows = size
    random.seed(name)
    lines = text((FAMILIES | HARD)[name](range(1, last + 1), rows)).splitlines()[1:-2]
    return "\n".join(["numarun-problem 1", *lines, "end", ""]).encode()


def memory(words, given):
    """How many MiB a program has at most, whose status has to be 0."""
    done = run([sys.executable, os.path.join(HERE, "..", "peak.py"), *words], given)
    if done.returncode:
        sys.exit(f"bounds: {done}")
    return int(done.stderr.split()[-1]) / 1024


def held_to(name, what, took, most):
    if took > most:
        sys.exit(f"bounds: {name} takes {took:.1f} {what}, and {most} at most were allowed")
    return f"{name} {took:.1f} of {most}"


def main(program):
    words, counted, had = [program, "solve"], [], []
    if not has_valgrind():
        return
    for name, most in BOUNDS.items():
        counted.append(held_to(name, "million instructions", instructions(words, problem(name, SIZES[0])) / 1e6, most))
    for name, (most, room) in LARGEST.items():
        given = problem(name, SIZES[1])
        had.append(held_to(name, "MiB", memory(words, given), room))
        counted.append(held_to(f"{name} of {SIZES[1][1]} rows", "million instructions", instructions(words, given) / 1e6, most))
    print("bounds of numarun solve, in millions of instructions:", ", ".join(counted))
    print("bounds of its memory, in MiB:", ", ".join(had))


main(*sys.argv[1:])
