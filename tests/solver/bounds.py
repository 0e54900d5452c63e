"""Counts the instructions of the solver on the inputs that are worst for it: `bounds.py TOOLS`. Each of them was once far above
its bound. Without valgrind nothing is counted, and a line says so."""

import os
import random
import sys

HERE = os.path.dirname(os.path.abspath(__file__))
sys.path[:0] = [os.path.join(HERE, ".."), os.path.join(HERE, "..", "..", "benches", "solver")]
from callgrind import has_valgrind, instructions
from families import FAMILIES, HARD, text

# Of each family the last CPU, the rows, and how many millions of instructions one run may take.
BOUNDS = {
    "few-shift-many": (1023, 256, 100),
    "own-few": (4095, 1024, 55),
    "short-lists": (1023, 256, 17),
    "nested": (1023, 256, 36),
    "held-8-nodes-95": (1023, 256, 6),
    "in-turn-64-nodes-95": (1023, 256, 10),
    "held-in-turn-2-nodes-95": (1023, 256, 40),
    "held-pairs-8-nodes-95": (1023, 256, 15),
    "stripes": (4095, 512, 40),
}


def millions(tools, given):
    """What a second run takes: the first is there to take off what reading the text does."""
    counts = [instructions([tools, "solve", times], given) for times in ("1", "2")]
    return (counts[1] - counts[0]) / 1e6


def main(tools):
    if not has_valgrind():
        return
    told = []
    for name, (last, rows, most) in BOUNDS.items():
        random.seed(name)
        took = millions(tools, text((FAMILIES | HARD)[name](range(1, last + 1), rows)).encode())
        if took > most:
            sys.exit(f"bounds: {name} takes {took:.1f} million instructions, and {most} at most were allowed")
        told.append(f"{name} {took:.1f} of {most}")
    print("bounds, in millions of instructions:", ", ".join(told))


main(sys.argv[1])
