"""Asks `numarun solve` for plans of problems with weights that multiply, as (row + 1) × (CPU + 1), on which rows contend for the
same CPUs and the solver alone takes long: `long.py PROGRAM`.

By the rearrangement inequality such a plan costs the least where rows of greater factors have CPUs of smaller ones. So the least
total is known without a solver. Each certificate is accepted by the second checker and by `numarun check`, with that total. There
are few rows, which the solver answers, and many. The largest problem has to be answered in a time in which the solver alone has
done a small part of it. Of some too few CPUs a shortage is told."""

import os
import random
import sys
import time

HERE = os.path.dirname(os.path.abspath(__file__))
sys.path[:0] = [os.path.join(HERE, ".."), os.path.join(HERE, "..", "certificates")]
from program import run
from reference import check

PATIENCE = 25  # seconds for the largest problem: the solver alone takes longer on a machine of its own


def problem(demands, by_row, by_cpu):
    """The text of rows with these demands; a CPU weighs the product of the row's factor and its own."""
    lines = ["numarun-problem 1"]
    for k, (demand, factor) in enumerate(zip(demands, by_row)):
        lines.append(f"row r{k} {demand} " + " ".join([f"{factor * other}:{cpu}" for cpu, other in enumerate(by_cpu)]))
    return "\n".join(lines + ["end", ""]).encode()


def least(demands, by_row, by_cpu):
    """The least total of a plan, or none where there are too few CPUs."""
    rows = sorted([factor for demand, factor in zip(demands, by_row) for _ in range(demand)], reverse=True)
    return sum(a * b for a, b in zip(rows, sorted(by_cpu))) if len(rows) <= len(by_cpu) else None


def answered(program, demands, by_row, by_cpu, patience=300, second=True):
    name = f"{len(demands)} rows on {len(by_cpu)} CPUs"
    text, total = problem(demands, by_row, by_cpu), least(demands, by_row, by_cpu)
    start = time.monotonic()
    done = run([program, "solve"], text)
    took = time.monotonic() - start
    verdict = "short demand " if total is None else f"plan total {total}\n"
    checked = run([program, "check"], done.stdout)
    said = [checked.stdout.decode()] + ([check(done.stdout) + "\n"] if second else [])
    if (done.returncode, done.stderr, checked.returncode) != (0, b"", 0) or not all(line.startswith(verdict) for line in said):
        sys.exit(f"{name}: {verdict!r} was expected, and the checks say {said}: {str(done)[:2000]}")
    if took > patience:
        sys.exit(f"{name}: took {took:.1f} s, more than {patience}")
    return took


def main(program):
    chance, count = random.Random(1), 0
    for rows, cpus in [(1, 1), (2, 5), (4, 16), (8, 32), (16, 64), (24, 96), (32, 128), (48, 200), (64, 256), (96, 399), (128, 512)]:
        ways = {
            "rising": (list(range(1, rows + 1)), list(range(1, cpus + 1))),
            "falling": (list(range(rows, 0, -1)), list(range(1, cpus + 1))),
            "by chance": ([chance.randint(1, 4000) for _ in range(rows)], [chance.randint(0, 8000) for _ in range(cpus)]),
            "powers": ([1 << k % 12 for k in range(rows)], [1 << c % 13 for c in range(cpus)]),
        }
        for by_row, by_cpu in ways.values():
            for demands in ([cpus // rows] * rows, [1] * (rows - 1) + [cpus - rows + 1], [1] * rows):
                answered(program, demands, by_row, by_cpu)
                count += 1
            answered(program, [cpus // rows + 1] * rows, by_row, by_cpu)
    took = answered(program, [4] * 1024, range(1, 1025), range(1, 4097), patience=PATIENCE, second=False)
    print(f"numarun solve: {count} problems whose weights multiply have the least total; the largest took {took:.1f} s")


main(sys.argv[1])
