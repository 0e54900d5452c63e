"""Writes problems for the solver and its first form into a folder, `first_form.py FOLDER`; and says what the answers beside
them are, `first_form.py --seen FOLDER`, which fails where there are too few of one kind.

The solver's steps depend on how many classes a search has labelled and taken up, on which of them lie in one word of 64 CPUs,
on whether offers rise, and on how a row's ranges cut the classes of other rows. So problems have few CPUs and many, near and
far ones, lists in one run and in many, and mostly few weights, so that many plans cost the same. A set of CPUs is looked up
in a few ranges of a row and then as a whole, so some machines have CPUs numbered in turn over their nodes, and rows that hold
one to eight of these; and where runs that no row tells apart are long, no class is settled early, so some problems have runs
of two to five CPUs."""

import os
import random
import sys
from collections import Counter
from pathlib import Path

HERE = os.path.dirname(os.path.abspath(__file__))
sys.path[:0] = [os.path.join(HERE, "..", "..", "benches", "solver")]
from families import FAMILIES, HARD, distance, shown, text

# Problems of one file, and the CPUs, rows and weights that they have at most.
MADE = {
    "few-cpus": (1500, 12, 4, 3),
    "one-word": (300, 64, 12, 2),
    "some-words": (120, 300, 40, 4),
    "many-weights": (60, 300, 40, 200),
    "many-words": (25, 1500, 120, 3),
    "one-weight": (25, 1500, 120, 1),
}
# Problems on machines with CPUs numbered in turn, or of runs.
IN_TURN, OF_RUNS = 300, 400
# How often a CPU has the weight of the one below it, on both sides of where a row's arcs are put in blocks, and how many problems
# of each there are.
ALIKE = [(0, 4), (0.1, 6), (0.2, 8), (0.25, 12), (0.3, 8), (0.5, 6), (0.9, 6), (0.95, 8), (0.97, 12), (0.98, 8), (1, 4)]
# The sizes of the families of benches/solver, as the last CPU and the rows.
SIZES = [(40, 9), (255, 64)]


def listed(cpus):
    """Some of the CPUs: a run of them, some runs, every other one, or by chance."""
    start, end = sorted(random.sample(range(len(cpus) + 1), 2))
    kind = random.randrange(5)
    if kind == 0:
        return cpus[start:end]
    if kind == 1:
        return cpus[:start] + cpus[end:]
    if kind == 2:
        return cpus[start % 2 :: random.randint(2, 3)]
    if kind == 3:
        return random.sample(cpus, random.randint(1, len(cpus)))
    return cpus


def offers_of(cpus, weights):
    """The CPUs in offers by any order, of which some have the weight of another one."""
    by_offer = {}
    bounds = sorted(random.sample(cpus, min(len(cpus), random.randint(0, 6))))
    for cpu in cpus:
        part = sum(bound <= cpu for bound in bounds) if random.random() < 0.95 else random.randint(0, 6)
        by_offer.setdefault(part, []).append(cpu)
    offers = [(random.randint(1, weights), part) for part in by_offer.values()]
    return sorted(offers) if random.random() < 0.5 else random.sample(offers, len(offers))


def made(most_cpus, most_rows, weights):
    """Rows with lists of their own or like those of a row before, which together ask for about what there is."""
    count = random.randint(1, most_cpus)
    start = random.randrange(4097 - count)
    cpus = list(range(start, start + count)) if random.random() < 0.5 else sorted(random.sample(range(4096), count))
    rows = []
    size = random.randint(1, most_rows)
    full = random.choice((0.5, 0.9, 1, 1.1))
    for k in range(size):
        offers = random.choice(rows)[1] if rows and random.random() < 0.3 else offers_of(sorted(listed(cpus)) or cpus, weights)
        demand = max(1, round(full * count / size) + random.randint(-1, 1))
        rows.append((demand, offers))
    return rows


def in_turn():
    """Rows on a machine whose CPUs are numbered in turn over its nodes, or whose cores have the CPUs k and k + half of all. Most
    hold some CPUs that lie next to one another in their node, and weigh the others more; some have lists of their own."""
    nodes = random.choice((2, 8, 64))
    count = random.choice((nodes, 2 * nodes, 4 * nodes, random.randint(nodes, 300)))
    start = random.randrange(4097 - count)
    half = -(-count // 2)
    node = random.choice((lambda at: at % nodes, lambda at: at % half * nodes // half))
    order = sorted(range(count), key=lambda at: (node(at), at % half, at))
    rows = []
    for k in range(random.randint(1, 24)):
        own, order = (order[:size], order[size:]) if (size := random.randint(0, 8)) else ([], order)
        home = node(own[0]) if own else k % nodes
        listed_too = random.random() < 0.2
        by_weight = {}
        for at in range(count):
            if not listed_too or random.random() < 0.5 or at == 0:
                weight = distance(node(at), home, nodes) * (65536 if size else 1) + (size > 0 and at not in own)
                by_weight.setdefault(weight, []).append(start + at)
        rows.append((max(1, min(size, len(own))), sorted(by_weight.items())))
    return rows


def of_runs():
    """Rows that offer whole runs of two to five CPUs, as a mean, or of just as many; some CPUs have one row alone."""
    mean = random.choice((2, 3, 4, 5))
    lengths = [mean if random.random() < 0.7 else random.choice((mean - 1, mean + 1)) for _ in range(random.randint(4, 40))]
    start = random.randrange(4097 - sum(lengths))
    runs = [range(start + sum(lengths[:k]), start + sum(lengths[: k + 1])) for k in range(len(lengths))]
    rows, left = [], random.sample(runs, len(runs) // 2)
    for _ in range(random.randint(1, 10)):
        alone, left = left[:2], left[2:]
        shared = [run for run in runs if run not in alone and run not in left and random.random() < 0.5]
        by_weight = {}
        for run in alone + shared or runs:
            by_weight.setdefault(random.randint(1, 3), []).extend(run)
        rows.append((random.randint(1, 4), sorted((weight, sorted(cpus)) for weight, cpus in by_weight.items())))
    return rows


def alike(share):
    """Rows that ask for nearly all CPUs there are, and that have the weight of the CPU below for such a share of them. Some want
    most of theirs cheaply, so that they are looked at again and again; some have no weight for the last CPUs."""
    count, size = random.randint(40, 300), random.randint(4, 30)
    rows = []
    for k in range(size):
        by_weight, weight = {}, random.randint(1, 10**5)
        upto = count if random.random() < 0.7 else random.randint(count // 2, count)
        for cpu in range(upto):
            if random.random() >= share:
                weight = random.randint(1, 10**5) if random.random() < 0.9 else cpu * (k + 1)
            by_weight.setdefault(weight, []).append(cpu)
        rows.append((max(1, count // size - random.randint(0, 1)), sorted(by_weight.items())))
    return rows


def problem(rows):
    lines = ["numarun-certificate 1"]
    for k, (demand, offers) in enumerate(rows):
        lines.append(" ".join([f"row r{k} {demand}"] + [f"{weight}:{shown(part)}" for weight, part in offers]))
    return "\n".join(lines + ["short r0", "end", ""])


def write(folder):
    for name, (count, cpus, rows, weights) in MADE.items():
        random.seed(name)
        Path(folder, name).write_text("".join(problem(made(cpus, rows, weights)) for _ in range(count)))
    for name, count, rows_of in ("in-turn", IN_TURN, in_turn), ("of-runs", OF_RUNS, of_runs):
        random.seed(name)
        Path(folder, name).write_text("".join(problem(rows_of()) for _ in range(count)))
    random.seed("alike")
    Path(folder, "alike").write_text("".join(problem(alike(share)) for share, count in ALIKE for _ in range(count)))
    for name, family in (FAMILIES | HARD).items():
        random.seed(name)
        sized = [list(family(range(1, last + 1), rows)) for last, rows in SIZES]
        Path(folder, name).write_text("".join(text(rows) for rows in sized if all(demand for demand, _ in rows)))


def see(folder):
    """Of each made file, how many answers are plans and shortages; and that there are many of both in all."""
    seen = Counter()
    for name in (*MADE, "in-turn", "of-runs", "alike"):
        answers = Path(folder, name + ".stdout").read_text().split("turns ")
        for answer in answers[:-1]:
            seen["shortages" if "short " in answer else "plans"] += 1
    print("first-form:", ", ".join(f"{seen[name]} {name}" for name in ("plans", "shortages")))
    if min(seen["plans"], seen["shortages"]) < 300:
        sys.exit("first-form: too few of one kind")


see(sys.argv[2]) if sys.argv[1] == "--seen" else write(sys.argv[1])
