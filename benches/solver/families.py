"""Writes the problems of the solver's benchmark into a folder, each as a certificate text: `families.py FOLDER LAST ROWS`.

All have the CPUs from 1 to LAST, and ROWS rows unless their name says another number. A machine's nodes stand in a ring, a
row is at home on one of them, and its weights are the distances to it. `full` is the share of the CPUs that the rows ask for
together. `HARD` are families on which LEMON's network simplex is at its best, or a search at its worst."""

import math
import random
import sys
from pathlib import Path

# The last CPU and the rows: a quarter of what there may be, and all of it.
SIZES = [(1023, 256), (4095, 1024)]


def demands(cpus, rows, full):
    """About equal numbers, of this share of the CPUs in all."""
    asked = round(len(cpus) * full)
    counts = [asked // rows + (k < asked % rows) for k in range(rows)]
    random.shuffle(counts)
    return counts


def distance(i, j, nodes):
    steps = min((i - j) % nodes, (j - i) % nodes)
    return 10 + 10 * steps if steps < 24 else 254


def machine(cpus, rows, nodes, full, own_list=False, crowded=False, in_turn=False):
    """Rows at home on the nodes in turn, or by chance; with lists of their own they may have half of the CPUs each. A node has
    CPUs one after another, or, numbered in turn, each `nodes`th."""
    size = -(-len(cpus) // nodes)
    for k, demand in enumerate(demands(cpus, rows, full)):
        allowed = random.sample(cpus, len(cpus) // 2) if own_list else cpus
        home = random.randrange(nodes) if crowded else k % nodes
        yield demand, {cpu: distance((cpu - 1) % nodes if in_turn else (cpu - 1) // size, home, nodes) for cpu in allowed}


def spread(cpus, rows, full, low, high):
    """A weight by chance for each CPU in each row."""
    for demand in demands(cpus, rows, full):
        yield demand, {cpu: random.randint(low, high) for cpu in cpus}


def held(cpus, rows, nodes, full):
    """A machine's distances, and one more for a CPU that the row does not hold."""
    left = list(cpus)
    for demand, weights in machine(cpus, rows, nodes, full):
        own, left = set(left[:demand]), left[demand:]
        yield demand, {cpu: 65536 * weight + (cpu not in own) for cpu, weight in weights.items()}


def by_moves(rows, order_of):
    """Rows that each hold the first CPUs of their order that are left, and 65,536 times the weight, and one more for a CPU that
    they do not hold."""
    taken = set()
    for demand, weights in rows:
        own = [cpu for cpu in order_of(weights) if cpu not in taken][:demand]
        taken.update(own)
        yield demand, {cpu: 65536 * weight + (cpu not in own) for cpu, weight in weights.items()}


def held_in_turn(cpus, rows, nodes, full):
    """CPUs numbered in turn over the nodes, behind a first plan: rows hold CPUs that are as near as may be."""
    return by_moves(machine(cpus, rows, nodes, full, in_turn=True), lambda weights: sorted(weights, key=weights.get))


def held_pairs(cpus, rows, nodes, full):
    """Cores of two CPUs, k and k + half of all; each row holds whole ones, those next to it."""
    half = len(cpus) // 2
    cores = -(-half // nodes)
    first = {cpu: (cpu - 1) % half for cpu in cpus[: 2 * half]}
    asked = [(2 * max(1, demand // 2), k % nodes) for k, demand in enumerate(demands(cpus, rows, full))]
    made = ((demand, {cpu: distance(core // cores, home, nodes) for cpu, core in first.items()}) for demand, home in asked)
    return by_moves(made, lambda weights: sorted(weights, key=lambda cpu: (weights[cpu], first[cpu])))


def stripes(cpus, rows):
    """An eighth of the rows may have each 32nd CPU, each other ones; to all others stripes of 32 CPUs have two weights in turn."""
    for k in range(rows):
        if k < min(32, rows // 8):
            yield 1, {cpu: 100 + k for cpu in cpus if cpu % 32 == k}
        else:
            yield 1, {cpu: 1000 + 2 * k + cpu // 32 % 2 for cpu in cpus}


def no_plan(cpus, rows):
    """Weights by chance, and some rows that may have too few CPUs."""
    few = random.sample(cpus, 24)
    for k, (demand, weights) in enumerate(spread(cpus, rows, 0.95, 10, 254)):
        yield demand, {cpu: weights[cpu] for cpu in few} if k % 32 == 31 else weights


def weighted(cpus, rows, weight, counts=None):
    """All CPUs, each at the weight that a row's number and the CPU's give, all of them asked for."""
    for k, demand in enumerate(counts or demands(cpus, rows, 1)):
        yield demand, {cpu: weight(k, cpu) for cpu in cpus}


def last_takes_all(cpus, rows):
    """A CPU each, at weights that are products, and what is left for the last row."""
    return weighted(cpus, rows, lambda k, cpu: (k + 1) * cpu, [1] * (rows - 1) + [len(cpus) - rows + 1])


def low_rank(cpus, rows):
    """Products of two numbers by chance, and a little more."""
    of_row, of_cpu = [[random.randint(1, 5000) for _ in range(count)] for count in (rows, cpus[-1] + 1)]
    return weighted(cpus, rows, lambda k, cpu: of_row[k] * of_cpu[cpu] + random.randrange(10))


def geometric(cpus, rows):
    return weighted(cpus, rows, lambda k, cpu: min(33_554_431, int(2 ** (24.9 * (k + 1) / rows * cpu / cpus[-1])) + cpu))


def plane(cpus, rows):
    """Points of a square, and how far they lie apart."""
    of_row, of_cpu = [[(random.random(), random.random()) for _ in range(count)] for count in (rows, cpus[-1] + 1)]
    return weighted(cpus, rows, lambda k, cpu: 1 + int(10000 * math.dist(of_row[k], of_cpu[cpu])))


def nested(cpus, rows):
    """Each row may have what the rows before it may, and some more, at weights by chance."""
    for k in range(rows):
        yield max(1, len(cpus) // rows), {cpu: random.randint(10, 254) for cpu in cpus[: len(cpus) * (k + 1) // rows]}


def hidden_plan(cpus, rows, more, weight):
    """A plan by chance that takes all CPUs, and some CPUs more in each row, as NETGEN makes such problems."""
    left = random.sample(cpus, len(cpus))
    for demand in demands(cpus, rows, 1):
        own, left = left[:demand], left[demand:]
        yield demand, {cpu: weight() for cpu in own + random.sample(cpus, min(more, len(cpus)))}


def few_shift_many(cpus, rows):
    """One weight. Most rows hold the first third and may have the second, eight hold that one and may have the last, and
    eight that come last want the first: each of their CPUs moves most rows."""
    third = len(cpus) // 3
    thirds = [list(cpus[third * i : third * (i + 1)]) for i in range(3)]
    few = max(1, rows // 32)
    for count, held, more in (rows - 2 * few, 0, 1), (few, 1, 2), (few, 0, None):
        for k in range(count):
            own = thirds[held][third * k // count : third * (k + 1) // count]
            may = thirds[held] if more is None else thirds[held] + thirds[more]
            allowed = set(own).union(cpu for cpu in may if random.random() < 0.95)
            yield len(own), dict.fromkeys(allowed, 10)


def own_few(cpus, rows):
    """The four CPUs that each row asks for, by chance, and no others."""
    left = random.sample(cpus, len(cpus))
    for k in range(min(rows, len(cpus) // 4)):
        yield 4, dict.fromkeys(left[4 * k : 4 * k + 4], 10)


HARD = {
    "products": lambda cpus, rows: weighted(cpus, rows, lambda k, cpu: (k + 1) * cpu),
    "last-takes-all": last_takes_all,
    "low-rank": low_rank,
    "geometric": geometric,
    "plane": plane,
    "nested": nested,
    "netgen-16": lambda cpus, rows: hidden_plan(cpus, rows, 16, lambda: random.randint(1, 10000)),
    "short-lists": lambda cpus, rows: hidden_plan(cpus, rows, 6, lambda: 10),
    "few-shift-many": few_shift_many,
    "own-few": own_few,
    "stripes": stripes,
}

FAMILIES = {
    "machine-2-nodes-95": lambda cpus, rows: machine(cpus, rows, 2, 0.95),
    "machine-8-nodes-95": lambda cpus, rows: machine(cpus, rows, 8, 0.95),
    "machine-64-nodes-95": lambda cpus, rows: machine(cpus, rows, 64, 0.95),
    "machine-64-nodes-100": lambda cpus, rows: machine(cpus, rows, 64, 1),
    "machine-128-nodes-95": lambda cpus, rows: machine(cpus, rows, 128, 0.95),
    "own-lists-2-nodes-95": lambda cpus, rows: machine(cpus, rows, 2, 0.95, own_list=True),
    "own-lists-8-nodes-64-rows-95": lambda cpus, rows: machine(cpus, 64, 8, 0.95, own_list=True),
    "own-lists-64-nodes-100": lambda cpus, rows: machine(cpus, rows, 64, 1, own_list=True),
    "crowded-64-nodes-100": lambda cpus, rows: machine(cpus, rows, 64, 1, crowded=True),
    "crowded-own-lists-64-nodes-100": lambda cpus, rows: machine(cpus, rows, 64, 1, own_list=True, crowded=True),
    "spread-95": lambda cpus, rows: spread(cpus, rows, 0.95, 10, 254),
    "spread-100": lambda cpus, rows: spread(cpus, rows, 1, 10, 254),
    "wide-95": lambda cpus, rows: spread(cpus, rows, 0.95, 10, 33_554_431),
    "held-8-nodes-95": lambda cpus, rows: held(cpus, rows, 8, 0.95),
    "no-plan-spread": no_plan,
    "in-turn-8-nodes-95": lambda cpus, rows: machine(cpus, rows, 8, 0.95, in_turn=True),
    "in-turn-64-nodes-95": lambda cpus, rows: machine(cpus, rows, 64, 0.95, in_turn=True),
    "held-in-turn-2-nodes-95": lambda cpus, rows: held_in_turn(cpus, rows, 2, 0.95),
    "held-in-turn-8-nodes-95": lambda cpus, rows: held_in_turn(cpus, rows, 8, 0.95),
    "held-in-turn-64-nodes-95": lambda cpus, rows: held_in_turn(cpus, rows, 64, 0.95),
    "held-pairs-2-nodes-95": lambda cpus, rows: held_pairs(cpus, rows, 2, 0.95),
    "held-pairs-8-nodes-95": lambda cpus, rows: held_pairs(cpus, rows, 8, 0.95),
}


def shown(cpus):
    ranges = []
    for cpu in sorted(cpus):
        if ranges and ranges[-1][1] + 1 == cpu:
            ranges[-1][1] = cpu
        else:
            ranges.append([cpu, cpu])
    return ",".join(str(a) if a == b else f"{a}-{b}" for a, b in ranges)


def text(rows):
    """The rows as a certificate; its one member is there to end it."""
    lines = ["numarun-certificate 1"]
    for k, (demand, weights) in enumerate(rows):
        by_weight = {}
        for cpu, weight in weights.items():
            by_weight.setdefault(weight, []).append(cpu)
        offers = [f"{weight}:{shown(by_weight[weight])}" for weight in sorted(by_weight)]
        lines.append(" ".join([f"row r{k} {demand}"] + offers))
    return "\n".join(lines + ["short r0", "end", ""])


def main(folder, last, rows):
    for name, made in (FAMILIES | HARD).items():
        random.seed(name)
        Path(folder, name).write_text(text(made(range(1, int(last) + 1), int(rows))))


if __name__ == "__main__":
    main(*sys.argv[1:])
