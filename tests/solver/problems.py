"""Problems made by a fixed rule, small ones and those as large as may be, and what a plain solver finds of them that tries every
plan."""

import os
import random
import sys

HERE = os.path.dirname(os.path.abspath(__file__))
sys.path[:0] = [os.path.join(HERE, "..", "certificates"), os.path.join(HERE, "..", "scripts")]
import plain_plan
from reference import SCALE, least_cost, numbers

# As many as there may be.
CPUS, ROWS = 4096, 1024


def made():
    """The rows of a problem: up to four, over up to seven CPUs, some of them alike to all rows."""
    cpus = random.sample(range(12), random.randint(1, 7))
    groups = [random.sample(cpus, random.randint(1, len(cpus))) for _ in range(3)]
    rows = []
    for k in range(random.choice((0, 1, 2, 2, 3, 3, 4, 4))):
        weights = {}
        for group in random.sample(groups, random.randint(1, 3)) + [random.sample(cpus, random.randint(0, len(cpus)))]:
            moves = SCALE * random.randint(1, 3) + random.randint(0, 1)
            weight = random.choice((random.randint(0, 3), random.randint(10, 30), random.randint(0, 33_554_431), moves, moves))
            weights.update(dict.fromkeys(group, weight))
        by_weight = {}
        for cpu, weight in weights.items():
            by_weight.setdefault(weight, set()).add(cpu)
        offers = list(by_weight.items())
        random.shuffle(offers)
        rows.append((f"r{k}", random.choice((1, 1, 1, 2, 2, 3)), offers))
    return rows


def own_offers(kinds, demand):
    """As many rows as there may be, each with CPUs and weights of its own, over some hundred classes and more; its name has 64
    bytes. Each row may have four CPUs that are near to no other one, so that with a demand of 4 at most there is a plan."""
    kind = [random.randrange(kinds) for _ in range(CPUS)]
    rows = []
    for k in range(ROWS):
        near, taste = set(range(4 * k, 4 * k + 4)), random.randrange(1, kinds)
        may = {cpu: 20 + (kind[cpu] * taste + k) % 23 for cpu in range(CPUS) if (kind[cpu] + k) % 5 == 0} | dict.fromkeys(near, 33)
        by_weight = {}
        for cpu, weight in may.items():
            by_weight.setdefault(weight, set()).add(cpu)
        rows.append((f"r{k:04}" + "z" * 59, demand, sorted(by_weight.items())))
    return rows


def whole_lack():
    """As many rows as there may be, which lack CPUs together and no fewer of them do."""
    return [(f"r{k}", 4, [(33_554_431, set(range(CPUS - 1)))]) for k in range(ROWS)]


def largest():
    """Problems as large as may be, with their number of members where they are a shortage, and the turns where they are known.
    A row whose CPUs are all of different weights: the search for its nth one takes up the row, the n - 1 that it holds, and the next."""
    each_a_class = [("a", CPUS, [(33_554_431 - cpu, {cpu}) for cpu in range(CPUS)])]
    return [(own_offers(40, 2), 0, None), (own_offers(4000, 1), 0, None), (own_offers(4000, 4), 0, None), (whole_lack(), ROWS, None),
            ([("a", CPUS, [(0, set(range(CPUS)))])], 0, 2), ([("a", CPUS, [(0, set(range(CPUS - 1)))])], 1, 4),
            ([(k, CPUS // 2, [(10, set(range(first, CPUS, 2)))]) for k, first in (("a", 0), ("b", 1))], 0, 4),
            ([("a", 2048, [(cpu, {cpu}) for cpu in range(CPUS - 1)])], 0, sum(n + 1 for n in range(1, 2049))),
            (each_a_class, 0, sum(n + 1 for n in range(1, CPUS + 1)))]


def problem(rows):
    lines = ["numarun-certificate 1"]
    for name, demand, offers in rows:
        lines.append(" ".join([f"row {name} {demand}"] + [f"{w}:{','.join(map(str, sorted(s)))}" for w, s in offers]))
    return lines


def classes(rows):
    """The CPUs with a weight, by the weights that all rows have for them."""
    weights = [{cpu: w for w, s in offers for cpu in s} for _, _, offers in rows]
    alike = {}
    for cpu in sorted(set().union(*weights)):
        alike.setdefault(tuple(w.get(cpu) for w in weights), []).append(cpu)
    return list(alike.values())


def is_small(rows):
    """Whether every plan can be tried."""
    return len(rows) <= 4 and len(set().union(*(s for _, _, offers in rows for _, s in offers))) <= 7


def least_of(rows, lines):
    """The cost of a least plan, or None where there is none. Large problems are not tried: there a plan that no exchange makes
    cheaper is a least one, and else there is none, which is shown by the shortage."""
    if is_small(rows):
        return least_cost(rows)
    if lines and lines[0][0] == "short":
        return None
    weighed = [(demand, {cpu: weight for weight, s in offers for cpu in s}) for _, demand, offers in rows]
    plan = [numbers(line[1].encode()) for line in lines[: len(rows)]]
    return plain_plan.cost_of(weighed, plan) if plain_plan.is_least(weighed, plan) else None
