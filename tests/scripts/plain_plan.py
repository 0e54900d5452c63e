"""Plans of least cost for small problems, found one CPU at a time by cheapest exchanges, and prices that prove them; or rows
that ask for more than they may have. A problem is a list of `(demand, {cpu: weight})`, a plan a list of sets.

Which plan moves the fewest CPUs depends on what each row holds, a list of sets beside the problem. Of weights that are
distances `with_moves` makes those of a problem whose plans of least cost are of least distance and, among these, move the
fewest CPUs; where the problem is small, `by_trying` finds both numbers in another way, by trying every plan."""

import itertools
import math

SCALE = 65_536
# So many sets at most are tried for the rows of a problem, one after another.
TRIED = 20_000


def with_moves(rows, held):
    """The problem in which a CPU weighs its distance many times, and one more where the row does not hold it."""
    return [(demand, {cpu: SCALE * distance + (cpu not in has) for cpu, distance in distances.items()})
            for (demand, distances), has in zip(rows, held)]


def moved(plan, held):
    """How many CPUs rows get that they do not hold."""
    return sum(len(cpus - has) for cpus, has in zip(plan, held))


def is_small(rows):
    """Whether every plan can be tried."""
    there, taken, work = len(set().union(*(weights for _, weights in rows))), 0, 0
    for demand, _ in rows:
        if work <= TRIED:
            work += math.comb(there, taken) * math.comb(max(there - taken, 0), demand)
            taken += demand
    return work <= TRIED


def by_trying(rows, held):
    """The least distance of a plan and the fewest moves of a plan of that distance, by trying every plan; or None where there
    is none."""
    found = {frozenset(): (0, 0)}
    for (demand, distances), has in zip(rows, held):
        grown = {}
        for taken, (distance, moves) in found.items():
            for cpus in itertools.combinations(sorted(distances.keys() - taken), demand):
                key = taken.union(cpus)
                here = (distance + sum(distances[cpu] for cpu in cpus), moves + len(set(cpus) - has))
                grown[key] = min(grown.get(key, here), here)
        found = grown
    return min(found.values(), default=None)


def cheapest_exchanges(rows, plan, start):
    """Of all ways to give the row a CPU more, what is taken in the cheapest, as `(row, cpu)`, last a CPU that nobody holds; or,
    where there is none, the rows that were looked at."""
    holder = {cpu: k for k, cpus in enumerate(plan) for cpu in cpus}
    best = {start: (0, [])}
    for _ in rows:
        for k, (cost, taken) in list(best.items()):
            for cpu, weight in rows[k][1].items():
                loser = holder.get(cpu, k)
                if loser != k:
                    after = cost + weight - rows[loser][1][cpu]
                    if loser not in best or after < best[loser][0]:
                        best[loser] = (after, taken + [(k, cpu)])
    ends = [(cost + weight, cpu, taken + [(k, cpu)])
            for k, (cost, taken) in best.items() for cpu, weight in rows[k][1].items() if cpu not in holder]
    return (min(ends)[2], None) if ends else (None, sorted(best))


def classes(rows):
    """The CPUs with a weight, by what all rows weigh them; those of a class are twins."""
    alike = {}
    for cpu in sorted(set().union(*(weights for _, weights in rows))):
        alike.setdefault(tuple(weights.get(cpu) for _, weights in rows), []).append(cpu)
    return list(alike.values())


def dealt(rows, plan, alike=None):
    """The plan with the same numbers of twins in each row, the lower CPUs in the earlier rows."""
    sets = [set() for _ in rows]
    for twins in alike or classes(rows):
        left = list(twins)
        for k, cpus in enumerate(plan):
            for _ in cpus & set(twins):
                sets[k].add(left.pop(0))
    return sets


def only_needed(rows, members):
    """The members of a shortage, or of a smaller one, of which none can be left out: without it the others have a plan."""
    for k in members:
        rest = [j for j in members if j != k]
        plan, short = work_out([rows[j] for j in rest])
        if plan is None:
            return [rest[place] for place in short]
    return members


def work_out(rows):
    """`(plan, None)`, the plan of least cost and dealt, or `(None, members)` of a shortage of which none can be left out."""
    plan = [set() for _ in rows]
    for k, (demand, _) in enumerate(rows):
        for _ in range(demand):
            taken, members = cheapest_exchanges(rows, plan, k)
            if members is not None:
                return None, only_needed(rows, sorted(members))
            for row, cpu in reversed(taken):
                for cpus in plan:
                    cpus.discard(cpu)
                plan[row].add(cpu)
    return dealt(rows, plan), None


def cost_of(rows, plan):
    return sum(weights[cpu] for (_, weights), cpus in zip(rows, plan) for cpu in cpus)


def proof(rows, plan):
    """Values and prices that prove a plan of least cost."""
    price = {cpu: 0 for _, weights in rows for cpu in weights}
    rises = True
    while rises:
        rises = False
        for (_, weights), cpus in zip(rows, plan):
            value = max((weights[cpu] + price[cpu] for cpu in cpus), default=0)
            for cpu, weight in weights.items():
                if weight + price[cpu] < value:
                    price[cpu], rises = value - weight, True
    values = [min((weight + price[cpu] for cpu, weight in weights.items()), default=0) for _, weights in rows]
    return values, price


def is_plan(rows, plan):
    fits = all(len(cpus) == demand and cpus <= weights.keys() for cpus, (demand, weights) in zip(plan, rows))
    return fits and len(set().union(*plan)) == sum(map(len, plan))


def exchanges(rows, plan, alike):
    """What it costs at least that row k takes a CPU of row l, as `{(k, l): cost}`. Behind the rows stands one that holds what
    nobody holds, and that has any CPU for nothing."""
    nobody = len(rows)
    holder = {cpu: k for k, cpus in enumerate(plan) for cpu in cpus}
    costs = {}
    for twins in alike:
        weighed = [(k, weights[twins[0]]) for k, (_, weights) in enumerate(rows) if twins[0] in weights]
        weighed = dict(weighed + [(nobody, 0)])
        for l in {holder.get(cpu, nobody) for cpu in twins}:
            for k, weight in weighed.items():
                if k != l:
                    costs[k, l] = min(costs.get((k, l), weight - weighed[l]), weight - weighed[l])
    return costs


def can_be_cheaper(rows, plan, alike):
    """Whether some rows gain if each takes a CPU of the next one, in a ring. Where none do, the plan is of least cost."""
    costs = [(k, l, cost) for (k, l), cost in exchanges(rows, plan, alike).items()]
    best = [0] * (len(rows) + 1)
    for _ in range(len(rows) + 2):
        before = list(best)
        for k, l, cost in costs:
            if best[k] + cost < best[l]:
                best[l] = best[k] + cost
        if best == before:
            return False
    return True


def is_least(rows, plan):
    """Whether it is a plan of least cost, and dealt."""
    alike = classes(rows)
    return is_plan(rows, plan) and dealt(rows, plan, alike) == plan and not can_be_cheaper(rows, plan, alike)


def is_short(rows, members):
    allowed = set().union(*(rows[k][1] for k in members))
    return sum(rows[k][0] for k in members) > len(allowed)


def can_be_left_out(rows, members):
    """Members without which the others have no plan either."""
    return [k for k in members if work_out([rows[j] for j in members if j != k])[0] is None]
