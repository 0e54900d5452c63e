"""A second checker of certificate texts, written from docs/formats.md alone and by other means: it reads with
regular expressions, keeps sets as Python's, and finds the cost of a least plan by trying every plan."""

import functools
import itertools
import re

CPUS, ROWS = 4096, 1024
MOST = 1_099_511_627_776
# In version 2 a weight is a distance times this, and one more where a CPU moves.
SCALE = 65_536
HEADS = {b"numarun-certificate 1": False, b"numarun-certificate 2": True}


class BadText(Exception):
    pass


@functools.lru_cache(maxsize=100)
def numbers(word):
    """The set that a list names, or None where the word is no list or names nothing."""
    named = set()
    for item in word.split(b","):
        item = item.strip(b" \t\n")
        if not item:
            continue
        found = re.fullmatch(rb"([0-9]+)(?:-([0-9]+))?", item)
        if found is None:
            return None
        first, last = int(found[1]), int(found[2] or found[1])
        if max(first, last) >= CPUS or last < first:
            return None
        named.update(range(first, last + 1))
    return frozenset(named) or None


def number(word, bits):
    return int(word) if re.fullmatch(rb"0|[1-9][0-9]*", word) and int(word) < 2**bits else None


def is_id(word):
    return re.fullmatch(rb"[A-Za-z0-9_\-.+]{1,64}", word) is not None and word not in (b".", b"..")


def wanted(value, line):
    if value is None:
        raise BadText(line)
    return value


def total_of(words, scaled):
    """The distance and the moves of a total line, or the distance alone, or None where it is none of the version."""
    if scaled:
        told = (number(words[1], 48), number(words[3], 16)) if len(words) == 4 and words[2] == b"moves" else (None,)
    else:
        told = (number(words[1], 64),) if len(words) == 2 else (None,)
    return None if None in told else told


def read(text):
    """Rows (id, demand, offers), holds (set, value), prices (amount, set), the total (distance, and in version 2 moves), the
    members of a shortage, and whether it is version 2."""
    rows, holds, prices, total, members, scaled = [], [], [], None, [], False
    ids, lines = set(), text.split(b"\n")
    section = "head"
    for at, line in enumerate(lines, 1):
        words = line.split(b" ")
        if section == "done":
            if at == len(lines) and line == b"":
                return rows, holds, prices, total, members, scaled
            raise BadText(at)
        if at == len(lines):
            raise BadText(at)
        if section == "head" and line in HEADS:
            section, scaled = "rows", HEADS[line]
        elif section == "rows" and words[0] == b"row" and len(words) >= 3:
            if not is_id(words[1]) or words[1] in ids:
                raise BadText(at)
            ids.add(words[1])
            offers = []
            for word in words[3:]:
                parts = word.split(b":")
                if len(parts) != 2:
                    raise BadText(at)
                offers.append((wanted(number(parts[0], 32), at), wanted(numbers(parts[1]), at)))
            rows.append((words[1], wanted(number(words[2], 32), at), offers))
        elif section == "rows" and len(holds) < len(rows) and words[0] == b"hold" and len(words) == 4:
            if words[1] != rows[len(holds)][0]:
                raise BadText(at)
            holds.append((wanted(numbers(words[2]), at), wanted(number(words[3], 64), at)))
            section = "holds"
        elif section == "holds" and len(holds) < len(rows) and words[0] == b"hold" and len(words) == 4:
            if words[1] != rows[len(holds)][0]:
                raise BadText(at)
            holds.append((wanted(numbers(words[2]), at), wanted(number(words[3], 64), at)))
        elif section in ("rows", "holds") and len(holds) == len(rows) and words[0] == b"price" and len(words) == 3:
            prices.append((wanted(number(words[1], 64), at), wanted(numbers(words[2]), at)))
            section = "holds"
        elif section in ("rows", "holds") and len(holds) == len(rows) and words[0] == b"total":
            total = wanted(total_of(words, scaled), at)
            section = "end"
        elif section in ("rows", "shorts") and words[0] == b"short" and len(words) == 2:
            later = range(members[-1] + 1 if members else 0, len(rows))
            members.append(wanted(next((k for k in later if rows[k][0] == words[1]), None), at))
            section = "shorts"
        elif section in ("end", "shorts") and line == b"end":
            section = "done"
        else:
            raise BadText(at)
    raise BadText(len(lines))


def overlap(sets):
    return sum(len(s) for s in sets) != len(set().union(*sets))


@functools.lru_cache(maxsize=100)
def weights_of(offers):
    return {cpu: weight for weight, s in offers for cpu in s}


def check(text):
    """The line that a check of the text answers."""
    try:
        rows, holds, prices, total, members, scaled = read(text)
    except BadText as bad:
        return f"refused E77 BadText {bad.args[0]}"
    too_much = len(rows) > ROWS or any(not 1 <= demand <= CPUS for _, demand, _ in rows)
    too_much |= any(weight > 33_554_431 for _, _, offers in rows for weight, _ in offers)
    too_much |= any(value > MOST for _, value in holds) or any(amount > MOST for amount, _ in prices)
    too_much |= any(overlap([s for _, s in offers]) for _, _, offers in rows) or overlap([s for _, s in prices])
    too_much |= scaled and any(weight % SCALE > 1 for _, _, offers in rows for weight, _ in offers)
    if too_much:
        return "refused E70 BadProblem"
    if members:
        asked = sum(rows[k][1] for k in members)
        allowed = len(set().union(*(s for k in members for _, s in rows[k][2])))
        return f"short demand {asked} cpus {allowed}" if asked > allowed else "refused E76 NoShortage"
    weights = [weights_of(tuple(offers)) for _, _, offers in rows]
    for k, (_, demand, _) in enumerate(rows):
        if len(holds[k][0]) != demand:
            return f"refused E71 WrongCount {k}"
        if holds[k][0] - weights[k].keys():
            return f"refused E72 NotAllowed {k} {min(holds[k][0] - weights[k].keys())}"
    earlier = set()
    for cpus, _ in holds:
        if cpus & earlier:
            return f"refused E73 HeldTwice {min(cpus & earlier)}"
        earlier |= cpus
    price = {cpu: amount for amount, s in prices for cpu in s}
    for k, (_, value) in enumerate(holds):
        high = [cpu for cpu in weights[k] if value > weights[k][cpu] + price.get(cpu, 0)]
        if high:
            return f"refused E74 ValueTooHigh {k} {min(high)}"
    held = [weights[k][cpu] for k in range(len(rows)) for cpu in holds[k][0]]
    bound = sum(demand * holds[k][1] for k, (_, demand, _) in enumerate(rows)) - sum(price.values())
    cost = parts_of(held, scaled)
    return answer_of(cost) if sum(held) == bound and cost == total else "refused E75 Gap"


def parts_of(weights, scaled):
    """What a total says of CPUs of these weights: their distance together, and in version 2 how many of them move."""
    return (sum(w // SCALE for w in weights), sum(w % SCALE for w in weights)) if scaled else (sum(weights),)


def answer_of(total):
    return " moves ".join(["plan total " + str(total[0])] + [str(moves) for moves in total[1:]])


def least(rows, scaled):
    """The total of a least plan, which in version 2 is of least distance and moves the fewest CPUs of all plans of that distance,
    by trying every plan, or None where there is none. For small problems alone."""
    totals = {frozenset(): parts_of([], scaled)}
    for _, demand, offers in rows:
        weights = {cpu: weight for weight, s in offers for cpu in s}
        grown = {}
        for held, total in totals.items():
            for cpus in itertools.combinations(sorted(weights.keys() - held), demand):
                here = tuple(map(sum, zip(total, parts_of([weights[c] for c in cpus], scaled))))
                grown[held | set(cpus)] = min(grown.get(held | set(cpus), here), here)
        totals = grown
    return min(totals.values(), default=None)


def least_cost(rows):
    found = least(rows, False)
    return None if found is None else found[0]
