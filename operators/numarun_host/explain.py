"""Explains a plan or a shortage by its certificate alone, which it reads in the answers of a script on standard input.

Of a plan: which CPUs of a container are far, who holds the nearer ones and whether he may have others, and what another CPU
there would be worth. Of a shortage: how many CPUs are missing, and whom to end, to shrink or to allow more; whatever is
named as enough is enough for all containers, those that are not short too. Put the command `certificate` behind `rebalance`
in the script; a certificate alone will do as well. Of several the last one is explained.

What a CPU is worth is its price, a dual variable of the plan: no plan with one CPU more that is like it, for each container
as near and as allowed, has a total that is less by more than that. Where the machine file lists cores, a plan gives whole ones,
and moves and worths are those of cores."""

from __future__ import annotations

import argparse
from bisect import bisect_right
from collections import deque
from typing import Callable, Dict, Iterable, List, Optional, Sequence, Set, Tuple

from .answers import LOCAL, Answers, Certificate, cut, wrapped
from .cpus import Cpus, counted, cpus_of, mask_of, print_list, size
from .machine import Machine
from .names import short

EXAMPLE = """example, from the top of the repository:
  operators/numarun-explain examples/machines/two-socket.json < examples/scripts/before-and-after.answers"""
NAMED = 12  # as many are named where there may be a thousand


def joined(told: Iterable[str]) -> str:
    """Names in a sentence, the first of them where there are many."""
    names = [short(name) for name in told]
    if len(names) > NAMED:
        names = names[: NAMED - 1] + [f"{len(names) - NAMED + 1} more"]
    return names[0] if len(names) == 1 else f"{', '.join(names[:-1])} and {names[-1]}"


def check_plan(told: Certificate) -> Optional[str]:
    """What is wrong with a plan's proof, or nothing: each CPU is held once and offered, and values and prices bound the total."""
    taken, total, prices = 0, 0, Prices(told)
    for name, demand in told.demand.items():
        held = told.holds.get(name, 0)
        if name not in told.holds or size(held) != demand or held & taken or held & ~told.allowed(name):
            return f"what {name} holds is no plan"
        taken |= held
        total += sum(weight * size(held & cpus) for weight, cpus in told.offers[name])
        if any(cpus & ~prices.at_least(told.values[name] - weight) for weight, cpus in told.offers[name]):
            return f"the value of {name} is too high"
    bound = sum(told.demand[name] * value for name, value in told.values.items())
    bound -= sum(amount * size(cpus) for amount, cpus in told.prices)
    if told.total is None or not bound == total == told.total * told.scale + told.moves:
        return "its values and prices do not come to its total"
    return None


class Prices:
    """The CPUs by their prices; one that has none is at 0."""

    def __init__(self, told: Certificate) -> None:
        self.amounts: List[int] = []
        self.masks: List[int] = []
        above = 0
        for amount, cpus in sorted(told.prices, reverse=True):
            above |= cpus
            self.amounts.append(-amount)
            self.masks.append(above)

    def at_least(self, amount: int) -> int:
        """The CPUs of this price or a higher one."""
        count = bisect_right(self.amounts, -amount)
        return -1 if amount <= 0 else self.masks[count - 1] if count else 0


def check_shortage(told: Certificate) -> Optional[str]:
    allowed = 0
    for name in told.short:
        allowed |= told.allowed(name)
    return None if sum(told.demand[name] for name in told.short) > size(allowed) else "those that are short are not"


# Plans.


class Explained:
    """A plan, from its certificate."""

    def __init__(self, told: Certificate, machine: Machine) -> None:
        self.told, self.reserved = told, mask_of(machine.reserved)
        self.slack = sum(told.demand.values()) - told.moves  # moves are no more than the cores that are asked for
        self.nodes = [mask_of(cpus & machine.cores.keys()) for cpus in machine.nodes]
        self.offered = {name: self.by_distance(offers) for name, offers in told.offers.items()}
        self.worths = self.by_distance([((amount + self.slack if told.scale != 1 else amount), cpus) for amount, cpus in told.prices])

    def by_distance(self, offers: Iterable[Tuple[int, int]]) -> Dict[int, int]:
        """What is offered at each distance, the nearest first."""
        found: Dict[int, int] = {}
        for weight, cpus in sorted(offers):
            found[weight // self.told.scale] = found.get(weight // self.told.scale, 0) | cpus
        return found

    def heading(self) -> str:
        told = self.told
        moved = f", {counted(told.moves, told.unit)} moved" if told.scale != 1 else ""
        far = sum(bool(self.far(name)) for name in told.demand)
        where = f"far from home: CPUs of {counted(far, 'container')}" if far else "none is far from home"
        return f"plan: total distance {told.of_cpus(told.total or 0)}{moved}; {where}"

    def far(self, name: str) -> Dict[int, int]:
        """What a container holds beyond local, by distance."""
        held = self.told.holds[name]
        return {distance: cpus & held for distance, cpus in self.offered[name].items() if distance > LOCAL and cpus & held}

    def lines(self, name: str) -> List[str]:
        told, held, offered, far = self.told, self.told.holds[name], self.offered[name], self.far(name)
        distance = told.of_cpus(sum(distance * size(held & cpus) for distance, cpus in offered.items()))
        start = f"{short(name)}: {counted(told.of_cpus(told.demand[name]))}, distance {distance}: {told.listed(held)}"
        if not far:
            return [f"{start}: all near; {self.one_more(name)}"]
        farthest = max(far)
        nearer = {distance: cpus for distance, cpus in offered.items() if distance < farthest}
        lines = [start, *(f"  far: {told.listed(cpus)} at {distance}" for distance, cpus in far.items())]
        for distance, cpus in list(nearer.items())[:NAMED]:
            lines += self.holders(name, distance, cpus)
        lines += [] if nearer else ["  it may have none that are nearer"]
        lines += self.not_offered(name, farthest)
        return lines + self.worth(nearer) + [f"  {self.one_more(name)}"]

    def holders(self, name: str, distance: int, cpus: int) -> List[str]:
        """Who holds the CPUs that a container may have at this distance."""
        holds, listed = self.told.holds, self.told.listed
        lines = [f"  at {distance} it may have {listed(cpus)}"]
        if cpus & holds[name]:
            lines.append(f"    {listed(cpus & holds[name])}: its own")
        others = [other for other in holds if other != name and holds[other] & cpus]
        for other in others[:NAMED]:
            lines.append(f"    {listed(holds[other] & cpus)}: held by {short(other)}, which may have {self.others_of(other)}")
        return lines + ([f"    the others: held by {joined(others[NAMED:])}"] if others[NAMED:] else [])

    def others_of(self, name: str) -> str:
        """What a holder may have besides what it holds: the nearest of it."""
        free = [(distance, cpus & ~self.told.holds[name]) for distance, cpus in self.offered[name].items()]
        free = [(distance, cpus) for distance, cpus in free if cpus]
        told = [f"{cut(self.told.listed(cpus), 60)} at {distance}" for distance, cpus in free[:3]]
        farther = self.told.of_cpus(sum(size(cpus) for _, cpus in free[3:]))
        return " and ".join(told + ([f"{farther} farther ones"] if farther else [])) or "no others"

    def not_offered(self, name: str, distance: int) -> List[str]:
        """The CPUs of nearer nodes that are not offered to it, and why."""
        allowed, missing = self.told.allowed(name), 0
        for node in self.nodes:
            at = [offered for offered, cpus in self.offered[name].items() if cpus & node]
            missing |= node & ~allowed if at and min(at) < distance else 0
        parts = [(missing & self.reserved, "reserved"), (missing & ~self.reserved, "offline, or not on its list")]
        told = [f"{cut(self.told.listed(cpus), 160)} ({why})" for cpus, why in parts if cpus]
        return [f"  not for it: {', '.join(told)}"] if told else []

    def worth(self, nearer: Dict[int, int]) -> List[str]:
        """What a core more would be worth at the nearer places, by the prices there."""
        told, left = self.told, 0
        for cpus in nearer.values():
            left |= cpus
        groups = [(worth, cpus & left) for worth, cpus in reversed(list(self.worths.items())) if worth and cpus & left]
        lines = [f"  another {told.unit} like {told.listed(cpus)} would bring the total down by up to {told.of_cpus(worth)}" for worth, cpus in groups[:NAMED]]
        return lines + ([f"  .. and like others by up to {told.of_cpus(groups[NAMED][0])}"] if groups[NAMED:] else [])

    def one_more(self, name: str) -> str:
        """What it would cost if a container asked for one more: the total is at least so much higher then."""
        told, value = self.told, self.told.values[name]
        least = -(-(value - self.slack - 1) // told.scale) if told.scale != 1 else value
        return f"one more {told.unit} for it would add {told.of_cpus(max(least, 0))} or more"


# Shortages.


class Assignment:
    """A largest assignment of CPUs to containers, in which those that came first are served first: a flow over classes of CPUs
    that the same containers may have. The rest is CPUs that none of them may have. CPUs stand for cores, as in the certificate."""

    def __init__(self, told: Certificate, rest: int) -> None:
        self.told, self.lacks = told, dict(told.demand)
        self.masks = {name: told.allowed(name) for name in self.lacks}
        self.classes = self.split(set(self.masks.values()), rest)
        self.free = [size(mask) for mask in self.classes]
        self.got: List[Dict[str, int]] = [{} for _ in self.classes]  # for each class who has how many of it
        self.reach = {name: [k for k, cpus in enumerate(self.classes) if cpus & mask] for name, mask in self.masks.items()}
        for name in self.lacks:
            self.fill(name)

    @staticmethod
    def split(masks: Set[int], rest: int) -> List[int]:
        """The CPUs in classes of those that are in the same masks."""
        whole = rest
        for mask in masks:
            whole |= mask
        classes = [whole]
        for mask in masks | {rest}:
            classes = [part for cpus in classes for part in (cpus & mask, cpus & ~mask) if part]
        return classes

    def missing(self) -> int:
        return sum(self.lacks.values())

    def fill(self, name: str) -> bool:
        """Gives a container what can be given, and no other less than it has; whether that is all."""
        while self.lacks[name] and self.give(name):
            self.lacks[name] -= 1
        return not self.lacks[name]

    def give(self, name: str) -> bool:
        """One CPU more, for which others change theirs where it takes that (an augmenting path); whether there is one."""
        taker: Dict[int, str] = {}
        loses: Dict[str, Optional[int]] = {name: None}
        line = deque([name])
        while line:
            who = line.popleft()
            for k in self.reach[who]:
                if k not in taker:
                    taker[k] = who
                    if self.free[k]:
                        self.change(k, taker, loses)
                        return True
                    for other in self.got[k]:
                        if other not in loses:
                            loses[other] = k
                            line.append(other)
        return False

    def change(self, free: int, taker: Dict[int, str], loses: Dict[str, Optional[int]]) -> None:
        self.free[free] -= 1
        k: Optional[int] = free
        while k is not None:
            who = taker[k]
            self.got[k][who] = self.got[k].get(who, 0) + 1
            k = loses[who]
            if k is not None:
                self.got[k][who] -= 1
                if not self.got[k][who]:
                    del self.got[k][who]

    def after(self, change: Callable[[], None]) -> Optional[List[Dict[str, int]]]:
        """What a change comes to, which is undone: all that it answers, where all containers have a plan then."""
        kept = [dict(got) for got in self.got], list(self.free), dict(self.lacks), dict(self.reach)
        change()
        healed = all(self.fill(name) for name in self.lacks)
        told = [dict(got) for got in self.got]
        self.got, self.free, self.lacks, self.reach = kept
        return told if healed else None

    def heals_without(self, name: str) -> bool:
        """Whether there is a plan of all others."""

        def leave() -> None:
            for k, got in enumerate(self.got):
                self.free[k] += got.pop(name, 0)
            self.lacks[name] = 0

        return self.after(leave) is not None

    def heals_with(self, names: Sequence[str], more: int) -> Dict[str, int]:
        """The CPUs of these that each of the names is to be allowed besides, so that there is a plan; none where that is not enough."""

        def allow() -> None:
            for name in names:
                others = [k for k, cpus in enumerate(self.classes) if cpus & more and not cpus & self.masks[name]]
                self.reach[name] = self.reach[name] + others

        found: Dict[str, int] = {}
        for k, got in enumerate(self.after(allow) or []):
            free = sorted(cpus_of(self.classes[k]))
            for name in names:
                if not self.classes[k] & self.masks[name] and got.get(name):
                    found[name] = found.get(name, 0) | mask_of(free[: got[name]])
                    free = free[got[name] :]
        return found


def explain_shortage(told: Certificate, machine: Machine) -> List[str]:
    allowed, offered = 0, 0
    for name in told.demand:
        allowed |= told.allowed(name) if name in told.short else 0
        offered |= told.allowed(name)
    demand = sum(told.demand[name] for name in told.short)
    rest = mask_of(machine.cores_in(machine.present - machine.offline - machine.reserved)) & ~offered
    room = Assignment(told, rest)
    missing, here = room.missing(), demand - size(allowed)
    ask, there = "asks for" if len(told.short) == 1 else "together ask for", told.cpus(allowed)
    lines = [f"short: {joined(told.short)} {ask} {counted(told.of_cpus(demand))} and may have {len(there)}: {print_list(there)}"]
    in_all = f" for these, and {told.of_cpus(missing)} in all" if missing > here else ""
    lines.append(f"missing: {counted(told.of_cpus(here))}" + in_all)
    return lines + remedies(told, room, missing, rest) + unoffered(machine, told.cpus(offered))


def remedies(told: Certificate, room: Assignment, missing: int, rest: int) -> List[str]:
    """What gives all containers a plan: of one container, and of all together."""
    lacking = [name for name in told.demand if room.lacks[name]]
    names = [name for name in dict.fromkeys([*lacking, *told.short]) if told.demand[name] >= missing]
    ends: List[str] = []
    allows: List[str] = []
    tried = 4 * NAMED
    for name in names[:tried]:
        if room.heals_without(name):
            before, left = told.of_cpus(told.demand[name]), told.of_cpus(told.demand[name] - missing)
            ends.append(f"  end {short(name)}" + (f", or shrink it from {before} to {counted(left)}" if left else ""))
        allows += [f"  allow {text}" for text in allowed_more(room, [name], rest)]
    lines = few(ends) + few(allows)
    lines = ["each of these makes room by itself:"] + lines if lines else ["no single container makes room by itself"]
    lines += [f"  (not tried of {counted(len(names) - tried, 'other')})"] if names[tried:] else []
    if len(lacking) == 1:
        return lines
    shrinks = [(name, told.of_cpus(told.demand[name]), told.of_cpus(told.demand[name] - room.lacks[name])) for name in lacking]
    whole = [f"{short(name)} from {before} to {after}" if after else f"{short(name)} from {before} to 0 (end it)" for name, before, after in shrinks]
    lines.append(f"all of these together make room, the oldest being served first: shrink {joined(whole)}")
    more = allowed_more(room, lacking, rest)
    return lines + ([f"so do all of these: allow {joined(more)}"] if more else [])


def allowed_more(room: Assignment, names: Sequence[str], rest: int) -> List[str]:
    """What these are to be allowed besides, of CPUs that somebody may have now, or else of all."""
    found = room.heals_with(names, ~rest) or room.heals_with(names, ~0)
    unsure = ", if those of them that are for nobody now are online"
    lists = {name: room.told.cpus(more) for name, more in found.items()}
    return [f"{short(name)} {counted(len(more))} more, as {print_list(more)}{unsure if found[name] & rest else ''}" for name, more in lists.items()]


def few(lines: List[str]) -> List[str]:
    return lines[:NAMED] + ([f"  .. and of {counted(len(lines) - NAMED, 'other')} as well"] if lines[NAMED:] else [])


def unoffered(machine: Machine, offered: Cpus) -> List[str]:
    """CPUs that no container may have now, which says that they are offline, or on nobody's list."""
    cpus = machine.present - machine.reserved - offered
    return [f"for nobody: {print_list(cpus)}: offline, or on nobody's list"] if cpus else []


def explain(told: Certificate, machine: Machine, only: Optional[str] = None) -> List[str]:
    if told.short:
        return explain_shortage(told, machine)
    plan = Explained(told, machine)
    lines = [plan.heading()]
    for name in told.demand if only is None else [only]:
        lines += plan.lines(name)
    return lines


def laid_out(lines: Iterable[str]) -> str:
    return "\n".join(part for line in lines for part in wrapped(line, " " * (len(line) - len(line.lstrip()) + 4)))


def main() -> int:
    parser = argparse.ArgumentParser(description=__doc__, epilog=EXAMPLE, formatter_class=argparse.RawDescriptionHelpFormatter)
    parser.add_argument("machine", metavar="MACHINE", help="the machine file")
    parser.add_argument("answers", nargs="?", default="-", metavar="ANSWERS", help="the answers; none, or -, is standard input")
    parser.add_argument("--only", metavar="ID", help="of a plan: explain this container alone")
    words = parser.parse_intermixed_args()
    machine = Machine(words.machine)
    answers = Answers(words.answers, machine)
    if not answers.certificates:
        answers.at_end("the answers have no certificate: put the command `certificate` behind `rebalance`")
    told = answers.certificates[-1]
    if answers.outcomes and answers.outcomes[-1].line > told.line:
        answers.at = answers.outcomes[-1].line
        answers.refuse("no certificate stands behind this outcome: put the command `certificate` behind `rebalance`")
    wrong = check_shortage(told) if told.short else check_plan(told)
    answers.at = told.line
    if wrong:
        answers.refuse(f"the certificate proves nothing, as {wrong} (see numarun check)")
    if words.only is not None and words.only not in told.demand:
        answers.refuse(f"the certificate has no row {words.only[:64]!r}")
    print(laid_out(explain(told, machine, words.only)))
    return 0
