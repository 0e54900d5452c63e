#!/usr/bin/env python3
"""Counts the writes of hand-overs in both orders, and who is squeezed onto the reserved CPUs meanwhile: `measure.py PROGRAM [FAMILY..]`.

In each family containers go, come or get another home before each plan, and the plan is handed over by single steps, in turn (`begin`)
and directly (`begin direct`). Behind each step those that have to move are asked for their sets. One that has CPUs of its own is
squeezed by a write that leaves it the reserved CPUs alone, and so it is up to a later write; counted are the writes up to that one. The
first plan, by which all come from the reserved CPUs, is left out. `change` is how many containers the plans give another set."""

from __future__ import annotations

import argparse
import os
import sys
import tempfile
from dataclasses import dataclass, fields
from typing import Dict, List, Sequence

TOP = os.path.dirname(os.path.dirname(os.path.dirname(os.path.abspath(__file__))))
sys.path[:0] = [os.path.join(TOP, "operators"), os.path.join(TOP, "benches", "direct")]
from families import FAMILIES, RESERVED, Churn
from numarun_host.cpus import Cpus, read_list
from numarun_host.program import Run
from numarun_host.script import Refused, run

SEED = 1
ORDERS = {"in turn": "begin", "directly": "begin direct"}
EXAMPLE = "example: benches/direct/run.sh big, which builds the program first"


@dataclass
class Counts:
    """What was counted of some hand-overs."""

    hand_overs: int = 0
    changes: int = 0
    writes: int = 0
    squeezed: int = 0
    squeezed_for: int = 0  # writes up to that by which they are squeezed no more
    longest: int = 0

    def add(self, other: Counts) -> None:
        longest = max(self.longest, other.longest)
        for field in fields(self):
            setattr(self, field.name, getattr(self, field.name) + getattr(other, field.name))
        self.longest = longest

    def add_squeeze(self, writes: int) -> None:
        self.squeezed, self.squeezed_for, self.longest = self.squeezed + 1, self.squeezed_for + writes, max(self.longest, writes)


class Machine:
    """A run of the program, and what each container requests there."""

    def __init__(self, program: str) -> None:
        self.run, self.requests = Run(program, "machine.json"), dict[str, Cpus]()

    def tell(self, lines: Sequence[str]) -> None:
        for line, answer in zip(lines, self.run.ask(*lines)):
            if answer.startswith("refused"):
                raise Refused(f"{self.run.program}: {answer} to {line!r}")
            word, *names = line.split(" ")
            if word == "create":
                self.requests[names[0]] = frozenset(RESERVED)
            elif word == "delete":
                del self.requests[names[0]]

    def targets(self, line: str) -> Dict[str, Cpus]:
        """What the plan of this line gives to each."""
        plan = [told.split(" ") for told in self.run.ask(line)]
        if plan[0][0] != "plan":
            raise Refused(f"{self.run.program}: {' '.join(plan[0])} to {line!r}")
        holds = {words[1]: read_list(words[2], "hold") for words in plan if words[0] == "hold"}
        pool = read_list(plan[-2][1], "pool")
        return {name: holds.get(name, pool) for name in self.requests}

    def move_first(self) -> None:
        self.requests = self.targets("rebalance")

    def hand_over(self, line: str) -> Counts:
        """A hand-over by single steps."""
        targets = self.targets(line)
        changed = [name for name, cpus in self.requests.items() if cpus != targets[name]]
        counts, since = Counts(1, len(changed)), dict[str, int]()
        answer, shown = "more", self.shown(changed)
        while answer == "more":
            answer, *now = self.run.ask("step", *(f"sets {name}" for name in changed))
            for name, before, after in zip(changed, shown, now):
                if before != after:
                    counts.writes += 1
                    self.written(name, read_list(after.split(" ")[1], "sets"), counts, since)
            shown = now
        if answer != "done" or since or self.requests != targets:
            raise Refused(f"{self.run.program}: {answer} at the end of a hand-over, with {since} squeezed")
        return counts

    def shown(self, names: Sequence[str]) -> List[str]:
        return self.run.ask(*(f"sets {name}" for name in names))

    def written(self, name: str, cpus: Cpus, counts: Counts, since: Dict[str, int]) -> None:
        """A write; `since` which write each is squeezed that is."""
        if self.requests[name].difference(RESERVED) and not cpus.difference(RESERVED):
            since[name] = counts.writes
        elif name in since and cpus.difference(RESERVED):
            counts.add_squeeze(counts.writes - since.pop(name))
        self.requests[name] = cpus


def measure(program: str, name: str, line: str) -> Counts:
    """All hand-overs of a family, each begun by this line."""
    churn, counts = Churn(FAMILIES[name], SEED), Counts()
    churn.write_machine()
    machine = Machine(program)
    machine.tell(list(churn.first()))
    machine.move_first()
    for _ in range(churn.family.plans):
        machine.tell(list(churn.change()))
        counts.add(machine.hand_over(line))
    machine.run.close()
    return counts


def main() -> int:
    parser = argparse.ArgumentParser(description=__doc__, epilog=EXAMPLE, formatter_class=argparse.RawDescriptionHelpFormatter)
    parser.add_argument("program", metavar="PROGRAM", help="numarun")
    parser.add_argument("names", nargs="*", metavar="FAMILY", help=f"of {', '.join(FAMILIES)}; all of them")
    words = parser.parse_args()
    program, names = os.path.abspath(words.program), words.names or list(FAMILIES)
    if not set(names) <= set(FAMILIES):
        parser.error(f"the families are {', '.join(FAMILIES)}")
    titles = [field.name.replace("_", " ") for field in fields(Counts)]
    print(f"{'family':10} {'order':10}", *(f"{title:>12}" for title in titles))
    with tempfile.TemporaryDirectory() as folder:
        os.chdir(folder)
        for name in names:
            for order, line in ORDERS.items():
                counts = measure(program, name, line)
                print(f"{name:10} {order:10}", *(f"{getattr(counts, field.name):12,}" for field in fields(Counts)), flush=True)
        os.chdir("/")
    return 0


if __name__ == "__main__":
    run(main)
