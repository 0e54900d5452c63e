"""Tries benches/moves: what is counted on changes by hand, the containers of the made machine, and a small whole run."""

from __future__ import annotations

import importlib
import os
import random
import subprocess
import sys
from typing import Dict, List, Optional, Set, Tuple

from trial import PROGRAM, TOP, Told, case, check, scratch

FOLDER = os.path.join(TOP, "benches", "moves")
sys.path.insert(0, FOLDER)
measure = importlib.import_module("measure")
SCRIPT = os.path.join(FOLDER, "measure.py")

Plan = Optional[Dict[str, Set[int]]]


class Answers:
    """A program that answers these plans."""

    def __init__(self, *plans: Plan) -> None:
        self.plans: List[Plan] = list(plans)
        self.lines: List[str] = []

    def plan(self) -> Plan:
        return self.plans.pop(0)

    def told(self, line: str) -> None:
        self.lines.append(line)

    def create(self, name: str, container: Asks) -> None:
        self.lines.append(f"create {name} {container.count}")

    def remove(self, name: str) -> None:
        self.lines.append(f"remove {name}")


class Asks:
    def __init__(self, count: int) -> None:
        self.count = count


def counted(*plans: Plan) -> Tuple[List[List[int]], List[str], List[str]]:
    """What is counted where c0, which has two CPUs, goes, and one comes; and the lines that were asked."""
    machine = measure.Machine(measure.machine_file("two-socket"))
    seed = next(seed for seed in range(99) if random.Random(seed).randrange(2) == 0)
    numarun, changes = Answers(*plans), measure.Changes()
    names = measure.happens(numarun, machine, random.Random(seed), [Asks(2), Asks(1)], changes)
    return list(changes.hands.values()), names, numarun.lines


@case
def by_hand() -> None:
    first, alone = {"c0": {1, 2}, "c1": {3}}, {"c1": {1}}
    both, other = {"c1": {1}, "new": {2, 3}}, {"c1": {4}, "new": {3, 5}}
    hands, names, lines = counted(first, alone, both, other, both)
    check("what those that stay get anew", hands, [[1], [0], [2], [2]])
    check("who is left", names, ["c1", "new"])
    check("what is asked first", lines[:4], ["create c0 2", "create c1 1", "remove c0", "create new 2"])
    gone = lines[4].split(" ")[1]
    check("a CPU goes and comes back", (lines[4:], gone in "123"), ([f"offline {gone}", f"online {gone}"], True))
    check("no plan once the CPU went", counted(first, alone, both, None, both)[0], [[1], [0], [], []])
    check("no plan at all", counted(None), ([[], [], [], []], ["c0", "c1"], ["create c0 2", "create c1 1"]))


@case
def made() -> None:
    path = scratch("made.json")
    measure.write_made(path)
    machine = measure.Machine(path)
    check("the made machine", (len(machine.nodes), len(machine.present)), (8, 1024))
    for part, asked in ((0.8, 818), (0.95, 971)):
        containers = measure.many(machine, random.Random(1), part)
        check(f"full to {part}", (len(containers), sum(one.count for one in containers)), (255, asked))


def ran(*words: str) -> Told:
    done = subprocess.run([sys.executable, "-B", SCRIPT, *words], capture_output=True, timeout=100)
    return done.returncode, done.stdout.decode(), done.stderr.decode()


@case
def small() -> None:
    status, out, err = ran(PROGRAM, "1")
    check("a small run", (status, len(out.splitlines()), err), (0, 15, ""))


@case
def words() -> None:
    here = os.getcwd()
    check("no such program", ran("no-such-program")[::2], (1, f"measure.py: {here}/no-such-program: No such file or directory\n"))
    for words in ((), ("x", "0"), ("x", "y"), ("x", "1", "2")):
        check(f"the words {words}", ran(*words)[:2], (2, ""))
    helped = subprocess.run(["bash", os.path.join(FOLDER, "run.sh"), "--help"], capture_output=True, timeout=100)
    check("the help", (helped.returncode, b"example: benches/moves/run.sh 300" in helped.stdout), (0, True))
