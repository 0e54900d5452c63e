"""Tries benches/peers: the plainer ways on cases by hand, whole cores, that nobody beats numarun, and a small whole run."""

from __future__ import annotations

import importlib
import os
import random
import re
import subprocess
import sys
from typing import Any, Iterable

from trial import PROGRAM, TOP, Told, case, check, scratch

FOLDER = os.path.join(TOP, "benches", "peers")
sys.path.insert(0, FOLDER)
compare = importlib.import_module("compare")
SCRIPT = os.path.join(FOLDER, "compare.py")


class Asks:
    """A container that asks for so many CPUs, with memory on node 0 or on these."""

    def __init__(self, machine: Any, count: int, allowed: Iterable[int], homes: Iterable[int] = (0,)) -> None:
        self.count, self.allowed, self.homes = count, set(allowed), set(homes)
        self.weights = {cpu: machine.weight(self.homes, cpu) for cpu in self.allowed}


@case
def by_hand() -> None:
    machine = compare.Machine(os.path.join(TOP, "examples", "machines", "two-socket.json"))
    free = machine.present - machine.reserved
    check("nearest", compare.nearest(Asks(machine, 3, range(6, 18)), free, machine), {6, 7, 17})
    check("packing: the fullest node that has enough", compare.packing(Asks(machine, 2, range(6, 12)), free, machine), {6, 7})
    check("packing: whole nodes, the largest first", compare.packing(Asks(machine, 5, range(5, 12)), free, machine), {5, 8, 9, 10, 11})
    for name, way, asks, expected in [
        ("one home has enough", compare.best_effort, Asks(machine, 2, range(5, 12)), {5, 6}),
        ("the rest from elsewhere", compare.best_effort, Asks(machine, 4, range(6, 12)), {6, 7, 8, 9}),
        ("a home that has enough first", compare.best_effort, Asks(machine, 3, range(6, 12), (0, 1)), {8, 9, 10}),
        ("two homes", compare.best_effort, Asks(machine, 7, range(6, 15), (0, 1)), {8, 9, 10, 11, 12, 13, 14}),
        ("neither home alone", compare.best_effort, Asks(machine, 5, [5, 6, 7, 8, 9], (0, 1)), {5, 6, 7, 8, 9}),
        ("too few", compare.best_effort, Asks(machine, 3, [0, 1, 2]), None),
        ("one node", compare.single_numa_node, Asks(machine, 2, range(5, 12)), {5, 6}),
        ("no single node", compare.single_numa_node, Asks(machine, 3, range(6, 12)), None),
        ("either home", compare.single_numa_node, Asks(machine, 3, range(6, 12), (0, 1)), {8, 9, 10}),
    ]:
        check(f"aligned: {name}", way(asks, free, machine), expected)
    check("nearest: too few", compare.nearest(Asks(machine, 3, [0, 1, 2]), free, machine), None)
    first, second = Asks(machine, 1, [1, 2]), Asks(machine, 1, [1])
    check("a plan that greed misses", compare.place(compare.nearest, [first, second], machine), None)
    check("the other way round", compare.place(compare.nearest, [second, first], machine), [{1}, {2}])


@case
def cores() -> None:
    """The machine files that are written, by hand: each CPU a core, or siblings together; and what a plan of half a core comes to."""
    os.chdir(scratch())
    plain = compare.Cores(compare.Machine(compare.written("two-socket")))
    check("no cores", (plain.threads, plain.present, plain.reserved), (1, set(range(32)), {0, 16}))
    of_two = compare.Cores(compare.Machine(compare.written("two-socket", True)))
    check("cores of two", (of_two.threads, of_two.nodes, of_two.reserved), (2, [set(range(8)), set(range(8, 16))], {0}))
    of_four = compare.Cores(compare.Machine(compare.written("memory-only-nodes", True)))
    check("cores of four", (of_four.threads, of_four.nodes[1], of_four.reserved), (4, set(range(88, 176, 4)), {0, 88}))
    of_nodes = compare.Cores(compare.Machine(compare.written("four-nodes-a-socket", True)))
    check("eight nodes", (of_nodes.threads, of_nodes.nodes[7], of_nodes.reserved), (2, set(range(56, 64)), {0}))
    check("a plan of cores", compare.by_cores([{1, 17}, {2, 18, 3, 19}], of_two), [{1}, {2, 3}])
    try:
        compare.by_cores([{1, 2}], of_two)
        check("half a core", "taken", "refused")
    except compare.Refused as why:
        check("half a core", str(why), "numarun: no whole cores: ['1-2']")
    asks = compare.Container(of_two, random.Random(1), 3)
    check("a quota of cores", asks.config()["linux"]["resources"]["cpu"]["quota"], 200000 * asks.count)
    os.chdir(TOP)


@case
def lists() -> None:
    """By hand: a socket of two nodes, and what a container has to itself is in no later list."""
    machine = compare.Machine(os.path.join(TOP, "examples", "machines", "two-nodes-a-socket.json"))
    for seed in range(40):
        mixed, claimed = compare.mix(machine, random.Random(seed), 0.9, 2), set[int]()
        for one in (one for one in mixed if one.named):
            nodes = [cpus - machine.reserved for cpus in machine.nodes]
            homes = set[int]().union(*(nodes[home] for home in one.homes))
            sockets = set[int]().union(*(nodes[home // 2 * 2] | nodes[home // 2 * 2 + 1] for home in one.homes))
            whole = one.allowed in (homes - claimed, sockets - claimed)
            check(f"list of mix {seed}", whole or (len(one.allowed) == one.count and one.allowed <= sockets - claimed), True)
            claimed |= set[int]() if whole else one.allowed
        check(f"mix {seed}", sum(one.count for one in mixed), int(0.9 * len(machine.present - machine.reserved)))


def ran(*words: str) -> Told:
    done = subprocess.run([sys.executable, "-B", SCRIPT, *words], capture_output=True, timeout=100)
    return done.returncode, done.stdout.decode(), done.stderr.decode()


@case
def small() -> None:
    status, out, err = ran(PROGRAM, "2")
    plain, whole = out.split("\n\n")
    check("a small run", (status, len(plain.splitlines()), len(whole.splitlines()), err), (0, 2 + 36, 2 + 24, ""))
    beside = [re.findall(r"([0-9]+\.[0-9]{2}|-) +([0-9]+\.[0-9]{2}|-) +[0-9]+ %", row) for row in out.splitlines()]
    check("the ways of each row", {len(ways) for ways in beside if ways}, {4})
    check("nobody beats numarun", [row for row in beside for ways in row for cell in ways if cell != "-" and float(cell) < 1], [])


@case
def words() -> None:
    here = os.getcwd()
    check("no such program", ran("no-such-program"), (1, "", f"compare.py: {here}/no-such-program: No such file or directory\n"))
    check("not numarun", ran("/bin/true", "1"), (1, "", "compare.py: /bin/true: ended at 'phase' with no answer, status 0\n"))
    for words in ((), ("x", "0"), ("x", "y"), ("x", "1", "2")):
        check(f"the words {words}", ran(*words)[:2], (2, ""))
    helped = subprocess.run(["bash", os.path.join(FOLDER, "run.sh"), "--help"], capture_output=True, timeout=100)
    check("the help", (helped.returncode, b"example: benches/peers/run.sh 300" in helped.stdout), (0, True))
