#!/usr/bin/env python3
"""Prints how many CPUs change hands when a little changes: `measure.py PROGRAM [MIXES]`.

A mix is containers that together ask for a part of the CPUs of a machine, each of 1 to a half of a node, with memory on
one node, or now and then on two, as benches/peers makes them; on the made machine of 1,024 CPUs a container asks for 1 to
7 CPUs, or 255 of them for all that a part is, as evenly as can be. To each mix four things happen, with a rebalance behind
each: a container goes, one of its size comes, a CPU that a container has goes offline, and comes back. Counted are the CPUs
that containers which stay get anew, so the CPU that went costs one at least, in another place; and beside each average, in
brackets, the most that there were. Where a mix has no plan any more, what happened is not counted."""

import argparse
import itertools
import json
import os
import random
import sys
import tempfile

TOP = os.path.dirname(os.path.dirname(os.path.dirname(os.path.abspath(__file__))))
sys.path[:0] = [os.path.join(TOP, "operators"), os.path.join(TOP, "benches", "peers")]
from numarun_host.cpus import print_list
from numarun_host.machine import Machine
from numarun_host.script import run
from compare import MACHINES, Container, Numarun, machine_file, mix, written

PARTS, SEED, MANY = (0.8, 0.95), 1, 255
CHANGES = ["container goes", "comes", "CPU goes", "comes back"]
EXAMPLE = "example: benches/moves/run.sh 300, which builds the program first"


def write_made(path):
    """A machine of eight nodes with 128 CPUs each, of which two are a socket."""
    nodes = [print_list(set(range(128 * node, 128 * node + 128))) for node in range(8)]
    distances = [[10 if i == j else 16 if i // 2 == j // 2 else 32 for j in range(8)] for i in range(8)]
    with open(path, "w") as file:
        json.dump({"nodes": nodes, "distances": distances, "reserved": "0"}, file)


def many(machine, chance, part):
    """255 containers that together ask for this part of the CPUs."""
    asked = int(part * len(machine.present - machine.reserved))
    found = [Container(machine, chance, 1) for _ in range(MANY)]
    for _ in range(asked - MANY):
        chance.choice(found).count += 1
    return found


class Changes:
    """How many CPUs changed hands, once for each time that something happened."""

    def __init__(self):
        self.hands = {change: [] for change in CHANGES}
        self.mixes = self.containers = 0

    def add(self, other):
        self.mixes, self.containers = self.mixes + other.mixes, self.containers + other.containers
        for change in CHANGES:
            self.hands[change] += other.hands[change]

    def row(self):
        cells = [f"{self.mixes:6} {self.containers / self.mixes if self.mixes else 0:6.1f}"]
        for counts in self.hands.values():
            cells.append(f"{sum(counts) / len(counts):7.2f} ({max(counts):3})" if counts else f"{'-':>7} {'':5}")
        return "   ".join(cells)


def happens(numarun, machine, chance, containers, changes):
    """Puts a mix onto the machine, and what happens to it then; answers the names that are left."""
    names = [f"c{k}" for k in range(len(containers))]
    for name, container in zip(names, containers):
        numarun.create(name, container)
    before = numarun.plan()
    if before is None or len(names) < 2:
        return names
    changes.mixes, changes.containers = changes.mixes + 1, changes.containers + len(names)

    def replan(change):
        nonlocal before
        after = numarun.plan()
        if after is not None and before is not None:
            changes.hands[change].append(sum(len(after[name] - before[name]) for name in names if name in before))
        before = after

    gone = chance.randrange(len(names))
    numarun.remove(names.pop(gone))
    replan("container goes")
    comes = Container(machine, chance, 1)
    comes.count = containers[gone].count
    numarun.create("new", comes)
    names.append("new")
    replan("comes")
    cpu = chance.choice(sorted(set().union(*before.values())) if before else sorted(machine.present - machine.reserved))
    numarun.told(f"offline {cpu}")
    replan("CPU goes")
    numarun.told(f"online {cpu}")
    replan("comes back")
    return names


def measure(program, path, label, make, mixes):
    machine, chance, changes = Machine(path), random.Random(f"{SEED} {label}"), Changes()
    numarun = Numarun(program, path)
    for _ in range(mixes):
        for name in happens(numarun, machine, chance, make(machine, chance), changes):
            numarun.remove(name)
    numarun.close()
    return changes


def show(name, part, changes):
    print(f"{name:20} {part:4.0%}   {changes.row()}", flush=True)


def main():
    parser = argparse.ArgumentParser(description=__doc__, epilog=EXAMPLE, formatter_class=argparse.RawDescriptionHelpFormatter)
    parser.add_argument("program", metavar="PROGRAM", help="numarun")
    parser.add_argument("mixes", nargs="?", type=int, default=100, metavar="MIXES", help="how many of each kind on each machine; 100")
    words = parser.parse_args()
    if words.mixes < 1:
        parser.error("MIXES is 1 or more")
    program, all_of = os.path.abspath(words.program), {part: Changes() for part in PARTS}
    print(f"{'machine':20} full   {'mixes':>6} {'each':>6}   " + "   ".join(f"{change:^13}" for change in CHANGES))
    with tempfile.TemporaryDirectory() as folder:
        os.chdir(folder)
        for name, part in itertools.product(MACHINES, PARTS):
            changes = measure(program, written(name), f"{name} {part}", lambda m, c: mix(m, c, part, None), words.mixes)
            all_of[part].add(changes)
            show(name, part, changes)
        for part in PARTS:
            show("all five", part, all_of[part])
        write_made("machine.json")
        for part in PARTS:
            changes = measure(program, "machine.json", f"made {part}", lambda m, c: many(m, c, part), -(-words.mixes // 4))
            show(f"{MANY} on 1,024 CPUs", part, changes)
        os.chdir("/")


if __name__ == "__main__":
    run(main)
