#!/usr/bin/env python3
"""Places the same containers by numarun and by four plainer ways, and prints how they fare.

`nearest` takes the containers in the order of creation and gives each the nearest CPUs that are free, the lower first. The others
are as a kubelet's static CPU manager policy has it, one container after another. `packing` is that policy unaligned (no Topology
Manager): it does not look at homes, and takes the node that fits best, that is the one with the fewest free CPUs that has enough,
or else whole nodes, the fullest first. `best-effort` and `single-numa-node` are aligned, by the Topology Manager's policies of
these names, where hints (of a memory manager, or of devices) name the homes: what one home node has, or what there is of it, and
the rest as packing has it; or one home node that has all, or no place. With CPU lists, each takes CPUs of the container's list
alone.

A mix is containers that together ask for a part of the CPUs of a machine, each of 1 to a half of a node, with memory on
one node, or now and then on two. With lists, one in three containers names the CPUs that it may have, as an operator would:
those of its home nodes or of their sockets, or, for one in five of these, as many as it asks for, to itself. Those are the
highest there, so the last that nearest and packing give to others, and are left out of the lists of containers that come
later. Where the mix has no plan at all, it is left out and counted.

Of the mixes that a way places: `total` is the sum of the distances, `beyond` that part of it that is more than the 10
of a local CPU, both beside numarun's. `no` is how many mixes out of all that have a plan are refused, and `first` how many
nearest refuses where the containers with lists are created first. `hands` is how many CPUs of a container that stays are
taken from it, on the average, when one of the containers goes and another one comes: of the others none ever are,
since they move nobody; numarun plans anew.

The second table is of whole cores, on the machines of which the hardware threads (SMT siblings) are known: all ask for cores, and
each way gives whole ones. Packing is `full-pcpus-only` there, that option of the static policy, which gives whole cores and
refuses whoever does not ask for some."""

import argparse
import itertools
import json
import os
import random
import sys
import tempfile

sys.path.insert(0, os.path.join(os.path.dirname(os.path.abspath(__file__)), "..", "..", "operators"))
from numarun_host.cpus import print_list, read_list
from numarun_host.machine import Machine
from numarun_host.program import Run
from numarun_host.script import Refused, run

# The machine files, with the nodes of a socket; and how the siblings of a core are numbered: how many, and how far apart.
MACHINES = {"two-socket": 1, "four-socket-ring": 1, "two-nodes-a-socket": 2, "four-nodes-a-socket": 4, "memory-only-nodes": 1}
SIBLINGS = {"two-socket": (2, 16), "four-nodes-a-socket": (2, 64), "memory-only-nodes": (4, 1)}
TOP = os.path.dirname(os.path.dirname(os.path.dirname(os.path.abspath(__file__))))
LOCAL, SEED = 10, 1
EXAMPLE = "example: benches/peers/run.sh 300, which builds the program first"


class Cores:
    """A machine seen by its cores, each by its lowest CPU: of one that lists none each CPU is a core."""

    def __init__(self, machine):
        self.threads, self.weight, self.cpus_of, self.cores_in = machine.threads, machine.weight, machine.cpus_of, machine.cores_in
        self.nodes = [cpus & machine.cores.keys() for cpus in machine.nodes]
        self.present, self.reserved = set(machine.cores), machine.cores_in(machine.reserved)


class Container:
    """What a container asks for, in cores."""

    def __init__(self, machine, chance, most):
        nodes = [node for node, cpus in enumerate(machine.nodes) if cpus]
        self.machine, self.count = machine, chance.randint(1, most)
        self.homes = set(chance.sample(nodes, 2 if len(nodes) > 1 and chance.random() < 0.15 else 1))
        self.allowed = machine.present - machine.reserved
        self.named = None
        self.weights = {cpu: machine.weight(self.homes, cpu) for cpu in self.allowed}

    def name_cpus(self, machine, chance, socket, claimed):
        """The list that an operator writes for it, without `claimed`, to which its CPUs are added if it has them for itself."""
        near = self.homes
        if chance.random() < 0.5:
            near = {node for node in range(len(machine.nodes)) if node // socket in {home // socket for home in self.homes}}
        free = set().union(*(machine.nodes[node] for node in near)) - machine.reserved - claimed
        if chance.random() < 0.2:
            free = set(sorted(free)[-self.count :])
            claimed |= free
        if free:
            self.count = min(self.count, len(free))
            self.allowed, self.named = free, print_list(machine.cpus_of(free))

    def config(self):
        section = {"quota": 100000 * self.count * self.machine.threads, "period": 100000, "mems": print_list(self.homes)}
        if self.named:
            section["cpus"] = self.named
        return {"ociVersion": "1.0.2", "root": {"path": "rootfs"}, "linux": {"resources": {"cpu": section}}}


def mix(machine, chance, part, socket):
    """Containers that together ask for this part of the CPUs; one in three has a list, where the nodes of a socket are told."""
    free = int(part * len(machine.present - machine.reserved))
    sizes = [len(cpus) for cpus in machine.nodes if cpus]
    most, found, claimed = max(1, min(sizes) // 2), [], set()
    while free:
        found.append(Container(machine, chance, min(most, free)))
        if socket and chance.random() < 1 / 3:
            found[-1].name_cpus(machine, chance, socket, claimed)
        free -= found[-1].count
    return found


def nearest(container, free, machine):
    may = sorted(container.allowed & free, key=lambda cpu: (container.weights[cpu], cpu))
    return set(may[: container.count]) if len(may) >= container.count else None


def packed(count, may, machine):
    """So many of these CPUs: of the node that fits best, or of whole nodes, the fullest first."""
    by_node = [sorted(may & cpus) for cpus in machine.nodes]
    fits = [cpus for cpus in by_node if len(cpus) >= count]
    if fits:
        return set(min(fits, key=len)[:count])
    return set([cpu for cpus in sorted(by_node, key=len, reverse=True) for cpu in cpus][:count])


def packing(container, free, machine):
    may = container.allowed & free
    return packed(container.count, may, machine) if len(may) >= container.count else None


def at_home(container, may, machine):
    """What the first home node that has enough has free, or else all that the homes have."""
    homes = [sorted(may & machine.nodes[home]) for home in sorted(container.homes)]
    return next((cpus[: container.count] for cpus in homes if len(cpus) >= container.count), None), [cpu for cpus in homes for cpu in cpus]


def best_effort(container, free, machine):
    may = container.allowed & free
    if len(may) < container.count:
        return None
    one, some = at_home(container, may, machine)
    if one is not None:
        return set(one)
    return set(some) | packed(container.count - len(some), may - set(some), machine) if len(some) < container.count else set(some[: container.count])


def single_numa_node(container, free, machine):
    one, _ = at_home(container, container.allowed & free, machine)
    return None if one is None else set(one)


WAYS = {"nearest": nearest, "packing": packing, "best-effort": best_effort, "single-numa-node": single_numa_node}


def place(way, containers, machine):
    """The sets of the containers in the order of creation, or nothing where one is refused."""
    free, sets = machine.present - machine.reserved, []
    for container in containers:
        taken = way(container, free, machine)
        if taken is None:
            return None
        sets.append(taken)
        free = free - taken
    return sets


def cost(containers, sets):
    return sum(container.weights[cpu] for container, cpus in zip(containers, sets) for cpu in cpus)


class Numarun(Run):
    """One run of the program for each machine; its containers go before the next mix comes."""

    def told(self, line):
        lines = self.ask(line)
        if lines[0].startswith("refused"):
            raise Refused(f"{self.program}: {lines[0]} to {line!r}")
        return lines

    def create(self, name, container):
        os.makedirs(name, exist_ok=True)
        with open(os.path.join(name, "config.json"), "w") as file:
            json.dump(container.config(), file)
        self.told(f"create {name} {name}")

    def remove(self, name):
        self.told(f"kill {name} KILL")
        self.told(f"delete {name}")

    def plan(self):
        """The set of each container by its id, or nothing where there is no plan."""
        lines = [line.split(" ") for line in self.told("rebalance")]
        return {words[1]: read_list(words[2], "hold") for words in lines if words[0] == "hold"} if lines[0][0] == "plan" else None


class Tally:
    def __init__(self):
        self.mixes = self.no_plan = self.changes = self.hands = self.first = 0
        self.placed = {name: Sum() for name in WAYS}

    def take(self, containers, planned, machine):
        """Compares the ways on a mix that has a plan."""
        self.mixes += 1
        ours, local = cost(containers, planned), LOCAL * sum(container.count for container in containers)
        for name, way in WAYS.items():
            sets = place(way, containers, machine)
            if sets is not None:
                self.placed[name].add(Sum(1, ours, cost(containers, sets), local))
        self.first += place(nearest, sorted(containers, key=lambda asks: not asks.named), machine) is None

    def add(self, other):
        for name in ("mixes", "no_plan", "changes", "hands", "first"):
            setattr(self, name, getattr(self, name) + getattr(other, name))
        for name in WAYS:
            self.placed[name].add(other.placed[name])

    def row(self):
        part = lambda count: f"{100 * count / self.mixes if self.mixes else 0:4.0f} %"
        cells = [f"{self.mixes:5} {self.no_plan:7}", self.placed["nearest"].to_local()]
        for name, placed in self.placed.items():
            refused = [self.mixes - placed.mixes] + [self.first] * (name == "nearest")
            cells.append(" ".join([placed.beside_ours()] + [part(count) for count in refused]))
        cells.append(f"{self.hands / self.changes:7.1f}" if self.changes else f"{'-':>7}")
        return "   ".join(cells)


class Sum:
    """Of mixes that a way places: their number, numarun's total, its own, and that of local CPUs."""

    def __init__(self, mixes=0, ours=0, there=0, local=0):
        self.mixes, self.ours, self.there, self.local = mixes, ours, there, local

    def add(self, other):
        self.mixes, self.ours, self.there, self.local = (
            self.mixes + other.mixes, self.ours + other.ours, self.there + other.there, self.local + other.local)

    def to_local(self):
        return f"{self.ours / self.local:9.3f}" if self.local else f"{'-':>9}"

    def beside_ours(self):
        total = f"{self.there / self.ours:6.2f}" if self.ours else f"{'-':>6}"
        beyond = f"{(self.there - self.local) / (self.ours - self.local):7.2f}" if self.ours > self.local else f"{'-':>7}"
        return f"{total} {beyond}"


def change(numarun, names, before, containers, machine, chance, tally):
    """One container goes and one of its size comes; how many CPUs those that stay lose by it."""
    gone = chance.choice(names)
    numarun.remove(gone)
    comes = Container(machine, chance, 1)
    comes.count = containers[names.index(gone)].count
    numarun.create("new", comes)
    after = numarun.plan()
    if after is not None:
        tally.changes += 1
        tally.hands += sum(len(before[name] - after[name]) for name in names if name != gone)
    return [name for name in names if name != gone] + ["new"]


def machine_file(name):
    return os.path.join(TOP, "examples", "machines", name + ".json")


def written(name, whole=False):
    """Writes a machine file without cores, or with those that its siblings are, and answers its name."""
    with open(machine_file(name)) as file:
        told = json.load(file)
    told.pop("cores", None)
    if whole:
        threads, apart = SIBLINGS[name]
        cpus = sorted(set().union(*(read_list(cpus, "nodes") for cpus in told["nodes"])))
        lowest = [cpu for cpu in cpus if cpu // apart % threads == 0]
        told["cores"] = [print_list({cpu + apart * k for k in range(threads)}) for cpu in lowest]
    path = f"{name}{'-cores' * whole}.json"
    with open(path, "w") as file:
        json.dump(told, file)
    return path


def by_cores(planned, machine):
    """The cores of each set of a plan."""
    sets = [machine.cores_in(cpus) for cpus in planned]
    if [machine.cpus_of(cores) for cores in sets] != planned:
        raise Refused(f"numarun: no whole cores: {[print_list(cpus) for cpus in planned]}")
    return sets


def measure(program, name, part, lists, mixes, whole=False):
    path = written(name, whole)
    machine, chance, tally = Cores(Machine(path)), random.Random(f"{SEED} {name} {part} {lists}"), Tally()
    numarun = Numarun(program, path)
    for _ in range(mixes):
        containers = mix(machine, chance, part, MACHINES[name] if lists else None)
        names = [f"c{k}" for k in range(len(containers))]
        for label, container in zip(names, containers):
            numarun.create(label, container)
        planned = numarun.plan()
        if planned is None:
            tally.no_plan += 1
        else:
            tally.take(containers, by_cores([planned[label] for label in names], machine), machine)
            names = change(numarun, names, planned, containers, machine, chance, tally)
        for label in names:
            numarun.remove(label)
    numarun.close()
    return tally


def compare(program, mixes, names, whole):
    """A table of all mixes on these machines."""
    each, all_of = f"{'total':>6} {'beyond':>7} {'no':>6}", {}
    packs = "full-pcpus-only" if whole else "packing"
    print(f"{'of whole cores' if whole else '':60}   {'nearest':^28}   {packs:^21}   {'best-effort':^21}   {'single-numa-node':^21}\n"
          f"{'machine':20} {'full':>5} {'lists':>5}   {'mixes no plan':>13}   {'to local':>9}   {each} {'first':>6}   {each}   {each}   {each}   {'hands':>7}")
    for name, part, lists in itertools.product(names, (0.8, 0.95, 1.0), (False, True)):
        tally = measure(program, name, part, lists, mixes, whole)
        all_of.setdefault((part, lists), Tally()).add(tally)
        show(name, part, lists, tally)
    for (part, lists), tally in all_of.items():
        show(f"all {len(names)}", part, lists, tally)


def main():
    parser = argparse.ArgumentParser(description=__doc__, epilog=EXAMPLE, formatter_class=argparse.RawDescriptionHelpFormatter)
    parser.add_argument("program", metavar="PROGRAM", help="numarun")
    parser.add_argument("mixes", nargs="?", type=int, default=100, metavar="MIXES", help="how many of each kind on each machine; 100")
    words = parser.parse_args()
    if words.mixes < 1:
        parser.error("MIXES is 1 or more")
    program = os.path.abspath(words.program)
    with tempfile.TemporaryDirectory() as folder:
        os.chdir(folder)
        Numarun(program, written("two-socket")).close()
        compare(program, words.mixes, MACHINES, False)
        print()
        compare(program, words.mixes, SIBLINGS, True)
        os.chdir("/")


def show(name, part, lists, tally):
    print(f"{name:20} {part:4.0%} {'yes' if lists else 'no':>5}   {tally.row()}", flush=True)


if __name__ == "__main__":
    run(main)
