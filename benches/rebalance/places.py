"""Machines of many nodes, and bundles of containers on them."""

import json
import os
import random
from typing import NamedTuple


class Job(NamedTuple):
    nodes: int
    cpus: int
    containers: int
    lists: str = ""        # "half" of the CPUs by chance, or the "few" of its own
    ring: bool = False     # a distance for each number of steps round a ring, in place of three
    whole: bool = False    # demands of whole cores of two CPUs
    threads: int = 1       # CPUs a core; more than one are listed in the machine file
    in_turn: bool = False  # cores numbered in turn over the nodes, in place of node by node
    beside: bool = False   # the CPUs of a core side by side, in place of half of all apart

    def about(self):
        lists = {"": "", "half": ", lists of their own", "few": ", few CPUs of their own"}[self.lists]
        ring = ", the distances of a ring" if self.ring else ""
        cores = f", {self.cpus // self.threads} cores" if self.threads > 1 else ", the same demands without cores" if self.whole else ""
        cores += " of CPUs side by side" if self.beside else ""
        turn = ", numbered in turn over the nodes" if self.in_turn else ""
        return f"{self.cpus} CPUs{turn}, {self.containers} containers{lists}{ring}{cores}"


def write_bundle(name, section):
    os.makedirs(name, exist_ok=True)
    told = {"ociVersion": "1.0.2", "root": {"path": "rootfs"}, "linux": {"resources": {"cpu": section}}}
    json.dump(told, open(f"{name}/config.json", "w"))


def listed(cpus):
    return ",".join(map(str, sorted(cpus)))


def distance(job, i, j):
    if job.ring:
        return min(10 + 10 * min((i - j) % job.nodes, (j - i) % job.nodes), 254)
    return 10 if i == j else 16 if i // 2 == j // 2 else 32


def machine(job):
    """The machine file. With demands of whole cores two CPUs are one core's, whether cores are listed or not: k and k + half of all, or 2 k
    and 2 k + 1."""
    half = job.cpus // 2
    pairs = [{2 * k, 2 * k + 1} if job.beside else {k, k + half} for k in range(half)]
    cores = pairs if job.whole else [{k} for k in range(job.cpus)]
    per = len(cores) // job.nodes
    of_node = [cores[k :: job.nodes] if job.in_turn else cores[per * k : per * k + per] for k in range(job.nodes)]
    nodes = [listed(set().union(*own)) for own in of_node]
    told = {"nodes": nodes, "distances": [[distance(job, i, j) for j in range(job.nodes)] for i in range(job.nodes)], "reserved": listed(cores[0])}
    return {**told, "cores": [listed(core) for core in cores]} if job.threads > 1 else told


def place(job):
    """Writes the machine, and the bundle of each container."""
    json.dump(machine(job), open("machine.json", "w"))
    for k in range(job.containers):
        section = {"mems": str(k % job.nodes)}
        if job.lists == "few":
            section["cpus"] = listed(set(range(4 * k, 4 * k + 4)) - {0})
        elif k % 8 != 7:
            section["quota"] = 100000 * (2 * random.randint(1, 3) if job.whole else random.randint(1, 7))
            if job.lists:
                section["cpus"] = listed(random.sample(range(1, job.cpus), job.cpus // 2))
        write_bundle(f"b{k}", section)
        if k % 2:
            write_bundle(f"any{k}", {"quota": 100000})
