"""Machine files: the nodes of a machine with their CPUs, the distances between them, cores, and what is reserved."""

from __future__ import annotations

import json
from typing import Dict, FrozenSet, Iterable, List, Mapping, Optional

from .cpus import NO_CPUS, NODES, Cpus, counted, print_list, read_list
from .script import Refused, read_text

MACHINE_BYTES = 1 << 20


def parse_machine(path: str) -> Dict[str, object]:
    """The JSON object of a machine file."""
    try:
        found = json.loads(read_text(path, MACHINE_BYTES))
    except ValueError as why:
        at = f"line {why.lineno}" if isinstance(why, json.JSONDecodeError) else "a number of too many digits"
        raise Refused(f"{path}: {at}: not JSON") from None
    except RecursionError:
        raise Refused(f"{path}: nested too deep") from None
    if not isinstance(found, dict):
        raise Refused(f"{path}: no JSON object")
    return found


def add_cpus(found: Mapping[str, object], more: Cpus) -> Dict[str, object]:
    """A machine file's object with CPUs that it lacks and that no plan gives to anybody, so that their node and their cores are of no account: they
    are where the first reserved CPU is, in cores of as many CPUs as the others have."""
    nodes, cores = sets_in(found, "nodes"), sets_in(found, "cores")
    threads, others = len(cores[0]) if cores else 1, sorted(more)
    if len(others) % threads:
        raise Refused(f"--partition: CPUs {print_list(more)} of the partition, which the machine file lacks, are no whole cores")
    first = min(as_set(found.get("reserved"), "reserved"))
    nodes = [node | more if first in node else node for node in nodes]
    cores += [frozenset(others[at:at + threads]) for at in range(0, len(others), threads)] if cores else []
    return {**found, "nodes": [print_list(node, empty="") for node in nodes], **({"cores": list(map(print_list, cores))} if cores else {})}


def sets_in(found: Mapping[str, object], name: str) -> List[Cpus]:
    lists = found.get(name)
    return [as_set(item, name) for item in lists] if isinstance(lists, list) else []


def as_set(text: object, place: str) -> Cpus:
    if not isinstance(text, str):
        raise Refused(f"{place}: no list of CPUs as text")
    return read_list(text, place)


class Machine:
    """A machine file, and more CPUs than it has: `nodes` is a list of sets of CPUs, and `distances` is nothing where the file has none."""

    def __init__(self, path: str, more: Cpus = NO_CPUS) -> None:
        found = add_cpus(parse_machine(path), more) if more else parse_machine(path)
        self.nodes = self.read_nodes(found.get("nodes"), path)
        self.node_of: Dict[int, int] = {cpu: node for node, cpus in enumerate(self.nodes) for cpu in cpus}
        self.present: Cpus = frozenset(self.node_of)
        self.reserved = as_set(found.get("reserved"), f"{path}: reserved")
        self.offline = as_set(found.get("offline") or "", f"{path}: offline")
        if not self.reserved or not self.reserved | self.offline <= self.present:
            raise Refused(f"{path}: reserved or offline: no CPU, or one that no node has")
        self.cores = self.read_cores(found.get("cores"), path)
        self.threads = len(next(iter(self.cores.values())))
        self.core_of = {cpu: core for core, cpus in self.cores.items() for cpu in cpus}
        self.distances = self.read_distances(found.get("distances"), path)
        about = found.get("about")
        self.about = "".join(sign if sign.isprintable() else "?" for sign in about) if isinstance(about, str) else ""

    @staticmethod
    def read_nodes(lists: object, path: str) -> List[Cpus]:
        if not isinstance(lists, list) or not 1 <= len(lists) <= NODES:
            raise Refused(f"{path}: nodes: not an array of 1 to {NODES} lists")
        nodes = [as_set(item, f"{path}: nodes: node {k}") for k, item in enumerate(lists)]
        node_of: Dict[int, int] = {}
        for node, cpus in enumerate(nodes):
            for cpu in sorted(cpus):
                if cpu in node_of:
                    raise Refused(f"{path}: nodes: CPU {cpu} is in the nodes {node_of[cpu]} and {node}")
                node_of[cpu] = node
        return nodes

    def read_cores(self, lists: object, path: str) -> Mapping[int, Cpus]:
        """The CPUs of each core, by its lowest one."""
        if lists is None:
            return {cpu: frozenset({cpu}) for cpu in self.present}
        if not isinstance(lists, list):
            raise Refused(f"{path}: cores: not an array of lists")
        cores = [as_set(item, f"{path}: cores: core {k}") for k, item in enumerate(lists)]
        left = self.present
        for k, core in enumerate(cores):
            of_one = len({self.node_of.get(cpu) for cpu in core}) == 1 and core & self.reserved in (NO_CPUS, core)
            if not core <= left or not of_one or len(core) != len(cores[0]):
                raise Refused(f"{path}: cores: core {k}: not as many CPUs as core 0 has, of one node, of no other core, reserved or not")
            left -= core
        if left:
            raise Refused(f"{path}: cores: CPU {min(left)} is in no core")
        return {min(core): core for core in sorted(cores, key=min)}

    def read_distances(self, rows: object, path: str) -> Optional[List[List[int]]]:
        count = len(self.nodes)
        if rows is None:
            return None
        if not isinstance(rows, list) or len(rows) != count:
            raise Refused(f"{path}: distances: not {counted(count, 'row')}")
        for k, row in enumerate(rows):
            fits = isinstance(row, list) and len(row) == count
            if not fits or any(type(entry) is not int or not 10 <= entry <= 255 for entry in row):
                raise Refused(f"{path}: distances: row {k}: not {counted(count, 'number')} from 10 to 255")
        return rows

    def cores_in(self, cpus: FrozenSet[int]) -> FrozenSet[int]:
        """The cores of which all CPUs are among these, each by its lowest CPU."""
        return frozenset(core for core in self.cores.keys() & cpus if self.cores[core] <= cpus)

    def cpus_of(self, cores: Iterable[int]) -> Cpus:
        """The CPUs of the cores with these lowest CPUs."""
        return NO_CPUS.union(*(self.cores[core] for core in cores))

    def weight(self, homes: Iterable[int], cpu: int) -> int:
        """The distance of a CPU from the nearest of these nodes."""
        if self.distances is None:
            raise Refused("a machine without distances")
        return min(self.distances[self.node_of[cpu]][home] for home in homes)
