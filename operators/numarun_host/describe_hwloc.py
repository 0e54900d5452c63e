"""What hwloc's `lstopo --disallowed --of xml` tells of a machine, which need not be the one that the script runs on. Without --disallowed
hwloc leaves out what the shell may not use, and such CPUs can't be told from those that are offline."""

from __future__ import annotations

import re
import xml.etree.ElementTree as xml
from typing import Dict, List, Optional, Sequence, Set, Tuple

from .cpus import CPUS, NODES, NO_CPUS, Cpus, counted, print_list
from .described import UNREACHABLE, Described, check_system, say
from .script import Refused, read_bytes

MEANS_LATENCY = 4
NO_MEMORY = 1  # of expat's errors
Distances = Dict[Tuple[int, int], int]  # from one node to another, by the pair of their numbers


def numbers(bitmap: str, place: str) -> Cpus:
    """The members of a bitmap: words of 32 bits in hexadecimal, the highest first, an empty one being 0."""
    members: Set[int] = set()
    words = bitmap.split(",")
    if "f...f" in bitmap or any(word and not re.fullmatch(r"0x[0-9a-fA-F]{1,8}", word) for word in words):
        raise Refused(f"{place}: {bitmap[:40]!r} is no finite bitmap")
    for k, word in enumerate(reversed(words)):
        value = int(word or "0", 16)
        members.update(32 * k + bit for bit in range(32) if value >> bit & 1)
    return frozenset(members)


class Topology:
    def __init__(self, path: str) -> None:
        self.path = path
        root = self.parse()
        machine = root.find("object")
        if root.tag != "topology" or machine is None or machine.get("type") not in ("Machine", "System"):
            raise Refused(f"{path}: no topology of hwloc: its first object is no Machine")
        self.online = self.bitmap(machine, "online_cpuset", "cpuset")
        present = self.bitmap(machine, "complete_cpuset", "cpuset")
        self.allowed = self.bitmap(machine, "allowed_cpuset", "cpuset")
        told_apart = machine.get("online_cpuset") or self.allowed != self.online
        self.unsure = NO_CPUS if told_apart else present - self.online
        self.nodes = self.read_nodes(machine, present)
        self.numbers = sorted(self.nodes)
        self.cores = [self.bitmap(core, "complete_cpuset", "cpuset") for core in machine.iter("object") if core.get("type") == "Core"]
        self.distances = self.read_distances(root)
        stray = present - NO_CPUS.union(*self.nodes.values())
        if stray:
            say(f"left out, as no node has them: CPUs {print_list(stray)}")

    def parse(self) -> xml.Element:
        try:
            return xml.fromstring(read_bytes(self.path))
        except xml.ParseError as why:
            if why.code == NO_MEMORY:
                raise MemoryError from None
            raise Refused(f"{self.path}: line {why.position[0]}: not XML") from None
        except (LookupError, ValueError):
            raise Refused(f"{self.path}: line 1: an unknown encoding") from None

    def place(self, entry: xml.Element) -> str:
        return f"{self.path}: {entry.get('type', entry.tag)} {entry.get('os_index', '')}".rstrip()

    def bitmap(self, entry: xml.Element, *names: str) -> Cpus:
        """The first of these bitmaps that the object has."""
        for name in names:
            text = entry.get(name)
            if text:
                return numbers(text, f"{self.place(entry)}: {name}")
        raise Refused(f"{self.place(entry)}: no {names[-1]}")

    def read_nodes(self, machine: xml.Element, present: Cpus) -> Dict[int, Cpus]:
        """The CPUs of each node, offline ones too. hwloc puts memory without CPUs beside the CPUs it is near; Linux gives it
        the higher number, and a CPU is the lower one's."""
        entries = [entry for entry in machine.iter("object") if entry.get("type") == "NUMANode"]
        if not entries:
            say("it tells of no nodes: all CPUs are in node 0")
            return {0: present}
        nodes: Dict[int, Cpus] = {}
        taken = NO_CPUS
        for entry in sorted(entries, key=self.number):
            node, cpus = self.number(entry), self.bitmap(entry, "complete_cpuset", "cpuset")
            if node in nodes:
                raise Refused(f"{self.place(entry)}: there are two of this number")
            if cpus & taken:
                say(f"node {node}: memory alone, as its CPUs {print_list(cpus & taken)} are in a lower node")
            nodes[node] = cpus - taken
            taken |= cpus
        return nodes

    def number(self, entry: xml.Element) -> int:
        word = entry.get("os_index", "")
        if not re.fullmatch(r"[0-9]{1,9}", word):
            raise Refused(f"{self.place(entry)}: no os_index")
        return int(word)

    def read_distances(self, root: xml.Element) -> Optional[Distances]:
        """The distance from one node to another, by the pair of their numbers."""
        for table in root.iter("distances2"):
            kind = table.get("kind", "")
            if table.get("type") == "NUMANode" and re.fullmatch(r"[0-9]{1,9}", kind) and int(kind) & MEANS_LATENCY:
                indexes = self.words(table, "indexes")
                if table.get("indexing") == "gp":
                    raise Refused(f"{self.path}: distances2: nodes are not told by their system numbers")
                return self.table(indexes, self.words(table, "u64values"))
        for table in root.iter("distances"):
            values = self.relative(table)
            if len(values) == len(self.numbers) ** 2 and min(values) >= 10:
                return self.table(self.numbers_by_place(root), values)
        return None

    def relative(self, table: xml.Element) -> List[int]:
        """The values of a table as the first version of hwloc's files has them: parts of a base."""
        try:
            base = float(table.get("latency_base") or 1)
            return [round(base * float(entry.get("value", ""))) for entry in table.findall("latency")]
        except (ValueError, OverflowError):
            raise Refused(f"{self.path}: distances: no numbers") from None

    @staticmethod
    def numbers_by_place(root: xml.Element) -> List[int]:
        """The numbers of the nodes in hwloc's own order, in which the first version of its files has distances."""
        return [int(entry.get("os_index", "")) for entry in root.iter("object") if entry.get("type") == "NUMANode"]

    def words(self, table: xml.Element, name: str) -> List[int]:
        try:
            return [int(word) for entry in table.findall(name) for word in (entry.text or "").split()]
        except ValueError:
            raise Refused(f"{self.path}: distances2: {name}: no numbers") from None

    def table(self, indexes: List[int], values: List[int]) -> Distances:
        if len(values) != len(indexes) ** 2 or not indexes:
            raise Refused(f"{self.path}: distances of nodes: {counted(len(values), 'value')} for {counted(len(indexes), 'node')}")
        told: Distances = {}
        for k, value in enumerate(values):
            here, there = indexes[k // len(indexes)], indexes[k % len(indexes)]
            if here == there and value != 10:
                say(f"node {here} is at {value} from itself; written is 10, as a machine file has to have it")
                value = 10
            if not 10 <= value <= UNREACHABLE:
                raise Refused(f"{self.path}: distances of nodes: {value} from node {here} to {there} is no SLIT distance")
            told[here, there] = value
        return told


def rows_of(topology: Topology, nodes: Sequence[int]) -> List[List[int]]:
    """The distances by rows."""
    told = topology.distances
    if told is None:
        if len(topology.numbers) > 1:
            say(f"it tells no distances between nodes: {UNREACHABLE} (unreachable) for all")
        told = {}
    missing = [(a, b) for a in topology.numbers for b in topology.numbers if a != b and (a, b) not in told]
    if missing and told:
        say(f"no distance from node {missing[0][0]} to {missing[0][1]} and {len(missing) - 1} more: {UNREACHABLE}")
    return [[10 if a == b else told.get((a, b), UNREACHABLE) for b in nodes] for a in nodes]


def cores_of(topology: Topology, present: Cpus) -> List[Cpus]:
    """The CPUs of each core, that of the lowest CPU first, of a machine with these CPUs; without cores in the file it is refused."""
    cores, left = sorted((core for core in topology.cores if core & present), key=min), present
    for core in cores:
        odd = [cpus for cpus in topology.nodes.values() if cpus & core not in (NO_CPUS, core)]
        if odd or not core <= left:
            raise Refused(f"--cores: the core {print_list(core)} has CPUs of another one, or of two nodes, or of none")
        if len(core) != len(cores[0]):
            raise Refused(f"--cores: cores have different numbers of CPUs: {print_list(cores[0])} and {print_list(core)}")
        left -= core
    if left:
        raise Refused(f"--cores: no core is told of the CPUs {print_list(left)}, as of those that are offline; without --cores each CPU is a core")
    return cores


def reserved_of(online: Cpus, cores: Sequence[Cpus], reserved: Optional[Cpus]) -> Cpus:
    """The reserved CPUs: those that were named, or the lowest online one with its core."""
    if reserved is None:
        reserved = next((core for core in cores if min(online) in core), frozenset({min(online)}))
    if not reserved:
        raise Refused("--reserved: no CPU is named")
    if reserved - online:
        raise Refused(f"reserved CPUs that are not online: {print_list(reserved - online)}")
    parts = [core for core in cores if core & reserved not in (NO_CPUS, core)]
    if parts:
        raise Refused(f"--cores: the core {print_list(parts[0])} is reserved in part")
    return reserved


def nodes_of(topology: Topology, renumber: bool) -> Sequence[int]:
    nodes: Sequence[int] = topology.numbers if renumber else range(topology.numbers[-1] + 1)
    if len(nodes) > NODES:
        raise Refused(f"{topology.path}: node {nodes[-1]}: a machine file has nodes 0 to {NODES - 1} (see --renumber)")
    holes = sorted(set(nodes) - set(topology.numbers))
    if holes:
        say(f"no node has these numbers, which become nodes without CPUs: {print_list(holes)}")
    return nodes


def describe_hwloc(path: str, reserved: Optional[Cpus], renumber: bool, with_cores: bool, system: Cpus = NO_CPUS) -> Described:
    """The machine that is told in a file of lstopo's, but for the system's own CPUs."""
    topology = Topology(path)
    nodes = nodes_of(topology, renumber)
    present = NO_CPUS.union(*topology.nodes.values())
    if not present:
        raise Refused(f"{path}: no node has CPUs")
    if max(present) >= CPUS:
        raise Refused(f"{path}: CPU {max(present)}: a machine file has CPUs 0 to {CPUS - 1}")
    online = topology.online & present
    if not online:
        raise Refused(f"{path}: no CPU is online")
    cores = cores_of(topology, present) if with_cores else []
    check_system(system, present, online, cores)
    present, online, cores = present - system, online - system, [core for core in cores if not core & system]
    reserved = reserved_of(online, cores, reserved)
    if topology.allowed & online != online:
        say(f"hwloc was not allowed the CPUs {print_list(online - topology.allowed)}; they are in the file")
    if topology.unsure:
        say(f"offline, or not allowed to the shell that ran lstopo, which `lstopo --disallowed` tells apart: CPUs {print_list(topology.unsure)}")
    lists = [topology.nodes.get(node, NO_CPUS) - system for node in nodes]
    return Described(lists, rows_of(topology, nodes), reserved, present - online, [print_list(core) for core in cores])
