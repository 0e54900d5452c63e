"""A home for a container that names no nodes of memory: the node, or the fewest near ones, with enough whole cores that nobody has
and enough free memory."""

from __future__ import annotations

from typing import Iterable, Iterator, List, Mapping, Optional, Tuple

from .configs import CPU, Config, at, memory_asked, nodes_named
from .cpus import Cpus
from .machine import Machine

FAR = 20  # between two nodes where no distances are told
FreeMemory = Mapping[int, Optional[int]]  # the free bytes of each node, nothing where that is not told


def beside(memory: FreeMemory, own: Mapping[int, int]) -> FreeMemory:
    """The same for a container that has so much of each node already."""
    return {node: free + own.get(node, 0) if free is not None else None for node, free in memory.items()}


def has_room(memory: FreeMemory, nodes: Iterable[int], bytes: int) -> bool:
    """Whether nodes have so many bytes, if that is known of all of them."""
    free = [memory.get(node) for node in nodes]
    known = [bytes for bytes in free if bytes is not None]
    return len(known) < len(free) or sum(known) >= bytes


class Vacancy:
    """What is free: the cores of each node, and its memory."""

    def __init__(self, machine: Machine, cpus: Cpus, memory: FreeMemory) -> None:
        self.machine, self.memory = machine, memory
        self.cores = {node: 0 for node, has in enumerate(machine.nodes) if has}
        for core in machine.cores_in(cpus):
            self.cores[machine.node_of[core]] += 1

    def distance(self, a: int, b: int) -> int:
        return self.machine.distances[a][b] if self.machine.distances else 10 if a == b else FAR

    def suffices(self, nodes: List[int], cores: int, memory: int) -> bool:
        return sum(self.cores[node] for node in nodes) >= cores and has_room(self.memory, nodes, memory)

    def around(self, node: int, cores: int, memory: int) -> Iterator[List[int]]:
        """A node and as few others as suffice: the nearest ones, and for each distance the largest that are no farther."""
        others = sorted((other for other in self.cores if other != node), key=lambda other: (self.distance(node, other), other))
        largest = [sorted((other for other in others if self.distance(node, other) <= far), key=lambda other: -self.cores[other])
                   for far in sorted({self.distance(node, other) for other in others})]
        for order in [others, *largest]:
            nodes = [node, *order]
            counts = (count for count in range(1, len(nodes) + 1) if self.suffices(nodes[:count], cores, memory))
            count = next(counts, None)
            if count:
                yield nodes[:count]

    def worth(self, nodes: List[int]) -> Tuple[int, int, int, int, List[int]]:
        """What is better is less: few nodes, near ones, that have little more than is asked for, and then much memory."""
        first, spare = nodes[0], sum(self.cores[node] for node in nodes)
        return len(nodes), sum(self.distance(first, node) for node in nodes), spare, -(self.memory.get(first) or 0), nodes

    def choose(self, cores: int, memory: int) -> Optional[Cpus]:
        """The nodes for so many cores and bytes; nothing where there is no room."""
        found = [nodes for node in self.cores if self.cores[node] for nodes in self.around(node, cores, memory)]
        best = min(found, key=self.worth, default=None)
        return frozenset(best) if best else None


def home_of(machine: Machine, config: Config, count: int, free: Cpus, memory: FreeMemory) -> Optional[Cpus]:
    """The home of a container that asks for so many CPUs, by the free ones; nothing where it names one, or there is none to choose."""
    if nodes_named(config) or at(config, *CPU, "mems") or len(machine.nodes) < 2:
        return None
    return Vacancy(machine, free, memory).choose(-(-count // machine.threads), memory_asked(config))


def why_there(device: Optional[str], node: Optional[int], home: Cpus) -> str:
    """What is said behind the home of one that names a device, which is at this node; nothing of one that names none."""
    if device is None:
        return ""
    if node is None:
        return f": {device} is at no node of this machine"
    return f": {device} is there" if home == {node} else f": {device} is at node {node}, whose memory it may not have"
