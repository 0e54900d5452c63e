"""What Linux tells below /sys/devices/system of the machine that the script runs on."""

from __future__ import annotations

import os
import re
from typing import Dict, List, Optional, Sequence, Tuple

from .cpus import CPUS, NODES, NO_CPUS, Cpus, print_list
from .described import UNREACHABLE, Described, check_system, say
from .script import Refused

RANGE = "[0-9]{1,4}(-[0-9]{1,4})?"
LIST = re.compile(f"{RANGE}(,{RANGE})*")


def members(text: str) -> Cpus:
    """The numbers of a list as the kernel prints it."""
    ends = [item.partition("-") for item in text.split(",") if item]
    return frozenset(cpu for first, dash, last in ends for cpu in range(int(first), int(last if dash else first) + 1))


class Host:
    """The files of the kernel."""

    def __init__(self, folder: str) -> None:
        self.folder = folder
        self.online = members(self.list_in("cpu/online"))
        self.here = members(self.list_in("cpu/present")) if self.has("cpu/present") else self.online
        self.has_nodes = self.has("node/online")
        self.online_nodes = sorted(members(self.list_in("node/online"))) if self.has_nodes else [0]

    def path(self, name: str) -> str:
        return os.path.join(self.folder, name)

    def has(self, name: str) -> bool:
        return os.path.exists(self.path(name))

    def line_of(self, name: str) -> str:
        try:
            with open(self.path(name), encoding="utf-8", errors="replace") as file:
                return file.readline().strip()
        except OSError:
            raise Refused(f"{self.path(name)}: no such file, or it can't be read") from None

    def list_in(self, name: str) -> str:
        text = self.line_of(name)
        if not LIST.fullmatch(text):
            raise Refused(f"{self.path(name)}: {text[:40]} is no list")
        return text

    def isolated(self) -> Cpus:
        """The CPUs of `isolcpus=`, among which the scheduler balances no load; Linux tells an empty line where there are none."""
        text = self.line_of("cpu/isolated") if self.has("cpu/isolated") else ""
        return members(text) if LIST.fullmatch(text) else NO_CPUS

    def cpus_of(self, node: int) -> Cpus:
        """The CPUs of a node: offline ones too, which its own list leaves out."""
        if not self.has_nodes:
            return self.here
        try:
            names = os.listdir(self.path(f"node/node{node}"))
        except OSError:
            return NO_CPUS
        return frozenset(int(name[3:]) for name in names if re.fullmatch("cpu[0-9]{1,9}", name))

    def row_of(self, node: int) -> Dict[int, int]:
        """The distances from a node; Linux tells those to online nodes, in their order."""
        name, row = f"node/node{node}/distance", {node: 10}
        if not self.has(name):
            return row
        entries = self.line_of(name).split()
        for k, other in enumerate(self.online_nodes):
            entry = entries[k] if k < len(entries) else "nothing"
            if not re.fullmatch("[0-9]{1,3}", entry) or (other != node and not 10 <= int(entry) <= UNREACHABLE):
                raise Refused(f"{self.path(name)}: {entry}, where a distance from 10 to 255 to node {other} must be")
            row[other] = int(entry)
        if row[node] != 10:
            say(f"node {node} is at {row[node]} from itself; written is 10, as a machine file has to have it")
            row[node] = 10
        return row

    def cores_of(self, present: Cpus) -> List[str]:
        """The cores as lists of their CPUs, that of the lowest CPU first."""
        found: Dict[str, None] = {}
        for cpu in sorted(present):
            name = f"cpu/cpu{cpu}/topology/thread_siblings_list"
            if not self.has(name):
                raise Refused(f"--cores: of CPU {cpu} no siblings are told, as of one that is offline; without --cores each CPU is a core")
            found[self.list_in(name)] = None
        return list(found)


def nodes_of(host: Host, renumber: bool) -> Sequence[int]:
    highest = host.online_nodes[-1]
    nodes: Sequence[int] = host.online_nodes if renumber or highest >= NODES else range(highest + 1)
    if len(nodes) > NODES or (highest >= NODES and not renumber):
        raise Refused(f"node {highest}: a machine file has nodes 0 to {NODES - 1} (see --renumber)")
    return nodes


def check_present(lists: Sequence[Cpus], host: Host) -> Cpus:
    """The CPUs of the nodes."""
    present = NO_CPUS.union(*lists)
    if not present:
        raise Refused("no node has CPUs")
    if max(present) >= CPUS:
        raise Refused(f"CPU {max(present)}: a machine file has CPUs 0 to {CPUS - 1}")
    twice = [cpu for cpu in sorted(present) if sum(cpu in cpus for cpus in lists) > 1]
    if twice:
        raise Refused(f"CPU {twice[0]} is in two nodes")
    if (host.here | host.online) - present:
        say(f"left out, as no node has them: CPUs {print_list((host.here | host.online) - present)}")
    if not host.online & present:
        raise Refused("no CPU of a node is online")
    return present


def core_fault(cores: Sequence[str], lists: Sequence[Cpus], reserved: Cpus) -> Optional[str]:
    """The first thing that is wrong with cores."""
    node_of = {cpu: node for node, cpus in enumerate(lists) for cpu in cpus}
    taken: Cpus = NO_CPUS
    for core in cores:
        cpus = sorted(members(core))
        if len(cpus) != len(members(cores[0])):
            return f"cores have different numbers of CPUs: {cores[0]} and {core}"
        for cpu in cpus:
            if cpu in taken:
                return f"CPU {cpu} is in two cores"
            if cpu not in node_of:
                return f"CPU {cpu} of the core {core} is in no node"
            if node_of[cpu] != node_of[cpus[0]]:
                return f"the core {core} is in two nodes"
            if (cpu in reserved) != (cpus[0] in reserved):
                return f"the core {core} is reserved in part"
        taken |= set(cpus)
    return None


def describe_host(folder: str, named: Optional[str], renumber: bool, with_cores: bool, system: Cpus = NO_CPUS) -> Described:
    """The machine that is told below this folder, but for the system's own CPUs."""
    if named is not None and not LIST.fullmatch(named):
        raise Refused(f"--reserved: {named} is no list of CPUs")
    host = Host(folder)
    nodes = nodes_of(host, renumber)
    told: List[Tuple[Cpus, Dict[int, int]]] = [(host.cpus_of(node), host.row_of(node)) for node in nodes]
    lists, rows = [cpus for cpus, _ in told], [[row.get(node, UNREACHABLE) for node in nodes] for _, row in told]
    present = check_present(lists, host)
    cores = host.cores_of(present) if with_cores else []
    check_system(system, present, host.online, [members(core) for core in cores])
    lists, present, cores = [cpus - system for cpus in lists], present - system, [core for core in cores if not members(core) & system]
    if host.isolated() & present:
        say(f"no load is balanced among CPUs {print_list(host.isolated() & present)}: boot without isolcpus=, or leave them out by --system")
    usable = host.online & present
    reserved = members(named) if named is not None else members(cores[0]) if cores else frozenset({min(usable)})
    if not reserved:
        raise Refused("--reserved: no CPU is named")
    if reserved - usable:
        raise Refused(f"reserved CPUs that are not online: {print_list(reserved - usable)}")
    fault = core_fault(cores, lists, reserved)
    if fault:
        raise Refused(f"--cores: {fault}")
    return Described(lists, rows, reserved, present - host.online, cores)
