"""A look: reads what there is of each container, of the groups and of the machine, and decides nothing."""

from __future__ import annotations

import dataclasses
import os
import stat
from typing import Dict, FrozenSet, List, Mapping, Optional, Set, Tuple, Union

from .cgroups import Groups, group_path, has_ended, memory_by_node, read_file, read_json
from .configs import NEAR, Config, memory_asked, wish_of
from .cpus import read_list
from .devices import node_of_device
from .homes import FreeMemory
from .ledger import Ledger, Settings
from .memory import free_memory
from .names import Names
from .partition_files import PartitionFiles
from .script import Refused, read_text
from .seen import Found, Group, Look, Missing, NoGroup, Online, Stamp, Told, Unread
from .sources import Source

LIST_BYTES = 1 << 16


def is_stopped(told: Told, group: Group) -> bool:
    """Whether the process of its runtime's state has ended, and there is none in its group."""
    return group.populated is False and told.folder is not None and has_ended(told.folder)


class Eyes:
    """What looks at a machine, and what it keeps from look to look."""

    def __init__(self, settings: Settings, source: Source, online: Optional[str], nodes: str, groups: Optional[Groups], parent: str,
                 sysfs: str = "/sys", partition: Optional[PartitionFiles] = None) -> None:
        self.settings, self.source, self.online_path, self.nodes, self.groups, self.parent = settings, source, online, nodes, groups, parent
        self.sysfs, self.partition = sysfs, partition
        self.configs: Dict[str, Tuple[Stamp, Config]] = {}
        self.found: Dict[str, Found] = {}
        self.names = Names()
        self.online = self.read_online()

    def look(self, ledger: Ledger, now: float) -> Look:
        self.source.look()
        unread = [*self.source.unread, *self.look_at_online()]
        told = {name: self.container(ledger, name, container) for name, container in self.source.told.items()}
        for name in (self.configs.keys() | self.found.keys()) - told.keys():
            self.configs.pop(name, None)
            self.found.pop(name, None)
        slices = self.groups.named(self.settings.slices) if self.groups and self.settings.slices else ()
        below: Mapping[str, Tuple[str, ...]] = {}
        groups: Mapping[str, Union[Group, NoGroup]] = {}
        busy: FrozenSet[str] = frozenset()
        if self.groups:
            groups, below, busy = self.look_at_groups(self.groups, ledger, told, slices)
        wrong, events = tuple(self.source.wrong), tuple(self.source.events)
        self.source.wrong, self.source.events = [], []
        return Look(now, told, groups, self.online, events, wrong, self.memory(), slices, below, busy, self.source.folders, self.source.doubles,
                    self.names.titles(self.source.told, ledger.containers), tuple(unread), self.partition.look(now) if self.partition else None)

    # Containers.

    def container(self, ledger: Ledger, name: str, told: Told) -> Union[Found, Missing]:
        if told.fault:
            return Missing(told, told.fault, in_parts=True)
        path = f"{told.bundle}/config.json"
        try:
            there = os.stat(path)
        except (OSError, ValueError):
            return Missing(told, f"{path}: can't be read")
        stamp: Stamp = (told, there.st_dev, there.st_ino, there.st_mtime_ns, there.st_size)
        before, known = self.found.get(name), ledger.containers.get(name)
        if before and known and before.stamp == stamp == known.seen.stamp and before.group.path == known.seen.group.path:
            return self.container_again(name, before)
        if not stat.S_ISREG(there.st_mode):
            return Missing(told, f"{path}: no file")
        try:
            config = self.config(name, stamp, path)
            place = self.place(ledger, name, stamp, config, told)
        except Refused as why:
            return Missing(told, str(why), in_parts=True)
        if self.partition and not place.startswith(f"{self.partition.layout.path}/"):
            return Missing(told, f"its group is not below {self.partition.layout.path}; it runs on the system's CPUs", outside=True)
        group = self.groups.look_at(place) if self.groups else Group(place, 0)
        if isinstance(group, NoGroup):
            return Missing(told, group.why)
        stopped = is_stopped(told, group)
        if before and before.stamp == stamp and before.group is group and before.stopped == stopped:
            return before
        device = wish_of(config, NEAR)
        near = None if device is None else node_of_device(device, self.sysfs)
        memory = memory_by_node(place) if self.counts_memory and known is None and memory_asked(config) else {}
        found = self.found[name] = Found(told, stamp, config, group, there.st_mtime_ns, stopped, near, memory)
        return found

    def container_again(self, name: str, before: Found) -> Union[Found, Missing]:
        """The same of one that is known, whose config has not changed; where its group has not either it is the same object."""
        group = self.groups.look_at(before.group.path) if self.groups else before.group
        if isinstance(group, NoGroup):
            return Missing(before.told, group.why)
        stopped = group.populated is False and is_stopped(before.told, group)
        if group is not before.group or stopped != before.stopped:
            before = self.found[name] = dataclasses.replace(before, group=group, stopped=stopped)
        return before

    def config(self, name: str, stamp: Stamp, path: str) -> Config:
        before = self.configs.get(name)
        if before is None or before[0] != stamp:
            self.configs.pop(name, None)
            before = self.configs[name] = stamp, read_json(path)
        return before[1]

    def place(self, ledger: Ledger, name: str, stamp: Stamp, config: Config, told: Told) -> str:
        """The path of its group, which is that of one that is known already."""
        container = ledger.containers.get(name)
        if container and container.seen.stamp == stamp:
            return container.seen.group.path
        return group_path(self.groups.top, self.parent, name, config, told.folder, told.group) if self.groups else ""

    # Groups.

    def look_at_groups(self, groups: Groups, ledger: Ledger, told: Mapping[str, Union[Found, Missing]], slices: Tuple[str, ...]
                       ) -> Tuple[Mapping[str, Union[Group, NoGroup]], Mapping[str, Tuple[str, ...]], FrozenSet[str]]:
        """Those of containers that are told, or were, those that an agent took, and those of the system; what is below these; and which have
        processes of their own."""
        found: Dict[str, Union[Group, NoGroup]] = {container.group.path: container.group for container in told.values() if isinstance(container, Found)}
        paths: Set[str] = {container.seen.group.path for container in ledger.containers.values()}
        paths |= {path for path, _ in ledger.before.values() if path} | ledger.taken.keys() | ledger.renewed.keys()
        paths |= {stranger.path for stranger in ledger.strangers.values()}
        ways = groups.ways_to(slices, frozenset(paths | found.keys())) if slices else set()
        below = {path: groups.children(path) for path in ways}
        paths |= ways | {f"{groups.root}/{name}" for name in slices}
        paths |= {f"{path}/{child}" for path, children in below.items() for child in children}
        found.update((path, groups.look_at(path)) for path in paths - found.keys())
        groups.end_look()
        return found, below, frozenset(path for path in ways if read_file(f"{path}/cgroup.procs"))

    # The machine.

    def read_online(self) -> Online:
        """The CPUs that may be used: those of the kernel's list that the root of the tree has in effect."""
        machine, effective = self.settings.machine, self.groups.effective_cpus() if self.groups else None
        if self.online_path:
            listed = read_list(read_text(self.online_path, LIST_BYTES), self.online_path)
        else:
            listed = machine.present - machine.offline
        listed -= self.settings.system
        there = listed if effective is None else listed & effective
        strange = (listed if effective is None else effective) - machine.present
        return Online(there & machine.present, strange, (listed - there) & machine.present, not self.online_path)

    def look_at_online(self) -> List[Unread]:
        """Reads the kernel's list anew; it counts as it was where it can't be read."""
        try:
            if self.online_path:
                self.online = self.read_online()
        except Refused as why:
            return [Unread(self.online_path or "", str(why))]
        return []

    @property
    def counts_memory(self) -> bool:
        return self.settings.homes and self.groups is not None and len(self.settings.machine.nodes) > 1

    def memory(self) -> FreeMemory:
        return free_memory(self.nodes, self.settings.machine) if self.counts_memory else {}
