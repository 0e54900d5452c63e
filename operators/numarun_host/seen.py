"""What a look finds of a machine. All of it is data: whoever decides by it opens no file."""

from __future__ import annotations

from dataclasses import dataclass, field
from typing import FrozenSet, Mapping, Optional, Tuple, Union

from .configs import Config, Limit
from .cpus import NO_CPUS, Cpus
from .partition import Partition


@dataclass(frozen=True)
class Told:
    """A container as it was told: its bundle, its folder below what is watched (none of a group of the system itself), its group where
    the event names it, and which of those that were told under the id it is. `listed` is the list of CPUs that runc's state has, which
    may be empty, and `nodes` that of nodes of memory; `fault` is why it can't be told of."""

    bundle: str
    folder: Optional[str]
    group: Optional[str] = None
    turn: int = 0
    listed: Optional[str] = None
    fault: Optional[str] = None
    nodes: Optional[str] = None

    @property
    def is_system(self) -> bool:
        return self.folder is None


@dataclass(frozen=True)
class Group:
    """A control group: what it requests, what it has in effect, its limit, and whether there is a process in it or below it, where
    the kernel tells that. `texts` are its two lists as they stand there."""

    path: str
    inode: int
    cpus: Cpus = NO_CPUS
    nodes: Optional[Cpus] = None
    effective: Optional[Cpus] = None
    limit: Optional[Limit] = None
    populated: Optional[bool] = None
    texts: Tuple[Optional[str], Optional[str]] = ("", "")


@dataclass(frozen=True)
class NoGroup:
    """Why there is no group to be written; `folder` says whether there is one all the same."""

    why: str
    folder: bool = False


Stamp = Tuple[object, ...]  # what tells a config from another one in its place


@dataclass(frozen=True)
class Found:
    """What is there of a container. One is stopped whose runtime's state names a process that has ended, with none left in its group."""

    told: Told
    stamp: Stamp
    config: Config
    group: Group
    age: int = 0
    stopped: bool = False
    near: Optional[int] = None  # the node of the device that it names
    memory: Mapping[int, int] = field(default_factory=dict, compare=False)  # the bytes that its group has of each node, where these count


@dataclass(frozen=True)
class Missing:
    """Why a container can't be told of: its config, or its group, is not there. A config in parts is one that is there, and no JSON.
    Its group is outside of the partition where it is in no group below that of the containers."""

    told: Told
    why: str
    in_parts: bool = False
    outside: bool = False


@dataclass(frozen=True)
class Online:
    """The CPUs of the machine file that run, those that are strange to it, and those that run and that the tree's root has not; `is_fixed`
    where nobody but events tells which run."""

    running: Cpus
    strange: Cpus = NO_CPUS
    apart: Cpus = NO_CPUS
    is_fixed: bool = False


@dataclass(frozen=True)
class Folder:
    """A watched folder: whether it is there, how many entries it has, how many of these are containers, and the first that is none; and
    whether it is watched since a runtime would keep its state there."""

    path: str
    there: bool = True
    entries: int = 0
    containers: int = 0
    stranger: str = ""
    by_runtime: bool = False


@dataclass(frozen=True)
class Unread:
    """What can't be read at a look, by its path, and the line of why. It counts as it was at the last look."""

    path: str
    line: str


@dataclass(frozen=True)
class Double:
    """A container in one watched folder whose id is that of one in another."""

    name: str
    folder: str
    other: str


@dataclass(frozen=True)
class Look:
    """All that a look finds. `slices` are the groups of the system that are to be on the pool, below the root; `below` has those that are
    right below one of these, and `busy` those that have processes of their own; `unread` is what tells of containers or CPUs and can't be read. No
    look finds the locks of the tree and of the agent's folder: they are taken once, as the agent begins, and kept until it ends. Two looks are the
    same that find the same; how much memory is free alone is nothing that has to be done."""

    now: float = field(compare=False)
    told: Mapping[str, Union[Found, Missing]] = field(default_factory=dict)
    groups: Mapping[str, Union[Group, NoGroup]] = field(default_factory=dict)
    online: Online = Online(NO_CPUS)
    events: Tuple[str, ...] = ()
    wrong: Tuple[str, ...] = ()
    free_memory: Mapping[int, Optional[int]] = field(default_factory=dict, compare=False)
    slices: Tuple[str, ...] = ()
    below: Mapping[str, Tuple[str, ...]] = field(default_factory=dict)
    busy: FrozenSet[str] = frozenset()
    folders: Tuple[Folder, ...] = ()
    doubles: Tuple[Double, ...] = ()
    titles: Mapping[str, str] = field(default_factory=dict)
    unread: Tuple[Unread, ...] = ()
    partition: Optional[Partition] = None
    pool_command: Optional[str] = None  # that of --pool, as it was run last, where it has ended since the last look
    pool_fault: Optional[str] = None    # and why it failed

    def group(self, path: str) -> Optional[Group]:
        found = self.groups.get(path)
        return found if isinstance(found, Group) else None
