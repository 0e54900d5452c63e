"""What is to be done, and what comes of it. Who decides yields commands, and is sent the answers."""

from __future__ import annotations

from dataclasses import dataclass, field
from enum import Enum
from typing import TYPE_CHECKING, Generator, Mapping, Optional, Tuple, TypeVar, Union

from .configs import Config, Limit
from .cpus import NO_CPUS, Cpus

if TYPE_CHECKING:
    from .partition import Partition

NAMELESS = "~"  # begins the name that numarun is given for a group of which no id is known, as no id begins


class Verb(Enum):
    """A command of numarun's that names a bundle."""

    CREATE = "create"
    ADOPT = "adopt"
    UPDATE = "update"


class Level(Enum):
    """How much a line of the log matters, as journald has it."""

    WARNING = 4
    NOTICE = 5
    INFO = 6


@dataclass(frozen=True)
class Start:
    """Ends the run of numarun that there is, and begins one with these CPUs reserved and offline, in which these nodes have memory, and which finds
    just these groups there, by the names that they have for it."""

    reserved: Cpus
    offline: Cpus
    shown: Cpus
    memory: Cpus
    strangers: Mapping[str, str] = field(default_factory=dict)


@dataclass(frozen=True)
class Ask:
    """A line for numarun, or for its trial, a run beside it that writes nothing."""

    line: str
    trial: bool = False


@dataclass(frozen=True)
class Tell:
    """Tells numarun, or its trial, of a container with this config, of which a copy is made for it."""

    verb: Verb
    name: str
    config: Config
    cpus: Cpus = NO_CPUS
    trial: bool = False


@dataclass(frozen=True)
class OpenTrial:
    """Begins a run that writes nothing, over the same machine."""


@dataclass(frozen=True)
class CloseTrial:
    """Ends it."""


@dataclass(frozen=True)
class Link:
    """Lets numarun reach a group by a container's id."""

    name: str
    path: str


@dataclass(frozen=True)
class Unlink:
    """Lets it reach none by this id."""

    name: str


@dataclass(frozen=True)
class Drop:
    """Takes away the copies of a container's config."""

    name: str


@dataclass(frozen=True)
class Write:
    """A write of the agent's own, into a file of a group."""

    path: str
    file: str
    text: str


@dataclass(frozen=True)
class Gather:
    """Brings the threads of this very group onto the CPUs that it requests, by way of these others, if one of them, or of a group below, may run
    elsewhere yet."""

    path: str
    inode: int
    cpus: Cpus
    others: Cpus


@dataclass(frozen=True)
class LookAtPartition:
    """Looks at the partition anew, and at who is below it where it has more than these CPUs."""

    cpus: Cpus


@dataclass(frozen=True)
class MakeGroup:
    """Makes a group of the partition's layout."""

    path: str


@dataclass(frozen=True)
class SetLimit:
    """Writes the limit of a group, or that it has none, where that is still this group and has the limit before."""

    path: str
    inode: int
    limit: Optional[Limit]
    before: Optional[Limit]


@dataclass(frozen=True)
class Taken:
    """What a group requested before the agent took it up, as texts; nothing where that can't be read. `system` is one of the system's;
    `limit` is that of one that has none now, since it was lifted; one is `listed` whose CPUs are those that an update by its runtime wrote
    since."""

    inode: int
    cpus: Optional[str]
    nodes: Optional[str]
    system: bool
    limit: Optional[Limit] = None
    listed: bool = False


@dataclass(frozen=True)
class SaveTaken:
    """Keeps what was taken, for a later --release."""

    groups: Mapping[str, Taken]


@dataclass(frozen=True)
class Say:
    """A line of the log."""

    line: str
    level: Level = Level.INFO


@dataclass(frozen=True)
class KeepCertificate:
    """Keeps a certificate, unless it is the last one again; its file is answered, and nothing of what is none."""

    lines: Tuple[str, ...]


@dataclass(frozen=True)
class LeaveFigures:
    figures: Mapping[str, float]


@dataclass(frozen=True)
class LeaveState:
    """Keeps what the agent knows for who asks when none runs."""

    state: Mapping[str, object]
    ended: bool = False


@dataclass(frozen=True)
class RunPool:
    """Runs the command that moves the rest of the machine onto these CPUs; a later look finds how it ended."""

    cpus: Cpus


Command = Union[Start, Ask, Tell, OpenTrial, CloseTrial, Link, Unlink, Drop, Write, Gather, LookAtPartition, MakeGroup, SetLimit, SaveTaken,
                Say, KeepCertificate, LeaveFigures, LeaveState, RunPool]


@dataclass(frozen=True)
class Answer:
    """The lines of numarun's answer, what it said on standard error, why the system refused what was to be done, whether the agent is told
    to end, whether nothing was done, as what was to be replaced is not there any more, or as nothing was to be done, what a look at the partition
    found, and whether it is to end without another write."""

    lines: Tuple[str, ...] = ()
    notes: Tuple[str, ...] = ()
    why: Optional[str] = None
    ending: bool = False
    stale: bool = False
    partition: Optional[Partition] = None
    at_once: bool = False


T = TypeVar("T")
Steps = Generator[Command, Answer, T]
