"""What the agent knows from look to look: the containers that numarun was told of, and what is left undone."""

from __future__ import annotations

import dataclasses
from dataclasses import dataclass, field
from enum import Enum
from typing import Dict, FrozenSet, List, Mapping, Optional, Set, Tuple

from .commands import Command, Level, Say, Steps, Taken
from .configs import Config, Demand, Limit, Pin, stays
from .cpus import NO_CPUS, Cpus
from .machine import Machine
from .partition import Layout
from .seen import Found, Group, Look, Stamp, Told

MOST_PAUSES = 64  # times the first one


class State(Enum):
    """What a container is for numarun."""

    SHARED = "shared"      # it asks for no CPUs of its own, and runs on the pool
    WAITING = "waiting"    # it asks for some, and runs on the pool until there is room
    ASKING = "asking"      # numarun was told that it asks for some, and no plan has given it any yet
    PINNED = "pinned"      # it has CPUs of its own
    KEPT = "kept"          # its config can't be had: it has the CPUs of its own that it had before
    POOLED = "pooled"      # its config can't be had: it runs on the pool
    STOPPED = "stopped"    # its process has ended, and its runtime keeps it: it gave back what it had

    @property
    def is_pinned(self) -> bool:
        """Whether numarun was told that it asks for CPUs of its own."""
        return self in (State.ASKING, State.PINNED, State.KEPT)

    @property
    def has_had_a_plan(self) -> bool:
        return self in (State.PINNED, State.KEPT)

    @property
    def is_bare(self) -> bool:
        """Whether nothing of its config was told."""
        return self in (State.KEPT, State.POOLED)


@dataclass(frozen=True)
class Sighting:
    """A container that is there, as it was seen. `limit` and `nodes` are those of its group where its config has others; `listed` is
    the list that an update by its runtime gave it in place of its config's, and `named` are such nodes; with no stamp its config
    can't be seen, and stands for what it has."""

    told: Told
    stamp: Optional[Stamp]
    config: Config
    group: Group
    limit: Optional[Limit] = None
    nodes: Optional[Cpus] = None
    age: int = 0
    stopped: bool = False
    near: Optional[int] = None  # the node of the device that it names
    listed: Optional[str] = None
    memory: Mapping[int, int] = field(default_factory=dict, compare=False)  # what it has of each node already, where that counts
    named: Optional[Cpus] = None

    @property
    def asks(self) -> Tuple[object, ...]:
        """What it asks for is the same as long as this is the same."""
        return self.stamp, self.group.inode, self.limit, self.nodes, self.stopped, self.listed, self.named

    @property
    def place(self) -> str:
        """What the log names it by, beside its id."""
        return self.told.bundle or self.group.path


@dataclass(frozen=True)
class Container:
    """A container that numarun was told of: what it asks for, what numarun was told that it asks for, and what it asks for by now where
    there is no room for it yet; the CPUs and nodes that it requests; the home that it was given."""

    name: str
    seen: Sighting
    state: State
    demand: Demand
    given: Demand
    wanted: Optional[Demand] = None
    cpus: Optional[Cpus] = None
    nodes: Optional[Cpus] = None
    followed: Optional[Cpus] = None  # the nodes that somebody gave its group, where it was told with these
    home: Optional[Cpus] = None
    homeless: bool = False  # whether no node has memory enough for it
    certificate: str = ""   # the file that proves that there is no room for it, where it waits since a shortage of which that was kept

    @property
    def stays(self) -> bool:
        """Whether it is never moved."""
        return stays(self.seen.config)


@dataclass(frozen=True)
class Sighted:
    """A container as it was seen, and by what: it is seen the same where all of these are the same."""

    found: Found
    container: Optional[Container]
    taken: Optional[Taken]
    sighting: Sighting


@dataclass(frozen=True)
class Stranger:
    """A group that numarun was shown as it began, and that no container has since: of its plans none gives these CPUs away."""

    path: str
    inode: int
    cpus: Cpus


class Topic(Enum):
    """Of what something can be left undone. Of each container, path and the like there is one thing at most under each topic; so what may be left
    beside another thing has a topic of its own, and neither of them takes the other's place."""

    __hash__ = object.__hash__  # there is one of each, and Enum's own hash is slow

    CONTAINER = "container"  # whether it can be seen, and told of
    DEMAND = "demand"        # whether what it asks for can be had
    ROOM = "room"            # whether there is room for that
    STAYS = "stays"
    OUTSIDE = "outside"      # of one that was told of too, which has ended by that
    DRIFT = "drift"
    SQUEEZED = "squeezed"
    THREADS = "threads"      # whether its threads run on its CPUs alone
    LIMIT = "limit"
    PARTITION = "partition"
    RESIZE = "resize"
    UNSEEN = "unseen"
    SLICE = "slice"
    PROCESSES = "processes"
    DOUBLE = "double"
    PLAN = "plan"
    RECORD = "record"
    POOL = "pool"
    LOOK = "look"


class Kind(Enum):
    """What is left undone."""

    ABSENT = "absent"
    UNTOLD = "untold"  # it is there, and can't be told of at the moment
    STAYS = "stays"
    UNSEEN = "unseen"
    REFUSED = "refused"
    WAITS = "waits"
    KEEPS = "keeps"
    FEWER = "fewer"
    SHORT = "short"
    FAILED = "failed"
    DRIFT = "drift"
    SQUEEZED = "squeezed"
    OUTSIDE = "outside"
    PARTITION = "partition"

    @property
    def word(self) -> str:
        """The first word of the line that says so."""
        return str((Kind.ABSENT if self is Kind.UNTOLD else self).value)


FULL = (Kind.WAITS, Kind.KEEPS, Kind.FEWER)  # what a full machine leaves undone


@dataclass(frozen=True)
class Problem:
    """Something that is left undone."""

    kind: Kind
    of: str
    text: str

    @property
    def line(self) -> str:
        return f"{self.kind.word} {self.text}" if not self.text.startswith(":") else f"{self.kind.word}{self.text}"


Key = Tuple[Topic, str]
CONTAINER_PAUSES = ("container", "limit")
CONTAINER_TOPICS = (Topic.CONTAINER, Topic.DEMAND, Topic.ROOM, Topic.STAYS, Topic.DRIFT, Topic.SQUEEZED, Topic.THREADS, Topic.LIMIT)


@dataclass(frozen=True)
class Pause:
    """What failed is not tried again before this time; the pause doubles each time."""

    until: float
    length: float


@dataclass(frozen=True)
class Settings:
    """How the agent was told to work."""

    machine: Machine
    path: str = ""  # of the machine file
    root: Optional[str] = None  # of the tree; nothing where no writes are to be made
    pin: Pin = Pin.ALL
    homes: bool = True
    slices: Tuple[str, ...] = ()  # what --rest names
    pool_least: int = 0  # newcomers wait rather than bring the pool below so many CPUs
    pause: float = 1.0
    certificates: str = ""
    figures: str = ""
    pool: bool = False
    partition: Optional[Layout] = None  # that of the containers, whose group the root is
    system: Cpus = NO_CPUS  # CPUs of the machine file that are left to the system, outside of the partition
    lift: bool = False  # whether one that has CPUs of its own has no limit


COUNTERS = ("plans_total", "moves_total", "steps_total", "shortages_total", "refused_writes_total", "distance", "distance_beyond_local")
TIMES = ("waited_seconds_total", "squeezed_seconds_total")


@dataclass
class Ledger:
    """All that the agent knows. `decide` works on a copy of what it is handed."""

    settings: Settings
    memory: Cpus = NO_CPUS   # the nodes that the tree's root has
    reserved: Cpus = NO_CPUS
    running: Cpus = NO_CPUS  # the CPUs that run, as numarun was told
    shown: Cpus = NO_CPUS    # those that were there at the last look, reserved ones among them
    came: Cpus = NO_CPUS     # those that came, and on which threads of groups that do not request them may run yet
    gathered: FrozenSet[int] = frozenset()  # the inodes of the groups whose threads were seen to run on their own CPUs alone
    switched: Dict[int, str] = field(default_factory=dict)  # `offline` or `online`, by the CPU, as it was told last
    containers: Dict[str, Container] = field(default_factory=dict)  # by id, in the order in which numarun was told of them
    problems: Dict[Key, Problem] = field(default_factory=dict)
    unsaid: Set[Key] = field(default_factory=set)          # those that are said at the next look, if they are there then
    sighted: Dict[str, Sighted] = field(default_factory=dict)    # by id what was seen last, so that what is the same is not worked out again
    refused: Dict[str, Sighting] = field(default_factory=dict)   # who was refused, as it was seen then
    blocking: Dict[str, Sighting] = field(default_factory=dict)  # who runs on CPUs and can't be adopted at the moment
    taken: Dict[str, Taken] = field(default_factory=dict)        # by the path of the group
    renewed: Dict[str, Taken] = field(default_factory=dict)      # the same of paths at which another group is by now
    known: FrozenSet[str] = frozenset()  # the paths that an agent before had taken
    strangers: Dict[str, Stranger] = field(default_factory=dict)  # by the name under which numarun knows each
    before: Dict[str, Tuple[Optional[str], Optional[bool]]] = field(default_factory=dict)  # by id the group, and whether it was pinned
    pauses: Dict[Tuple[str, str], Pause] = field(default_factory=dict)
    pool: Optional[Cpus] = None  # the CPUs of all that have none of their own
    tried: Optional[List[str]] = None  # what a plan that a write kept from its end was to change
    due: bool = False     # whether a plan is to be worked out though nothing happened
    unmade: bool = False  # whether an update was not made, since a write failed
    untried: bool = False  # whether it could not be tried who may get more, as where there was no memory for that
    spent: bool = False   # whether numarun has no pids left, so that a new run is wanted
    direct: bool = True   # whether numarun knows direct hand-overs, as far as it was asked
    withholds: bool = True  # whether it keeps others off the CPUs of strangers, as far as it was asked
    started: bool = False
    wrong: bool = False   # whether there was an event that was refused
    ending: bool = False        # whether the agent is told to end, which it does behind the hand-over that has begun
    ends_at_once: bool = False  # whether it ends without that
    notes: Tuple[str, ...] = ()
    silent: Dict[str, Tuple[int, str]] = field(default_factory=dict)  # by a watched folder why it has no containers, and for how many looks
    loose: FrozenSet[Tuple[int, str]] = frozenset()  # processes outside of the partition that may run there, as they were said
    titles: Mapping[str, str] = field(default_factory=dict)
    counts: Dict[str, int] = field(default_factory=lambda: dict.fromkeys(COUNTERS, 0))
    times: Dict[str, float] = field(default_factory=lambda: dict.fromkeys(TIMES, 0.0))
    looked: Optional[float] = None  # when it looked last
    certificate: str = ""           # the file of the last one that was kept
    left: Optional[Tuple[float, Dict[str, float]]] = None  # the figures that were left last, and when
    rest: Optional[Look] = None  # the last look, if nothing was to be done behind it, so that nothing is as long as looks find the same

    def copy(self) -> Ledger:
        """Another one, of which each part can be changed by itself."""
        other = object.__new__(Ledger)
        parts = {**vars(self), **{name: getattr(self, name).copy() for name in CHANGED}}
        vars(other).update(parts)
        return other

    def stands_as(self, before: Ledger) -> bool:
        """Whether it knows what it did before, but for what time alone changes."""
        return all(getattr(self, name) == getattr(before, name) for name in STANDING)

    @property
    def all_taken(self) -> Dict[str, Taken]:
        """What is kept for the next agent, which has to look at groups that came anew where this one has not."""
        return {**self.renewed, **self.taken}

    def title(self, name: str) -> str:
        """What the log calls a container: its id, or a shorter name where that is long."""
        return self.titles.get(name, name)

    @property
    def has_tree(self) -> bool:
        return self.settings.root is not None

    def put(self, container: Container) -> None:
        self.containers[container.name] = container

    def change(self, name: str, **parts: object) -> Container:
        """Puts other parts in the place of a container's own."""
        container = dataclasses.replace(self.containers[name], **parts)
        self.containers[name] = container
        return container

    def remove(self, name: str) -> None:
        """Knows nothing of a container any more, so that others may get its CPUs."""
        del self.containers[name]
        self.due = True

    def problem(self, topic: Topic, of: str = "") -> Optional[Kind]:
        """What is left undone, if something is."""
        found = self.problems.get((topic, of))
        return found.kind if found else None

    def settle(self, topic: Topic, of: str = "", *kinds: Kind) -> None:
        """It is done now, or what of these kinds was left."""
        if self.problems and (topic, of) in self.problems and (not kinds or self.problems[topic, of].kind in kinds):
            del self.problems[topic, of]
            self.unsaid.discard((topic, of))

    def forget(self, name: str, *topics: Topic) -> None:
        """Nothing is there of a container any more, and nothing is left to be said of it, or nothing under these topics."""
        for topic in topics or CONTAINER_TOPICS:
            self.settle(topic, name)
        for kept in (self.refused, self.blocking):
            kept.pop(name, None)
        for what in CONTAINER_PAUSES:
            self.pauses.pop((what, name), None)

    def is_refused(self, name: str, sighting: Sighting) -> bool:
        """Whether it was refused for good, as it is."""
        before = self.refused.get(name)
        return before is not None and (before.asks, before.group.path) == (sighting.asks, sighting.group.path)

    def is_over(self, what: str, of: str, now: float) -> bool:
        """Whether what failed may be tried again."""
        return (what, of) not in self.pauses or now >= self.pauses[what, of].until

    def begin_pause(self, what: str, of: str, now: float) -> None:
        """It has failed."""
        first = max(self.settings.pause, 0.05)
        before = self.pauses.get((what, of))
        length = min(2 * before.length, MOST_PAUSES * first) if before else first
        self.pauses[what, of] = Pause(now + length, length)

    def end_pause(self, what: str, of: str = "") -> None:
        self.pauses.pop((what, of), None)


# The parts that are changed, and not replaced: those that begin as an empty one each.
CHANGED = tuple(part.name for part in dataclasses.fields(Ledger) if part.default_factory is not dataclasses.MISSING)
# Those by which something is decided: all but the settings, which stay, the clock, what it adds up, and what is worked out from a look alone.
STANDING = tuple(part.name for part in dataclasses.fields(Ledger) if part.name not in ("settings", "looked", "times", "left", "rest", "sighted"))


def report(ledger: Ledger, topic: Topic, of: str, kind: Kind, text: str) -> Steps[None]:
    """Says what is left undone, once as long as it is the same, also where a plan and a container are kept from the same file."""
    problem, key = Problem(kind, of, text), (topic, of)
    if ledger.problems.get(key) != problem or key in ledger.unsaid:
        is_said = any(known.line == problem.line for other, known in ledger.problems.items() if other != key and other not in ledger.unsaid)
        ledger.problems[key] = problem
        ledger.unsaid.discard(key)
        if not is_said:
            yield Say(problem.line, Level.WARNING)


def say_unsaid(ledger: Ledger) -> List[Command]:
    """Says at the end what would have been said at the next look."""
    return [Say(ledger.problems[key].line, Level.WARNING) for key in sorted(ledger.unsaid, key=lambda key: (key[0].value, key[1]))]


def is_undone(ledger: Ledger, told_to_end: bool) -> bool:
    """Whether something is left undone that the exit status names: of one that was told to end, no container that has no room, and no plan
    that the next one makes."""
    left = [problem for problem in ledger.problems.values() if problem.kind is not Kind.OUTSIDE and not (told_to_end and problem.kind in FULL)]
    return bool(ledger.wrong or ledger.due and not told_to_end or left)
