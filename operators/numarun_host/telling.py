"""What is said to numarun, and what its answers come to. A turn is one look as it is worked through."""

from __future__ import annotations

import re
from collections import Counter
from dataclasses import dataclass, field
from typing import Dict, Optional, Set, Tuple, Union

from .commands import Ask, Level, Say, Steps, Tell, Verb
from .configs import Demand
from .cpus import Cpus, read_list
from .ledger import Kind, Ledger, Sighting, Topic, report
from .seen import Group, Look

NO_MEMORY, NO_PIDS, KERNEL_FAULT, NOT_FREE, NO_STRANGER, BAD_LINE, NO_BUNDLE = 1, 45, 50, 104, 105, 110, 111
CONFIG_FAULTS = range(55, 68)  # a config that can't be had
WHY_NOT_NOW: Dict[Optional[int], str] = {
    NO_BUNDLE: "can't be read", NO_PIDS: "E45 NoPids: told again in another run", NO_MEMORY: "numarun has not enough memory to be told of it",
}


@dataclass
class Turn:
    """One look, what the agent knows, who is there, and what of that is worked out once."""

    ledger: Ledger
    look: Look
    there: Dict[str, Sighting] = field(default_factory=dict)
    on_the_way: Dict[str, str] = field(default_factory=dict)  # by a group of the system the pinned container below it
    owners: Dict[str, str] = field(default_factory=dict)      # by a group the container that numarun was told of
    coming: Set[str] = field(default_factory=set)             # the groups of those that come, until each is told of
    users: Optional[Counter[int]] = None  # how many groups request each CPU
    spare: Optional[Cpus] = None          # the CPUs that are promised to nobody
    unsaved: bool = False                 # whether what was taken has changed
    late: bool = False                    # whether another group came in the place of one that ended, and may have its CPUs
    unsure: bool = False                  # whether one may have got CPUs by a line that was refused, which the next look tells
    strays: Dict[str, Cpus] = field(default_factory=dict)  # by its id what a container requests that was written by others, until that is mended

    @property
    def now(self) -> float:
        return self.look.now

    def runs(self, path: str, inode: int) -> bool:
        """Whether there is a process in this very group."""
        group = self.look.group(path) if self.ledger.has_tree else None
        return group is not None and group.inode == inode and bool(group.populated)

    def came_anew(self, group: Group) -> bool:
        """Whether another group is in its place."""
        found = self.look.group(group.path)
        return found is not None and found.inode != group.inode


@dataclass(frozen=True)
class Reply:
    """An answer of numarun's, and the last that it said beside it, which is why a write was refused."""

    lines: Tuple[str, ...]
    note: str = ""

    @property
    def first(self) -> str:
        return self.lines[0]

    @property
    def fault(self) -> Optional[int]:
        """The number of a refusal."""
        found = re.match(r"refused E(\d{1,3}) ", self.first)
        return int(found[1]) if found else None

    @property
    def refusal(self) -> str:
        """A refusal's name and arguments."""
        return self.first.partition(" ")[2]

    @property
    def is_momentary(self) -> bool:
        """Whether it may do another time: a write, a copy of a config that can't be read, another run that has pids, or memory."""
        return self.fault in WHY_NOT_NOW or self.fault == KERNEL_FAULT


def ask(ledger: Ledger, command: Union[Ask, Tell], quiet: bool = False) -> Steps[Reply]:
    """A command's answer. What numarun says beside it is said, but for why a write was refused. Who is a container by it is a stranger no more."""
    answer = yield command
    ledger.ending, ledger.ends_at_once = ledger.ending or answer.ending, ledger.ends_at_once or answer.at_once
    notes = [titled(ledger, note) for note in answer.notes]
    reply = Reply(answer.lines, notes[-1] if notes else answer.lines[0])
    if reply.fault == KERNEL_FAULT:
        ledger.counts["refused_writes_total"] += 1
    ledger.spent = ledger.spent or reply.fault == NO_PIDS
    if isinstance(command, Tell) and command.verb is not Verb.UPDATE and reply.fault is None:
        ledger.strangers.pop(command.name, None)
    for note in [] if quiet or reply.fault == KERNEL_FAULT else notes:
        yield Say(f"note {note}", Level.NOTICE)
    return reply


def titled(ledger: Ledger, note: str) -> str:
    """What numarun said of a file, which is named by its group: by what the log calls the container."""
    name, slash, rest = note.partition("/")
    return f"{ledger.title(name)}{slash}{rest}"


def requested(ledger: Ledger, name: str) -> Steps[Tuple[Optional[Cpus], Optional[Cpus]]]:
    """The CPUs and the nodes that a container requests, as numarun has it."""
    words = (yield from ask(ledger, Ask(f"sets {name}"))).first.split(" ")
    return (read_list(words[1], name), read_list(words[5], name)) if words[0] == "cpus" else (None, None)


def report_failure(ledger: Ledger, name: str, place: str, reply: Reply) -> Steps[None]:
    """Says why a command was refused that may be taken at another time."""
    if reply.fault == KERNEL_FAULT:
        yield from report(ledger, Topic.CONTAINER, name, Kind.FAILED, reply.note)
    else:
        yield from report(ledger, Topic.CONTAINER, name, Kind.UNTOLD, f"{ledger.title(name)}: {place}: {WHY_NOT_NOW[reply.fault]}")


def tell_update(turn: Turn, name: str, demand: Demand, quiet: bool = False) -> Steps[bool]:
    """Tells of another demand; whether it was taken."""
    ledger, place = turn.ledger, turn.ledger.containers[name].seen.place
    reply = yield from ask(ledger, Tell(Verb.UPDATE, name, demand.config))
    if reply.first == "ok":
        cpus, nodes = yield from requested(ledger, name)
        ledger.change(name, given=demand, cpus=cpus, nodes=nodes)
        ledger.settle(Topic.CONTAINER, name, Kind.UNTOLD, Kind.FAILED)
        if not quiet:
            yield Say(f"update {ledger.title(name)} {place}")
        ledger.end_pause("update")
        return True
    if reply.is_momentary:
        ledger.unmade = True
        ledger.begin_pause("update", "", turn.now)
        yield from report_failure(ledger, name, place, reply)
    else:
        ledger.settle(Topic.CONTAINER, name, Kind.UNTOLD, Kind.FAILED)
        yield from report(ledger, Topic.DEMAND, name, Kind.REFUSED, f"{reply.refusal}: {ledger.title(name)} {place}: it stays as it was")
    return False
