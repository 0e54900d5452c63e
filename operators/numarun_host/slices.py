"""The groups of the system itself, as system.slice: each of them is told as one more shared container, so that it is on the pool. One
that has a pinned container below it can't be, since the kernel gives a group no more than those above it have. Of such a one the
groups below it are told that are on the way to no pinned container; it is let go itself, and has all CPUs."""

from __future__ import annotations

import re
import zlib
from typing import Dict, FrozenSet, List, Optional, Tuple, Union

from .commands import Say, Steps, Taken, Write
from .configs import REST, asked, limited
from .cpus import NO_CPUS, print_list
from .ledger import Kind, Ledger, Sighting, Topic, report
from .script import Refused
from .seen import Found, Group, Missing, NoGroup, Told
from .telling import Turn

MOST_SIGNS = 64  # of an id
ID = re.compile(r"[A-Za-z0-9_.+-]{1,64}")
FILES = ("cpuset.cpus", "cpuset.mems")  # what a group requests
Rest = Dict[str, Union[Found, Missing]]


def id_of(group: str) -> str:
    """An id for a group: its path with + between the names; what no id may have is _, and then a digest tells it from others."""
    name = re.sub(r"[^A-Za-z0-9_.+-]", "_", group.replace("/", "+"))
    if name == group.replace("/", "+") and is_id(name):
        return name
    return f"{name[:MOST_SIGNS - 9]}-{zlib.crc32(group.encode(errors='surrogateescape')):08x}"


def is_id(name: str) -> bool:
    return ID.fullmatch(name) is not None and name not in (".", "..")


def is_below(path: str, above: Optional[str]) -> bool:
    return path.startswith(f"{above}/")


def rest_of(turn: Turn) -> Tuple[Rest, Dict[str, str]]:
    """The groups that are to be on the pool, and those that are on the way to a pinned container, with that container."""
    ledger = turn.ledger
    if not turn.look.slices:
        return {}, {}
    ways = {sighting.group.path: name for name, sighting in turn.there.items() if asks(ledger, name, sighting)}
    containers = frozenset(sighting.group.path for sighting in turn.there.values())
    on_the_way: Dict[str, str] = {}
    others = [name for name in turn.look.slices if is_there(turn, name) and path_of(ledger, name) not in containers]
    found = [group for name in others for group in below(turn, name, ways, containers, on_the_way)]
    return {id_of(name): found_of(turn, name) for name in found}, on_the_way


def path_of(ledger: Ledger, group: str) -> str:
    return f"{ledger.settings.root}/{group}"


def is_there(turn: Turn, name: str) -> bool:
    found = turn.look.groups.get(path_of(turn.ledger, name))
    return isinstance(found, Group) or (isinstance(found, NoGroup) and found.folder)


def found_of(turn: Turn, name: str) -> Union[Found, Missing]:
    told, group = Told("", None, name, 0), turn.look.groups.get(path_of(turn.ledger, name), NoGroup("no such group"))
    if isinstance(group, NoGroup):
        return Missing(told, group.why)
    return Found(told, (told,), REST, group)


def asks(ledger: Ledger, name: str, sighting: Sighting) -> bool:
    """Whether a container asks for CPUs of its own, and may have some."""
    container = ledger.containers.get(name)
    if container:
        return container.demand.count is not None
    try:
        return asked(limited(sighting.config, sighting.limit, None, sighting.listed), ledger.settings.pin, ledger.settings.machine) is not None
    except Refused:
        return False


def below(turn: Turn, name: str, ways: Dict[str, str], containers: FrozenSet[str], on_the_way: Dict[str, str]) -> List[str]:
    """This group, which is no container's, or, where a pinned container is below it, those below it that are on the way to none."""
    path = path_of(turn.ledger, name)
    begins = f"{path}/"
    pinned = next((container for way, container in ways.items() if way.startswith(begins)), None)
    if pinned is None:
        return [name]
    on_the_way[path] = pinned
    children = [child for child in turn.look.below.get(path, ()) if f"{path}/{child}" not in containers]
    return [group for child in children for group in below(turn, f"{name}/{child}", ways, containers, on_the_way)]


def give_back(turn: Turn, path: str, whole: bool = False) -> Steps[Optional[str]]:
    """Lets a group request what it did before, or all but the CPUs of a partition beside, which ends if anybody requests them; why it can't, or
    nothing."""
    cpus = turn.ledger.settings.machine.present - turn.look.online.apart
    taken = turn.ledger.taken.get(path) or Taken(0, "", "", True)
    for file, text, everything in zip(FILES, (taken.cpus, taken.nodes), (print_list(cpus), print_list(turn.ledger.memory))):
        if text is None:
            continue
        text = "" if whole else text
        why = (yield Write(path, file, text)).why
        why = (yield Write(path, file, everything)).why if why and not text else why
        if why:
            return why
    return None


def let_go(turn: Turn) -> Steps[None]:
    """Gives all CPUs to groups of the system that were on the pool and are no more, as those above a pinned container."""
    ledger, ways = turn.ledger, turn.on_the_way
    held = {sighting.group.path for sighting in turn.there.values()}
    paths = {path for path, taken in ledger.taken.items() if taken.system}
    paths |= {path_of(ledger, name) for name in turn.look.slices} & ways.keys()
    for path in sorted(paths - held):
        group = turn.look.group(path)
        listed = group.cpus if group else NO_CPUS
        if not listed or listed >= ledger.running:
            ledger.settle(Topic.SLICE, path)
            continue
        why = yield from give_back(turn, path, whole=True)
        if why and path in ways:
            text = f"{path}: {ledger.title(ways[path])} is below it, and gets no CPUs: {why}"
            yield from report(ledger, Topic.SLICE, path, Kind.REFUSED, text)
        elif not why:
            yield Say(f"all CPUs for {path}" + (f": {ledger.title(ways[path])} is below it" if path in ways else ""))
    yield from say_processes(turn)


def say_processes(turn: Turn) -> Steps[None]:
    """Says which groups on the way have processes of their own, which nobody keeps off a container's CPUs."""
    ledger = turn.ledger
    busy = {path: pinned for path, pinned in turn.on_the_way.items() if path in turn.look.busy}
    for topic, of in [key for key in ledger.problems if key[0] is Topic.PROCESSES and key[1] not in busy]:
        ledger.settle(topic, of)
    for path, pinned in busy.items():
        text = f"{path}: it can't be on the pool, since {ledger.title(pinned)} is below it; its own processes run on all CPUs"
        yield from report(ledger, Topic.PROCESSES, path, Kind.REFUSED, text)
