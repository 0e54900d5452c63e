"""Who is there at a look. Who has a process has not ended, whatever can't be seen of it."""

from __future__ import annotations

import dataclasses
from typing import Dict, Mapping, Optional, Set, Tuple, Union

from .commands import Steps
from .configs import CPU, Limit, at, bare, nodes_in, nodes_named, other_limit, same_list
from .cpus import NO_CPUS, Cpus
from .ledger import CONTAINER_PAUSES, CONTAINER_TOPICS, Container, Kind, Ledger, Problem, Sighted, Sighting, Topic, report
from .lifting import limit_of
from .seen import Found, Group, Missing, Told
from .slices import rest_of
from .telling import Turn

TOLD_NO_MORE = "it is told of no more"


def see_all(turn: Turn) -> Steps[None]:
    """Who is there, and the groups of the system itself that are to be on the pool."""
    ledger, there, told = turn.ledger, turn.there, turn.look.told
    yield from see_each(turn, told)
    for name, container in ledger.containers.items():
        if name not in told and not container.seen.told.is_system and lives(turn, container):
            there[name] = as_it_was(turn, container)
            yield from say_stays(ledger, name, TOLD_NO_MORE)
    yield from see_left_by_one_before(turn)
    rest, turn.on_the_way = rest_of(turn)
    yield from see_each(turn, {name: found for name, found in rest.items() if name not in there})
    forget_those_gone(ledger, told.keys() | rest.keys() | there.keys())


def forget_those_gone(ledger: Ledger, names: Set[str]) -> None:
    """Nothing is kept of who is not one of these, and was not told of either."""
    for outside in {of for topic, of in ledger.problems if topic is Topic.OUTSIDE} - names:
        ledger.settle(Topic.OUTSIDE, outside)
    kept = {of for topic, of in ledger.problems if topic in CONTAINER_TOPICS} | ledger.refused.keys() | ledger.blocking.keys()
    kept |= {of for what, of in ledger.pauses if what in CONTAINER_PAUSES}
    for name in kept - names - ledger.containers.keys():
        ledger.forget(name)
    for name in ledger.sighted.keys() - names:
        del ledger.sighted[name]


def see_each(turn: Turn, told: Mapping[str, Union[Found, Missing]]) -> Steps[None]:
    ledger = turn.ledger
    for name, found in told.items():
        if isinstance(found, Missing):
            yield from miss(turn, name, found)
            continue
        turn.there[name] = sighting_of(ledger, name, found)
        if ledger.problems:
            ledger.settle(Topic.STAYS, name)
            ledger.settle(Topic.OUTSIDE, name)
            ledger.settle(Topic.CONTAINER, name, Kind.ABSENT)


def miss(turn: Turn, name: str, found: Missing) -> Steps[None]:
    """Who can't be seen and has a process has not ended."""
    ledger = turn.ledger
    if found.outside:
        ledger.settle(Topic.STAYS, name)
        ledger.settle(Topic.CONTAINER, name)
        yield from report(ledger, Topic.OUTSIDE, name, Kind.OUTSIDE, f"{ledger.title(name)}: {found.why}")
        return
    container = ledger.containers.get(name)
    if container and found.in_parts and not ledger.has_tree:
        turn.there[name] = container.seen
        return
    sighting = as_it_was(turn, container) if container and lives(turn, container) else None if container else as_before(turn, name, found.told)
    if sighting:
        turn.there[name] = sighting
        yield from say_stays(ledger, name, found.why)
    else:
        yield from say_absent(ledger, name, found.why)


def sighting_of(ledger: Ledger, name: str, found: Found) -> Sighting:
    """One that is there, as it is seen. What is as it was at the last look is the same object, so that most of a look is no work."""
    container, taken, before = ledger.containers.get(name), ledger.taken.get(found.group.path), ledger.sighted.get(name)
    if before and before.found is found and before.container is container and before.taken is taken:
        return before.sighting
    sighting = Sighting(found.told, found.stamp, found.config, found.group, *limits(ledger, name, found), found.age, found.stopped, found.near,
                        list_of(ledger, found), found.memory, nodes_by_update(ledger, name, found))
    if container and container.seen == sighting:
        sighting = container.seen
    ledger.sighted[name] = Sighted(found, container, taken, sighting)
    return sighting


def limits(ledger: Ledger, name: str, found: Found) -> Tuple[Optional[Limit], Optional[Cpus]]:
    """The limit and the nodes of a container's group, where somebody gave it others than its config has; or the nodes of its runtime's update, where
    these are not written any more."""
    if found.told.is_system or not ledger.has_tree:
        return None, None
    container, nodes, named = ledger.containers.get(name), found.group.nodes, nodes_by_update(ledger, name, found)
    has = container.nodes if container else nodes_named(found.config)
    if not nodes or nodes == written(ledger, has) or not are_known(ledger, nodes):
        nodes = (container.followed if container else None) or named
    elif not container:
        nodes = named or nodes
    return other_limit(found.config, limit_of(ledger, found.group)), nodes


def list_of(ledger: Ledger, found: Found) -> Optional[str]:
    """The list of CPUs that an update by its runtime gave a container. runc has it in its state until the next update of something else,
    by which it forgets it; so the last one is kept."""
    group, told = found.group, found.told.listed
    if found.told.is_system or not ledger.has_tree:
        return None
    if told:
        return None if same_list(told, at(found.config, *CPU, "cpus")) else told
    before = ledger.taken.get(group.path)
    return before.cpus if before and before.listed and before.inode == group.inode else None


def nodes_by_update(ledger: Ledger, name: str, found: Found) -> Optional[Cpus]:
    """The nodes that an update by its runtime gave a container. runc forgets them as it does a list, so the last ones that were seen are kept."""
    if found.told.is_system or not ledger.has_tree:
        return None
    nodes, before = nodes_in(found.told.nodes), ledger.containers.get(name)
    if not found.told.nodes and before and before.seen.group.inode == found.group.inode:
        return before.seen.named
    return nodes if nodes and nodes != nodes_named(found.config) and are_known(ledger, nodes) else None


def is_updated(container: Container, sighting: Sighting) -> bool:
    """Whether its runtime has given it another list of CPUs since it was seen last, or other nodes."""
    return (sighting.listed, sighting.named) != (container.seen.listed, container.seen.named)


def written(ledger: Ledger, nodes: Optional[Cpus]) -> Cpus:
    """What stands in a group's file where it requests these nodes."""
    return (nodes or NO_CPUS) & ledger.memory or ledger.memory


def are_known(ledger: Ledger, nodes: Cpus) -> bool:
    return max(nodes) < len(ledger.settings.machine.nodes)


def nodes_of(ledger: Ledger, group: Group) -> Cpus:
    """The nodes that a group requests, if the machine has them."""
    return group.nodes if group.nodes and are_known(ledger, group.nodes) else NO_CPUS


def lives(turn: Turn, container: Container) -> bool:
    """Whether there is a process in the container's group."""
    return turn.runs(container.seen.group.path, container.seen.group.inode)


def as_it_was(turn: Turn, container: Container) -> Sighting:
    """One that can't be seen now, with what its group has."""
    group = turn.look.group(container.seen.group.path)
    return dataclasses.replace(container.seen, group=group) if group else container.seen


def as_before(turn: Turn, name: str, told: Told) -> Optional[Sighting]:
    """One of which no config can be read now, and which the agent before held: as it is, while it has a process."""
    ledger = turn.ledger
    path, pinned = ledger.before.get(name, (None, None))
    taken = ledger.taken.get(path) if path else None
    if not path or not taken or taken.system or not turn.runs(path, taken.inode):
        return None
    group = turn.look.group(path)
    assert group
    if pinned is None:
        pinned = not group.cpus & (ledger.reserved | ledger.settings.machine.reserved)
    demand = bare(group.cpus - ledger.reserved if pinned else NO_CPUS, nodes_of(ledger, group))
    return Sighting(dataclasses.replace(told, bundle=""), None, demand.config, group)


def see_left_by_one_before(turn: Turn) -> Steps[None]:
    """Those whom the agent before held, and of whom nobody tells now."""
    ledger, paths = turn.ledger, {sighting.group.path for sighting in turn.there.values()}
    found: Dict[str, Sighting] = {}
    for name in ledger.before:
        if name not in turn.look.told and name not in ledger.containers:
            sighting = as_before(turn, name, Told("", "", None, 0))
            if sighting and sighting.group.path not in paths:
                found[name] = sighting
    for name in found:
        yield from say_stays(ledger, name, TOLD_NO_MORE)
    turn.there.update(found)


def is_same(ledger: Ledger, container: Container, sighting: Sighting) -> bool:
    """Whether it is the container that numarun was told of: its group is the same, and was not made anew since."""
    before = container.seen
    if sighting is before:
        return True
    if sighting.told.is_system != before.told.is_system:
        return False
    if (sighting.stamp, sighting.group.inode) == (before.stamp, before.group.inode):
        return True
    if (sighting.group.path, sighting.group.inode) != (before.group.path, before.group.inode):
        return False
    if sighting.told.turn != before.told.turn and before.stamp:
        return False
    return not ledger.has_tree or bool(sighting.group.cpus) or not container.cpus


def say_stays(ledger: Ledger, name: str, why: str) -> Steps[None]:
    yield from report(ledger, Topic.STAYS, name, Kind.STAYS, f"{ledger.title(name)}: {why}; there is a process in its group")


def say_absent(ledger: Ledger, name: str, why: str) -> Steps[None]:
    """Says that one is not there when it was not there twice, for its runtime may be in the midst of making it."""
    text = f"{ledger.title(name)}: {why}"
    if ledger.problem(Topic.CONTAINER, name) is Kind.ABSENT:
        ledger.settle(Topic.OUTSIDE, name)
        yield from report(ledger, Topic.CONTAINER, name, Kind.ABSENT, text)
    else:
        ledger.problems[Topic.CONTAINER, name] = Problem(Kind.ABSENT, name, text)
        ledger.unsaid.add((Topic.CONTAINER, name))
