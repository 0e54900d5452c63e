"""Those that end, those whose configs or limits are others, and what others wrote into the groups."""

from __future__ import annotations

import dataclasses
from typing import List, Optional

from .commands import Ask, Drop, Level, Link, SaveTaken, Say, Steps, Taken, Tell, Unlink, Verb, Write
from .configs import Demand, shared
from .cpus import NO_CPUS, Cpus, print_list
from .ledger import Container, Kind, Ledger, Problem, Sighting, State, Topic, report
from .lifting import give_back_at_the_end
from .newcomers import refuse, requested_by_untold
from .placing import demand_of
from .script import Refused
from .seen import Group
from .sightings import are_known, is_same, is_updated, lives, written
from .slices import is_below
from .telling import Turn, ask, tell_update


def end_those_gone(turn: Turn) -> Steps[List[Container]]:
    """Tells the end of those that are not there any more, or are others by now."""
    ledger, there = turn.ledger, turn.there
    gone = [container for name, container in ledger.containers.items() if name not in there or not is_same(ledger, container, there[name])]
    for container in gone:
        yield from end(turn, container)
    return gone


def end(turn: Turn, container: Container) -> Steps[None]:
    """A container that is gone, or another one now: its link goes first, so that no command reaches its group."""
    ledger, name, seen = turn.ledger, container.name, container.seen
    yield from untell(ledger, name)
    yield from give_back_at_the_end(turn, container)
    ledger.remove(name)
    ledger.forget(name)
    turn.late = turn.late or turn.came_anew(seen.group)
    if not seen.told.is_system and not turn.came_anew(seen.group) and seen.group.path in ledger.taken:
        del ledger.taken[seen.group.path]
        turn.unsaved = True
    yield Say(f"ended {ledger.title(name)}")
    yield Drop(name)


def untell(ledger: Ledger, name: str) -> Steps[None]:
    yield Unlink(name)
    for line in (f"kill {name} KILL", f"delete {name}"):
        reply = yield from ask(ledger, Ask(line), quiet=True)
        if reply.first != "ok":
            raise Refused(f"numarun: {reply.first!r} to {line!r}")


# Other configs, and other limits.


def follow_all(turn: Turn) -> Steps[bool]:
    """Takes up what those that run ask for by now; whether a plan is to be worked out."""
    changed = False
    for name, container in list(turn.ledger.containers.items()):
        if container.seen is not turn.there[name]:
            changed = (yield from follow(turn, name, turn.there[name])) or changed
    return changed


def follow(turn: Turn, name: str, sighting: Sighting) -> Steps[bool]:
    ledger = turn.ledger
    before = ledger.containers[name].seen
    if before.asks == sighting.asks or sighting.told.is_system:
        if before.group is not sighting.group:
            ledger.change(name, seen=sighting)
        return False
    if not ledger.is_over("update", "", turn.now):
        return False
    container = ledger.change(name, seen=sighting)
    demand = demand_of(turn, sighting, None if sighting.named or sighting.listed != before.listed else container.home)
    if demand.config == (container.wanted or container.demand).config:
        ledger.settle(Topic.DEMAND, name)
        return False
    if demand.count is None or container.given.count is None:
        return (yield from follow_shared(turn, container, demand))
    if demand == container.given:
        ledger.change(name, demand=demand, wanted=None)
        ledger.settle(Topic.DEMAND, name)
        ledger.settle(Topic.ROOM, name)
        return False
    ledger.change(name, wanted=demand)
    ledger.settle(Topic.ROOM, name, Kind.KEEPS)
    return True


def follow_shared(turn: Turn, container: Container, demand: Demand) -> Steps[bool]:
    """The same of one that is on the pool, or is to be; it waits there where it is to be pinned."""
    ledger, name, waits = turn.ledger, container.name, demand.count is not None
    if not (yield from tell_update(turn, name, shared(demand.config) if waits else demand, quiet=waits)):
        if ledger.unmade:  # it is told again
            ledger.change(name, seen=dataclasses.replace(container.seen, stamp=None))
        return False
    stopped = container.seen.stopped and container.state.is_pinned
    if stopped:
        yield Say(f"stopped {ledger.title(name)}: it has no process, and its runtime keeps it: its CPUs are given back")
    state = State.WAITING if waits else State.STOPPED if stopped else State.SHARED
    ledger.change(name, demand=demand, state=state, wanted=None, followed=container.seen.nodes, certificate="")
    ledger.settle(Topic.DEMAND, name)
    ledger.settle(Topic.ROOM, name)
    return True


# What others wrote.


def mend_all(turn: Turn) -> Steps[None]:
    """Looks whether each group requests what it was given, and has that in effect. Of those that do not, each gives back first what is another
    one's."""
    ledger = turn.ledger
    told = [container for container in ledger.containers.values() if container.cpus is not None] if ledger.has_tree else []
    drifted = {container.name: container for container in told if has_drifted(turn, container)}
    has = {name: turn.there[name].group.cpus for name in drifted}
    turn.strays = {name: cpus for name, cpus in has.items() if cpus != drifted[name].cpus}
    for container in drifted.values():
        if any(is_in_the_way(turn, container.name, other) for other in drifted.values()):
            yield from give_back_first(turn, container)
    for container in drifted.values():
        yield from mend(turn, container, turn.there[container.name])
    for container in told:
        if container.name not in drifted:
            if (Topic.DRIFT, container.name) in ledger.problems:
                yield from say_mended(turn, container)
            yield from compare_effective(turn, container, turn.there[container.name])


def has_drifted(turn: Turn, container: Container) -> bool:
    """Whether somebody else wrote its CPUs, or its nodes."""
    sighting = turn.there[container.name]
    other = sighting.group.cpus != container.cpus or nodes_drifted(turn.ledger, container, sighting)
    return other and is_still_there(turn, container, sighting.group)


def is_still_there(turn: Turn, container: Container, group: Group) -> bool:
    """Whether its group is the same, and it is not in the midst of its own end or restart."""
    return group.inode == container.seen.group.inode and (bool(group.cpus) or lives(turn, container))


def is_in_the_way(turn: Turn, name: str, other: Container) -> bool:
    """Whether it requests CPUs by now that the other one was given; those on the pool share them."""
    on_the_pool = not other.state.is_pinned and not turn.ledger.containers[name].state.is_pinned
    return name != other.name and not on_the_pool and bool(turn.strays.get(name, NO_CPUS) & (other.cpus or NO_CPUS) - turn.ledger.reserved)


def give_back_first(turn: Turn, container: Container) -> Steps[None]:
    """Brings one to the reserved CPUs."""
    why = (yield Write(container.seen.group.path, "cpuset.cpus", print_list(turn.ledger.reserved))).why
    if not why:
        turn.strays[container.name] = turn.ledger.reserved


def nodes_drifted(ledger: Ledger, container: Container, sighting: Sighting) -> bool:
    """Whether somebody wrote nodes that are no limit which the container follows, as those of an update by its runtime are."""
    nodes, named = sighting.group.nodes, sighting.named
    if nodes is None or nodes == written(ledger, container.nodes) or nodes == named and named != container.seen.named:
        return False
    return not nodes or sighting.told.is_system or container.seen.nodes == nodes or not are_known(ledger, nodes)


def mend(turn: Turn, container: Container, sighting: Sighting) -> Steps[None]:
    """Writes again what a group was given, by telling of it anew, once nobody requests that who is not told of."""
    ledger, name, group = turn.ledger, container.name, sighting.group
    if not ledger.is_over("container", name, turn.now):
        return
    what, cpus = what_drifted(ledger, container, group), container.cpus or NO_CPUS
    others = [container for container in ledger.containers.values() if container.name in turn.strays]
    if cpus & requested_by_untold(turn) or any(is_in_the_way(turn, other.name, container) for other in others):
        text = f"{ledger.title(name)} has {what}: another group requests some of these, and can't be told of yet"
        yield from report(ledger, Topic.DRIFT, name, Kind.DRIFT, text)
        return
    yield from say_drift(ledger, container, sighting, f"{ledger.title(name)} has {what}: that is written again")
    yield from untell(ledger, name)
    yield Link(name, group.path)
    reply = yield from ask(ledger, Tell(Verb.ADOPT, name, container.given.config, cpus))
    turn.strays.pop(name, None)
    if reply.fault is None:
        nodes = container.followed or sighting.named
        ledger.change(name, seen=dataclasses.replace(container.seen, group=group, nodes=nodes))
        turn.there[name] = dataclasses.replace(sighting, nodes=nodes)
        if (Topic.DRIFT, name) not in ledger.unsaid:  # else it is said at the next look
            ledger.settle(Topic.DRIFT, name)
        return
    ledger.remove(name)
    yield from refuse(turn, name, dataclasses.replace(sighting, stamp=None), reply)
    yield from report(ledger, Topic.DRIFT, name, Kind.DRIFT, f"{ledger.title(name)}: that can't be written again")


def what_drifted(ledger: Ledger, container: Container, group: Group) -> str:
    if group.cpus != container.cpus:
        return f"{print_list(group.cpus)} in place of {print_list(container.cpus or NO_CPUS)}"
    return f"nodes {print_list(group.nodes or NO_CPUS)} in place of {print_list(written(ledger, container.nodes))}"


def say_drift(ledger: Ledger, container: Container, sighting: Sighting, text: str) -> Steps[None]:
    """Says that somebody wrote a group. By an update runc writes a list or nodes first, and then its state, by which these are followed; so of
    its containers that is said at the next look, unless the state has others by then. Nodes for which there is no room yet are no drift."""
    key, group = (Topic.DRIFT, container.name), sighting.group
    if is_updated(container, sighting) or group.cpus == container.cpus and sighting.named and group.nodes == sighting.named:
        return
    if sighting.told.listed is None or key in ledger.unsaid:
        yield from report(ledger, *key, Kind.DRIFT, text)
    elif key not in ledger.problems:
        ledger.problems[key] = Problem(Kind.DRIFT, container.name, text)
        ledger.unsaid.add(key)


def say_mended(turn: Turn, container: Container) -> Steps[None]:
    """Of one that has again what it was given: says of a drift what was left for this look, if its runtime's state has the same
    list and nodes."""
    ledger, key = turn.ledger, (Topic.DRIFT, container.name)
    problem = ledger.problems.get(key)
    if problem and key in ledger.unsaid and not is_updated(container, turn.there[container.name]):
        yield Say(problem.line, Level.WARNING)
    ledger.settle(*key)


def keep_lists(turn: Turn) -> None:
    """Of whom its runtime gave another list, or other nodes, that is what its group requested, for --release and the next agent."""
    ledger = turn.ledger
    for container in ledger.containers.values():
        seen, before = container.seen, ledger.taken.get(container.seen.group.path)
        if not before or before.inode != seen.group.inode:
            continue
        taken, text, nodes = before, seen.told.listed, seen.told.nodes
        if text and (before.listed or seen.listed):
            taken = dataclasses.replace(taken, cpus=text, listed=bool(seen.listed))
        if nodes and (seen.named or container.followed):
            taken = dataclasses.replace(taken, nodes=nodes)
        if taken != before:
            ledger.taken[seen.group.path] = taken
            turn.unsaved = True


def compare_effective(turn: Turn, container: Container, sighting: Sighting) -> Steps[None]:
    """Says where a pinned container has not in effect what it was given, as in a group that has fewer CPUs."""
    ledger, name, has = turn.ledger, container.name, sighting.group.effective
    given = (container.cpus or NO_CPUS) & ledger.running
    if container.state.has_had_a_plan and given and has is not None and has != given:
        text = f"{ledger.title(name)}: {print_list(has)} in effect in place of {print_list(given)}"
        yield from report(ledger, Topic.SQUEEZED, name, Kind.SQUEEZED, text)
    else:
        ledger.settle(Topic.SQUEEZED, name)


def undo_late_writes(turn: Turn, ended: List[Container]) -> Steps[None]:
    """A group that came in the place of an ended one may have been written for that one, as the end of a hand-over. Where it can't be
    told of yet, it is brought to the reserved CPUs, for the others are given to whoever asks."""
    ledger = turn.ledger
    paths = {container.seen.group.path for container in ledger.containers.values()}
    for container in ended:
        path, group = container.seen.group.path, turn.look.group(container.seen.group.path)
        if container.cpus and path not in paths and group and turn.came_anew(container.seen.group) and group.cpus == container.cpus:
            yield from to_reserved(turn, container.name, path, container.cpus)
    yield from undo_writes_before(turn)
    if turn.unsaved:
        yield SaveTaken(ledger.all_taken)
        turn.unsaved = False


def undo_writes_before(turn: Turn) -> Steps[None]:
    """The same of groups that came while no agent looked: the one before may have been killed behind such a write."""
    ledger = turn.ledger
    paths = {container.seen.group.path for container in ledger.containers.values()}
    names = {path: name for name, (path, _) in ledger.before.items()}
    for path, taken in ledger.renewed.items():
        group = turn.look.group(path)
        cpus = group.cpus if group else NO_CPUS
        if taken.system and path in turn.on_the_way:
            take_new(turn, path, True)
        elif not taken.system and path not in paths and cpus - ledger.reserved and is_below(path, ledger.settings.root):
            yield from to_reserved(turn, names.get(path, path), path, cpus)
    turn.unsaved = turn.unsaved or bool(ledger.renewed)
    ledger.renewed = {}


def to_reserved(turn: Turn, name: str, path: str, cpus: Cpus) -> Steps[None]:
    why: Optional[str] = (yield Write(path, "cpuset.cpus", print_list(turn.ledger.reserved))).why
    take_new(turn, path, False)
    late = f"late {turn.ledger.title(name)}: {print_list(cpus)} of the one before: on the reserved CPUs until it is told"
    yield Say(f"failed {why}" if why else late)


def take_new(turn: Turn, path: str, system: bool) -> None:
    """Keeps that a group which nobody looked at before requested nothing."""
    group = turn.look.group(path)
    if group:
        turn.ledger.taken[path] = Taken(group.inode, "", "", system)
        turn.unsaved = True
