"""Those that come: each is told of as what it is already, on the CPUs that its group requests, or else as a new one."""

from __future__ import annotations

import dataclasses
from collections import Counter
from dataclasses import dataclass
from typing import Dict, List, Mapping, Optional

from .beginnings import Comer, Wait, beginnings
from .commands import Drop, Link, SaveTaken, Say, Steps, Taken, Tell, Unlink, Verb
from .configs import Demand, bare, fewer, shared, stays, staying
from .cpus import NO_CPUS, Cpus, print_list
from .ledger import Container, Kind, Ledger, Sighting, State, Topic, report
from .placing import demand_of, free_cpus, promise, say_home
from .room import say_waits
from .sightings import nodes_of
from .slices import is_id
from .strangers import has_some, is_withheld, not_withheld
from .telling import CONFIG_FAULTS, NOT_FREE, Reply, Turn, ask, report_failure, requested


@dataclass(frozen=True)
class Way:
    """How a container may be told: with which demand, whether it waits then, and the CPUs that it begins on, which may be other ones than its
    group requests."""

    given: Demand
    waits: bool
    cpus: Cpus
    is_new: bool = False
    why: str = ""  # it waits
    certificate: str = ""  # the file that proves that it has to


@dataclass(frozen=True)
class Planned:
    """What one that comes asks for, and how it is told by a plan that is not made yet, if it is."""

    demand: Demand
    way: Optional[Way] = None


def take_all(turn: Turn) -> Steps[bool]:
    """Tells of those that are there and were not told of yet; whether there was one, also where the agent ends before it is told of. The
    system's own groups come last."""
    ledger = turn.ledger
    come = {name: seen for name, seen in turn.there.items() if name not in ledger.containers and is_new(turn, name, seen)}
    places = {path: place for place, path in enumerate(ledger.taken)}
    names = sorted(come, key=lambda name: (come[name].told.is_system, places.get(come[name].group.path, len(places)), come[name].age, name))
    yield from keep_what_they_had(turn, [come[name] for name in names])
    turn.owners = {container.seen.group.path: name for name, container in ledger.containers.items()} if ledger.has_tree else {}
    turn.users, turn.spare, taken = None, None, False
    turn.coming = {come[name].group.path for name in names}
    planned = yield from plan_ways(turn, {name: come[name] for name in names})
    for name in names:
        if ledger.ending:
            return True
        taken = (yield from take_up(turn, name, come[name], planned.get(name))) or taken
        turn.coming.discard(come[name].group.path)
    return taken


def plan_ways(turn: Turn, come: Mapping[str, Sighting]) -> Steps[Dict[str, Planned]]:
    """What those who come ask for, and how each is told on the CPUs of a plan, if nobody else requests any of these; only where somebody comes who
    requests none. Nothing behind the first plan of a run, for then those on the pool have all other CPUs."""
    ledger, present, paths = turn.ledger, turn.ledger.settings.machine.present, set(turn.owners)
    if all(seen.told.is_system or seen.group.cpus & present for seen in come.values()) or not ledger.has_tree or ledger.pool is not None:
        return {}
    blocked = [seen.group.path for name, seen in still_blocking(turn).items() if name not in come]
    if ledger.ending or turn.strays or turn.late or ledger.renewed or not_withheld(turn, [*blocked, *unseen_paths(turn)]):
        return {}
    planned: Dict[str, Planned] = {}
    comers: List[Comer] = []
    for name, seen in come.items():
        if is_id(name) and not seen.told.is_system and seen.group.path not in paths:
            demand = demand_of(turn, seen)
            first = ways_of(turn, seen, demand, seen.group.cpus & present)[0]
            promise(turn, first.given, first.cpus)
            paths.add(seen.group.path)
            planned[name] = Planned(demand)
            comers.append(Comer(name, first.given, first.cpus, bool(first.cpus) and is_alone(turn, seen, first.cpus)))
    found, turn.spare = (yield from beginnings(turn, comers)), None
    for name, begins in found.items():
        demand = planned[name].demand
        given = demand if begins.waits is None else shared(demand.config)
        wait = begins.waits or Wait("")
        way = Way(given, begins.waits is not None, begins.cpus, is_new=True, why=wait.why, certificate=wait.certificate)
        if way.given.count is None or is_alone(turn, come[name], way.cpus):
            planned[name] = Planned(demand, way)
    return planned if found else {}


def is_new(turn: Turn, name: str, sighting: Sighting) -> bool:
    """Whether it was not refused as it is, and may be told of by now."""
    return not turn.ledger.is_refused(name, sighting) and turn.ledger.is_over("container", name, turn.now)


def keep_what_they_had(turn: Turn, come: List[Sighting]) -> Steps[None]:
    """Keeps what these groups request, those of which nothing is kept, before any of them is written."""
    ledger, new = turn.ledger, False
    for sighting in come if ledger.has_tree else []:
        group, before = sighting.group, ledger.taken.get(sighting.group.path)
        if before is None or before.inode != group.inode:
            before = None
        taken = dataclasses.replace(before or Taken(group.inode, *group.texts, False), system=sighting.told.is_system)
        if taken != before:
            ledger.taken[group.path], new = taken, True
    if new:
        yield SaveTaken(ledger.all_taken)


def take_up(turn: Turn, name: str, sighting: Sighting, planned: Optional[Planned]) -> Steps[bool]:
    """Tells of a container that is there; whether it was taken."""
    ledger, owner = turn.ledger, turn.owners.get(sighting.group.path)
    if not is_id(name):
        return (yield from refuse(turn, name, sighting, Reply(("refused E91 BadId",)), NO_CPUS))
    if owner:
        text = f": its group is that of {ledger.title(owner)}: {ledger.title(name)} {sighting.place}"
        ledger.refused[name] = sighting
        ledger.settle(Topic.CONTAINER, name)
        yield from report(ledger, Topic.DEMAND, name, Kind.REFUSED, text)
        return False
    cpus = sighting.group.cpus & ledger.settings.machine.present
    planned = planned or Planned(demand_of(turn, sighting))
    demand = planned.demand
    yield Link(name, sighting.group.path)
    fault: Optional[Reply] = None
    for way in with_plan(ways_of(turn, sighting, demand, cpus), planned.way):
        reply = yield from tell(ledger, name, sighting, way)
        if reply.fault != NOT_FREE and reply.fault not in CONFIG_FAULTS and not (way.is_new and reply.fault):
            break
        fault = reply if reply.fault in CONFIG_FAULTS else fault
    if reply.fault is not None:
        turn.unsure = turn.unsure or planned.way is not None
        return (yield from refuse(turn, name, sighting, reply, cpus))
    yield from hold(turn, name, sighting, demand, way, cpus, fault)
    return True


def with_plan(ways: List[Way], way: Optional[Way]) -> List[Way]:
    """The same with that of a plan before the first one by which it would be on the reserved CPUs."""
    at = next(at for at, other in enumerate(ways) if not other.cpus)
    return [*ways[:at], way, *ways[at:]] if way else ways


def ways_of(turn: Turn, sighting: Sighting, demand: Demand, cpus: Cpus) -> List[Way]:
    """How a container may be told, the best way first."""
    ledger, alone = turn.ledger, is_alone(turn, sighting, cpus)
    less, own = shared(demand.config), cpus if alone and not cpus & ledger.reserved else NO_CPUS
    if demand.count is None:
        begins = cpus or (free_cpus(turn) if sighting.told.is_system else NO_CPUS)
        ways = [Way(demand, False, begins), Way(demand, False, NO_CPUS)]
    elif not alone and (cpus & ledger.reserved or len(cpus) > demand.count):
        ways = [Way(less, True, cpus), Way(demand, False, NO_CPUS)]
    else:
        ways = [*ways_to_keep(sighting, demand, own), Way(demand, False, cpus), Way(demand, False, NO_CPUS)]
    return ways + ways_without_config(ledger, sighting, less, own, cpus)


def ways_to_keep(sighting: Sighting, demand: Demand, cpus: Cpus) -> List[Way]:
    """The same of one that has CPUs of its own, and is never moved, or has fewer than it asks for."""
    if not cpus or demand.count is None:
        return []
    less = demand if len(cpus) >= demand.count else fewer(demand, len(cpus))
    if stays(sighting.config) and len(cpus) <= demand.count:
        return [Way(staying(less, cpus), False, cpus)]
    return [Way(less, False, cpus)] if less != demand else []


def ways_without_config(ledger: Ledger, sighting: Sighting, less: Demand, own: Cpus, cpus: Cpus) -> List[Way]:
    """The same where its config can't be had: as it is, if an agent gave it CPUs before, or else on the pool."""
    nodes = nodes_of(ledger, sighting.group)
    kept = [Way(bare(own, nodes), False, own)] if own and sighting.group.path in ledger.known else []
    return kept + [Way(given, False, begins) for given in (less, bare(NO_CPUS, nodes)) for begins in (cpus, NO_CPUS)]


def is_alone(turn: Turn, sighting: Sighting, cpus: Cpus) -> bool:
    """Whether no other group that is told of requests one of these CPUs, outside the reserved ones."""
    if turn.users is None:
        has: Dict[str, Cpus] = {container.seen.group.path: container.cpus or NO_CPUS for container in turn.ledger.containers.values()}
        has.update((seen.group.path, seen.group.cpus) for name, seen in turn.there.items() if name not in turn.ledger.containers)
        turn.users = Counter(cpu for cpus in has.values() for cpu in cpus)
    return all(turn.users[cpu] <= (cpu in sighting.group.cpus) for cpu in cpus - turn.ledger.reserved)


def tell(ledger: Ledger, name: str, sighting: Sighting, way: Way) -> Steps[Reply]:
    """Adopts a container on these CPUs, or makes it on the reserved ones. One that begins on other CPUs than its group requests is a new one for
    the log."""
    told = Verb.ADOPT if way.cpus else Verb.CREATE
    reply = yield from ask(ledger, Tell(told, name, way.given.config, way.cpus))
    if reply.fault is None:
        verb = Verb.CREATE if way.is_new else told
        yield Say(f"{verb.value} {ledger.title(name)} {sighting.place}" + (f" {print_list(way.cpus)}" if way.cpus else ""))
    return reply


def hold(turn: Turn, name: str, sighting: Sighting, demand: Demand, way: Way, cpus: Cpus, fault: Optional[Reply]) -> Steps[None]:
    """A container that was told is one of those that are held."""
    ledger, given = turn.ledger, way.given
    has, nodes = yield from requested(ledger, name)
    refused = fault if fault and given != demand and not way.waits else None
    own = len(cpus & (has or NO_CPUS) - ledger.reserved) if has else 0
    state = state_of(given, way.waits, refused is not None and given != shared(demand.config), own)
    container = Container(name, sighting, state, given if refused else demand, given, None, has, nodes, sighting.nodes, certificate=way.certificate)
    ledger.put(container)
    if ledger.has_tree:
        turn.owners[sighting.group.path] = name
    ledger.forget(name, Topic.CONTAINER, Topic.DRIFT, Topic.SQUEEZED)
    ledger.settle(Topic.ROOM, name, Kind.KEEPS, Kind.FEWER if way.waits else Kind.WAITS)
    if not way.waits:
        yield from say_home(ledger, name)
    elif way.why:
        yield from say_waits(turn, name, way.why)
    promise(turn, given, has or NO_CPUS)
    if refused:
        where = "it stays as it was" if given.count else "it runs on the pool"
        yield from report(ledger, Topic.DEMAND, name, Kind.REFUSED, f"{refused.refusal}: {ledger.title(name)} {sighting.place}: {where}")
    else:
        ledger.settle(Topic.DEMAND, name)


def state_of(given: Demand, waits: bool, bare_config: bool, own: int) -> State:
    """What one is that was told so, and has so many CPUs of its own."""
    if waits:
        return State.WAITING
    if given.count is None:
        return State.POOLED if bare_config else State.SHARED
    if bare_config:
        return State.KEPT
    return State.PINNED if own >= given.count else State.ASKING


def refuse(turn: Turn, name: str, sighting: Sighting, reply: Reply, cpus: Optional[Cpus] = None) -> Steps[bool]:
    """A container that is not told. One that runs on CPUs and can't be told of at the moment lets no plan be safe."""
    ledger = turn.ledger
    yield Unlink(name)
    yield Drop(name)
    if reply.is_momentary:
        yield from report_failure(ledger, name, sighting.place, reply)
        ledger.begin_pause("container", name, turn.now)
        if sighting.group.cpus if cpus is None else cpus:
            ledger.blocking[name] = sighting
        return False
    ledger.refused[name] = sighting
    ledger.settle(Topic.CONTAINER, name)
    ledger.settle(Topic.ROOM, name)
    yield from report(ledger, Topic.DEMAND, name, Kind.REFUSED, f"{reply.refusal}: {ledger.title(name)} {sighting.place}")
    return False


def requested_by_untold(turn: Turn) -> Cpus:
    """The CPUs outside the reserved ones that groups request by now of which numarun is not told: those that come or can't be told of at the moment,
    and those with a process that an agent told of before."""
    ledger, there = turn.ledger, turn.there
    come = [seen.group for name, seen in there.items() if name not in ledger.containers and not ledger.is_refused(name, seen)]
    others = [turn.look.group(path) for path in [*(seen.group.path for seen in ledger.blocking.values()), *unseen_paths(turn)]]
    return NO_CPUS.union(*(group.cpus for group in [*come, *others] if group)) - ledger.reserved


def unseen_paths(turn: Turn) -> List[str]:
    """The groups that an agent told of before and nobody tells of now, and that have a process and CPUs that a plan may give to others."""
    ledger = turn.ledger
    known = {seen.group.path for seen in [*ledger.blocking.values(), *turn.there.values()]}
    inodes = {stranger.path: stranger.inode for stranger in ledger.strangers.values()}
    inodes.update((path, taken.inode) for path, taken in ledger.taken.items() if not taken.system)
    return [path for path, inode in inodes.items() if path not in known and turn.runs(path, inode) and has_some(turn, path)]


def still_blocking(turn: Turn) -> Dict[str, Sighting]:
    """Those who can't be told of at the moment, and are there or have a process."""
    return {name: seen for name, seen in turn.ledger.blocking.items() if name in turn.there or turn.runs(seen.group.path, seen.group.inode)}


def untold(turn: Turn) -> Dict[str, Sighting]:
    """Those of whom numarun could not be told at this look or before, and whose groups request CPUs, as by a write that was the last to be done."""
    containers, reserved = turn.ledger.containers, turn.ledger.reserved
    return {name: seen for name, seen in turn.there.items()
            if name not in containers and seen.group.cpus - reserved and not turn.ledger.is_refused(name, seen)}


def is_held_up(turn: Turn) -> Steps[bool]:
    """Whether a plan might give CPUs to others on which somebody runs of whom numarun does not know, as who can't be told of at the moment;
    says of whom nobody tells."""
    ledger = turn.ledger
    ledger.blocking = {**still_blocking(turn), **untold(turn)}
    unseen = unseen_paths(turn)
    for topic, of in [key for key in ledger.problems if key[0] is Topic.UNSEEN and key[1] not in unseen]:
        ledger.settle(topic, of)
    for path in unseen:
        yield from say_unseen(turn, path)
    paths = [*unseen, *(seen.group.path for seen in ledger.blocking.values())]
    return bool(not_withheld(turn, paths) or turn.strays or turn.unsure)


def say_unseen(turn: Turn, path: str) -> Steps[None]:
    group = turn.look.group(path)
    assert group
    plan = f"no plan gives {print_list(group.cpus)} to anybody" if is_withheld(turn, path) else "no plan"
    text = f"{path}: it was told of before, and there is a process in it: {plan} until it is told"
    yield from report(turn.ledger, Topic.UNSEEN, path, Kind.UNSEEN, text)
