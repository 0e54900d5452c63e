"""What a container is told to ask for: its CPUs, and where it names no nodes of memory a home."""

from __future__ import annotations

from typing import Optional

from .commands import Level, Say, Steps
from .configs import (NEAR, Config, Demand, Pin, asked, cpus_allowed, housed, is_left_out, limited, memory_asked, nodes_named, shared,
                      wish_of)
from .cpus import NO_CPUS, Cpus, print_list
from .homes import beside, has_room, home_of, why_there
from .ledger import Container, Ledger, Sighting, State
from .script import Refused
from .strangers import withheld
from .telling import Turn


def free_cpus(turn: Turn) -> Cpus:
    """The CPUs that no pinned container requests, and that are withheld for nobody, the reserved ones among them."""
    ledger = turn.ledger
    taken = [container.cpus or NO_CPUS for container in ledger.containers.values() if container.state.is_pinned]
    return ledger.running.difference(withheld(turn), *taken) | ledger.reserved


def spare_cpus(turn: Turn) -> Cpus:
    """Those of them that are promised to nobody."""
    if turn.spare is None:
        turn.spare = free_cpus(turn) - turn.ledger.reserved
        for container in turn.ledger.containers.values():
            promise(turn, container.given, container.cpus or NO_CPUS)
    return turn.spare


def promise(turn: Turn, given: Demand, has: Cpus) -> None:
    """Leaves out what one has that asks for CPUs of its own, and as many cores at its home as it has yet to get."""
    ledger, machine = turn.ledger, turn.ledger.settings.machine
    lacking = (given.count or 0) - len(has - ledger.reserved)
    if turn.spare is None or given.count is None:
        return
    turn.spare -= has
    if lacking <= 0:
        return
    homes = nodes_named(given.config)
    near = frozenset(cpu for cpu in turn.spare if not homes or machine.node_of[cpu] in homes)
    for core in sorted(machine.cores_in(near))[:lacking // machine.threads]:
        turn.spare -= machine.cores[core]


def choose_home(turn: Turn, sighting: Sighting, config: Config, count: int, with_memory: bool = True) -> Optional[Cpus]:
    """A home for one that names none: where the device is that it names, or where its own CPUs are if it has some, or else where there is
    room; with room for its memory, if that counts."""
    ledger, machine = turn.ledger, turn.ledger.settings.machine
    if not ledger.settings.homes or len(machine.nodes) < 2 or nodes_named(config):
        return None
    if sighting.near is not None and sighting.near in ledger.memory:
        return frozenset({sighting.near})
    own, allowed = sighting.group.cpus & machine.present, cpus_allowed(config, machine.present)
    home: Optional[Cpus] = frozenset(machine.node_of[cpu] for cpu in own)
    memory = beside(turn.look.free_memory, sighting.memory) if with_memory else {}
    if len(own) != count or own & ledger.reserved or not own <= allowed:
        home = home_of(machine, config, count, spare_cpus(turn) & allowed, memory)
    elif not has_room(memory, home or NO_CPUS, memory_asked(config)):
        home = None
    return home if home and home != {node for node, cpus in enumerate(machine.nodes) if cpus} else None


def demand_of(turn: Turn, sighting: Sighting, home: Optional[Cpus] = None) -> Demand:
    """What a container asks for."""
    settings = turn.ledger.settings
    config = limited(sighting.config, sighting.limit, sighting.nodes, sighting.listed)
    try:
        count, rather = (asked(config, rule, settings.machine) for rule in (settings.pin, Pin.ALL))
        if count is not None and not sighting.stopped:
            home = home or choose_home(turn, sighting, config, count)
            if home:
                return Demand(housed(config, home), count)
            return Demand(config, count, memory_asked(config) > 0 and choose_home(turn, sighting, config, count, with_memory=False) is not None)
    except Refused:
        return Demand(config, None)  # numarun refuses it
    return shared(config) if rather is not None or is_left_out(config) else Demand(config, None)


def demand_with_home(turn: Turn, container: Container) -> Demand:
    """The demand of one that waits, with a home if there is room for one by now."""
    turn.spare = None
    if container.state is State.WAITING and not container.home:
        return demand_of(turn, turn.there.get(container.name, container.seen))
    return container.demand


def say_home(ledger: Ledger, name: str) -> Steps[None]:
    """Says which home a container was given, or that no node has memory enough for one, once."""
    container = ledger.containers[name]
    given = container.followed or nodes_named(container.seen.config)
    home = None if given else nodes_named(container.demand.config) or None
    homeless = not given and container.demand.lacks_memory
    ledger.change(name, home=home, homeless=homeless)
    if homeless and not container.homeless:
        gib = memory_asked(container.demand.config) / (1 << 30)
        yield Say(f"note no home for {ledger.title(name)}: no node where it could be has the {gib:.1f} GiB of its memory limit", Level.NOTICE)
    if home and home != container.home:
        why = why_there(wish_of(container.seen.config, NEAR), container.seen.near, home)
        yield Say(f"home {ledger.title(name)} {print_list(home)}{why}")
