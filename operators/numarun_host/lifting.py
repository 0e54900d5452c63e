"""Limits that are lifted: with --lift a container that has CPUs of its own runs on these without the quota of its group, since it shares them
with nobody. What its `cpu.max` had is kept before that is written, and stands there again once it has none of its own any more."""

from __future__ import annotations

import dataclasses
from typing import Iterator, Optional, Set, Tuple

from .commands import SaveTaken, Say, SetLimit, Steps, Taken
from .configs import Limit
from .cpus import NO_CPUS
from .ledger import Container, Kind, Ledger, Topic, report
from .seen import Group
from .telling import Turn


def limit_of(ledger: Ledger, group: Group) -> Optional[Limit]:
    """The limit of a group, or where that was lifted the one that it had."""
    taken = ledger.taken.get(group.path)
    return group.limit or (taken.limit if taken and taken.inode == group.inode else None)


def lift_all(turn: Turn) -> Steps[None]:
    """Lifts the limits of those that have CPUs of their own, and gives back those of all others."""
    ledger = turn.ledger
    limited = list(limited_ones(turn))
    due = [(container, group, group.limit) for container, group, _ in limited if is_free_of_limits(ledger, container) and group.limit]
    for container, _, limit in due:
        keep(turn, container, limit)
    if due and turn.unsaved:
        yield SaveTaken(ledger.all_taken)
        turn.unsaved = False
    for container, group, limit in due:
        yield from lift(turn, container, group, limit)
    lent = [(container, group, taken.limit) for container, group, taken in limited if taken.limit and not is_free_of_limits(ledger, container)]
    for container, group, limit in lent:
        yield from give_back(turn, container, group, limit)
    settle_others(turn, {container.name for container, _, _ in [*due, *lent]})


def settle_others(turn: Turn, tried: Set[str]) -> None:
    """Nothing is left undone of the limits of others than these, whose turn it is, as where somebody took away one that could not be lifted."""
    ledger = turn.ledger
    for topic, name in [key for key in ledger.problems if key[0] is Topic.LIMIT and key[1] not in tried]:
        if ledger.is_over("limit", name, turn.now):
            ledger.settle(topic, name)
            ledger.end_pause("limit", name)


def limited_ones(turn: Turn) -> Iterator[Tuple[Container, Group, Taken]]:
    """The containers whose groups have limits, or had some that were lifted: with their groups as this look found them, also where what these ask
    for is taken up later, and what was kept of these."""
    ledger = turn.ledger
    for container in list(ledger.containers.values()):
        group, taken = turn.look.group(container.seen.group.path), ledger.taken.get(container.seen.group.path)
        if group and taken and (group.limit or taken.limit) and taken.inode == group.inode and not container.seen.told.is_system:
            if ledger.is_over("limit", container.name, turn.now):
                yield container, group, taken


def is_free_of_limits(ledger: Ledger, container: Container) -> bool:
    """Whether one is lifted that has a limit: it has CPUs of its own by now, and none besides."""
    cpus = container.cpus or NO_CPUS
    return ledger.settings.lift and container.state.has_had_a_plan and bool(cpus) and not cpus & ledger.reserved


def keep(turn: Turn, container: Container, limit: Optional[Limit]) -> None:
    """Notes the limit that a container's group has, or that none of it is lifted any more."""
    path = container.seen.group.path
    taken = turn.ledger.taken[path]
    if taken.limit != limit:
        turn.ledger.taken[path] = dataclasses.replace(taken, limit=limit)
        turn.unsaved = True


def lift(turn: Turn, container: Container, group: Group, limit: Limit) -> Steps[None]:
    if (yield from set_limit(turn, container, SetLimit(group.path, group.inode, None, limit))):
        yield Say(f"lift {turn.ledger.title(container.name)}: no limit in place of {limit[0]} {limit[1]}, since it has CPUs of its own")


def give_back(turn: Turn, container: Container, group: Group, limit: Limit) -> Steps[None]:
    """Lets a group have its limit again, if nobody gave it another one since."""
    if (yield from set_limit(turn, container, SetLimit(group.path, group.inode, limit, None))):
        yield Say(f"limit {turn.ledger.title(container.name)}: {limit[0]} {limit[1]} again")
        keep(turn, container, None)


def set_limit(turn: Turn, container: Container, command: SetLimit) -> Steps[bool]:
    """Writes it; whether that was done. Where the group has another limit by now, that is not lifted, and the next look finds it."""
    ledger, name = turn.ledger, container.name
    answer = yield command
    if answer.stale:
        keep(turn, container, None)
    if answer.why:
        ledger.begin_pause("limit", name, turn.now)
        yield from report(ledger, Topic.LIMIT, name, Kind.FAILED, answer.why)
        return False
    ledger.end_pause("limit", name)
    ledger.settle(Topic.LIMIT, name)
    return not answer.stale


def give_back_at_the_end(turn: Turn, container: Container) -> Steps[None]:
    """The same of a container that is gone, whose group may go on without it."""
    group = container.seen.group
    taken = turn.ledger.taken.get(group.path)
    if taken and taken.limit and taken.inode == group.inode:
        yield SetLimit(group.path, group.inode, taken.limit, None)
