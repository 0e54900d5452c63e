"""Keeps the partition of the containers: says what has come of it, makes it anew where it is none any more, and gives it the CPUs that it is
to have. Each write is that of `partition.py`, on a look of its own."""

from __future__ import annotations

import dataclasses
from dataclasses import dataclass
from functools import partial
from typing import Callable, Optional, Tuple

from .commands import Level, LookAtPartition, Say, Steps, Write
from .cpus import NO_CPUS, Cpus, print_list
from .ledger import Kind, Ledger, Topic, report
from .partition import FILE, ROOT, Layout, Loose, Partition, Step, Stop, asking, in_vain, next_step
from .telling import Turn

MOST_STEPS = 32  # of one way: a deep one is made from nothing in 14


def wanted_by(ledger: Ledger) -> Cpus:
    """The CPUs that the partition is to have: the machine file's but for the system's, and those that a container still requests."""
    held = NO_CPUS.union(*(container.cpus or NO_CPUS for container in ledger.containers.values()))
    return ledger.settings.machine.present - ledger.settings.system | held


@dataclass(frozen=True)
class Walked:
    """What was found last, what stands against it, and whether a step was refused or came to nothing."""

    seen: Partition
    reason: str = ""
    failed: bool = False


def walk(wanted: Cpus, step_of: Callable[[Partition], Step]) -> Steps[Walked]:
    """Looks, does one step, and looks again, until there is none. What is no partition though it was told to be one is not told again, and a
    step that came to nothing is not done twice."""
    last: Optional[Step] = None
    seen = Partition(None)
    for _ in range(MOST_STEPS):
        seen = (yield LookAtPartition(wanted)).partition or seen
        step = step_of(seen)
        if isinstance(step, Stop):
            return Walked(seen, step.reason)
        if isinstance(last, Write) and (last.file, last.text) == (FILE, ROOT) and not seen.is_valid and seen.text != ROOT:
            return Walked(seen, failed=True)
        if step == last:
            break
        why = (yield step).why
        if why:
            return Walked(seen, "; ".join([why, *asking(seen, wanted)]), failed=True)
        last = step
    return Walked(seen, in_vain(last), failed=True)


def keep_partition(turn: Turn, is_planned: bool) -> Steps[None]:
    """Says what has come of the partition, makes it anew where it is none, and gives it more CPUs at once. It gives CPUs up behind the plan by
    which the containers have left them."""
    layout, seen, ledger = turn.ledger.settings.partition, turn.look.partition, turn.ledger
    if layout is None or seen is None:
        return
    is_planned = is_planned and not ledger.due
    wanted = wanted_by(ledger) | (NO_CPUS if is_planned else seen.cpus)
    step = next_step(layout, seen, wanted)
    if not seen.is_valid and not ledger.problem(Topic.PARTITION):
        false = "; ".join(asking(seen, seen.cpus)) if seen.text == ROOT else ""
        yield from say_broken(ledger, layout, seen, step.reason if isinstance(step, Stop) else false)
    if isinstance(step, Stop):
        yield from say_outcome(turn, layout, Walked(seen, step.reason), is_planned)
    elif ledger.is_over(pause_of(seen), "", turn.now):
        yield from say_outcome(turn, layout, (yield from walk(wanted, partial(next_step, layout, wanted=wanted))), is_planned)


def pause_of(seen: Partition) -> str:
    """What has pauses of its own: a growth that fails keeps nobody from mending."""
    return (Topic.RESIZE if seen.is_valid else Topic.PARTITION).value


def say_broken(ledger: Ledger, layout: Layout, seen: Partition, reason: str) -> Steps[None]:
    yield from report(ledger, Topic.PARTITION, "", Kind.PARTITION, f"{layout.path}: {seen.fault(reason)}")


def say_outcome(turn: Turn, layout: Layout, outcome: Walked, is_planned: bool) -> Steps[None]:
    """Says what came of it. On Linux 6.1 each try undoes the pinning of the containers' threads, so what failed is tried again at growing
    pauses."""
    ledger, before, after = turn.ledger, turn.look.partition, outcome.seen
    turn.look = dataclasses.replace(turn.look, partition=after)
    if outcome.failed and before:
        ledger.begin_pause(pause_of(before), "", turn.now)
    elif is_planned:
        for topic in (Topic.PARTITION, Topic.RESIZE):
            ledger.end_pause(topic.value)
    if not after.is_valid:
        yield from say_broken(ledger, layout, after, outcome.reason)
        return
    if ledger.problem(Topic.PARTITION):
        yield Say(f"partition {layout.path}: root again", Level.NOTICE)
        ledger.settle(Topic.PARTITION)
    if before and before.is_valid and before.cpus != after.cpus:
        yield Say(f"partition {layout.path}: {print_list(after.cpus)} in place of {print_list(before.cpus)}")
    if outcome.failed:
        yield from report(ledger, Topic.RESIZE, "", Kind.FAILED, outcome.reason)
    elif is_planned and outcome.reason:
        yield from report(ledger, Topic.RESIZE, "", Kind.PARTITION, f"{layout.path}: {outcome.reason}")
    elif is_planned:
        ledger.settle(Topic.RESIZE)


def say_loose(ledger: Ledger, found: Tuple[Loose, ...]) -> Steps[None]:
    """Names once each process that may run on CPUs of the partition all the same."""
    for process in found:
        if (process.pid, process.name) not in ledger.loose:
            yield Say(f"loose {process.pid} {process.name}: it may run on {print_list(process.cpus)}", Level.WARNING)
    ledger.loose = frozenset((process.pid, process.name) for process in found)
