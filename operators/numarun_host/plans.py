"""Plans: those who want more get it where there is room, a plan is worked out, and the containers are handed over to it, write by write."""

from __future__ import annotations

from typing import List, Set

from .commands import Ask, Level, RunPool, Say, Steps
from .configs import staying
from .cpus import NO_CPUS, Cpus, counted, print_list
from .ledger import Container, Kind, Ledger, State, Topic, report
from .room import Outcome, ease, keep_certificate, make_room, outcome_of, say_fewer, spare_the_pool
from .telling import BAD_LINE, Turn, ask, requested, tell_update

LOCAL = 10


def arrange(turn: Turn) -> Steps[None]:
    """Gives more to those who want it and have room, and works out a plan. Where that lets somebody wait, others may have room then. Once the
    agent is told to end it is left to the next one."""
    tried, before = (yield from make_room(turn)), waiting(turn.ledger)
    yield from plan(turn)
    if (not tried or waiting(turn.ledger) - before) and not turn.ledger.due and not turn.ledger.ending and not turn.ledger.untried:
        yield from make_room(turn)
        if turn.ledger.due:
            yield from plan(turn)


def waiting(ledger: Ledger) -> Set[str]:
    return {name for name, container in ledger.containers.items() if container.state is State.WAITING}


def plan(turn: Turn) -> Steps[None]:
    """Works out a plan, and hands over to it."""
    ledger = turn.ledger
    yield from spare_the_pool(turn)
    if ledger.ending:
        return
    outcome = yield from begin(ledger)
    certificate = yield from keep_certificate(ledger)
    while outcome.shortage and not ledger.ending and (yield from ease(turn, outcome.shortage, certificate)):
        if ledger.ending:
            return
        outcome = yield from begin(ledger)
        certificate = yield from keep_certificate(ledger)
    ledger.certificate = certificate or ledger.certificate
    yield from say_fewer(turn)
    if not outcome.is_plan:
        yield from leave_unplanned(turn, outcome)
        return
    ledger.due = True
    changes = changes_of(ledger, outcome)
    for line in [outcome.text, *changes] if changes != ledger.tried else []:
        yield Say(line)
    ledger.tried = changes
    moves = sum(len(cpus - had(ledger.containers[name])) for name, cpus in outcome.holds.items())
    if (yield from hand_over(turn, outcome)):
        count_plan(ledger, outcome, moves)


def leave_unplanned(turn: Turn, outcome: Outcome) -> Steps[None]:
    """There is no plan. A shortage in which nobody was asked to wait any more, since the agent is told to end, is nothing that is left undone: the
    next agent begins with it."""
    ledger, kind = turn.ledger, Kind.SHORT if outcome.shortage else Kind.REFUSED
    ledger.counts["shortages_total"] += bool(outcome.shortage)
    ledger.due = not outcome.shortage
    ledger.begin_pause("plan", "", turn.now)
    if not (ledger.ending and outcome.shortage):
        yield from report(ledger, Topic.PLAN, "", kind, outcome.text.partition(" ")[2])


def begin(ledger: Ledger) -> Steps[Outcome]:
    """Begins a direct hand-over to a plan; by a program that knows none, which is said once, one in turn."""
    if ledger.direct:
        reply = yield from ask(ledger, Ask("begin direct"))
        if reply.fault != BAD_LINE:
            return outcome_of(ledger, reply)
        ledger.direct = False
        yield Say("note this numarun knows no direct hand-overs, so containers run on the reserved CPUs while they move", Level.NOTICE)
    return outcome_of(ledger, (yield from ask(ledger, Ask("begin"))))


def changes_of(ledger: Ledger, outcome: Outcome) -> List[str]:
    """The lines of what a plan changes."""
    lines = [f"hold {ledger.title(name)} {print_list(cpus)}" for name, cpus in outcome.holds.items() if cpus != had(ledger.containers[name])]
    return lines + ([f"pool {print_list(outcome.pool)}"] if outcome.pool != ledger.pool else [])


def had(container: Container) -> Cpus:
    """The CPUs that one had before the plan: of one that comes, and may have begun on those of the plan, only what its group requested."""
    has = container.cpus or NO_CPUS
    return has & container.seen.group.cpus if container.state is State.ASKING else has


def count_plan(ledger: Ledger, outcome: Outcome, moves: int) -> None:
    """A plan that was handed over: its total distance, and how many CPUs moved."""
    total = outcome.total or 0
    ledger.counts["plans_total"] += 1
    ledger.counts["moves_total"] += moves
    ledger.counts["distance"] = total
    ledger.counts["distance_beyond_local"] = total - LOCAL * sum(map(len, outcome.holds.values()))


def hand_over(turn: Turn, outcome: Outcome) -> Steps[bool]:
    """Makes the writes of a plan, one after another, also where the agent is told to end meanwhile; whether all were made. The last one is
    answered by `done`, as is a step where none was due."""
    ledger = turn.ledger
    is_due = any(container.cpus != outcome.holds.get(name, outcome.pool) for name, container in ledger.containers.items())
    while True:
        if ledger.ends_at_once:
            return False
        reply = yield from ask(ledger, Ask("step"))
        is_due = is_due or reply.first == "more"
        ledger.counts["steps_total"] += is_due and reply.fault is None
        if reply.first != "more":
            break
    if reply.first != "done":
        yield from report(ledger, Topic.PLAN, "", Kind.FAILED, reply.note)
        ledger.begin_pause("plan", "", turn.now)
        for name in list(ledger.containers):
            cpus, nodes = yield from requested(ledger, name)
            ledger.change(name, cpus=cpus, nodes=nodes)
        return False
    ledger.due, ledger.tried = False, None
    ledger.settle(Topic.PLAN)
    ledger.end_pause("plan")
    for name, container in list(ledger.containers.items()):
        state = State.PINNED if name in outcome.holds and container.state is State.ASKING else container.state
        ledger.change(name, cpus=outcome.holds.get(name, outcome.pool), state=state)
        if not ledger.unmade and not ledger.untried:  # what could not be told on the way to a plan is not wanted any more
            ledger.settle(Topic.CONTAINER, name, Kind.UNTOLD, Kind.FAILED)
    yield Say("done")
    if not ledger.ending:
        yield from stay_put(turn)
    if outcome.pool != ledger.pool:
        yield from say_small(ledger, outcome.pool)
        ledger.pool = outcome.pool
        if ledger.settings.pool:
            yield RunPool(outcome.pool)
    return True


def say_small(ledger: Ledger, pool: Cpus) -> Steps[None]:
    """Says that the pool has fewer CPUs than are left to it, or no other ones than are reserved."""
    least = ledger.settings.pool_least
    if len(pool) < least or pool <= ledger.reserved:
        why = f"keeps {least}" if len(pool) < least else "it is reserved" if len(pool) == 1 else "all of them are reserved"
        yield Say(f"note the pool has {counted(len(pool))}, and {why}: nobody else gets CPUs of its own", Level.NOTICE)


def stay_put(turn: Turn) -> Steps[None]:
    """Tells of those that are never moved that they ask for just what they have."""
    for name, container in list(turn.ledger.containers.items()):
        if container.stays and container.state.is_pinned:
            demand = staying(container.given, container.cpus or NO_CPUS)
            if demand.config != container.given.config:
                yield from tell_update(turn, name, demand, quiet=True)
