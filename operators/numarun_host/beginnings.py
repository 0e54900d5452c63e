"""On which CPUs those begin that come and request none: on those that a plan gives them, which a trial works out before they are told of. So nobody
is on the reserved CPUs who need not be, while the kernel moves his pages."""

from __future__ import annotations

from dataclasses import dataclass
from typing import Dict, List, Optional, Sequence, Tuple

from .commands import CloseTrial, Steps
from .configs import Demand
from .cpus import NO_CPUS, Cpus
from .room import Outcome, Trial, keep_certificate, left_to_the_pool, pool_text
from .telling import Turn


@dataclass(frozen=True)
class Comer:
    """One that comes: what it is given at first, the CPUs that its group requests, and whether it may begin on these."""

    name: str
    given: Demand
    cpus: Cpus
    keeps: bool


@dataclass(frozen=True)
class Wait:
    """Why one waits on the pool, and the file of the certificate that proves it, if there is one."""

    why: str
    certificate: str = ""


@dataclass(frozen=True)
class Beginning:
    """The CPUs on which one begins, and why it waits there, if it does."""

    cpus: Cpus
    waits: Optional[Wait]


def beginnings(turn: Turn, comers: Sequence[Comer]) -> Steps[Dict[str, Beginning]]:
    """Where each of them begins by a plan. Nobody is named where there is none, nor who is refused, or gets no others than the reserved CPUs."""
    ledger, trial = turn.ledger, Trial(turn)
    yield from trial.open()
    asking, waiting = yield from begin_all(trial, comers)
    outcome, short = yield from plan_of(trial, asking)
    if not outcome.is_plan:
        return {}
    asking, waits = [comer for comer in asking if comer.name not in short], {**{name: Wait(why) for name, why in waiting.items()}, **short}
    own = [container.cpus or NO_CPUS for container in ledger.containers.values() if container.state.is_pinned]
    own += [comer.cpus for comer in comers if comer.given.count is not None or not comer.cpus & ledger.reserved]
    pool = outcome.pool - (NO_CPUS.union(*own) - ledger.reserved)
    cpus = {comer.name: pool for comer in comers if comer not in asking}
    cpus.update((comer.name, outcome.holds[comer.name]) for comer in asking if comer.name in outcome.holds)
    return {name: Beginning(has, waits.get(name)) for name, has in cpus.items() if not has <= ledger.reserved}


def plan_of(trial: Trial, asking: Sequence[Comer]) -> Steps[Tuple[Outcome, Dict[str, Wait]]]:
    """The trial's plan with those who ask for CPUs of their own, but for the youngest of those who are short together, and why these wait."""
    outcome = yield from trial.plan()
    short: Dict[str, Wait] = {}
    while outcome.shortage:
        members = [comer for comer in asking if comer.name in outcome.shortage.members and not comer.keeps and comer.name not in short]
        if not members:
            break
        short[members[-1].name] = Wait(outcome.shortage.text, (yield from keep_certificate(trial.turn.ledger, trial=True)))
        yield from trial.end(members[-1].name)
        outcome = yield from trial.plan()
    yield CloseTrial()
    return outcome, short


def begin_all(trial: Trial, comers: Sequence[Comer]) -> Steps[Tuple[List[Comer], Dict[str, str]]]:
    """Tells a trial of those that ask for CPUs of their own, but for the youngest of those that have none yet, as many as would bring the pool below
    what is left to it, and why these wait. Who is refused takes none, and who asks for more CPUs than there are is refused, and does not wait."""
    turn, settings = trial.turn, trial.turn.ledger.settings
    given = sum(comer.given.count or 0 for comer in comers if comer.keeps)
    asking: List[Comer] = []
    waiting: Dict[str, str] = {}
    for comer in comers:
        count = comer.given.count
        if count is None:
            continue
        if settings.pool_least and not comer.keeps and count <= len(settings.machine.present) and given + count > left_to_the_pool(turn):
            waiting[comer.name] = pool_text(turn, given + count)
            continue
        reply = yield from trial.begin(comer.name, comer.given, comer.cpus if comer.keeps else NO_CPUS)
        given += 0 if comer.keeps or reply.fault is not None else count
        asking.append(comer)
    return asking, waiting
