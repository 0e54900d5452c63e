"""Who gets CPUs where there are too few. Those who want more than they are given, since they wait, or take fewer, or have another limit
by now, get it where a trial finds a plan with it; and in a shortage somebody takes fewer, or waits on the pool."""

from __future__ import annotations

from dataclasses import dataclass, field
from typing import Dict, List, Optional, Set, Tuple

from .commands import Ask, CloseTrial, KeepCertificate, OpenTrial, Steps, Tell, Verb
from .configs import Demand, fewer, least_of, shared
from .cpus import NO_CPUS, Cpus, counted, read_list
from .ledger import FULL, Container, Kind, Ledger, Problem, Sighting, State, Topic, report
from .placing import demand_with_home, say_home
from .strangers import withheld
from .telling import Reply, Turn, ask, report_failure, tell_update

Holds = Dict[str, Cpus]


@dataclass(frozen=True)
class Shortage:
    """Those who are short together ask for so many CPUs, and may have these."""

    demand: int
    allowed: Cpus
    members: Tuple[str, ...]
    text: str

    @property
    def missing(self) -> int:
        return self.demand - len(self.allowed)


@dataclass(frozen=True)
class Outcome:
    """A plan, by which each has these CPUs and all others the pool; or a shortage, or a refusal."""

    text: str
    total: Optional[int] = None
    holds: Holds = field(default_factory=dict)
    pool: Cpus = NO_CPUS
    shortage: Optional[Shortage] = None

    @property
    def is_plan(self) -> bool:
        return self.total is not None

    @property
    def is_momentary(self) -> bool:
        """Whether it is a refusal which may be none another time."""
        return Reply((self.text,)).is_momentary


def outcome_of(ledger: Ledger, reply: Reply) -> Outcome:
    words, body = reply.first.split(" "), [line.split(" ") for line in reply.lines[1:-1]]
    if words[0] == "plan":
        pool = next((read_list(line[1], "pool") for line in body if line[0] == "pool"), NO_CPUS)
        return Outcome(reply.first, int(words[2]), {line[1]: read_list(line[2], "hold") for line in body if line[0] == "hold"}, pool)
    if words[0] == "short":
        members = tuple(line[1] for line in body)
        text = " ".join([reply.first, *(f"member {ledger.title(name)}" for name in members)])
        return Outcome(text, shortage=Shortage(int(words[2]), read_list(words[4], "allowed"), members, reply.first))
    return Outcome(reply.first)


@dataclass
class Trial:
    """A run without a tree, over what the pinned containers are given and request now. It is shown no strangers, so what these had is not there."""

    turn: Turn
    made: Set[str] = field(default_factory=set)
    is_in_want: bool = False  # whether something was refused that may be taken another time, as where there was no memory for it

    def ask(self, line: str) -> Steps[Reply]:
        return self.heard((yield Ask(line, trial=True)).lines)

    def tell(self, verb: Verb, name: str, demand: Demand, cpus: Cpus = NO_CPUS) -> Steps[Reply]:
        return self.heard((yield Tell(verb, name, demand.config, cpus, trial=True)).lines)

    def heard(self, lines: Tuple[str, ...]) -> Reply:
        reply = Reply(lines)
        self.is_in_want = self.is_in_want or reply.is_momentary
        return reply

    def open(self) -> Steps[None]:
        yield OpenTrial()
        for cpu, switch in self.turn.ledger.switched.items():
            yield from self.ask(f"{switch} {cpu}")
        for cpu in sorted(withheld(self.turn)):
            yield from self.ask(f"offline {cpu}")
        for name, container in self.turn.ledger.containers.items():
            if container.state.is_pinned:
                yield from self.begin(name, container.given, container.cpus or NO_CPUS)

    def begin(self, name: str, demand: Demand, cpus: Cpus = NO_CPUS) -> Steps[Reply]:
        reply = (yield from self.tell(Verb.ADOPT, name, demand, cpus)) if cpus else None
        if reply is None or reply.fault is not None:
            reply = yield from self.tell(Verb.CREATE, name, demand)
        if reply.fault is None:
            self.made.add(name)
        return reply

    def plan(self) -> Steps[Outcome]:
        return outcome_of(self.turn.ledger, (yield from self.ask("rebalance")))

    def fits(self, name: str, demand: Demand) -> Steps[Outcome]:
        """A plan with this, and then it stays so; or else why there is none."""
        new = name not in self.made
        reply = (yield from self.begin(name, demand)) if new else (yield from self.tell(Verb.UPDATE, name, demand))
        if reply.fault is not None:
            return Outcome(reply.first)
        outcome = yield from self.plan()
        if not outcome.is_plan and new:
            yield from self.end(name)
        return outcome

    def end(self, name: str) -> Steps[None]:
        yield from self.ask(f"kill {name} KILL")
        yield from self.ask(f"delete {name}")
        self.made.discard(name)


def keep_certificate(ledger: Ledger, trial: bool = False) -> Steps[str]:
    """Keeps the certificate of the plan or the shortage that was worked out last, where these are kept; its file, if there is one."""
    folder = ledger.settings.certificates
    if not folder:
        return ""
    reply = yield from ask(ledger, Ask("certificate", trial))
    if reply.fault is not None:
        return ""
    kept = yield KeepCertificate(reply.lines)
    if kept.why:
        yield from report(ledger, Topic.RECORD, folder, Kind.FAILED, kept.why)
        return ""
    ledger.settle(Topic.RECORD, folder)
    return kept.lines[0] if kept.lines else ""


# More.


def wanting(turn: Turn) -> List[str]:
    """Who wants other than is given: first those who give some back, and then all others, in the order in which they were told."""
    names = [name for name, container in turn.ledger.containers.items()
             if container.state is State.WAITING or container.wanted or container.given.count != container.demand.count]
    return sorted(names, key=lambda name: not gives_back(turn.ledger.containers[name]))


def gives_back(container: Container) -> bool:
    """Whether it asks for fewer CPUs by now than it is given."""
    return bool(container.wanted and (container.wanted.count or 0) < (container.given.count or 0))


def make_room(turn: Turn) -> Steps[bool]:
    """Gives those who want it more, where there is a plan with it; whether it was tried, so not where those who have theirs are short. What
    could not be tried is tried again behind a pause."""
    ledger, names, trial = turn.ledger, wanting(turn), Trial(turn)
    tried = not names
    if names:
        yield from trial.open()
        tried = (yield from trial.plan()).is_plan and not trial.is_in_want
        for name in names if tried else []:
            yield from try_one(trial, ledger.containers[name])
        yield CloseTrial()
    ledger.untried = trial.is_in_want
    if trial.is_in_want:
        ledger.begin_pause("room", "", turn.now)
    else:
        ledger.end_pause("room")
    return tried


def left_to_the_pool(turn: Turn) -> int:
    """How many CPUs the pool has beyond those that are left to it; fewer than none where it has too few."""
    ledger = turn.ledger
    given = sum(container.given.count or 0 for container in ledger.containers.values() if container.state.is_pinned)
    return len(ledger.running - withheld(turn)) - given - ledger.settings.pool_least


def pool_text(turn: Turn, more: int) -> str:
    """Why one waits that asks for so many CPUs more than it is given."""
    least = turn.ledger.settings.pool_least
    left = left_to_the_pool(turn) + least - more
    return f"it would leave {counted(max(left, 0))} to the pool, and that keeps {least}"


def fit_to_pool(turn: Turn, container: Container, wanted: Demand) -> Optional[Demand]:
    """What one may be given of what it wants, so that the pool keeps its CPUs; nothing where that is less than it takes. What it is given
    already it may have."""
    settings, given = turn.ledger.settings, container.given.count or 0
    threads = settings.machine.threads
    most_cpus, possible = given + max(left_to_the_pool(turn), 0), len(settings.machine.present)
    if not settings.pool_least or wanted.count is None or wanted.count <= most_cpus or wanted.count > possible:
        return wanted
    count = most_cpus // threads * threads
    return fewer(wanted, count) if count >= max(least_of(wanted), 1) else None


def try_one(trial: Trial, container: Container) -> Steps[None]:
    """Gives one what it wants, or as much of it as there is room for; or says why not."""
    wanted = container.wanted or demand_with_home(trial.turn, container)
    fits = fit_to_pool(trial.turn, container, wanted)
    if fits is None:
        yield from say_no_room(trial.turn, container, pool_text(trial.turn, (wanted.count or 0) - (container.given.count or 0)))
        return
    yield from try_demand(trial, container, wanted, fits)


def say_no_room(turn: Turn, container: Container, why: str) -> Steps[None]:
    """Why one waits, or keeps what it has; that is said once of what it wants, also where there are other reasons by then."""
    ledger, key = turn.ledger, (Topic.ROOM, container.name)
    if container.state is State.WAITING:
        yield from say_waits(turn, container.name, why)
    elif container.wanted:
        settle_refused(turn, container)
        text = f"{ledger.title(container.name)}: {why}: it stays at {counted(container.given.count or 0)} until there is room"
        if ledger.problem(*key) is Kind.KEEPS:
            ledger.problems[key] = Problem(Kind.KEEPS, container.name, text)
        else:
            yield from report(ledger, *key, Kind.KEEPS, text)


def settle_refused(turn: Turn, container: Container) -> None:
    """What a container wants by now can be had, so what it wanted before and was refused is left undone no more."""
    if container.wanted:
        turn.ledger.settle(Topic.DEMAND, container.name)


def try_demand(trial: Trial, container: Container, wanted: Demand, fits: Demand) -> Steps[None]:
    turn, name = trial.turn, container.name
    ledger = turn.ledger
    given, why = yield from most(trial, container, fits)
    if why and why.is_momentary:
        yield from report_failure(ledger, name, container.seen.place, Reply((why.text,), why.text))
    elif why and not why.shortage and not why.is_plan:
        yield from say_refused(ledger, container, why)
        if container.wanted and container.given.count != container.demand.count:  # it may still get what it asked for before
            yield from try_one(trial, ledger.containers[name])
    elif given and given != container.given:
        yield from give(turn, container, given, wanted)
    elif container.state is State.WAITING:
        if why and why.shortage and not container.certificate:
            ledger.change(name, certificate=(yield from keep_certificate(ledger, trial=True)))
        yield from say_waits(turn, name, "no place")
    else:
        yield from say_no_room(turn, container, "that would move it" if given or not why else why.shortage.text if why.shortage else why.text)


def say_refused(ledger: Ledger, container: Container, why: Outcome) -> Steps[None]:
    """What one wants is refused for good: it wants it no more."""
    name, state = container.name, State.SHARED if container.state is State.WAITING else container.state
    ledger.change(name, demand=container.demand if container.wanted else container.given, wanted=None, state=state)
    text = f"{why.text.partition(' ')[2]}: {ledger.title(name)} {container.seen.place}: it stays as it was"
    ledger.settle(Topic.ROOM, name, *((Kind.WAITS, Kind.KEEPS) if container.wanted else FULL))
    yield from report(ledger, Topic.DEMAND, name, Kind.REFUSED, text)


def most(trial: Trial, container: Container, wanted: Demand) -> Steps[Tuple[Optional[Demand], Optional[Outcome]]]:
    """The demand with the most CPUs for which there is a plan, from the wanted one down to what it takes at least; or why none."""
    name, threads = container.name, trial.turn.ledger.settings.machine.threads
    outcome = yield from trial.fits(name, wanted)
    if outcome.is_plan and may_be(container, outcome.holds):
        return wanted, None
    why = None if outcome.is_plan else outcome
    count, given = wanted.count or 0, None
    least = least_of(wanted) if outcome.shortage else count
    while outcome.shortage and count > max(least, 1):
        missing = max(1, outcome.shortage.missing)
        count = max(least, (count - missing) // threads * threads)
        given = fewer(wanted, count)
        if container.state is not State.WAITING and count <= (container.given.count or 0):
            break
        outcome = yield from trial.fits(name, given)
        why = why if outcome.is_plan else outcome
    if outcome.is_plan and given and may_be(container, outcome.holds):
        return given, why
    if name in trial.made:
        yield from trial.tell(Verb.UPDATE, name, container.given)
    return None, why


def may_be(container: Container, holds: Holds) -> bool:
    """Whether one that is never moved keeps its CPUs, or is left some of them."""
    cpus, has = holds.get(container.name, NO_CPUS), container.cpus or NO_CPUS
    return container.state is State.WAITING or not container.stays or cpus >= has or cpus <= has


def give(turn: Turn, container: Container, given: Demand, wanted: Demand) -> Steps[None]:
    ledger, name = turn.ledger, container.name
    if not (yield from tell_update(turn, name, given)):
        return
    seen: Sighting = ledger.containers[name].seen
    ledger.change(name, demand=wanted, wanted=None, state=State.PINNED, followed=seen.nodes, certificate="")
    ledger.due = True
    ledger.settle(Topic.ROOM, name)
    settle_refused(turn, container)
    yield from say_home(ledger, name)


# Fewer.


def ease(turn: Turn, shortage: Shortage, certificate: str = "") -> Steps[bool]:
    """Asks for less in a shortage, of which this file has the certificate: for the youngest newcomer, or where there is none for the youngest
    who takes fewer, or may have others; where nobody does, the youngest waits. Whether it did."""
    containers = turn.ledger.containers
    members = [name for name in reversed(list(containers)) if name in shortage.members]
    for name in [name for name in members if not containers[name].state.has_had_a_plan][:1]:
        return (yield from shrink(turn, name, shortage.missing)) or (yield from make_wait(turn, name, shortage.text, certificate))
    for name in members:
        if (yield from loosen(turn, name)):
            return True
    for name in members:
        if (yield from shrink(turn, name, shortage.missing)):
            return True
    for name in members:
        if (yield from make_wait(turn, name, shortage.text, certificate)):
            return True
    return False


def spare_the_pool(turn: Turn) -> Steps[None]:
    """Lets the youngest newcomers take fewer CPUs, or wait, as long as the pool would have fewer than are left to it."""
    ledger = turn.ledger
    for name in reversed(list(ledger.containers)) if ledger.settings.pool_least else []:
        container, missing = ledger.containers[name], -left_to_the_pool(turn)
        if missing <= 0:
            return
        if container.state is State.ASKING:
            why = pool_text(turn, 0)
            yield from shrink(turn, name, missing)
            if left_to_the_pool(turn) < 0:
                yield from make_wait(turn, name, why)


def loosen(turn: Turn, name: str) -> Steps[bool]:
    """Lets one that is never moved have other CPUs, since some of its own are gone; whether it did."""
    container = turn.ledger.containers[name]
    if container.given == container.demand or container.given.count != container.demand.count:
        return False
    return (yield from tell_update(turn, name, container.demand, quiet=True))


def shrink(turn: Turn, name: str, missing: int) -> Steps[bool]:
    """Asks for so many CPUs fewer for a container, as far as it takes that; whether it did."""
    container = turn.ledger.containers[name]
    if container.given.count is None or container.demand.count is None:
        return False
    threads = turn.ledger.settings.machine.threads
    count = max(-(-least_of(container.demand) // threads), (container.given.count - missing) // threads, 1) * threads
    if count >= container.given.count:
        return False
    return (yield from tell_update(turn, name, fewer(container.demand, count), quiet=True))


def make_wait(turn: Turn, name: str, why: str, certificate: str = "") -> Steps[bool]:
    """Lets one run on the pool until there is room, which this file proves that there is not, if one does; whether it does."""
    container = turn.ledger.containers[name]
    demand = container.wanted or container.demand
    if container.given.count is None or not (yield from tell_update(turn, name, shared(demand.config), quiet=True)):
        return False
    turn.ledger.change(name, state=State.WAITING, demand=demand, wanted=None, certificate=certificate)
    settle_refused(turn, container)
    yield from say_waits(turn, name, why)
    return True


def say_waits(turn: Turn, name: str, why: str) -> Steps[None]:
    """Says once that a container waits."""
    if turn.ledger.problem(Topic.ROOM, name) is not Kind.WAITS:
        text = f"{turn.ledger.title(name)}: {why}: it runs on the pool until there is room"
        yield from report(turn.ledger, Topic.ROOM, name, Kind.WAITS, text)


def say_fewer(turn: Turn) -> Steps[None]:
    """Says who takes fewer CPUs than it asks for; of one that wants others by now not anew."""
    ledger = turn.ledger
    for name, container in list(ledger.containers.items()):
        given, asked = container.given.count, container.demand.count
        if container.state is State.WAITING or given == asked:
            ledger.settle(Topic.ROOM, name, Kind.FEWER)
        elif not container.wanted:
            text = f"{ledger.title(name)}: {given} of {asked} CPUs, as there are no more"
            yield from report(ledger, Topic.ROOM, name, Kind.FEWER, text)
