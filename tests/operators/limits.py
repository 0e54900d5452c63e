"""Tries by hand, without a process, what --lift decides: whose limit is lifted, what is kept of it before, and when it is given back. Expected values are
those of operators/safety.md and of the kernel's page of cpu.max."""

from __future__ import annotations

import dataclasses
from typing import Dict, List, Optional, Tuple

from decided import container, cpus, done, ledger_of, said
from trial import case, check
from numarun_host import lifting
from numarun_host.commands import Answer, Command, SaveTaken, SetLimit, Steps, Taken
from numarun_host.configs import Limit
from numarun_host.ledger import Container, Kind, Ledger, Pause, Problem, State, Topic
from numarun_host.seen import Group, Look
from numarun_host.telling import Turn

TWO, FOUR = (200000, 100000), (400000, 100000)
DENIED = "/t/p/cpu.max: Permission denied"


def one(name: str, limit: Optional[Limit], state: State = State.PINNED, has: str = "2-3", **more: object) -> Container:
    found = container(name, state, 2, cpus=cpus(has), **more)
    return dataclasses.replace(found, seen=dataclasses.replace(found.seen, group=Group(f"/t/{name}", 1, cpus(has), limit=limit)))


def turn_of(*containers: Container, kept: Optional[Limit] = None, lift: bool = True, inode: int = 1, now: float = 10.0) -> Turn:
    """A turn in which something was taken of each of these groups, of this inode, with this limit."""
    ledger = ledger_of(*containers, lift=lift)
    ledger.taken = {found.seen.group.path: Taken(inode, "", "", False, kept) for found in containers}
    return Turn(ledger, Look(now, groups={found.seen.group.path: found.seen.group for found in containers}))


def carried_out(steps: Steps[None], answer: Answer = Answer()) -> List[Command]:
    """What is yielded, where each limit is answered so."""
    commands: List[Command] = []
    try:
        command = next(steps)
        while True:
            commands.append(command)
            command = steps.send(answer if isinstance(command, SetLimit) else Answer())
    except StopIteration:
        return commands


def limits(commands: List[Command]) -> List[Tuple[str, Optional[Limit], Optional[Limit]]]:
    return [(command.path, command.limit, command.before) for command in commands if isinstance(command, SetLimit)]


def kept(ledger: Ledger) -> Dict[str, Optional[Limit]]:
    return {path: taken.limit for path, taken in ledger.taken.items()}


@case
def lifted() -> None:
    """Who has CPUs of its own has no limit from then on, and what it had is kept before."""
    turn = turn_of(one("p", TWO), one("q", FOUR, has="4-7"))
    commands = carried_out(lifting.lift_all(turn))
    check("kept before, once", [type(command).__name__ for command in commands], ["SaveTaken", "SetLimit", "Say", "SetLimit", "Say"])
    check("what is kept", [{path: taken.limit for path, taken in command.groups.items()} for command in commands if isinstance(command, SaveTaken)], [{"/t/p": TWO, "/t/q": FOUR}])
    check("lifted", limits(commands), [("/t/p", None, TWO), ("/t/q", None, FOUR)])
    check("said", said(commands)[0], "lift p: no limit in place of 200000 100000, since it has CPUs of its own")
    check("and saved", turn.unsaved, False)
    turn.unsaved = False
    check("what is kept already is not saved again", [type(command).__name__ for command in carried_out(lifting.lift_all(turn))], ["SetLimit", "Say", "SetLimit", "Say"])
    turn.unsaved = True
    check("but for what else is not saved yet", [type(command).__name__ for command in carried_out(lifting.lift_all(turn))][:2], ["SaveTaken", "SetLimit"])
    turn.ledger.containers = {}
    check("not where nobody is due", (carried_out(lifting.lift_all(turn)), turn.unsaved), ([], False))
    turn.unsaved = True
    check("so that it is saved elsewhere", (carried_out(lifting.lift_all(turn)), turn.unsaved), ([], True))


@case
def not_lifted() -> None:
    """Without --lift, before a plan, on reserved CPUs, without CPUs of its own, without a limit; of one of whose group nothing is kept, or of another
    group; of the system's; and not before its pause is over."""
    for name, turn in (("no --lift", turn_of(one("p", TWO), lift=False)), ("no plan yet", turn_of(one("p", TWO, State.ASKING))),
                       ("on the pool", turn_of(one("p", TWO, State.SHARED))), ("a reserved CPU", turn_of(one("p", TWO, has="0,2"))),
                       ("no CPUs", turn_of(one("p", TWO, has=""))), ("no limit", turn_of(one("p", None))), ("another group", turn_of(one("p", TWO), inode=2))):
        check(name, (carried_out(lifting.lift_all(turn)), turn.unsaved), ([], False))
    turn = turn_of(one("p", TWO))
    turn.ledger.taken = {}
    check("nothing is kept of it", carried_out(lifting.lift_all(turn)), [])
    system = one("p", TWO)
    system = dataclasses.replace(system, seen=dataclasses.replace(system.seen, told=dataclasses.replace(system.seen.told, folder=None)))
    check("the system's", carried_out(lifting.lift_all(turn_of(system))), [])
    for until, expected in ((10.1, []), (10.0, [("/t/p", None, TWO)])):
        turn = turn_of(one("p", TWO))
        turn.ledger.pauses["limit", "p"] = Pause(until, 1.0)
        check(f"a pause until {until}", limits(carried_out(lifting.lift_all(turn))), expected)
    kept_one = turn_of(one("k", TWO, State.KEPT))
    check("one whose config can't be had any more is", limits(carried_out(lifting.lift_all(kept_one))), [("/t/k", None, TWO)])


@case
def given_back() -> None:
    """Who has none of its own any more has its limit again, and nothing is kept of that; who has some has not."""
    for name, turn in (("on the pool", turn_of(one("p", None, State.WAITING), kept=TWO)), ("no --lift any more", turn_of(one("p", None), kept=TWO, lift=False)),
                       ("on a reserved CPU", turn_of(one("p", None, has="0,2"), kept=TWO))):
        commands = carried_out(lifting.lift_all(turn))
        check(name, (limits(commands), said(commands), kept(turn.ledger), turn.unsaved), ([("/t/p", TWO, None)], ["limit p: 200000 100000 again"], {"/t/p": None}, True))
    turn = turn_of(one("p", None), kept=TWO)
    check("not of one that has some", (carried_out(lifting.lift_all(turn)), kept(turn.ledger)), ([], {"/t/p": TWO}))
    check("nor where nothing was lifted", carried_out(lifting.lift_all(turn_of(one("p", FOUR, State.SHARED)))), [])
    turn = turn_of(one("p", None), one("s", None, State.SHARED, has="0,4-7"), kept=TWO)
    check("of each by itself", limits(carried_out(lifting.lift_all(turn))), [("/t/s", TWO, None)])


@case
def as_the_look_found_it() -> None:
    """A group's limit is that of this look, also of one that is taken up as it is now at a later one: what was lifted before stays kept."""
    turn = turn_of(one("p", TWO), kept=TWO)
    turn.look = dataclasses.replace(turn.look, groups={"/t/p": Group("/t/p", 1, cpus("2-3"))})
    check("lifted before", (carried_out(lifting.lift_all(turn)), kept(turn.ledger)), ([], {"/t/p": TWO}))
    turn.look = dataclasses.replace(turn.look, groups={"/t/p": Group("/t/p", 1, cpus("2-3"), limit=FOUR)})
    check("another one by now", (limits(carried_out(lifting.lift_all(turn))), kept(turn.ledger)), ([("/t/p", None, FOUR)], {"/t/p": FOUR}))
    turn.look = dataclasses.replace(turn.look, groups={})
    check("a group that is not there", (carried_out(lifting.lift_all(turn)), kept(turn.ledger)), ([], {"/t/p": FOUR}))


@case
def refused() -> None:
    """A limit that can't be written is said once, and tried again behind a pause; one that somebody gave another one meanwhile is not."""
    turn = turn_of(one("p", TWO))
    commands = carried_out(lifting.lift_all(turn), Answer(why=DENIED))
    check("said", (said(commands), turn.ledger.problem(Topic.LIMIT, "p"), turn.ledger.pauses["limit", "p"].until > 10.0), ([f"failed {DENIED}"], Kind.FAILED, True))
    check("what is kept stays", kept(turn.ledger), {"/t/p": TWO})
    turn.look = dataclasses.replace(turn.look, now=99.0)
    check("once", said(carried_out(lifting.lift_all(turn), Answer(why=DENIED))), [])
    turn.look = dataclasses.replace(turn.look, now=999.0)
    commands = carried_out(lifting.lift_all(turn))
    check("and done", (limits(commands), turn.ledger.problems, turn.ledger.pauses), ([("/t/p", None, TWO)], {}, {}))
    turn = turn_of(one("p", TWO))
    carried_out(lifting.lift_all(turn), Answer(why=DENIED))
    turn.look = dataclasses.replace(turn.look, groups={"/t/p": Group("/t/p", 1, cpus("2-3"))})
    turn.ledger.taken["/t/p"] = dataclasses.replace(turn.ledger.taken["/t/p"], limit=None)
    check("one that somebody took away, before its pause is over", (carried_out(lifting.lift_all(turn)), len(turn.ledger.problems)), ([], 1))
    turn.look = dataclasses.replace(turn.look, now=99.0)
    check("and behind it", (carried_out(lifting.lift_all(turn)), turn.ledger.problems, turn.ledger.pauses), ([], {}, {}))
    for state, before in ((State.PINNED, None), (State.WAITING, TWO)):
        turn = turn_of(one("p", TWO if state is State.PINNED else None, state), kept=before)
        turn.ledger.problems[Topic.LIMIT, "p"] = Problem(Kind.FAILED, "p", DENIED)
        turn.ledger.pauses["limit", "p"] = Pause(5.0, 1.0)
        commands = carried_out(lifting.lift_all(turn), Answer(stale=True))
        check(f"stale, {state.value}", (said(commands), kept(turn.ledger), turn.unsaved, turn.ledger.problems, turn.ledger.pauses), ([], {"/t/p": None}, True, {}, {}))
    turn = turn_of(one("p", None, State.WAITING), kept=TWO)
    commands = carried_out(lifting.lift_all(turn), Answer(why=DENIED))
    check("one that can't be given back is kept", (said(commands), kept(turn.ledger), turn.unsaved), ([f"failed {DENIED}"], {"/t/p": TWO}, False))


@case
def of_those_gone() -> None:
    """A group that goes on without its container has its limit again, if it is that group, and something was lifted; else nothing is written."""
    p = one("p", None)
    check("given back", limits(carried_out(lifting.give_back_at_the_end(turn_of(p, kept=TWO), p))), [("/t/p", TWO, None)])
    check("nothing was lifted", carried_out(lifting.give_back_at_the_end(turn_of(p), p)), [])
    check("another group", carried_out(lifting.give_back_at_the_end(turn_of(p, kept=TWO, inode=2), p)), [])
    turn = turn_of(p)
    turn.ledger.taken = {}
    check("nothing is kept", carried_out(lifting.give_back_at_the_end(turn, p)), [])


@case
def what_it_had() -> None:
    """The limit of a group counts, and of one that was lifted that which it had, if it is that very group."""
    p = one("p", TWO)
    for has, before, inode, expected in ((TWO, FOUR, 1, TWO), (None, FOUR, 1, FOUR), (None, FOUR, 2, None), (None, None, 1, None)):
        ledger = turn_of(p, kept=before, inode=inode).ledger
        check(f"{has}, {before}, {inode}", lifting.limit_of(ledger, Group("/t/p", 1, limit=has)), expected)
    check("nothing is kept", lifting.limit_of(ledger_of(), Group("/t/p", 1)), None)
    _, none = done(lifting.lift_all(turn_of()))
    check("nobody", none, None)
