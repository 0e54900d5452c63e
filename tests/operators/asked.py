"""Tries by hand, without a process, corners of what is seen and asked for: odd configs, CPUs that are promised, homes, who waits for one, groups of the
system that are let go, and containers of which a run before had another group."""

from __future__ import annotations

import dataclasses
from typing import Dict, Mapping, Optional

from decided import FOUR, QUOTA, as_given, asks, config_of, container, cpus, done, ledger_of, lines_asked, looked, said, sighting
from parts import asking, found, groups_of, one, trial_of
from trial import case, check
from numarun_host import configs, newcomers, placing, plans, room, sightings, slices
from numarun_host.commands import Answer, Ask, OpenTrial, Taken, Tell, Write
from numarun_host.configs import Demand, Pin
from numarun_host.cpus import Cpus, print_list
from numarun_host.ledger import Kind, Pause, Problem, State, Topic
from numarun_host.script import Refused
from numarun_host.seen import Found, Group, Look, Missing, Told
from numarun_host.telling import Turn

EIGHT_SINGLE: Mapping[str, object] = {"nodes": ["0-3", "4-7"], "distances": [[10, 21], [21, 10]], "reserved": "0"}


@case
def odd_numbers() -> None:
    """What is a number in a config, and what is not; the least that count."""
    check("an object", configs.parse_text('{"a": [1]}', "f"), {"a": [1]})
    for text, why in (("[]", "f: no JSON object"), ("1", "f: no JSON object"), ("{", "f: not JSON"), ("[" * 100000, "f: not JSON")):
        try:
            check(f"{text[:5]}", configs.parse_text(text, "f"), "refused")
        except Refused as refusal:
            check(f"{text[:5]}", str(refusal), why)
    check("numbers", [configs.is_number(value) for value in (0, -1, 1 << 70, True, 1.0, "1", None)], [True] * 3 + [False] * 4)
    check("the least quota and period", [configs.quota_of(config_of(quota=quota, period=period)) for quota, period in ((1, 1), (3, 1), (0, 1), (1, 0), (1, -1), (-1, 5))],
          [(1, 1), (3, 1), None, (1, 100000), None, None])
    check("a period that is no whole number", configs.other_limit(config_of(quota=QUOTA, period=float(QUOTA)), (QUOTA, QUOTA)), (QUOTA, QUOTA))
    check("the same limit", configs.other_limit(config_of(quota=QUOTA, period=QUOTA), (2 * QUOTA, 2 * QUOTA)), None)
    memory = [{"linux": {"resources": {"memory": {"limit": limit}}}} for limit in (1, 0, -1, True)]
    check("memory", [configs.memory_asked(config) for config in memory], [1, 0, 0, 0])


@case
def promised() -> None:
    """What one has that asks for CPUs of its own is nobody else's, and as many cores, at its home, as it has yet to get."""
    turn = Turn(ledger_of(members=FOUR), Look(0.0))
    for name, given, has, expected in (
            ("what it has", Demand(asks(2), 2), "4-5", "6-15"), ("more than it asks for", Demand(asks(2), 2), "4-7", "8-15"),
            ("what it lacks", Demand(asks(4), 4), "4-5", "8-15"), ("at its home", Demand(asks(4, mems="2"), 4), "4-5", "6-7,10-15"),
            ("all of it", Demand(asks(4, mems="3"), 4), "", "4-11"), ("where it has a reserved CPU", Demand(asks(2), 2), "1", "6-15"),
            ("nothing of one on the pool", Demand({}, None), "4-15", "4-15")):
        turn.spare = cpus("4-15")
        placing.promise(turn, given, cpus(has))
        check(name, print_list(turn.spare), expected)
    turn.spare = None
    placing.promise(turn, Demand(asks(2), 2), cpus("4-5"))
    check("not counted yet", turn.spare, None)
    single = Turn(ledger_of(members=EIGHT_SINGLE), Look(0.0))
    single.spare = cpus("1-7")
    placing.promise(single, Demand(asks(1), 1), cpus(""))
    check("one CPU", print_list(single.spare), "2-7")


@case
def spare() -> None:
    """Who has all that it asks for is promised nothing more; of whom nothing is known yet all."""
    p, n = container("p", State.PINNED, 4, cpus=cpus("4-7")), container("n", State.PINNED, 2, cpus=None)
    check("all that it asks for", print_list(placing.spare_cpus(Turn(ledger_of(p, members=FOUR), Look(0.0)))), "2-3,8-15")
    check("nothing known", print_list(placing.spare_cpus(Turn(ledger_of(p, n, members=FOUR), Look(0.0)))), "8-15")


@case
def own_homes() -> None:
    """Where one is counts if it may be there by its config, also where that names no other CPUs, which are nobody else's then."""
    ledger = ledger_of(container("a", State.PINNED, 2, cpus=cpus("12-13")), members=FOUR)
    turn = Turn(ledger, Look(0.0, free_memory={node: 0 for node in range(4)}))

    def home(named: str, has: str) -> Optional[Cpus]:
        turn.spare = None
        return placing.choose_home(turn, sighting(config=config_of(cpus=named), cpus=cpus(has)), config_of(cpus=named), 2)

    check("just those that it names", home("12-13", "12-13"), cpus("3"))
    check("others than it names", home("4-7", "12-13"), cpus("1"))
    for limit, lacks in ((0, False), (1, True)):
        config = {"linux": {"resources": {"cpu": {"quota": 2 * QUOTA, "period": QUOTA}, "memory": {"limit": limit}}}}
        check(f"{limit} bytes where none is free", placing.demand_of(turn, sighting(config=config)).lacks_memory, lacks)


@case
def who_waits() -> None:
    """One that waits has a home by what is free now, where it has none; others keep what they ask for."""
    ledger, config = ledger_of(members=FOUR, pin=Pin.ALL), asks(2)
    turn = Turn(ledger, Look(0.0))
    for state, home, expected in ((State.WAITING, None, "0"), (State.WAITING, cpus("2"), "-"), (State.PINNED, None, "-"), (State.SHARED, None, "-")):
        turn.spare = cpus("8-9")  # as it was before others ended
        waiting = dataclasses.replace(container("w", state, 2, home=home), seen=sighting("/t/w", config))
        check(f"{state.value}, {home}", print_list(configs.nodes_named(placing.demand_with_home(turn, waiting).config)), expected)
    turn.there["w"] = sighting("/t/w", asks(4))
    check("as it is seen by now", placing.demand_with_home(turn, dataclasses.replace(container("w", State.WAITING, 2), seen=sighting("/t/w", config))).count, 4)
    lacking = Demand({"linux": {"resources": {"memory": {"limit": 1 << 30}}}}, 2, lacks_memory=True)
    ledger.put(container("a", State.ASKING, 2, demand=lacking, followed=cpus("1")))
    check("one whose nodes others chose has one", said(done(placing.say_home(ledger, "a"))[0]), [])


# Groups of the system.


@case
def let_go() -> None:
    """A group that is above a pinned container gets all CPUs, also where it requested fewer before; one that is on no way and was not taken is left."""
    ledger = ledger_of()
    ledger.taken = {"/t/s.slice": Taken(1, "1-2", "0", True)}
    groups = {path: Group(path, 1, cpus("1")) for path in ("/t/s.slice", "/t/x.slice")}
    turn = Turn(ledger, Look(0.0, groups=groups, slices=("s.slice", "x.slice")), on_the_way={"/t/s.slice": "p"})
    writes = [(command.path, command.file, command.text) for command in done(slices.let_go(turn))[0] if isinstance(command, Write)]
    check("all CPUs", writes, [("/t/s.slice", "cpuset.cpus", ""), ("/t/s.slice", "cpuset.mems", "")])
    turn.look = dataclasses.replace(turn.look, slices=("x.slice",))
    turn.ledger.taken, turn.on_the_way = {}, {}
    check("left alone", done(slices.let_go(turn))[0], [])


# Who is there.


def before(now: Dict[str, str], gone: str = "/t/old") -> Turn:
    """A turn in which `a` had this group in a run before, where there is a process still, and in which these groups are there, by their processes."""
    groups = {gone: Group(gone, 7, cpus("4"), populated=True), **{path: Group(path, 1, cpus("2"), populated=bool(runs)) for path, runs in now.items()}}
    ledger = ledger_of()
    ledger.before, ledger.taken = {"a": (gone, True)}, {gone: Taken(7, "", "", False)}
    return Turn(ledger, Look(0.0, groups=groups))


@case
def another_group_before() -> None:
    """Who is known, or told of, is not taken for what another run knew of its name, whatever is in that group."""
    known = container("a", State.PINNED, 1, cpus=cpus("2"))
    turn = before({"/t/a": ""})
    turn.ledger.put(known)
    done(sightings.miss(turn, "a", Missing(Told("/b", "/f"), "gone")))
    check("known, and without a process", (turn.there, turn.ledger.problem(Topic.CONTAINER, "a")), ({}, Kind.ABSENT))
    turn = before({"/t/a": ""})
    turn.ledger.put(known)
    done(sightings.see_left_by_one_before(turn))
    check("known, and told of no more", turn.there, {})
    turn = before({"/t/a": "runs"})
    turn.look = dataclasses.replace(turn.look, told={"a": as_given(known)})
    turn.there["a"] = sighting("/t/a")
    done(sightings.see_left_by_one_before(turn))
    check("told of", [seen.group.path for seen in turn.there.values()], ["/t/a"])
    turn = before({})
    done(sightings.see_left_by_one_before(turn))
    check("told of no more, with a process", [seen.group.path for seen in turn.there.values()], ["/t/old"])


@case
def seen_anew() -> None:
    """One is seen anew where what is known of it is otherwise, though it is found the same: others chose its nodes, if it was given other ones."""
    ledger = ledger_of(members=FOUR)
    given = dataclasses.replace(as_given(container("a", State.PINNED, 2, cpus=cpus("4-5"))), config=asks(2))
    alike = dataclasses.replace(given, group=dataclasses.replace(given.group, nodes=cpus("1")))
    for nodes, expected in (("1", None), ("2", cpus("1"))):
        ledger.put(container("a", State.PINNED, 2, cpus=cpus("4-5"), nodes=cpus(nodes)))
        check(f"given {nodes}", sightings.sighting_of(ledger, "a", alike).nodes, expected)
    bare = ledger_of(root=None)
    told = Found(Told("/b", "/f"), ("other",), asks(2), Group("/t/a", 1))
    held = container("a", State.PINNED, 2, cpus=cpus("4-5"))
    seen = sightings.sighting_of(bare, "a", told)
    check("without a tree no group is written anew", sightings.is_same(bare, held, seen), True)
    check("with one it requests nothing any more", sightings.is_same(ledger_of(), held, seen), False)


# Newcomers, and who wants more.


@case
def the_system_begins_elsewhere() -> None:
    """What a group of the system requests keeps nobody off the pool of a trial, on which one begins that asks for no CPUs."""
    new, slice_group = found("n", config_of()), Group("/t/s.slice", 7, cpus("4-5"))
    answers = {"rebalance": ["plan total 0", "pool 0-7", "end"], "sets n": ["cpus 0-7 effective 0-7 mems 0 effective 0"]}
    commands, _ = looked(ledger_of(), answers, told={"n": new}, groups={**groups_of(new), "/t/s.slice": slice_group}, slices=("s.slice",))
    check("the whole pool", [line for line in trial_of(commands, False) if " n " in line], ["adopt n 0-7"])


@case
def homes_without_a_trial() -> None:
    """Where a trial has no plan, each newcomer's home is chosen as it is told of: one that is refused keeps no others off."""
    come = {name: found(name, asks(4), age=age) for age, name in enumerate("ab")}
    answers = {"rebalance": ["refused E90 Busy"], "create a": ["refused E58 Missing root"], "sets b": ["cpus 0-1 effective 0-1 mems 0 effective 0"]}
    commands, _ = looked(ledger_of(members=FOUR), answers, told=come, groups=groups_of(*come.values()))
    told = [print_list(configs.nodes_named(command.config)) for command in commands if isinstance(command, Tell) and command.name == "b" and not command.trial]
    check("the nearest one", told, ["1"])


@case
def homes_beside_those_told() -> None:
    """What one has that was told of at this look is not free for the next one's home, and nothing else is kept off for it."""
    come = {"c": found("c", asks(2), age=0), "a": found("a", asks(4), "6-9", age=1), "b": found("b", asks(4), age=2)}
    answers = {"rebalance": ["refused E90 Busy"], **{f"sets {name}": [f"cpus {has} effective {has} mems 0 effective 0"] for name, has in (("c", "0-1"), ("a", "6-9"), ("b", "0-1"))}}
    commands, _ = looked(ledger_of(members=FOUR), answers, told=come, groups=groups_of(*come.values()))
    told = {command.name: print_list(configs.nodes_named(command.config)) for command in commands if isinstance(command, Tell) and not command.trial}
    check("homes", told, {"c": "0", "a": "1-2", "b": "3"})


@case
def blocks_while_it_is_there() -> None:
    """Who could not be told of stands in the way of a plan while it is there, also where nobody can say whether it has a process."""
    held, groups = sighting("/t/x", cpus=cpus("4")), {"/t/x": Group("/t/x", 1, cpus("4"))}
    turn = Turn(ledger_of(), Look(10.0, groups=groups))
    turn.ledger.blocking = {"x": held}
    check("not there", newcomers.still_blocking(turn), {})
    turn.there = {"x": held}
    check("there", newcomers.still_blocking(turn), {"x": held})


@case
def unsure_once_is_unsure() -> None:
    """Once one was refused that was to begin on CPUs of a plan, it stays unsure what it has, whoever is refused behind it."""
    for before in (False, True):
        turn = Turn(ledger_of(), Look(10.0))
        turn.unsure = before
        done(newcomers.take_up(turn, "n", sighting("/t/n", asks(1)), None), {"create": ["refused E50 KernelFault"], "adopt": ["refused E50 KernelFault"]})
        check(f"unsure before: {before}", turn.unsure, before)


@case
def nothing_to_give() -> None:
    """One for which there is a plan with just what it is given is told nothing: it keeps that until there is room."""
    held = one("a", State.PINNED, cpus=cpus("1-2"), **asking(2, wanted=3))
    ledger = ledger_of(held)
    ledger.problems[Topic.DEMAND, "a"] = Problem(Kind.REFUSED, "a", "what it wanted before")
    trial = room.Trial(Turn(ledger, Look(10.0)), {"a"})
    steps = room.try_demand(trial, held, held.wanted, held.given)
    commands, _ = done(steps, {"rebalance": ["plan total 0", "hold a 1-2", "pool 0,3-7", "end"]})
    check("told", [command for command in commands if isinstance(command, Tell) and not command.trial], [])
    check("said", said(commands), ["keeps a: that would move it: it stays at 2 CPUs until there is room"])
    check("what was refused before is left undone no more", [key for key in ledger.problems if key[0] is Topic.DEMAND], [])


@case
def refused_while_it_waits() -> None:
    """One that waits, and whose config is refused by now, gets what it asked for before: the refusal is left undone yet. Of one that wants what can be had it is not."""
    for state, wanted, expected in ((State.WAITING, None, True), (State.PINNED, 3, False)):
        held = one("a", state, **asking(2, 0 if wanted is None else 2, wanted=wanted))
        ledger = ledger_of(held)
        ledger.problems[Topic.DEMAND, "a"] = Problem(Kind.REFUSED, "a", "E63")
        done(room.give(Turn(ledger, Look(10.0)), held, asking(2)["demand"], asking(2)["demand"]))
        check(state.value, (Topic.DEMAND, "a") in ledger.problems, expected)


@case
def no_room_for_what_is_refused() -> None:
    """What is refused waits for no room any more. One that takes fewer CPUs than it asks for does so yet where something else that it wanted is refused."""
    for wanted, kind, expected in ((None, Kind.WAITS, False), (None, Kind.KEEPS, False), (None, Kind.FEWER, False), (3, Kind.WAITS, False), (3, Kind.KEEPS, False), (3, Kind.FEWER, True)):
        held = one("a", State.PINNED, **asking(2, 1, wanted))
        ledger = ledger_of(held)
        ledger.problems[Topic.ROOM, "a"] = Problem(kind, "a", "until there is room")
        commands, _ = done(room.say_refused(ledger, held, room.Outcome("refused E63 NoSuchCpu 9")))
        check(f"{kind} {wanted}", ((Topic.ROOM, "a") in ledger.problems, said(commands)), (expected, ["refused E63 NoSuchCpu 9: a /b: it stays as it was"]))


@case
def made_to_wait() -> None:
    """One that is made to wait waits for what it wants by now, so what was refused before is left undone no more."""
    held = one("a", State.PINNED, cpus=cpus("1-2"), **asking(2, wanted=3))
    ledger = ledger_of(held)
    ledger.problems[Topic.DEMAND, "a"] = Problem(Kind.REFUSED, "a", "E63")
    check("it waits", done(room.make_wait(Turn(ledger, Look(10.0)), "a", "no place"))[1], True)
    check("for this", ([key[0] for key in ledger.problems], ledger.containers["a"].demand.count), ([Topic.ROOM], 3))


@case
def others_room_behind_a_plan() -> None:
    """Behind a plan it is tried who may get more, where that was not tried before; but not once the agent is told to end in its hand-over, nor where memory
    lacked for the first trial, which is tried again behind a pause."""
    short, plan = ("short demand 9 allowed 1-7", "member p", "end"), ("plan total 0", "pool 0-7", "end")
    for ends, trial, expected in ((False, short, 2), (True, short, 1), (False, ("refused E1 Memory",), 1)):
        turn, opened = Turn(ledger_of(one("p", State.PINNED, **asking(2)), one("w", State.WAITING, **asking(9, 0))), Look(10.0)), 0
        turn.ledger.due = True
        steps, answers = plans.arrange(turn), {"rebalance": trial, "begin direct": plan, "step": ("done",)}
        try:
            command = next(steps)
            while True:
                opened += isinstance(command, OpenTrial)
                line = command.line if isinstance(command, Ask) else ""
                command = steps.send(Answer(answers.get(line, ("ok",)), ending=ends and line == "begin direct"))
        except StopIteration:
            check(f"told to end: {ends}, {trial[0]}", (opened, turn.ledger.due), (expected, False))


@case
def tried_again_behind_a_pause() -> None:
    """What could not be tried, as memory lacked for it, is tried again by another plan, but not before its pause is over."""
    ledger = ledger_of()
    ledger.untried, ledger.due, ledger.pauses["room", ""] = True, False, Pause(99.0, 1.0)
    for now, expected in ((98.0, False), (99.0, True)):
        check(f"at {now}", "begin direct" in lines_asked(looked(ledger, now=now)[0]), expected)


@case
def certificate_of_a_trial() -> None:
    """Why one waits the trial's certificate tells, and it is kept once."""
    short = ["short demand 9 allowed 1-7", "member a", "end"]
    for file, expected in (("", [True]), ("/c/1", [])):
        held = one("a", State.WAITING, certificate=file, **asking(9, 0))
        ledger = ledger_of(held, certificates="/c")
        trial = room.Trial(Turn(ledger, Look(10.0)), {"a"})
        commands, _ = done(room.try_demand(trial, held, held.demand, held.demand), {"rebalance": short, "certificate": ["cert 1", "end"], "": ["/c/1"]})
        check(f"with {file!r}", ([each.trial for each in commands if isinstance(each, Ask) and each.line == "certificate"], ledger.containers["a"].certificate), (expected, "/c/1"))
