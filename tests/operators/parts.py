"""Tries by hand, without a process, how the agent tells of who comes, follows what changes, and gives out CPUs that are few. Expected values are worked
out by hand from the pages of operators/."""

from __future__ import annotations

import dataclasses
from typing import Any, Callable, Dict, List, Mapping, Optional, Sequence, Tuple, Type

import model
from decided import EIGHT, FOUR, asks, config_of, container, cpus, done, ledger_of, looked, machine_of, said, sighting
from trial import case, check
from numarun_host import beginnings, changes, configs, newcomers, plans, room, telling
from numarun_host.beginnings import Comer, Wait
from numarun_host.commands import Answer, Ask, CloseTrial, Command, Drop, KeepCertificate, Link, OpenTrial, RunPool, SaveTaken, Say, SetLimit, Steps, T, Taken, Tell, Unlink, Verb, Write
from numarun_host.configs import Demand
from numarun_host.cpus import print_list
from numarun_host.decide import decide
from numarun_host.ledger import Kind, Ledger, Pause, Problem, State, Topic, is_undone
from numarun_host.room import Outcome, Shortage
from numarun_host.script import Refused
from numarun_host.seen import Found, Group, Look, Missing, Online, Told
from numarun_host.telling import Reply, Turn


def asking(count: int, given: Optional[int] = None, wanted: Optional[int] = None, annotations: Optional[Mapping[str, str]] = None) -> Mapping[str, Any]:
    """A demand of one's own, and what one is given of it; and what it wants by now."""
    config: Mapping[str, object] = {**asks(count), **({"annotations": annotations} if annotations else {})}
    demand = Demand(config, count)
    less = demand if given is None else configs.fewer(demand, given) if given else configs.shared(config)
    return {"demand": demand, "given": less, "wanted": configs.fewer(demand, wanted) if wanted else None}


def least(count: int, number: int, given: Optional[int] = None) -> Mapping[str, Any]:
    return asking(count, given, annotations={"numarun.least": str(number)})


def one(name: str, state: State, **more: Any) -> Any:
    return dataclasses.replace(container(name, state), **more)


def found(name: str, config: Mapping[str, object], has: str = "", path: str = "", **more: Any) -> Found:
    group = Group(path or f"/t/{name}", 7, cpus(has), populated=True, texts=(has, ""))
    return Found(Told(f"/g/{name}", f"/g/{name}"), (name,), config, group, **more)


def as_given(told: Mapping[str, Found], ledger: Ledger) -> Dict[str, Found]:
    """The same once each group has what its container was given."""
    cpus_of = {held.seen.group.path: held.cpus or frozenset() for held in ledger.containers.values()}
    return {name: dataclasses.replace(each, group=dataclasses.replace(each.group, cpus=cpus_of.get(each.group.path, each.group.cpus))) for name, each in told.items()}


def told_of(commands: Sequence[Command]) -> List[str]:
    return [f"{command.verb.value} {command.name} {print_list(command.cpus)}" for command in commands if isinstance(command, Tell)]


def groups_of(*several: Found) -> Mapping[str, Group]:
    return {each.group.path: each.group for each in several}


# What is said of refusals.


@case
def failures() -> None:
    """What may be taken at another time is said as why; an update that fails so is made at another time, and one that is refused for good is not."""
    for answer, line, unmade in (("refused E50 KernelFault", "failed refused E50 KernelFault", True), ("refused E111 NoBundle", "absent a: /b: can't be read", True),
                                 ("refused E45 NoPids", "absent a: /b: E45 NoPids: told again in another run", True), ("refused E63 NoSuchCpu 9", "refused E63 NoSuchCpu 9: a /b: it stays as it was", False)):
        ledger = ledger_of(one("a", State.PINNED, **asking(2)))
        commands, taken = done(telling.tell_update(Turn(ledger, Look(10.0)), "a", asking(3)["demand"]), {"update": [answer]})
        check(answer, (said(commands), taken, ledger.unmade, list(ledger.pauses)), ([line], False, unmade, [("update", "")] if unmade else []))
    ledger.pauses["update", ""] = Pause(11.0, 1.0)
    commands, taken = done(telling.tell_update(Turn(ledger, Look(10.0)), "a", asking(3)["demand"]))
    check("taken", (said(commands), taken, ledger.pauses), (["update a /b"], True, {}))
    ledger.problems = {(Topic.CONTAINER, "a"): Problem(Kind.UNTOLD, "a", "a")}
    done(telling.tell_update(Turn(ledger, Look(10.0)), "a", asking(3)["demand"]))
    check("nothing of it is left", ledger.problems, {})
    new = found("a", config_of())
    for answer, line in (("refused E111 NoBundle", "absent a: /g/a: can't be read"), ("refused E50 KernelFault", "failed refused E50 KernelFault")):
        commands, ledger = looked(ledger_of(), {"create": [answer], "adopt": [answer]}, told={"a": new}, groups=groups_of(new))
        check(f"one that comes: {answer}", said(commands), [line])
        for now in (10.5, 20.0):
            commands, ledger = looked(ledger, {"create": [answer], "adopt": [answer]}, told={"a": new}, groups=groups_of(new), now=now)
            check(f"it is left until it is told: {answer} at {now}", (said(commands), [problem.line for problem in ledger.problems.values()]), ([], [line]))
        commands, ledger = looked(ledger, told={"a": new}, groups=groups_of(new), now=90.0)
        check(f"and told: {answer}", (said(commands)[:1], ledger.problems), (["create a /g/a"], {}))


# Who comes.


@case
def ways() -> None:
    """How one is told first, and what is tried behind that, by the CPUs that its group requests."""
    two = asks(2)
    stay: Mapping[str, object] = {**two, "annotations": {"numarun.stay": "true"}}
    rows: Sequence[Tuple[str, Mapping[str, object], str, str, Sequence[Tuple[Optional[int], bool, str]]]] = (
        ("shared", config_of(), "0,3", "", [(None, False, "0,3"), (None, False, "-")]), ("shared, new", config_of(), "", "", [(None, False, "-"), (None, False, "-")]),
        ("new", two, "", "", [(2, False, "-"), (2, False, "-")]), ("has its own", two, "1-2", "", [(2, False, "1-2"), (2, False, "-")]),
        ("has fewer", two, "1", "", [(1, False, "1"), (2, False, "1"), (2, False, "-")]), ("has more", two, "1-3", "", [(2, False, "1-3"), (2, False, "-")]),
        ("stays", stay, "1-2", "", [(2, False, "1-2"), (2, False, "1-2"), (2, False, "-")]), ("stays on more", stay, "1-3", "", [(2, False, "1-3"), (2, False, "-")]),
        ("stays on fewer", stay, "1", "", [(1, False, "1"), (2, False, "1"), (2, False, "-")]), ("on the pool with others", two, "0-3", "0-3", [(None, True, "0-3"), (2, False, "-")]),
        ("on as many with others", two, "1-2", "1-2", [(2, False, "1-2"), (2, False, "-")]),
        ("on fewer with others", two, "1", "1", [(2, False, "1"), (2, False, "-")]), ("on more with others", two, "1-3", "1-3", [(None, True, "1-3"), (2, False, "-")]),
        ("on a reserved one with others", two, "0-1", "0-1", [(None, True, "0-1"), (2, False, "-")]), ("on the reserved one alone", two, "0", "0", [(2, False, "0"), (2, False, "-")]),
    )
    for name, config, has, other, expected in rows:
        turn = Turn(ledger_of(), Look(0.0))
        seen = sighting("/t/a", config, cpus=cpus(has))
        turn.there = {"a": seen, "b": sighting("/t/b", cpus=cpus(other))}
        demand = Demand(config, configs.asked(config, configs.Pin.ALL, turn.ledger.settings.machine))
        several = newcomers.ways_of(turn, seen, demand, seen.group.cpus)
        check(name, [(way.given.count, way.waits, print_list(way.cpus)) for way in several][:len(expected)], expected)
        check(f"{name}: where the config can't be had", [(way.given.count, way.waits) for way in several[-4:]], [(None, False)] * 4)
        check(f"{name}: and where", [print_list(way.cpus) for way in several[-4:]], [print_list(cpus(has)), "-"] * 2)
        check(f"{name}: as it is, where it was given these", len(several[len(expected):]), 4)
    turn = Turn(ledger_of(), Look(0.0))
    turn.ledger.known = frozenset({"/t/a"})
    seen = sighting("/t/a", two, cpus=cpus("1-2"))
    turn.there = {"a": seen}
    several = newcomers.ways_of(turn, seen, Demand(two, 2), seen.group.cpus)
    check("an agent gave it these", [(way.given.count, way.waits, print_list(way.cpus)) for way in several[2:3]], [(2, False, "1-2")])
    check("and has none by now", len(newcomers.ways_of(turn, seen, Demand(two, 2), cpus(""))), 6)
    listed = Demand(config_of(cpus="1-2"), 2)
    check("just those that it names", newcomers.ways_of(turn, seen, listed, seen.group.cpus)[0].given.config, listed.config)
    turn.ledger.put(container("p", State.PINNED, 2, cpus=cpus("1-2")))
    turn.users = None
    check("on more than it asks for, which one has that is told", [way.waits for way in newcomers.ways_of(turn, seen, Demand(asks(1), 1), seen.group.cpus)[:2]], [True, False])
    system = dataclasses.replace(sighting("/t/s.slice"), told=Told("", None, "s.slice"))
    check("one of the system begins on what is free", print_list(newcomers.ways_of(turn, system, Demand({}, None), cpus(""))[0].cpus), "0,3-7")


@case
def states_at_first() -> None:
    for given, waits, bare, own, expected in ((2, True, False, 2, State.WAITING), (None, False, True, 0, State.POOLED), (None, False, False, 0, State.SHARED), (2, False, True, 2, State.KEPT),
                                              (2, False, False, 2, State.PINNED), (2, False, False, 3, State.PINNED), (2, False, False, 1, State.ASKING)):
        check(f"{given} {waits} {bare} {own}", newcomers.state_of(Demand({}, given), waits, bare, own), expected)


@case
def held_at_first() -> None:
    """One that was told is pinned if it has its CPUs already, and is on them; what was refused of it on the way is said if it was told otherwise then."""
    fault, two = Reply(("refused E67 NothingAllowed",)), Demand(asks(2), 2)
    for has, group, given, refused, state, lines in (
        ("1-2", "1-2", two, None, State.PINNED, []), ("1-3", "1-3", two, None, State.PINNED, []), ("1-2", "1", two, None, State.ASKING, []), ("0-1", "0-1", two, None, State.ASKING, []),
        ("", "1-2", two, None, State.ASKING, []), ("1-2", "1-2", two, fault, State.PINNED, []),
        ("1-2", "1-2", configs.bare(cpus("1-2"), cpus("")), fault, State.KEPT, ["refused E67 NothingAllowed: a /b: it stays as it was"]),
        ("0-7", "", configs.shared(asks(2)), fault, State.SHARED, ["refused E67 NothingAllowed: a /b: it runs on the pool"])):
        turn, answers = Turn(ledger_of(), Look(10.0)), {"sets": [f"cpus {has} effective - mems 0 effective 0"]} if has else {}
        way = newcomers.Way(given, False, cpus(group))
        commands, _ = done(newcomers.hold(turn, "a", sighting(), two, way, cpus(group), refused), answers)
        held = turn.ledger.containers["a"]
        check(f"{has} {group} {given.count} {refused}", (held.state, said(commands), held.demand), (state, lines, given if lines else two))
        check(f"{has} {group} {given.count} {refused}: its group has an owner", turn.owners, {"/t/a": "a"})
    for why, lines in (("", []), ("x", ["waits a: x: it runs on the pool until there is room"])):
        way = newcomers.Way(configs.shared(asks(2, mems="1")), True, cpus("0-7"), why=why)
        commands, _ = done(newcomers.hold(Turn(ledger_of(members=FOUR), Look(10.0)), "a", sighting(config=asks(2)), Demand(asks(2, mems="1"), 2), way, cpus(""), None))
        check(f"it waits, {why}", said(commands), lines)


@case
def refused_for_now() -> None:
    """Who can't be told of at the moment, and runs on CPUs, lets no plan be safe; who is refused as it is is not told again."""
    for has, known, text, expected in (("4", None, "refused E50 KernelFault", (["a"], [])), ("", None, "refused E50 KernelFault", ([], [])), ("4", "", "refused E50 KernelFault", ([], [])),
                                       ("", "4", "refused E50 KernelFault", (["a"], [])), ("4", None, "refused E63 NoSuchCpu 9", ([], ["a"]))):
        turn = Turn(ledger_of(), Look(10.0))
        steps = newcomers.refuse(turn, "a", sighting(cpus=cpus(has)), Reply((text,)), None if known is None else cpus(known))
        check(f"{has} {known} {text}", (done(steps)[1], list(turn.ledger.blocking), list(turn.ledger.refused)), (False, *expected))


@case
def told_in_order() -> None:
    """Those of whom something was kept come first, in that order, then the older ones; the system's own last. What they had is kept before any write."""
    ledger = ledger_of()
    ledger.taken = {"/t/d": Taken(7, "", "", False), "/t/c": Taken(7, "", "", False)}
    told = {name: found(name, config_of(), age=age) for name, age in (("a", 9), ("b", 5), ("c", 9), ("d", 9))}
    groups = {**groups_of(*told.values()), "/t/s.slice": Group("/t/s.slice", 7, texts=("", "0"))}
    commands, after = looked(ledger, told=told, groups=groups, slices=("s.slice",))
    check("the order", [line.split(" ")[1] for line in told_of(commands)], ["d", "c", "b", "a", "s.slice"])
    check("by its group", [line for line in said(commands) if "s.slice" in line], ["adopt s.slice /t/s.slice 0-7"])
    kinds = [type(command) for command in commands if isinstance(command, (SaveTaken, Link))]
    check("kept first", kinds[:2], [SaveTaken, Link])
    check("what is kept", {path: (taken.cpus, taken.nodes, taken.system) for path, taken in after.taken.items() if path in ("/t/a", "/t/s.slice")},
          {"/t/a": ("", "", False), "/t/s.slice": ("", "0", True)})
    told = as_given(told, after)
    groups = {**groups_of(*told.values()), "/t/s.slice": Group("/t/s.slice", 7, cpus("0-7"))}
    commands, _ = looked(after, told=told, groups=groups, slices=("s.slice",))
    check("once", told_of(commands), [])


@case
def kept_first() -> None:
    """What a group requested is kept once, before it is written; what is known of this very group stays."""
    texts = Taken(7, "1-2", "0", False)
    for name, before, inode, system, expected in (("new", None, 7, False, texts), ("known", Taken(7, "5", "1", False), 7, False, Taken(7, "5", "1", False)),
                                                  ("another group", Taken(7, "5", "1", False), 8, False, Taken(8, "1-2", "0", False)), ("the system's", texts, 7, True, Taken(7, "1-2", "0", True))):
        ledger = ledger_of()
        ledger.taken = {"/t/a": before} if before else {}
        seen = dataclasses.replace(sighting(), told=Told("/b", None if system else "/f"), group=Group("/t/a", inode, texts=("1-2", "0")))
        commands, _ = done(newcomers.keep_what_they_had(Turn(ledger, Look(10.0)), [seen]))
        check(name, (ledger.taken, commands), ({"/t/a": expected}, [] if before == expected else [SaveTaken({"/t/a": expected})]))
    turn = Turn(ledger_of(), Look(10.0))
    turn.owners = {"/t/a": "other"}
    check("the group of another one", done(newcomers.take_up(turn, "a", sighting(), None))[1], False)


@case
def refused_at_once() -> None:
    """An id that is none, and the group of another one: each is said once, and told again once it is another one."""
    told = {"a b": found("a b", config_of()), "..": found("..", config_of()), "x" * 65: found("x" * 65, config_of()), "one": found("one", config_of()),
            "two": found("two", config_of(), path="/t/one")}
    commands, ledger = looked(ledger_of(), told=told, groups=groups_of(*told.values()))
    check("refused", sorted(line for line in said(commands) if line.startswith("refused")), sorted([
        "refused E91 BadId: a b /g/a b", "refused E91 BadId: .. /g/..", f"refused E91 BadId: {'x' * 65} /g/{'x' * 65}", "refused: its group is that of one: two /g/two"]))
    check("told", told_of(commands), ["create one -"])
    told = as_given(told, ledger)
    commands, ledger = looked(ledger, told=told, groups=groups_of(*told.values()))
    check("said once", (said(commands), sorted(ledger.refused)), ([], sorted(["a b", "..", "x" * 65, "two"])))
    del told["one"]
    told["two"] = dataclasses.replace(told["two"], group=dataclasses.replace(told["two"].group, populated=False))
    commands, ledger = looked(ledger, told=told, groups=groups_of(*told.values()))
    check("as long as it is as it was", told_of(commands), [])
    told["two"] = dataclasses.replace(told["two"], stamp=("other",))
    commands, ledger = looked(ledger, told=told, groups=groups_of(*told.values()))
    check("another config", (told_of(commands), sorted(ledger.refused)), (["adopt two 0-7"], sorted(["a b", "..", "x" * 65])))
    told = {"two": told["two"], "six": found("six", config_of(), path="/t/one")}
    commands, _ = looked(ledger, told=told, groups=groups_of(*told.values()))
    check("the group of one that is told already", [line for line in said(commands) if line.startswith("refused")], ["refused: its group is that of two: six /g/six"])
    commands, ledger = looked(ledger, told={}, groups={})
    check("all are gone", (ledger.refused, ledger.problems), ({}, {}))
    ledger.ending = True
    commands, ledger = looked(ledger, told=told, groups=groups_of(*told.values()))
    check("it ends before they are told of", (told_of(commands), ledger.due), ([], True))


@case
def with_homes() -> None:
    """A newcomer's home is said once it is told."""
    new = found("a", asks(2))
    commands, ledger = looked(ledger_of(members=FOUR), told={"a": new}, groups=groups_of(new))
    check("its home", [line for line in said(commands) if line.startswith(("create", "home"))], ["create a /g/a", "home a 0"])
    check("is kept", print_list(ledger.containers["a"].home or ()), "0")
    ledger, told = ledger_of(members=FOUR), {name: found(name, asks(2)) for name in "ab"}
    ledger.pool = cpus("0-15")
    commands, _ = looked(ledger, told=told, groups=groups_of(*told.values()))
    check("of two, one after another", [line for line in said(commands) if line.startswith("home")], ["home a 0", "home b 1"])


@case
def without_a_tree() -> None:
    """Where nothing is written, one whose config is there in part is as it was, and one without a config has ended."""
    new = found("a", asks(2))
    commands, ledger = looked(ledger_of(root=None), told={"a": new})
    check("told", (told_of(commands), ledger.taken), (["create a -"], {}))
    commands, ledger = looked(ledger, told={"a": Missing(new.told, "not JSON", in_parts=True)})
    check("in part", (said(commands), list(ledger.containers)), ([], ["a"]))
    commands, ledger = looked(ledger, told={"a": Missing(new.told, "no file")})
    check("gone", ("ended a" in said(commands), list(ledger.containers)), (True, []))
    told = {name: dataclasses.replace(found(name, asks(1)), group=Group("", 0)) for name in "ab"}
    commands, ledger = looked(ledger_of(root=None), told={"a": told["a"]})
    check("none has a group", (told_of(looked(ledger, told=told)[0]), told_of(looked(ledger_of(root=None), told=told)[0])), (["create b -"], ["create a -", "create b -"]))


@case
def held_up() -> None:
    """No plan while somebody runs on CPUs who can't be told of: a write that fails, and a group that an agent told of before."""
    new, fault = found("a", asks(2), "4-5"), {"adopt": ["refused E50 KernelFault"]}
    commands, ledger = looked(ledger_of(), fault, told={"a": new}, groups=groups_of(new))
    check("a write that fails", (told_of(commands), [type(each) for each in commands if isinstance(each, (Unlink, Drop))], sorted(ledger.blocking), ledger.due),
          (["adopt a 4-5"], [Unlink, Drop], ["a"], False))
    ledger.due = True
    commands, ledger = looked(ledger, fault, told={"a": new}, groups=groups_of(new), now=10.5)
    check("no plan, and no other try in the pause", (told_of(commands), [each for each in commands if isinstance(each, Ask)], ledger.due), ([], [], True))
    commands, ledger = looked(ledger, told={"a": new}, groups=groups_of(new), now=11.0)
    check("told again", (told_of(commands), ledger.blocking, [each.line for each in commands if isinstance(each, Ask)][-1], ledger.due),
          (["adopt a 4-5"], {}, "step", False))
    for has, kept, expected in (("4-5", 7, True), ("", 7, True), ("0", 7, False), ("4-5", 8, False)):
        ledger = ledger_of()
        ledger.taken, ledger.due = {"/t/x": Taken(kept, "", "", False)}, True
        commands, ledger = looked(ledger, groups={"/t/x": Group("/t/x", 7, cpus(has), populated=True)})
        says = ["unseen /t/x: it was told of before, and there is a process in it: no plan until it is told"] if expected else []
        check(f"a group of nobody on {has!r}", ([line for line in said(commands) if line.startswith("unseen")], ledger.due), (says, expected))
    ledger.taken, ledger.due = {"/t/x": Taken(7, "", "", True)}, True
    check("one of the system", looked(ledger, groups={"/t/x": Group("/t/x", 7, cpus("4"), populated=True)})[1].due, False)


@case
def untold() -> None:
    """Who keeps others off, and lets no plan be made: who could not be told of, if it is there or has a process; not who is refused as it is, or has
    the reserved CPUs alone."""
    def seen_on(name: str, has: str) -> Any:
        return dataclasses.replace(sighting(f"/t/{name}"), group=Group(f"/t/{name}", 7, cpus(has)))

    for there, runs, refused, has, expected in ((True, False, False, "4", True), (False, True, False, "4", True), (False, False, False, "4", False), (True, False, False, "0", False),
                                                (True, False, True, "4", False)):
        ledger, seen = ledger_of(), seen_on("x", has)
        turn = Turn(ledger, Look(10.0, groups={"/t/x": Group("/t/x", 7, cpus(has), populated=runs)}))
        turn.there, ledger.refused = {"x": seen} if there else {}, {"x": seen} if refused else {}
        ledger.blocking = {} if there else {"x": seen}
        if there:
            check(f"requested: {there} {runs} {refused} {has}", newcomers.requested_by_untold(turn), cpus("4") if expected else cpus(""))
        commands, held_up = done(newcomers.is_held_up(turn))
        check(f"held up: {there} {runs} {refused} {has}", (held_up, list(ledger.blocking), commands), (expected, ["x"] if expected else [], []))
    ledger = ledger_of()
    ledger.taken = {"/t/x": Taken(7, "", "", False)}
    turn = Turn(ledger, Look(10.0, groups={"/t/x": Group("/t/x", 7, cpus("4"), populated=True)}))
    line = "unseen /t/x: it was told of before, and there is a process in it: no plan until it is told"
    check("unseen, said once", [said(done(newcomers.is_held_up(turn))[0]) for _ in range(2)], [[line], []])
    turn.look = Look(10.0)
    check("and no more", (done(newcomers.is_held_up(turn)), ledger.problems), (([], False), {}))
    turn.strays = {"a": cpus("4")}
    check("one has what was written by others", done(newcomers.is_held_up(turn))[1], True)


def answered(steps: Steps[T], answer: Callable[[str], Sequence[str]]) -> Tuple[List[Command], T]:
    """What is yielded, and what it ends with; each line for numarun is answered so."""
    commands: List[Command] = []
    try:
        command = next(steps)
        while True:
            commands.append(command)
            command = steps.send(Answer(tuple(answer(command.line) if isinstance(command, Ask) else ["ok"])))
    except StopIteration as end:
        found_at_last: T = end.value
        return commands, found_at_last


def trial_of(commands: Sequence[Command], trial: bool) -> List[str]:
    return told_of([command for command in commands if isinstance(command, Tell) and command.trial == trial])


PLAN = {"rebalance": ["plan total 30", "hold a 1-2", "hold b 5", "pool 0,3-4,6-7", "end"], "begin direct": ["plan total 30", "hold a 1-2", "hold b 5", "pool 0,3-4,6-7", "end"],
        "sets a": ["cpus 1-2 effective 1-2 mems 0 effective 0"], "sets b": ["cpus 5 effective 5 mems 0 effective 0"]}


@case
def begins_by_plan() -> None:
    """Who requests no CPUs begins on those of a plan that a trial makes, and the plan behind it is the same; the log says so."""
    told = {"a": found("a", asks(2)), "b": found("b", asks(1), "5"), "s": found("s", config_of()), "x y": found("x y", asks(1)), "z": found("z", asks(1), path="/t/a")}
    commands, ledger = looked(ledger_of(), PLAN, told=told, groups=groups_of(*told.values()))
    check("the trial", trial_of(commands, True), ["create a -", "adopt b 5"])
    check("told", trial_of(commands, False), ["adopt a 1-2", "adopt b 5", "adopt s 0,3-4,6-7"])
    check("said", [line for line in said(commands) if not line.startswith("refused")],
          ["create a /g/a 1-2", "adopt b /g/b 5", "create s /g/s 0,3-4,6-7", "plan total 30", "hold a 1-2", "pool 0,3-4,6-7", "done"])
    check("moved", (ledger.counts["moves_total"], ledger.containers["a"].state), (2, State.PINNED))
    more = {**as_given(told, ledger), "n": found("n", asks(1))}
    commands, ledger = looked(ledger, PLAN, told=more, groups=groups_of(*more.values()))
    check("who comes behind the first plan", (trial_of(commands, True), trial_of(commands, False)), ([], ["create n -"]))
    commands, _ = looked(ledger_of(root=None), told={"a": told["a"]})
    check("where nothing is written", (trial_of(commands, True), trial_of(commands, False)), ([], ["create a -"]))


@case
def begins_as_it_can() -> None:
    """Where a trial has no plan, somebody else requests CPUs of it, or a write fails, one begins on the reserved CPUs; where no plan is made there is no trial."""
    def told(answers: Mapping[str, Sequence[str]] = {}, *more: Found) -> Tuple[List[str], List[str]]:
        come = {each.told.bundle[3:]: each for each in (found("a", asks(2)), *more)}
        commands, _ = looked(ledger_of(), {**PLAN, "begin direct": ["plan total 0", "pool 0-7", "end"], **answers}, told=come, groups=groups_of(*come.values()))
        return trial_of(commands, True), trial_of(commands, False)

    check("short", told({"rebalance": ["short demand 9 allowed 1-7", "member p", "end"]}), (["create a -"], ["create a -"]))
    check("refused in the trial", told({"rebalance": ["plan total 0", "pool 0-7", "end"]}), (["create a -"], ["create a -"]))
    check("another one's", told({}, found("s", config_of(), "2-3")), (["create a -"], ["create a -", "adopt s 2-3"]))
    check("the pool's are another one's", told({"rebalance": ["plan total 40", "hold a 1-2", "hold c 3-4", "pool 0,5-7", "end"]}, found("s", config_of()), found("c", asks(2), "0,3-7")),
          (["create a -", "adopt c 0,3-7"], ["adopt a 1-2", "adopt c 0,3-7", "create s -"]))
    check("the pool is shared", told({"rebalance": ["plan total 20", "hold a 1-2", "pool 0,3-7", "end"]}, found("r", config_of(), "0,3-7"), found("s", config_of()))[1],
          ["adopt a 1-2", "adopt r 0,3-7", "adopt s 0,3-7"])
    check("a write that fails", told({"adopt": ["refused E50 KernelFault"]}), (["create a -"], ["adopt a 1-2", "create a -"]))
    check("its own are not free in the trial", told({}, found("b", asks(1), "5"), found("c", asks(1), "5"))[0], ["create a -", "create b -", "create c -"])
    check("its own are not free", told({"rebalance": ["plan total 30", "hold a 1-2", "hold b 5", "hold c 3", "pool 0,4,6-7", "end"], "adopt": ["refused E104 NotFree 5"]},
                                       found("b", asks(1), "5"), found("c", asks(1), "5"))[1], ["adopt a 1-2", "create a -", "adopt b 5", "create b -", "adopt c 5", "adopt c 3", "create c -"])
    stray = ledger_of()
    stray.taken = {"/t/u": Taken(7, "", "", False)}
    unseen = {"/t/u": Group("/t/u", 7, cpus("4"), populated=True), "/t/a": found("a", asks(2)).group}
    check("a plan that is not made", trial_of(looked(stray, PLAN, told={"a": found("a", asks(2))}, groups=unseen)[0], True), [])


@case
def begins_after_a_failure() -> None:
    """Where one that was to begin on CPUs of a plan could not be told of at all, it may have them: no plan until the next look has seen what it has."""
    new, own = found("n", asks(1)), found("o", asks(1), "5")
    failing = {"create n": ["refused E50 KernelFault"], "adopt n": ["refused E50 KernelFault"], "rebalance": ["plan total 0", "hold n 1", "hold o 5", "pool 0,2-4,6-7", "end"]}
    for pool, expected in ((None, [False, True]), (cpus("0-7"), [True, False])):
        ledger, plans_made = ledger_of(), []
        ledger.pool = pool
        for now in (10.0, 10.1):
            told = as_given({"n": new, "o": own}, ledger)
            commands, ledger = looked(ledger, failing, told=told, groups=groups_of(*told.values()), now=now)
            plans_made.append(any(isinstance(each, Ask) and each.line == "begin direct" for each in commands))
        check(f"plans, with a pool {pool}", plans_made, expected)


@case
def begins_to_wait() -> None:
    """The youngest newcomers that would bring the pool below what is left to it begin on the pool, and wait there."""
    come = {name: found(name, asks(2), age=age) for age, name in enumerate("abc")}
    plan = ["plan total 40", "hold a 1-2", "hold b 3-4", "pool 0,5-7", "end"]
    answers = {"rebalance": plan, "begin direct": plan, "sets a": ["cpus 1-2 effective - mems - effective -"], "sets b": ["cpus 3-4 effective - mems - effective -"]}
    commands, ledger = looked(ledger_of(pool_least=3), answers, told=come, groups=groups_of(*come.values()))
    check("the trials", trial_of(commands, True)[:2], ["create a -", "create b -"])
    check("told", trial_of(commands, False), ["adopt a 1-2", "adopt b 3-4", "adopt c 0,5-7"])
    check("it waits", (ledger.containers["c"].state, ledger.containers["c"].demand.count, [line for line in said(commands) if "waits" in line]),
          (State.WAITING, 2, ["waits c: it would leave 2 CPUs to the pool, and that keeps 3: it runs on the pool until there is room"]))


@case
def begins_short() -> None:
    """Who is short in the trial, the youngest first, is on the pool of a plan without it; who has its CPUs already is left in it."""
    come = {name: found(name, asks(2), has, age=age) for age, (name, has) in enumerate((("a", ""), ("b", ""), ("c", "5-6")))}
    told = [(name, sighting(f"/t/{name}", each.config, cpus=each.group.cpus)) for name, each in come.items()]
    turn = Turn(ledger_of(), Look(10.0))
    turn.there = dict(told)
    trials = iter([["short demand 9 allowed 1-7", "member c", "member b", "member a", "end"], ["plan total 40", "hold a 1-2", "hold c 5-6", "pool 0,3-4,7", "end"]])
    commands, planned = answered(newcomers.plan_ways(turn, turn.there), lambda line: next(trials) if line == "rebalance" else ["ok"])
    check("asked", [each.line for each in commands if isinstance(each, Ask)], ["rebalance", "kill b KILL", "delete b", "rebalance"])
    ways = {name: one.way for name, one in planned.items() if one.way}
    check("how they begin", {name: (way.given.count, way.waits, print_list(way.cpus)) for name, way in ways.items()},
          {"a": (2, False, "1-2"), "b": (None, True, "0,3-4,7"), "c": (2, False, "5-6")})
    check("why it waits", ways["b"].why, "short demand 9 allowed 1-7")


@case
def begins_without_a_trial() -> None:
    """There is a trial where somebody comes who requests no CPUs, before the first plan of a run, if a plan may be made; the system's groups are none of
    those. They have what is free."""
    new, own, names = found("n", asks(1)), found("o", asks(1), "5"), ("s.slice",)
    slice_group = {"/t/s.slice": Group("/t/s.slice", 7)}

    def trials(*several: Found, groups: Mapping[str, Group] = {}, **parts: Any) -> int:
        ledger, come = ledger_of(), dict[str, Any]({"x": Missing(Told("/g/x", "/g/x"), "not JSON")})
        come.update((each.told.bundle[3:], each) for each in several)
        for name, part in parts.items():
            setattr(ledger, name, part)
        commands, _ = looked(ledger, told=come, groups={**groups_of(*several), **groups}, slices=names if groups else ())
        return sum(isinstance(each, OpenTrial) for each in commands)

    check("one that requests none", trials(new), 1)
    check("none does", (trials(own), trials(own, groups=slice_group)), (0, 0))
    check("behind the first plan", trials(new, pool=cpus("0-7")), 0)
    check("while it ends", trials(new, ending=True), 0)
    check("one was renewed", trials(new, renewed={"/t/x": Taken(1, "", "", False)}), 0)
    blocking = dataclasses.replace(sighting("/t/x"), group=Group("/t/x", 7, cpus("4")))
    check("one can't be told of", [trials(new, groups={"/t/x": Group("/t/x", 7, populated=runs)}, blocking={"x": blocking}) for runs in (True, False)], [0, 1])
    paused: Dict[str, Any] = {"blocking": {"x": blocking}, "pauses": {("container", "x"): Pause(99.0, 1.0)}}
    check("one waits until it is told again", trials(new, found("x", asks(1), "4"), **paused), 0)
    check("one that may be told of by now", trials(new, own, blocking={"o": dataclasses.replace(blocking, group=own.group)}), 1)
    commands, _ = looked(ledger_of(), {"rebalance": ["plan total 0", "hold n 1", "pool 0,2-7", "end"], "sets n": ["cpus 1 effective 1 mems 0 effective 0"]}, told={"n": new},
                         groups={**groups_of(new), **slice_group}, slices=names)
    check("one of the system", [line for line in said(commands) if "s.slice" in line], ["adopt s.slice /t/s.slice 0,2-7"])
    drifted = one("a", State.PINNED, cpus=cpus("1-2"), **asking(2))
    turn = Turn(ledger_of(drifted), Look(10.0, groups=groups_of(new)))
    turn.there, turn.strays = {"n": sighting("/t/n", asks(1))}, {"a": cpus("5")}
    check("one has what was written by others", done(newcomers.plan_ways(turn, turn.there)), ([], {}))


def comer(name: str, count: Optional[int], has: str = "") -> Comer:
    return Comer(name, Demand(asks(count) if count else config_of(), count), cpus(has), bool(has))


@case
def who_begins_to_wait() -> None:
    """The youngest who have no CPUs wait, as many as would bring the pool below what it keeps; who asks for none does not, nor who asks for more than there are;
    and who is refused takes none of them."""
    several = (comer("k", 3, "1-3"), comer("s", None, "4"), comer("t", None), comer("bad", 2), comer("fits", 2), comer("more", 1), comer("all", 8), comer("refused", 9))
    refused = {f"create {name}": [f"refused {fault}"] for name, fault in (("bad", "E63 NoSuchCpu 90"), ("refused", "E66 QuotaTooLarge"))}
    lines = {name: f"it would leave {left} CPUs to the pool, and that keeps 3" for name, left in (("more", 2), ("all", 0))}
    for keeps in (0, 3):
        commands, (asking, waiting) = done(beginnings.begin_all(room.Trial(Turn(ledger_of(pool_least=keeps), Look(10.0))), several), refused)
        begun = ["k", "bad", "fits", "refused"] if keeps else ["k", "bad", "fits", "more", "all", "refused"]
        check(f"the pool keeps {keeps}", ([each.name for each in asking], waiting), (begun, lines if keeps else {}))
        check(f"the pool keeps {keeps}: how they begin", [f"{each.verb.value} {each.name}" for each in commands if isinstance(each, Tell)], ["adopt k", *(f"create {name}" for name in begun[1:])])


@case
def beginnings_by_plan() -> None:
    """Those on the pool begin on what nobody has as its own by now. In a shortage the youngest of its members waits, each once."""
    plan = ["plan total 50", "hold p 3-4", "hold a 1-2", "pool 0,1-2,5-7", "end"]
    turn = Turn(ledger_of(one("p", State.PINNED, cpus=cpus("1-2"), **asking(2))), Look(10.0))
    commands, found_here = done(beginnings.beginnings(turn, (comer("s", None), comer("own", None, "5"), comer("with", None, "0,6"))), {"rebalance": plan})
    check("on the pool", {name: (print_list(begins.cpus), begins.waits) for name, begins in found_here.items()}, dict.fromkeys(("s", "own", "with"), ("0,6-7", None)))
    check("the trial is closed", [type(each) for each in commands][-1], CloseTrial)
    short = ["short demand 9 allowed 1-7", "member a", "member k", "end"]
    commands, (outcome, waits) = done(beginnings.plan_of(room.Trial(Turn(ledger_of(), Look(10.0))), (comer("a", 5), comer("k", 1, "1"), comer("young", 5))), {"rebalance": short})
    check("who waits", (waits, outcome.is_plan), ({"a": Wait("short demand 9 allowed 1-7")}, False))
    check("it is ended in the trial", [each.line for each in commands if isinstance(each, Ask)], ["rebalance", "kill a KILL", "delete a", "rebalance"])
    kept = room.Trial(Turn(ledger_of(certificates="/c"), Look(10.0)))
    commands, (_, waits) = done(beginnings.plan_of(kept, (comer("a", 5), comer("k", 1, "1"))), {"rebalance": short, "": ["/c/1"]})
    check("by which certificate", (waits, [each.trial for each in commands if isinstance(each, Ask) and each.line == "certificate"]), ({"a": Wait(short[0], "/c/1")}, [True]))
    come = {name: found(name, asks(count)) for name, count in (("a", 5), ("w", 4))}
    lacking = ["short demand 9 allowed 1-7", "member a", "member w", "end"]
    tried = iter([lacking, ["plan total 50", "hold a 1-5", "pool 0,6-7", "end"]])
    commands, ledger = answered(decide(ledger_of(certificates="/c"), Look(10.0, told=come, groups=groups_of(*come.values()), online=Online(cpus("0-7")))),
                                lambda line: next(tried, lacking) if line == "rebalance" else ["ok"])
    check("and so it is told", {name: (held.state, held.certificate) for name, held in ledger.containers.items()}, {"a": (State.ASKING, ""), "w": (State.WAITING, "ok")})


@case
def begins_at_home() -> None:
    """Homes are chosen one after another, as they are told; what one has already is no room for another."""
    come = {name: found(name, asks(2), age=age) for age, name in enumerate("ab")}
    plan = ["plan total 40", "hold a 2-3", "hold b 4-5", "pool 0-1,6-15", "end"]
    commands, ledger = looked(ledger_of(members=FOUR), {"rebalance": plan, "begin direct": plan}, told=come, groups=groups_of(*come.values()))
    check("homes", [line for line in said(commands) if line.startswith(("create", "home"))], ["create a /g/a 2-3", "home a 0", "create b /g/b 4-5", "home b 1"])
    configs_told = [configs.at(command.config, "linux", "resources", "cpu", "mems") for command in commands if isinstance(command, Tell)]
    check("the same in the trial", configs_told, ["0", "1", "0", "1"])


# What changes.


@case
def followed() -> None:
    """Another config is told as it is: of one that is pinned where there is room, of one that is to be pinned once it waits, of one that is not any more
    at once; one that is what it is given is not told."""
    def after(state: State, before: Mapping[str, Any], config: Mapping[str, object], **answers: Any) -> Tuple[List[str], Any]:
        ledger = ledger_of(one("a", state, cpus=cpus("1-2"), **before))
        turn = Turn(ledger, Look(10.0))
        steps = changes.follow(turn, "a", dataclasses.replace(ledger.containers["a"].seen, stamp=("new",), config=config))
        commands, changed = done(steps, answers)
        now = ledger.containers["a"]
        return told_of(commands), (changed, now.state, now.demand.count, now.wanted.count if now.wanted else None)

    check("more", after(State.PINNED, asking(2), asks(3)), ([], (True, State.PINNED, 2, 3)))
    check("the same", after(State.PINNED, asking(2), asks(2)), ([], (False, State.PINNED, 2, None)))
    check("what it is given", after(State.PINNED, asking(3, 2), configs.fewer(Demand(asks(3), 3), 2).config), ([], (False, State.PINNED, 2, None)))
    check("what it wants already", after(State.PINNED, asking(2, wanted=3), configs.fewer(Demand(asks(2), 2), 3).config), ([], (False, State.PINNED, 2, 3)))
    check("none of its own", after(State.PINNED, asking(2), config_of()), (["update a -"], (True, State.SHARED, None, None)))
    check("some of its own", after(State.SHARED, asking(2, 0), asks(3)), (["update a -"], (True, State.WAITING, 3, None)))
    check("what can't be had", after(State.SHARED, asking(2, 0), asks(3), update=["refused E63 NoSuchCpu 9"]), (["update a -"], (False, State.SHARED, 2, None)))


@case
def followed_once() -> None:
    """What is told of one that is to wait, or is on the pool; what is said of it, and what was left undone of it; and a refusal is said once."""
    def after(state: State, before: Mapping[str, Any], config: Mapping[str, object], stopped: bool = False, **answers: Any) -> Tuple[List[object], List[str], Ledger, Any]:
        ledger = ledger_of(one("a", state, cpus=cpus("1-2"), **before))
        ledger.problems[Topic.ROOM, "a"] = Problem(Kind.WAITS, "a", "a")
        seen = dataclasses.replace(ledger.containers["a"].seen, stamp=("new",), config=config, stopped=stopped)
        commands, _ = done(changes.follow(Turn(ledger, Look(10.0)), "a", seen), answers)
        return [each.config for each in commands if isinstance(each, Tell)], said(commands), ledger, seen

    told, lines, ledger, _ = after(State.SHARED, asking(2, 0), asks(3, mems="0"))
    check("it is to wait", (told, lines, ledger.problems), ([config_of(mems="0")], [], {}))
    told, lines, ledger, _ = after(State.WAITING, asking(2, 0), config_of(mems="0"))
    check("on the pool", (told, lines, ledger.problems), ([config_of(mems="0")], ["update a /b"], {}))
    told, lines, ledger, _ = after(State.PINNED, asking(2), config_of(cpus="x"), update=["refused E60 BadList x"])
    check("what numarun refuses is told as it is", (told, lines), ([config_of(cpus="x")], ["refused E60 BadList x: a /b: it stays as it was"]))
    _, lines, ledger, _ = after(State.SHARED, asking(2, 0), config_of(mems="0"), stopped=True)
    check("it gave nothing back", (lines, ledger.containers["a"].state), (["update a /b"], State.SHARED))
    for config in (asks(3), config_of(mems="0")):
        told, lines, ledger, seen = after(State.SHARED, asking(2, 0), config, update=["refused E63 NoSuchCpu 9"])
        check("refused", (lines, ledger.unmade, ledger.containers["a"].seen), (["refused E63 NoSuchCpu 9: a /b: it stays as it was"], False, seen))
    ledger = ledger_of(one("a", State.PINNED, **asking(2)), members=FOUR)
    turn, before = Turn(ledger, Look(10.0)), ledger.containers["a"].seen
    ledger.pauses["update", ""] = Pause(99.0, 1.0)
    for seen in (dataclasses.replace(before, group=dataclasses.replace(before.group, effective=cpus("2"))),
                 dataclasses.replace(before, told=Told("", None, "s.slice"), limit=(100000, 100000), group=dataclasses.replace(before.group, effective=cpus("3")))):
        check("the same to ask for", (done(changes.follow(turn, "a", seen)), ledger.containers["a"].seen), (([], False), seen))
    ledger.pauses.clear()
    check("and no home anew", done(changes.follow(turn, "a", dataclasses.replace(seen, near=2))), ([], False))


@case
def homes_stay() -> None:
    """The home is kept for a container's life; where its runtime gives it another list it has a home by that."""
    for listed, expected in ((None, "1"), ("12-15", "3")):
        ledger = ledger_of(one("a", State.PINNED, cpus=cpus("4-5"), home=cpus("1"), **asking(2)), members=FOUR)
        seen = dataclasses.replace(ledger.containers["a"].seen, stamp=("new",), config=asks(4), listed=listed)
        done(changes.follow(Turn(ledger, Look(10.0)), "a", seen))
        wanted = ledger.containers["a"].wanted
        check(f"with the list {listed}", print_list(configs.nodes_named(wanted.config)) if wanted else None, expected)


def updated_nodes(looks: Sequence[Tuple[str, Optional[str]]], answers: Mapping[str, Sequence[str]] = {}, wants: str = "") -> Tuple[List[str], Ledger]:
    """What is said of nodes, or told with some, where one at home on node 1 has these nodes at each look, and its runtime's state names those; and what
    is known then. It may have waited for room on other nodes before."""
    held = one("a", State.PINNED, cpus=cpus("4-5"), nodes=cpus("1"), home=cpus("1"), **asking(2))
    demand, wanted = (Demand(configs.housed(asks(2), cpus(text)), 2) if text else None for text in ("1", wants))
    seen = dataclasses.replace(held.seen, config=asks(2))
    kept = dataclasses.replace(seen, nodes=cpus(wants), named=cpus(wants)) if wants else seen
    ledger, lines = ledger_of(dataclasses.replace(held, seen=kept, demand=demand, given=demand, wanted=wanted), members=FOUR), list[str]()
    for has, stated in looks:
        told = dataclasses.replace(seen.told, listed="" if stated is not None else None, nodes=stated)
        now = Found(told, ("s",), asks(2), dataclasses.replace(seen.group, cpus=cpus("4-5"), nodes=cpus(has), populated=True))
        commands, ledger = looked(ledger, {"sets": [f"cpus 4-5 effective 4-5 mems {has} effective {has}"], **answers}, told={"a": now}, groups=groups_of(now))
        lines += [each.line for each in commands if isinstance(each, Say) and each.line.startswith(("drift", "keeps", "update", "home"))]
        lines += [f"{each.verb.value} on {print_list(configs.nodes_named(each.config))}" for each in commands if isinstance(each, Tell) and not each.trial]
    return lines, ledger


@case
def nodes_by_updates() -> None:
    """One that has a home gets the nodes that an update by its runtime names, once the runtime's state has them, and its home is theirs no more; what is
    written otherwise, or by a runtime whose state has no nodes, is undone. The runtime forgets them by its next update, and they stay."""
    plan = {"rebalance": ["plan total 0", "hold a 4-5", "pool 0-3,6-15", "end"], "begin": ["plan total 0", "hold a 4-5", "pool 0-3,6-15", "end"]}
    update, drift = ["update a /b", "update on 2"], ["drift a has nodes 2 in place of 1: that is written again", "adopt on 1"]
    rows: Sequence[Tuple[str, Sequence[Tuple[str, Optional[str]]], Sequence[str]]] = (
        ("at once", [("2", "2")], update), ("its state is later", [("2", ""), ("2", "2"), ("2", "2")], update), ("much later", [("2", ""), ("2", ""), ("1", "2")], ["adopt on 1", *update]),
        ("forgotten then", [("2", "2"), ("2", ""), ("2", "")], update), ("by nobody whose state has nodes", [("2", None), ("2", None)], drift),
        ("its home", [("1", "1"), ("1", "1")], []), ("none that the machine has", [("1", "9")], []),
    )
    for name, looks, expected in rows:
        lines, ledger = updated_nodes(looks, plan)
        check(name, lines, expected)
        follows = update[1] in lines
        held = ledger.containers["a"]
        check(f"{name}: its nodes and its home", (held.followed, held.home), (cpus("2"), None) if follows else (None, cpus("1")))
        check(f"{name}: left undone", ledger.problems, {} if lines != drift else ledger.problems)


@case
def nodes_without_room() -> None:
    """Where there is no room by such nodes it has its home until there is, which is no drift, also once its runtime has forgotten them."""
    lines, ledger = updated_nodes([("2", "2"), ("1", "2"), ("1", ""), ("1", "")], wants="2")
    held = ledger.containers["a"]
    check("it waits for them", (lines, held.wanted, held.home), (["adopt on 1"], Demand(configs.housed(asks(2), cpus("2")), 2), cpus("1")))
    plan = ["plan total 0", "hold a 4-5", "pool 0-3,6-15", "end"]
    lines, ledger = updated_nodes([("3", "2"), ("3", "2")], {"rebalance": plan, "begin": plan}, wants="2")
    check("others' nodes, as of one whose config names some", (lines, ledger.containers["a"].followed), (["update a /b", "update on 3"], cpus("3")))


@case
def follows_at_its_time() -> None:
    ledger = ledger_of(one("a", State.PINNED, cpus=cpus("1-2"), **asking(2)))
    turn = Turn(ledger, Look(10.0))
    new = dataclasses.replace(ledger.containers["a"].seen, stamp=("new",), config=asks(3))
    ledger.pauses["update", ""] = Pause(11.0, 1.0)
    check("in a pause", (done(changes.follow(turn, "a", new))[1], ledger.containers["a"].wanted), (False, None))
    ledger.pauses.clear()
    ledger.problems[Topic.ROOM, "a"] = Problem(Kind.KEEPS, "a", "a")
    ledger.problems[Topic.DEMAND, "a"] = Problem(Kind.REFUSED, "a", "a")
    ledger.change("a", **asking(3, 2, 4))
    done(changes.follow(turn, "a", dataclasses.replace(new, config=ledger.containers["a"].given.config)))
    check("what it is given settles what it wanted", (ledger.problems, ledger.containers["a"].wanted), ({}, None))
    ledger.put(one("s", State.PINNED, cpus=cpus("3"), **asking(1)))
    stopped = dataclasses.replace(ledger.containers["s"].seen, stopped=True, config=asks(1))
    commands, changed = done(changes.follow(turn, "s", stopped))
    check("stopped", (told_of(commands), changed, ledger.containers["s"].state, [line[:9] for line in said(commands)]),
          (["update s -"], True, State.STOPPED, ["update s ", "stopped s"]))
    ledger.put(one("f", State.PINNED, cpus=cpus("3"), **asking(1)))
    done(changes.follow(turn, "f", dataclasses.replace(ledger.containers["f"].seen, stamp=("new",), config=config_of())), {"update": ["refused E50 KernelFault"]})
    check("a write that fails is tried again", (ledger.containers["f"].seen.stamp, ledger.unmade, ledger.pauses["update", ""].until), (None, True, 11.0))


@case
def mended() -> None:
    """What others wrote is written again: first each gives back what is another one's, and who can't be told of keeps what it has."""
    def looks(*has: Tuple[str, str], more: Sequence[Found] = (), fault: Mapping[str, Sequence[str]] = {}, faults: Mapping[Type[object], str] = {}
              ) -> Tuple[List[str], List[str], Ledger]:
        ledger = ledger_of(one("a", State.PINNED, cpus=cpus("1-2"), **asking(2)), one("b", State.PINNED, cpus=cpus("3"), **asking(1)),
                           one("s", State.SHARED, cpus=cpus("0,4-7")), one("t", State.SHARED, cpus=cpus("0,4-7")))
        told: Dict[str, Found] = {}
        for name, text in {"a": "1-2", "b": "3", "s": "0,4-7", "t": "0,4-7", **dict(has)}.items():
            now = dataclasses.replace(ledger.containers[name].seen.group, cpus=cpus(text), populated=True)
            seen = dataclasses.replace(ledger.containers[name].seen, config=ledger.containers[name].demand.config)
            ledger.change(name, seen=seen)
            told[name] = Found(seen.told, seen.stamp or (), seen.config, now)
        told.update({each.told.bundle[3:]: each for each in more})
        commands, after = looked(ledger, fault, faults, told=told, groups=groups_of(*told.values()))
        steps = [f"write {each.path[3:]} {each.text}" if isinstance(each, Write) else f"adopt {each.name} {print_list(each.cpus)}" for each in commands
                 if isinstance(each, Write) or (isinstance(each, Tell) and each.verb is Verb.ADOPT)]
        return steps, [line for line in said(commands) if line.startswith("drift")], after

    again = "that is written again"
    check("as it was given", looks()[:2], ([], []))
    check("others' CPUs", looks(("a", "5"))[:2], (["adopt a 1-2"], [f"drift a has 5 in place of 1-2: {again}"]))
    check("some of its own", looks(("a", "2"))[:2], (["adopt a 1-2"], [f"drift a has 2 in place of 1-2: {again}"]))
    check("each other's", looks(("a", "3"), ("b", "1"))[0], ["write a 0", "write b 0", "adopt a 1-2", "adopt b 3"])
    waits = "another group requests some of these, and can't be told of yet"
    steps, lines, _ = looks(("a", "3"), ("b", "1"), faults={Write: "busy"})
    check("where that can't be written", (steps, lines), (["write a 0", "write b 0"], [f"drift a has 3 in place of 1-2: {waits}", f"drift b has 1 in place of 3: {waits}"]))
    check("one of its own on those of the pool", looks(("a", "4"), ("s", "5"))[0], ["write a 0", "adopt a 1-2", "adopt s 0,4-7"])
    check("one is in the way of the other", looks(("a", "0"), ("b", "2,3"))[0], ["write b 0", "adopt a 1-2", "adopt b 3"])
    check("none is in the way", looks(("a", "5"), ("b", "6"))[0], ["adopt a 1-2", "adopt b 3"])
    check("on the pool they share", looks(("s", "4"), ("t", "5"))[0], ["adopt s 0,4-7", "adopt t 0,4-7"])
    check("one of the pool on another one's own", looks(("a", "0"), ("s", "1"))[0], ["write s 0", "adopt a 1-2", "adopt s 0,4-7"])
    steps, lines, after = looks(("a", "0"), more=[found("new", asks(2), "2,5")], fault={"adopt new": ["refused E50 KernelFault"], "create": ["refused E50 KernelFault"]})
    waits = f"drift a has 0 in place of 1-2: {waits}"
    check("another group is there", (steps[:1], lines), (["adopt new 2,5"], [waits]))
    check("on its way to be told", looks(("a", "0"), more=[found("new", config_of(), "6")])[0][:1], ["adopt a 1-2"])


@case
def mended_by_now() -> None:
    """Who could not be told of keeps others off the CPUs that its group has by now, and not off those that it had when it was refused."""
    waits = "another group requests some of these, and can't be told of yet"
    for has, expected in (("2", waits), ("5", "that is written again")):
        ledger = ledger_of(one("a", State.PINNED, cpus=cpus("1-2"), **asking(2)))
        ledger.blocking["x"] = dataclasses.replace(sighting("/t/x"), group=Group("/t/x", 7, cpus("2,5") - cpus(has)))
        now = {"a": found("a", asks(2), "0"), "x": found("x", config_of(), has)}
        now["a"] = dataclasses.replace(now["a"], told=Told("/b", "/f"), stamp=("s",), group=dataclasses.replace(now["a"].group, inode=1))
        commands, _ = looked(ledger, told={"a": now["a"], "x": Missing(now["x"].told, "not JSON")}, groups=groups_of(*now.values()))
        check(f"it has {has} by now", [line for line in said(commands) if line.startswith("drift")], [f"drift a has 0 in place of 1-2: {expected}"])


@case
def mended_meanwhile() -> None:
    """Of one that has again what it was given, a drift is said that was left for this look, unless its runtime gave it another list by then; and none twice."""
    drift = Problem(Kind.DRIFT, "a", "a has 3 in place of 1-2: that is written again")
    for unsaid, listed, expected in ((False, None, []), (True, None, ["drift " + drift.text]), (True, "1-2", []), (False, "1-2", [])):
        ledger = ledger_of(container("a", State.PINNED, 2, cpus=cpus("1-2")))
        ledger.problems[Topic.DRIFT, "a"] = drift
        if unsaid:
            ledger.unsaid.add((Topic.DRIFT, "a"))
        turn, held = Turn(ledger, Look(0.0)), ledger.containers["a"]
        turn.there["a"] = dataclasses.replace(held.seen, listed=listed)
        commands, _ = done(changes.say_mended(turn, held))
        check(f"unsaid {unsaid}, a list {listed}", (said(commands), ledger.problems, ledger.unsaid), (expected, {}, set()))


@case
def mending() -> None:
    """One is told of anew, by its link, and then it is what it was; a plan may follow at once. Where it is refused nothing is known of it any more, and no
    plan is made while it has a process."""
    held = one("a", State.PINNED, cpus=cpus("1-2"), followed=cpus("0"), **asking(2))
    rows: Sequence[Tuple[str, Mapping[str, Sequence[str]], Mapping[str, Kind], bool]] = (
        ("taken", {}, {}, True), ("refused", {"adopt": ["refused E50 KernelFault"]}, {"a": Kind.DRIFT}, False))
    for name, answers, drift, expected in rows:
        ledger = ledger_of(held)
        ledger.due = True
        group = dataclasses.replace(held.seen.group, cpus=cpus("5"), effective=cpus("5"), populated=True)
        now = Found(held.seen.told, ("t",), asks(2), group)
        commands, after = looked(ledger, answers, told={"a": now}, groups=groups_of(now))
        kinds = [each.line if isinstance(each, Ask) else type(each) for each in commands[commands.index(Unlink("a")):]]
        check(f"{name}: how", kinds[:5], [Unlink, "kill a KILL", "delete a", Link, Tell])
        check(f"{name}: what is known", ("a" in after.containers, "a" in after.blocking, {of: problem.kind for (topic, of), problem in after.problems.items() if topic is Topic.DRIFT}),
              (expected, not expected, drift))
        check(f"{name}: a plan", any(isinstance(each, Ask) and each.line == "begin direct" for each in commands), expected)
        lines = ["drift a has 5 in place of 1-2: that is written again", *([] if expected else ["failed refused E50 KernelFault", "drift a: that can't be written again"])]
        check(f"{name}: said", [line for line in said(commands) if line.startswith(("squeezed", "drift", "failed"))], lines)
    ledger, turn = ledger_of(held), Turn(ledger_of(held), Look(10.0))
    seen = dataclasses.replace(held.seen, group=group, nodes=cpus("1"))
    turn.there, turn.ledger = {"a": seen}, ledger
    done(changes.mend(turn, held, seen))
    check("as it is seen by then", (ledger.containers["a"].seen.group, ledger.containers["a"].seen.nodes, turn.there["a"].nodes), (group, cpus("0"), cpus("0")))
    ledger.change("a", followed=None)
    done(changes.mend(turn, ledger.containers["a"], dataclasses.replace(seen, named=cpus("2"))))
    check("with the nodes of an update", (ledger.containers["a"].seen.nodes, turn.there["a"].nodes), (cpus("2"), cpus("2")))
    ledger.put(held)
    ledger.pauses["container", "a"] = Pause(11.0, 1.0)
    check("in its pause", done(changes.mend(turn, held, seen))[0], [])
    for name, answer, due in (("told of again", ["pid 1"], False), ("gone meanwhile: others get what it had", ["refused E50 KernelFault"], True)):
        ledger = ledger_of(held)
        done(changes.mend(Turn(ledger, Look(10.0)), held, seen), {"adopt": answer})
        check(f"{name}: a plan is due", (ledger.due, "a" in ledger.containers), (due, not due))


@case
def drifts() -> None:
    """Who has drifted, and what is said of it: CPUs or nodes; of one that has none and no process nothing, for it comes or goes. A runtime with lists in its
    states may have written this one, so of its containers it is said at the next look."""
    for has, nodes, populated, line in (("1-2", "0", True, ""), ("5", "0", False, "5 in place of 1-2"), ("", "0", True, "- in place of 1-2"), ("", "0", False, ""),
                                        ("1-2", "", True, "nodes - in place of 0"), ("1-2", "9", True, "nodes 9 in place of 0"), ("5", "", True, "5 in place of 1-2")):
        held = one("a", State.PINNED, cpus=cpus("1-2"), nodes=cpus("0"), **asking(2))
        group = dataclasses.replace(held.seen.group, cpus=cpus(has), nodes=cpus(nodes), populated=populated)
        now = Found(held.seen.told, ("s",), {}, group)
        commands, _ = looked(ledger_of(held, members=FOUR), told={"a": now}, groups=groups_of(now))
        check(f"{has!r} {nodes!r} {populated}", [each for each in said(commands) if each.startswith("drift")], [f"drift a has {line}: that is written again"] if line else [])
    key, drift = (Topic.DRIFT, "a"), Problem(Kind.DRIFT, "a", "x")
    for name, told_list, listed, known, unsaid, lines, left in (
        ("at once", None, None, False, False, ["drift x"], False), ("at the next look", "1", None, False, False, [], True), ("which is this one", "1", None, True, True, ["drift x"], False),
        ("said already", "1", None, True, False, [], False), ("its own list", "1", "1", False, False, [], False)):
        ledger = ledger_of(one("a", State.PINNED))
        ledger.problems, ledger.unsaid = {key: drift} if known else {}, {key} if unsaid else set()
        seen = dataclasses.replace(sighting(), told=Told("/b", "/f", listed=told_list), listed=listed)
        check(name, (said(done(changes.say_drift(ledger, ledger.containers["a"], seen, "x"))[0]), key in ledger.unsaid), (lines, left))
        check(f"{name}: left undone", key in ledger.problems, listed is None)
    for has, nodes, expected in (("1-2", "1", []), ("5", "1", ["drift x"]), ("1-2", "0", ["drift x"])):
        seen = dataclasses.replace(sighting(), named=cpus("1"))
        ledger = ledger_of(one("a", State.PINNED, seen=seen, cpus=cpus("1-2"), nodes=cpus("0"), **asking(2)))
        seen = dataclasses.replace(seen, group=dataclasses.replace(seen.group, cpus=cpus(has), nodes=cpus(nodes)))
        check(f"an update's nodes 1, and it has {has} on {nodes}", said(done(changes.say_drift(ledger, ledger.containers["a"], seen, "x"))[0]), expected)


@case
def drifts_over_looks() -> None:
    """In one look and the next: it is mended at once, and said at the next look, once; what it was given already is no drift, and without a tree nothing is."""
    held = one("a", State.PINNED, cpus=cpus("1-2"), **asking(2))
    told = dataclasses.replace(held.seen.told, listed="1-2")
    held = dataclasses.replace(held, seen=dataclasses.replace(held.seen, told=told, listed="1-2"))
    lines, ledger = [], ledger_of(held)
    for has in ("5", "1-2", "1-2"):
        now = Found(told, ("s",), {}, dataclasses.replace(held.seen.group, cpus=cpus(has), populated=True))
        commands, ledger = looked(ledger, told={"a": now}, groups=groups_of(now))
        lines.append([line for line in said(commands) if line.startswith("drift")])
    check("said", (lines, [key for key in ledger.problems if key[0] is Topic.DRIFT]), ([[], ["drift a has 5 in place of 1-2: that is written again"], []], []))
    new = found("a", asks(2))
    sets = {"sets": ["cpus 1-2 effective 1-2 mems 0 effective 0"]}
    commands, ledger = looked(ledger_of(root=None), sets, told={"a": new})
    commands, ledger = looked(ledger, sets, told={"a": dataclasses.replace(new, age=1)})
    check("without a tree", (said(commands), told_of(commands)), ([], []))


@case
def ended() -> None:
    """Who is gone is reached by nothing any more, and nothing of it is kept; of a group of the system's that is, which has its CPUs back later."""
    held = one("a", State.PINNED, cpus=cpus("1-2"), **asking(2))
    dead = Group("/t/a", 1, cpus("1-2"), populated=False)
    for name, group, system, kept in (("gone", None, False, False), ("its group is left", dead, False, False), ("another one is there", Group("/t/a", 2, populated=True), False, False),
                                      ("one of the system", dead, True, True)):
        ledger = ledger_of(dataclasses.replace(held, seen=dataclasses.replace(held.seen, told=Told("", None, "a")) if system else held.seen))
        ledger.taken, ledger.pauses["container", "a"] = {"/t/a": Taken(1, "", "", system)}, Pause(99.0, 1.0)
        ledger.problems[Topic.SQUEEZED, "a"] = Problem(Kind.SQUEEZED, "a", "a")
        commands, after = looked(ledger, groups={"/t/a": group} if group else {})
        kinds = [each.line if isinstance(each, (Ask, Say)) else type(each) for each in commands]
        check(f"{name}: how", kinds[:5], [Unlink, "kill a KILL", "delete a", "ended a", Drop])
        check(f"{name}: written", [each for each in commands if isinstance(each, Write) and each.text == "0"], [])
        check(f"{name}: kept", (list(after.taken), list(after.problems), "container" in {what for what, _ in after.pauses}), (["/t/a"] if kept else [], [], False))
        saved = [sorted(each.groups) for each in commands if isinstance(each, SaveTaken)]
        check(f"{name}: saved", saved, [] if kept else [[]])
    commands, _ = looked(ledger_of(held), told={"a": found("a", asks(2))}, groups={"/t/a": Group("/t/a", 7, populated=True)})
    check("another one under its id", [line for line in said(commands) if line.startswith(("ended", "create"))], ["ended a", "create a /g/a"])
    ledger = ledger_of(held, lift=True)
    ledger.taken = {"/t/a": Taken(1, "", "", False, (200000, 100000))}
    check("its limit is given back", [each for each in looked(ledger)[0] if isinstance(each, SetLimit)], [SetLimit("/t/a", 1, (200000, 100000), None)])
    for answers, expected in (({"kill": ["refused E1 Memory"]}, "numarun: 'refused E1 Memory' to 'kill a KILL'"), ({"delete": ["refused E1 Memory"]}, "numarun: 'refused E1 Memory' to 'delete a'")):
        try:
            looked(ledger_of(held), answers)
            check("numarun can't", "goes on", "refused")
        except Refused as why:
            check("numarun can't", str(why), expected)
    steps = changes.untell(ledger_of(held), "a")
    next(steps), steps.send(Answer())
    check("what numarun says beside it is not said", isinstance(steps.send(Answer(("ok",), ("a note",))), Ask), True)


@case
def late_and_first() -> None:
    """No trial before the first plan where a group came in the place of one that ended, for it may have CPUs of the plan."""
    for inode, expected in ((1, True), (8, False)):
        ledger, new = ledger_of(one("a", State.PINNED, cpus=cpus("1-2"), **asking(2)), one("z", State.PINNED)), found("n", asks(1))
        commands, _ = looked(ledger, told={"n": new}, groups={"/t/a": Group("/t/a", inode, populated=False), **groups_of(new)})
        check(f"a group {inode}", any(isinstance(each, OpenTrial) for each in commands), expected)


@case
def lists_kept() -> None:
    """The list that an update by its runtime gave one is kept as what its group requested, and saved when it is another one."""
    def taken(text: str, listed: bool = False, inode: int = 1) -> Taken:
        return Taken(inode, text, "", False, None, listed)

    rows: Sequence[Tuple[str, Optional[str], Optional[str], Taken, Taken]] = (
        ("no list", None, None, taken("1"), taken("1")), ("its config's list", None, "6-7", taken("1"), taken("1")), ("an update's", "4-5", "4-5", taken("1"), taken("4-5", True)),
        ("the same", "4-5", "4-5", taken("4-5", True), taken("4-5", True)), ("another one", "3", "3", taken("4-5", True), taken("3", True)),
        ("forgotten by its state", "4-5", None, taken("4-5", True), taken("4-5", True)), ("its config's again", None, "6-7", taken("4-5", True), taken("6-7")),
        ("another group", "4-5", "4-5", taken("1", inode=9), taken("1", inode=9)))
    for name, listed, told_list, before, expected in rows:
        seen = dataclasses.replace(sighting(), told=Told("/b", "/f", listed=told_list), listed=listed)
        ledger = ledger_of(one("a", State.PINNED, seen=seen))
        ledger.taken["/t/a"] = before
        turn = Turn(ledger, Look(0.0))
        changes.keep_lists(turn)
        check(name, (ledger.taken["/t/a"], turn.unsaved), (expected, before != expected))
    turn = Turn(ledger_of(one("a", State.PINNED, seen=seen)), Look(0.0))
    changes.keep_lists(turn)
    check("nothing was kept", (turn.ledger.taken, turn.unsaved), ({}, False))


@case
def nodes_are_kept() -> None:
    """Of whom its runtime gave other nodes, these are given back later; of others what was requested before, as where the runtime has forgotten them."""
    for name, told, named, followed, inode, expected in (
        ("an update's", "2", "2", None, 1, "2"), ("its config's again", "1", None, "1", 1, "1"), ("its config's", "1", None, None, 1, ""), ("forgotten", "", "2", "2", 1, ""),
        ("a runtime without nodes", None, None, "2", 1, ""), ("of another group", "2", "2", None, 2, "")):
        seen = dataclasses.replace(sighting(), told=Told("/b", "/f", nodes=told), named=cpus(named) if named else None)
        ledger = ledger_of(one("a", State.PINNED, seen=seen, followed=cpus(followed) if followed else None), members=FOUR)
        ledger.taken["/t/a"] = Taken(inode, "5", "", False)
        turn = Turn(ledger, Look(0.0))
        changes.keep_lists(turn)
        check(name, (ledger.taken["/t/a"], turn.unsaved), (Taken(inode, "5", expected, False), bool(expected)))


@case
def nodes() -> None:
    """Nodes that are no limit which a container follows are written again."""
    ledger = ledger_of(members=FOUR)
    for has, own, given, expected in (("0", "0", None, False), ("1", "0", None, False), ("1", "0", "1", True), ("", "0", None, True), ("9", "0", None, True), (None, "0", None, False),
                                      ("0-3", None, None, False)):
        seen = dataclasses.replace(sighting(), nodes=None if given is None else cpus(given))
        held = dataclasses.replace(container("a", State.PINNED, 1), seen=seen, nodes=None if own is None else cpus(own))
        now = sighting(nodes=None if has is None else cpus(has))
        check(f"{has} in place of {own}, {given}", changes.nodes_drifted(ledger, held, now), expected)
        system = dataclasses.replace(now, told=Told("", None))
        check(f"{has} in place of {own}, of the system", changes.nodes_drifted(ledger, held, system), expected or has == "1")
    held = dataclasses.replace(container("a", State.PINNED, 1), seen=sighting(), nodes=cpus("0"))
    for has, expected in (("1", False), ("", True)):
        now = dataclasses.replace(sighting(nodes=cpus(has)), named=cpus("1"))
        check(f"{has} behind an update by which it gets 1", changes.nodes_drifted(ledger, held, now), expected)


@case
def squeezed() -> None:
    """Who had a plan and has not in effect what it was given of the CPUs that run."""
    for state, has, given, running, expected in ((State.PINNED, "1", "1-2", "0-7", True), (State.PINNED, "1-2", "1-2", "0-7", False), (State.PINNED, "1", "1-2", "0-1,3-7", False),
                                                 (State.ASKING, "1", "1-2", "0-7", False), (State.SHARED, "1", "1-2", "0-7", False), (State.KEPT, "1", "1-2", "0-7", True),
                                                 (State.PINNED, "0-7", "1-2", "0,3-7", False)):
        ledger = ledger_of(one("a", state, cpus=cpus(given)))
        ledger.running = cpus(running)
        turn, seen = Turn(ledger, Look(0.0)), sighting(effective=cpus(has))
        commands, _ = done(changes.compare_effective(turn, ledger.containers["a"], seen))
        check(f"{state} {has} {given} {running}", said(commands), [f"squeezed a: {has} in effect in place of {given}"] if expected else [])
    done(changes.compare_effective(turn, ledger.containers["a"], sighting()))
    check("where nothing is told of it", ledger.problems, {})
    ledger.problems[Topic.SQUEEZED, "a"] = Problem(Kind.SQUEEZED, "a", "a")
    done(changes.compare_effective(turn, ledger.containers["a"], sighting(effective=cpus("1"))))
    check("and no more", ledger.problems, {})
    held = one("a", State.PINNED, cpus=cpus("1-2"), **asking(2))
    now = Found(held.seen.told, ("s",), {}, dataclasses.replace(held.seen.group, cpus=cpus("1-2"), effective=cpus("1")))
    commands, _ = looked(ledger_of(held), told={"a": now}, groups=groups_of(now))
    check("in a look", [line for line in said(commands) if line.startswith("squeezed")], ["squeezed a: 1 in effect in place of 1-2"])


@case
def late_writes() -> None:
    """A group that came in the place of one that ended, with what that one was given, is brought to the reserved CPUs; of one before a restart too."""
    def after(has: str, inode: int = 8, **more: Any) -> List[str]:
        ledger = ledger_of(one("a", State.PINNED, cpus=cpus("1-2"), **asking(2)))
        for name, value in more.items():
            setattr(ledger, name, value)
        commands, _ = looked(ledger, told={}, groups={"/t/a": Group("/t/a", inode, cpus(has), populated=True)})
        return [f"{each.path} {each.text}" for each in commands if isinstance(each, Write)]

    check("what the one before was given", (after("1-2"), after("3"), after("1-2", 1)), (["/t/a 0"], [], []))
    renewed = {"/t/a": Taken(1, "", "", False)}
    check("of one before a restart", (after("5", renewed=renewed, containers={}), after("0", renewed=renewed, containers={}), after("", renewed=renewed, containers={})), (["/t/a 0"], [], []))
    check("the system's own", after("5", renewed={"/t/a": Taken(1, "", "", True)}, containers={}), [])
    check("no group of this tree", after("5", renewed={"/u/a": Taken(1, "", "", False)}, containers={}), [])
    for why in ("", "busy"):
        ledger = ledger_of(one("a", State.PINNED, cpus=cpus("1-2"), **asking(2)))
        ledger.due = True
        commands, ledger = looked(ledger, {}, {Write: why} if why else {}, groups={"/t/a": Group("/t/a", 8, cpus("1-2"), populated=True)})
        late = "late a: 1-2 of the one before: on the reserved CPUs until it is told"
        check(f"said, {why}", [line for line in said(commands) if line.startswith(("late", "failed"))], [f"failed {why}" if why else late])
        check(f"it requested nothing before, {why}", ledger.taken, {"/t/a": Taken(8, "", "", False)})
        kinds = [type(each) for each in commands if isinstance(each, SaveTaken) or isinstance(each, Say) and each.line.startswith("unseen")]
        check(f"that is saved at once, {why}", kinds, [SaveTaken, Say])
    new = found("a", config_of(), "1-2")
    commands, _ = looked(ledger_of(one("a", State.PINNED, cpus=cpus("1-2"), **asking(2))), told={"a": new}, groups=groups_of(new))
    check("one that is told by then", [each for each in commands if isinstance(each, Write)], [])
    ledger, new = ledger_of(one("a", State.PINNED, cpus=cpus("1-2"), **asking(2))), found("n", config_of())
    ledger.taken["/t/a"] = Taken(1, "", "", False)
    commands, _ = looked(ledger, told={"n": new}, groups={"/t/a": Group("/t/a", 8, cpus("1-2"), populated=True), **groups_of(new)})
    check("until then an agent behind a kill would know of it", [each.groups["/t/a"].inode for each in commands if isinstance(each, SaveTaken)], [1, 8])
    ledger = ledger_of(one("e", State.SHARED, cpus=cpus("")))
    commands, _ = looked(ledger, groups={"/t/e": Group("/t/e", 8)})
    check("one that requested none", [each for each in commands if isinstance(each, Write)], [])


@case
def renewed() -> None:
    """Of groups that came while no agent looked, those of the system that are on the way to a container are known again; those of containers that nobody is
    told of are brought to the reserved CPUs."""
    turn = Turn(ledger_of(one("h", State.SHARED)), Look(10.0, groups={path: Group(path, 8, cpus("5")) for path in ("/t/s", "/t/u", "/t/h", "/t/y", "/u/z")}))
    turn.on_the_way = {"/t/s": "c", "/t/x": "c", "/t/y": "c"}
    turn.ledger.renewed = {path: Taken(1, "1", "", path not in ("/t/h", "/t/y", "/u/z")) for path in ("/t/s", "/t/u", "/t/h", "/t/x", "/t/y", "/u/z")}
    commands, _ = done(changes.undo_writes_before(turn))
    check("written", [each for each in commands if isinstance(each, Write)], [Write("/t/y", "cpuset.cpus", "0")])
    check("known", (turn.ledger.taken, turn.ledger.renewed, turn.unsaved), ({"/t/s": Taken(8, "", "", True), "/t/y": Taken(8, "", "", False)}, {}, True))
    for count in (1, 0):
        turn.ledger.renewed, turn.unsaved = {"/t/h": Taken(1, "1", "", False)} if count else {}, False
        done(changes.undo_writes_before(turn))
        check(f"what was kept of {count} is kept no more", turn.unsaved, bool(count))
    turn.unsaved = False
    done(changes.undo_writes_before(turn))
    check("nothing was", turn.unsaved, False)


# Few CPUs.


@case
def floor() -> None:
    """What fits where the pool keeps some CPUs."""
    for running, given, keeps, wanted, takes, expected in (("0-7", 2, 2, 4, 4, 4), ("0-7", 2, 2, 5, 5, None), ("0-7", 2, 2, 6, 2, 4), ("0-7", 6, 2, 1, 1, None), ("0-7", 7, 2, 1, 1, None),
                                                           ("0-7", 2, 0, 8, 8, 8), ("0-7", 2, 2, 9, 1, 9), ("0-7", 2, 2, 8, 1, 4), ("0-7", 2, 2, 6, 4, 4), ("0-7", 5, 2, 3, 1, 1), ("0-3", 2, 2, 1, 1, None), ("0-7", 2, 2, 0, 1, 0)):
        ledger = ledger_of(one("p", State.PINNED, **asking(given)), one("w", State.WAITING, **least(wanted, takes, 0)), pool_least=keeps)
        ledger.running = cpus(running)
        fits = room.fit_to_pool(Turn(ledger, Look(10.0)), ledger.containers["w"], ledger.containers["w"].demand)
        check(f"{running} {given} {keeps} {wanted} {takes}", fits.count if fits else None, expected)
        check(f"{running} {given} {keeps} {wanted} {takes}: as it is", fits is ledger.containers["w"].demand, expected == wanted)
    ledger = ledger_of(one("p", State.PINNED, **asking(3)), one("q", State.ASKING, **asking(2)), one("w", State.WAITING, **asking(1, 0)), one("s", State.SHARED), pool_least=2)
    turn = Turn(ledger, Look(10.0))
    check("left", (room.left_to_the_pool(turn), room.pool_text(turn, 2), room.pool_text(turn, 9)),
          (1, "it would leave 1 CPU to the pool, and that keeps 2", "it would leave 0 CPUs to the pool, and that keeps 2"))
    pairs = ledger_of(one("p", State.PINNED, **asking(4)), one("w", State.WAITING, **least(8, 2, 0)), members=FOUR, pool_least=5)
    fits = room.fit_to_pool(Turn(pairs, Look(10.0)), pairs.containers["w"], pairs.containers["w"].demand)
    check("in whole cores", fits.count if fits else None, 6)
    held = one("p", State.PINNED, **asking(3))
    turn = Turn(ledger_of(held, pool_least=6), Look(10.0))
    check("what it has it may have", [fit.count if fit else None for fit in (room.fit_to_pool(turn, held, Demand(asks(count), count)) for count in (2, 3, 4))], [2, 3, None])


@case
def who_wants() -> None:
    """Who waits, takes fewer, or has another limit by now; first those who give some back."""
    ledger = ledger_of(one("waits", State.WAITING, **asking(2, 0)), one("has", State.PINNED, **asking(2)), one("fewer", State.PINNED, **asking(3, 1)),
                       one("more", State.PINNED, **asking(2, wanted=3)), one("back", State.PINNED, **asking(3, wanted=1)), one("same", State.PINNED, **asking(3, wanted=3)), one("s", State.SHARED))
    check("who", room.wanting(Turn(ledger, Look(0.0))), ["back", "waits", "fewer", "more", "same"])


@case
def may_stay() -> None:
    """One that is never moved may get more beside what it has, or be left some of that."""
    stay: Mapping[str, object] = {"annotations": {"numarun.stay": "true"}}
    for state, holds, config, expected in ((State.PINNED, "1-2", stay, True), (State.PINNED, "1-3", stay, True), (State.PINNED, "1", stay, True), (State.PINNED, "2-3", stay, False),
                                           (State.PINNED, "", stay, True), (State.PINNED, "2-3", config_of(), True), (State.WAITING, "4-5", stay, True)):
        held = dataclasses.replace(container("a", state, 2, cpus=cpus("1-2")), seen=sighting(config=config))
        check(f"{state} {holds} {config is stay}", room.may_be(held, {"a": cpus(holds)} if holds else {}), expected)


@case
def trials() -> None:
    """A trial knows which CPUs are off, and who has CPUs of its own, or is to get some; who is tried in it stays there if there is a plan with it."""
    ledger = ledger_of(one("p", State.PINNED, cpus=cpus("1-2"), **asking(2)), one("s", State.SHARED, cpus=cpus("0")), one("q", State.ASKING, **asking(1)), one("k", State.KEPT, cpus=cpus("4"), **asking(1)))
    ledger.switched = {3: "offline", 5: "online"}
    trial, demand = room.Trial(Turn(ledger, Look(10.0))), Demand(asks(3), 3)
    commands, _ = done(trial.open(), {"adopt p": ["refused E104 NotFree 1"], "create p": ["pid 2"]})
    check("it begins", [each.line if isinstance(each, Ask) else type(each) for each in commands if not isinstance(each, Tell)], [OpenTrial, "offline 3", "online 5"])
    check("with those", (told_of(commands), trial.made), (["adopt p 1-2", "create p -", "create q -", "adopt k 4"], {"p", "q", "k"}))
    check("nothing of it is for the run", [each for each in commands if isinstance(each, (Ask, Tell)) and not each.trial], [])
    short, plan = ["short demand 9 allowed 1-7", "member w", "end"], ["plan total 0", "hold w 1-3", "pool 0,4-7", "end"]
    for name, answers, told, asked, outcome, made in (
        ("w", {"create": ["refused E66 QuotaTooLarge"]}, ["create w -"], [], "refused E66 QuotaTooLarge", False), ("w", {"rebalance": short}, ["create w -"], ["rebalance", "kill w KILL", "delete w"], "short", False),
        ("w", {"rebalance": plan}, ["create w -"], ["rebalance"], "plan", True), ("p", {"rebalance": short}, ["update p -"], ["rebalance"], "short", True),
        ("p", {"update": ["refused E66 QuotaTooLarge"]}, ["update p -"], [], "refused E66 QuotaTooLarge", True)):
        commands, found_here = done(trial.fits(name, demand), answers)
        check(f"{name} {answers}", (told_of(commands), [each.line for each in commands if isinstance(each, Ask)], found_here.text[:len(outcome)], name in trial.made), (told, asked, outcome, made))


@case
def rooms() -> None:
    """Nobody is tried where nobody wants more, or those who have theirs are short; the trial is closed then."""
    check("nobody wants more", done(room.make_room(Turn(ledger_of(one("p", State.PINNED, **asking(2))), Look(10.0)))), ([], True))
    for answer, told, expected in ((["short demand 9 allowed 1-7", "member p", "end"], ["create p -"], False), (["plan total 0", "hold p 1-2", "pool 0,3-7", "end"], ["create p -", "create w -", "update w -"], True)):
        turn = Turn(ledger_of(one("p", State.PINNED, **asking(2)), one("w", State.WAITING, **asking(2, 0))), Look(10.0))
        commands, tried = done(room.make_room(turn), {"rebalance": answer})
        check(f"{answer[0]}", (told_of(commands), tried, [type(each) for each in commands if isinstance(each, (OpenTrial, CloseTrial))]), (told, expected, [OpenTrial, CloseTrial]))
    ledger = ledger_of(one("w", State.WAITING, **asking(2, 0)), pool_least=2)
    nothing = Demand({}, None)
    check("one that asks for none by now", room.fit_to_pool(Turn(ledger, Look(10.0)), ledger.containers["w"], nothing) is nothing, True)


@case
def rooms_later() -> None:
    """What a trial can't be told for the moment is no refusal for good: who wants more goes on to want it, and is tried again behind a pause, which grows."""
    memory, plan = ["refused E1 Memory"], ["plan total 0", "hold a 1-3", "pool 0,4-7", "end"]
    lines = ["absent a: /b: numarun has not enough memory to be told of it"]
    short = ["short demand 9 allowed 1-7", "member a", "end"]
    rows: Sequence[Tuple[str, State, Mapping[str, Any], Sequence[Sequence[str]], Mapping[str, Sequence[str]], Sequence[str]]] = (
        ("it waits", State.WAITING, asking(3, 0), [plan], {"create a": memory}, lines), ("it has some", State.PINNED, asking(2, wanted=3), [plan], {"update a": memory}, lines),
        ("no plan with it", State.PINNED, asking(2, wanted=3), [plan, memory], {}, lines), ("nor with fewer", State.PINNED, least(6, 1, 2), [plan, short, memory], {}, lines),
        ("no config", State.WAITING, asking(3, 0), [plan], {"create a": ["refused E111 NoBundle"]}, ["absent a: /b: can't be read"]),
        ("no plan at all", State.PINNED, asking(2, wanted=3), [memory], {}, []), ("nobody is there", State.PINNED, asking(2, wanted=3), [plan], {"create a": memory}, []))
    for name, state, demand, plans_of, more, expected in rows:
        held = one("a", state, **demand)
        ledger = ledger_of(dataclasses.replace(held, seen=dataclasses.replace(held.seen, config=held.demand.config)))
        ledger.pauses["room", ""], outcomes, told = Pause(9.0, 1.0), iter(plans_of), list[Command]()
        steps = room.make_room(Turn(ledger, Look(10.0)))
        try:
            command = next(steps)
            while True:
                told.append(command)
                line = f"{command.verb.value} {command.name}" if isinstance(command, Tell) else ""
                command = steps.send(Answer(tuple(more.get(line, next(outcomes, short) if isinstance(command, Ask) and command.line == "rebalance" else ["ok"]))))
        except StopIteration as end:
            now = ledger.containers["a"]
            check(name, (said(told), (now.state, now.demand, now.wanted), ledger.untried, ledger.pauses["room", ""], end.value),
                  (expected, (state, held.demand, held.wanted), True, Pause(12.0, 2.0), bool(expected)))
            check(f"{name}: nothing is told in earnest", [each for each in told if isinstance(each, Tell) and not each.trial], [])


@case
def rooms_later_over_looks() -> None:
    """Who waits and could not be tried is tried at a later look, and what was left undone is done then."""
    held = one("w", State.WAITING, cpus=cpus("0-7"), **asking(2, 0))
    held = dataclasses.replace(held, seen=dataclasses.replace(held.seen, config=held.demand.config))
    ledger = ledger_of(held)
    ledger.due, ledger.pool = True, cpus("0-7")
    plan, told, states = {"begin direct": ["plan total 0", "pool 0-7", "end"], "rebalance": ["plan total 0", "pool 0-7", "end"]}, list[List[str]](), []
    for now, memory in ((10.0, False), (10.5, True), (11.5, True)):
        there = Found(held.seen.told, ("s",), held.demand.config, dataclasses.replace(held.seen.group, cpus=ledger.containers["w"].cpus or cpus(""), populated=True))
        has = {"begin direct": ["plan total 20", "hold w 1-2", "pool 0,3-7", "end"], "sets": ["cpus 0 effective 0 mems 0 effective 0"]} if memory and now > 11 else {"create w": ["refused E1 Memory"]}
        commands, ledger = looked(ledger, {**plan, **has}, told={"w": there}, groups=groups_of(there), now=now)
        told.append(told_of([each for each in commands if isinstance(each, Tell) and not each.trial]))
        states.append((ledger.containers["w"].state, [problem.line for problem in ledger.problems.values()], ledger.untried))
    waits = (State.WAITING, ["absent w: /b: numarun has not enough memory to be told of it"], True)
    check("once there is memory", (told, states, ("room", "") in ledger.pauses), ([[], [], ["update w -"]], [waits, waits, (State.PINNED, [], False)], False))


@case
def rooms_said() -> None:
    """What is said of one that has no room: it waits, or keeps what it has; of one that takes fewer it is said elsewhere."""
    short, plan = ["short demand 9 allowed 1-7", "member a", "end"], ["plan total 0", "hold a 3-4", "pool 0-2,5-7", "end"]
    stay = {"numarun.stay": "true"}
    rows: Sequence[Tuple[str, State, Mapping[str, Any], int, Sequence[str], Sequence[str]]] = (
        ("waits for the pool", State.WAITING, asking(3, 0), 6, plan, ["waits a: it would leave 5 CPUs to the pool, and that keeps 6: it runs on the pool until there is room"]),
        ("keeps for the pool", State.PINNED, asking(2, wanted=5), 4, plan, ["keeps a: it would leave 3 CPUs to the pool, and that keeps 4: it stays at 2 CPUs until there is room"]),
        ("waits", State.WAITING, asking(3, 0), 0, short, ["waits a: no place: it runs on the pool until there is room"]),
        ("keeps", State.PINNED, asking(2, wanted=5), 0, short, ["keeps a: short demand 9 allowed 1-7: it stays at 2 CPUs until there is room"]),
        ("would move", State.PINNED, asking(2, wanted=3, annotations=stay), 0, plan, ["keeps a: that would move it: it stays at 2 CPUs until there is room"]),
        ("takes fewer", State.PINNED, least(3, 1, 2), 0, short, []),
        ("refused", State.PINNED, asking(2, wanted=5), 0, ["refused E66 QuotaTooLarge"], ["refused E66 QuotaTooLarge: a /b: it stays as it was"]),
        ("refused, and it waits", State.WAITING, asking(3, 0), 0, ["refused E66 QuotaTooLarge"], ["refused E66 QuotaTooLarge: a /b: it stays as it was"]),
        ("refused, and it takes fewer", State.PINNED, least(3, 1, 2), 0, ["refused E66 QuotaTooLarge"], ["refused E66 QuotaTooLarge: a /b: it stays as it was"]))
    for name, state, demand, keeps, answer, expected in rows:
        held = one("a", state, cpus=cpus("1-2"), **demand)
        ledger = ledger_of(dataclasses.replace(held, seen=dataclasses.replace(held.seen, config=held.demand.config)), pool_least=keeps)
        trial = room.Trial(Turn(ledger, Look(10.0)), {"a"} if state.is_pinned else set())
        commands, _ = done(room.try_one(trial, ledger.containers["a"]), {"rebalance": answer})
        check(name, (said(commands), [each for each in commands if isinstance(each, Tell) and not each.trial], ledger.due), (expected, [], False))
        now, refused = ledger.containers["a"], name.startswith("refused")
        check(f"{name}: what it wants by then", now.wanted, None if refused else held.wanted)
        check(f"{name}: what it asks for by then", now.demand, now.given if refused and not held.wanted else held.demand)
        check(f"{name}: what it is by then", now.state, State.SHARED if refused and state is State.WAITING else state)
        check(f"{name}: nothing else is tried", not refused or isinstance(commands[-1], Say), True)
    ledger = ledger_of(one("a", State.PINNED, cpus=cpus("1-2"), **asking(2, wanted=3)))
    ledger.problems[Topic.ROOM, "a"] = Problem(Kind.KEEPS, "a", "a")
    commands, _ = done(room.try_one(room.Trial(Turn(ledger, Look(10.0)), {"a"}), ledger.containers["a"]), {"rebalance": ["plan total 0", "hold a 1-3", "pool 0,4-7", "end"]})
    now = ledger.containers["a"]
    check("there is room", (said(commands), now.demand.count, now.given.count, now.wanted, ledger.due, ledger.problems), (["update a /b"], 3, 3, None, True, {}))


@case
def rooms_refused() -> None:
    """Whose new demand is refused for good still gets what it asked for before, of which it was given fewer CPUs, where there is room for it by now."""
    refused, plan, short = ["refused E66 QuotaTooLarge: a /b: it stays as it was"], ["plan total 0", "hold a 1-3", "pool 0,4-7", "end"], ["short demand 9 allowed 1-7", "member a", "end"]
    rows: Sequence[Tuple[str, Mapping[str, Any], int, Sequence[str], Sequence[str], int]] = (
        ("there is room", asking(3, 2, 5), 0, plan, [*refused, "update a /b"], 3), ("there is none", asking(3, 2, 5), 0, short, refused, 2),
        ("the pool keeps its own", asking(3, 2, 5), 6, plan, refused, 2), ("it has all of it", asking(2, 2, 5), 0, plan, refused, 2))
    for name, demand, keeps, answer, expected, given in rows:
        ledger = ledger_of(one("a", State.PINNED, cpus=cpus("1-2"), **demand), pool_least=keeps)
        ledger.change("a", seen=dataclasses.replace(ledger.containers["a"].seen, config=demand["demand"].config))
        trial = room.Trial(Turn(ledger, Look(10.0)), {"a"})
        commands, _ = done(room.try_demand(trial, ledger.containers["a"], demand["wanted"], demand["wanted"]), {"update a 5": ["refused E66 QuotaTooLarge"], "rebalance": answer})
        now, told = ledger.containers["a"], [each for each in commands if isinstance(each, Tell) and not each.trial]
        check(name, (said(commands), now.given.count, [each.name for each in told], ledger.due), (expected, given, ["a"] if given == 3 else [], given == 3))
        check(f"{name}: what it asks for by then", (now.demand, now.wanted, list(ledger.problems)), (demand["demand"], None, [(Topic.DEMAND, "a")]))
        behind = commands[next(at for at, each in enumerate(commands) if isinstance(each, Say)) + 1:]
        check(f"{name}: whether that is tried", bool(behind), name in ("there is room", "there is none"))


@case
def kept_as_it_is() -> None:
    """Why one keeps what it has is said once of what it wants, whatever keeps it from that later; of what it wants by then it is said anew."""
    held = one("a", State.PINNED, cpus=cpus("1-2"), **asking(2, 2, 3))
    ledger = ledger_of(held)
    lines: List[str] = []
    for why in ("no room", "no room yet"):
        turn = Turn(ledger, Look(0.0))
        lines += said(done(room.say_no_room(turn, held, why))[0])
    check("said", lines, ["keeps a: no room: it stays at 2 CPUs until there is room"])
    check("and known by then", ledger.problems[Topic.ROOM, "a"].text, "a: no room yet: it stays at 2 CPUs until there is room")
    for count, kind in ((3, Kind.KEEPS), (4, None)):
        config = asks(count)
        ledger.change("a", seen=dataclasses.replace(held.seen, config=asks(3)))
        sighted = dataclasses.replace(held.seen, config=config, stamp=("another",))
        done(changes.follow(Turn(ledger, Look(10.0)), "a", sighted))
        check(f"it wants {count}", (ledger.problem(Topic.ROOM, "a"), (ledger.containers["a"].wanted or held.demand).count), (kind, count))


@case
def most_of_it() -> None:
    """From what one wants down to what it takes, or has already, the most for which there is a plan."""
    def tried(held: Any, wanted: Demand, *several: Sequence[str], members: Mapping[str, object] = EIGHT) -> Tuple[List[Optional[int]], Optional[int], Optional[str]]:
        turn, left = Turn(ledger_of(held, members=members), Look(0.0)), list(several)
        trial = room.Trial(turn, {"a"} if held.state.is_pinned else set())
        steps, told = room.most(trial, held, wanted), []
        try:
            command = next(steps)
            while True:
                told += [configs.asked(command.config, configs.Pin.ALL, turn.ledger.settings.machine)] if isinstance(command, Tell) else []
                lines = left.pop(0) if isinstance(command, Ask) and command.line == "rebalance" else ["ok"]
                command = steps.send(Answer(tuple(lines)))
        except StopIteration as end:
            given, why = end.value
            return told, given.count if given else None, why.text if why else None

    def short(demand: int, allowed: str) -> Sequence[str]:
        return [f"short demand {demand} allowed {allowed}", "member a", "end"]

    plan = ["plan total 0", "hold a 1-2", "pool 0", "end"]
    flexible = one("a", State.PINNED, cpus=cpus("1"), **least(5, 1, 1))
    rows: Sequence[Tuple[Any, Demand, Sequence[Sequence[str]], object]] = (
        (flexible, flexible.demand, [plan], ([5], 5, None)), (flexible, flexible.demand, [short(5, "1-3"), plan], ([5, 3], 3, "short demand 5 allowed 1-3 member a")),
        (flexible, flexible.demand, [short(5, "1-3"), short(3, "1-2"), plan], ([5, 3, 2], 2, "short demand 3 allowed 1-2 member a")),
        (flexible, flexible.demand, [short(5, "1")], ([5, 1], None, "short demand 5 allowed 1 member a")),
        (one("a", State.WAITING, **least(5, 1, 0)), flexible.demand, [short(5, "1"), plan], ([5, 1], 1, "short demand 5 allowed 1 member a")),
        (one("a", State.WAITING, **least(5, 4, 0)), least(5, 4)["demand"], [short(5, "1"), short(4, "1")], ([5, 4], None, "short demand 4 allowed 1 member a")),
        (one("a", State.WAITING, **asking(5, 0)), asking(5)["demand"], [short(5, "1")], ([5], None, "short demand 5 allowed 1 member a")),
        (flexible, flexible.demand, [["refused E90 Busy"]], ([5, 1], None, "refused E90 Busy")),
    )
    for held, wanted, answers, expected in rows:
        check(f"{held.state} {wanted.count} {len(answers)}", tried(held, wanted, *answers), expected)
    stays = one("a", State.PINNED, cpus=cpus("1"), **asking(5, 1, annotations={"numarun.least": "1", "numarun.stay": "true"}))
    stays = dataclasses.replace(stays, seen=dataclasses.replace(stays.seen, config=stays.demand.config))
    check("one that would be moved", tried(stays, stays.demand, short(5, "1-3"), ["plan total 0", "hold a 2-4", "pool 0", "end"]), ([5, 3, 1], None, "short demand 5 allowed 1-3 member a"))
    waits = one("a", State.WAITING, **least(8, 1, 0))
    check("down to one", tried(waits, least(2, 1)["demand"], short(2, "1"), plan), ([2, 1], 1, "short demand 2 allowed 1 member a"))
    check("in whole cores", tried(waits, least(8, 1)["demand"], short(8, "2-6"), plan, members=FOUR), ([8, 4], 4, "short demand 8 allowed 2-6 member a"))


@case
def given_more() -> None:
    """Who is given what it wanted has it once a plan follows, and its home is said, if no nodes were written for it; where that is refused all stays."""
    wanted = Demand(asks(2, mems="1"), 2)
    for answer, nodes, state, lines in (("ok", None, State.PINNED, ["update a /b", "home a 1"]), ("ok", cpus("2"), State.PINNED, ["update a /b"]),
                                        ("refused E50 KernelFault", None, State.WAITING, ["failed refused E50 KernelFault"])):
        held = one("a", State.WAITING, cpus=cpus("0-15"), **asking(2, 0, 3))
        ledger, is_done = ledger_of(dataclasses.replace(held, seen=dataclasses.replace(held.seen, nodes=nodes)), members=FOUR), state is State.PINNED
        ledger.problems[Topic.ROOM, "a"] = Problem(Kind.WAITS, "a", "a")
        commands, _ = done(room.give(Turn(ledger, Look(10.0)), ledger.containers["a"], wanted, wanted), {"update": [answer]})
        now = ledger.containers["a"]
        check(f"{answer} {nodes}", (said(commands), now.state, ledger.due, not ledger.problems), (lines, state, is_done, is_done))
        check(f"{answer} {nodes}: what it is", (now.demand, now.wanted, now.followed), (wanted, None, nodes) if is_done else (held.demand, held.wanted, None))


@case
def made_to_wait() -> None:
    """Who is to wait runs on the pool, and asks later for what it wants by now; not who waits already, nor where that is refused."""
    rows: Sequence[Tuple[State, Mapping[str, Any], str, Tuple[bool, State, int], Sequence[str], Sequence[str]]] = (
        (State.PINNED, asking(2), "ok", (True, State.WAITING, 2), ["update a -"], ["waits a: x: it runs on the pool until there is room"]),
        (State.PINNED, asking(2, wanted=3), "ok", (True, State.WAITING, 3), ["update a -"], ["waits a: x: it runs on the pool until there is room"]),
        (State.WAITING, asking(2, 0), "ok", (False, State.WAITING, 2), [], []),
        (State.PINNED, asking(2), "refused E50 KernelFault", (False, State.PINNED, 2), ["update a -"], ["failed refused E50 KernelFault"]))
    for state, demand, answer, expected, told, lines in rows:
        turn = Turn(ledger_of(one("a", state, **demand)), Look(10.0))
        commands, waits = done(room.make_wait(turn, "a", "x"), {"update": [answer]})
        now = turn.ledger.containers["a"]
        check(f"{state} {demand['wanted']} {answer}", ((waits, now.state, now.demand.count), told_of(commands), said(commands)), (expected, told, lines))
        quotas = [configs.quota_of(each.config) for each in commands if isinstance(each, Tell)]
        check(f"{state} {demand['wanted']} {answer}: what is told", (quotas, now.wanted), ([None] * len(told), None))
    check("said once", said(done(room.say_waits(turn, "a", "y"))[0]) + said(done(room.say_waits(turn, "a", "z"))[0]), ["waits a: y: it runs on the pool until there is room"])


@case
def shrunk() -> None:
    """As far as one takes it, in whole cores, and at least a core."""
    rows: Sequence[Tuple[Mapping[str, object], Mapping[str, Any], int, Optional[int]]] = (
        (EIGHT, least(4, 1), 1, 3), (EIGHT, least(4, 2), 3, 2), (EIGHT, least(4, 4), 1, None), (EIGHT, asking(4), 1, None), (EIGHT, least(4, 1), 9, 1), (EIGHT, least(4, 2, 2), 1, None),
        (FOUR, least(4, 1), 1, 2), (FOUR, least(4, 3), 1, None), (FOUR, least(6, 3), 1, 4), (FOUR, least(6, 1), 4, 2), (EIGHT, asking(4, 0), 1, None))
    for members, demand, missing, expected in rows:
        turn = Turn(ledger_of(one("a", State.ASKING, **demand), members=members), Look(0.0))
        commands, did = done(room.shrink(turn, "a", missing))
        check(f"{demand['demand'].count} {missing}", (did, turn.ledger.containers["a"].given.count if did else None, len(told_of(commands))),
              (expected is not None, expected, int(expected is not None)))


@case
def eased() -> None:
    """In a shortage the youngest newcomer asks for less, or waits; where there is none, one that is never moved may have others, then the youngest that
    takes fewer, and then the youngest waits."""
    def after(*several: Any, members: Sequence[str] = ("a", "b", "c")) -> Tuple[bool, List[Tuple[str, State, Optional[int]]]]:
        turn = Turn(ledger_of(*several), Look(0.0))
        _, did = done(room.ease(turn, Shortage(6, cpus("1-5"), tuple(members), "short demand 6 allowed 1-5")))
        now = [(held.name, held.state, held.given.count) for held in turn.ledger.containers.values()]
        return did, [each for each, before in zip(now, several) if each != (before.name, before.state, before.given.count)]

    pinned, stays = one("a", State.PINNED, **asking(2)), one("b", State.PINNED, **{**asking(2), "given": configs.staying(asking(2)["demand"], cpus("1-2"))})
    check("the newcomer", after(pinned, one("b", State.ASKING, **asking(2)), one("c", State.ASKING, **least(3, 1))), (True, [("c", State.ASKING, 2)]))
    check("that takes no fewer", after(pinned, one("b", State.ASKING, **least(2, 1)), one("c", State.ASKING, **asking(2))), (True, [("c", State.WAITING, None)]))
    check("an older one comes behind it", after(one("a", State.ASKING, **asking(2)), pinned_as("b"), pinned_as("c")), (True, [("a", State.WAITING, None)]))
    check("the youngest that takes fewer", after(pinned, one("b", State.PINNED, **least(3, 1)), pinned_as("c")), (True, [("b", State.PINNED, 2)]))
    check("the youngest waits", after(pinned, pinned_as("b"), pinned_as("c")), (True, [("c", State.WAITING, None)]))
    check("of the members", after(pinned, pinned_as("b"), pinned_as("c"), members=("a", "b")), (True, [("b", State.WAITING, None)]))
    turn = Turn(ledger_of(pinned, stays, pinned_as("c")), Look(0.0))
    commands, _ = done(room.ease(turn, Shortage(6, cpus("1-5"), ("a", "b", "c"), "")))
    check("nothing is said of that", said(commands), [])
    check("one that is never moved may have others", (turn.ledger.containers["b"].given, turn.ledger.containers["c"].state), (asking(2)["demand"], State.PINNED))
    check("nobody", after(one("s", State.SHARED), members=()), (False, []))
    few = Turn(ledger_of(one("a", State.PINNED, **least(3, 1, 2))), Look(0.0))
    check("who takes fewer asks for no more", done(room.loosen(few, "a")), ([], False))


def pinned_as(name: str) -> Any:
    return one(name, State.PINNED, **asking(1))


@case
def spared() -> None:
    """As long as the pool has too few the youngest newcomers ask for less, or wait; those who have theirs keep them."""
    turn = Turn(ledger_of(one("a", State.PINNED, **asking(2)), one("b", State.ASKING, **asking(1)), one("c", State.ASKING, **least(3, 1)), one("d", State.ASKING, **asking(2)), pool_least=3), Look(0.0))
    commands, _ = done(room.spare_the_pool(turn))
    check("who", {name: (held.state, held.given.count) for name, held in turn.ledger.containers.items()},
          {"a": (State.PINNED, 2), "b": (State.ASKING, 1), "c": (State.ASKING, 2), "d": (State.WAITING, None)})
    check("said", said(commands), ["waits d: it would leave 0 CPUs to the pool, and that keeps 3: it runs on the pool until there is room"])
    commands, _ = done(room.spare_the_pool(turn))
    check("it is enough", commands, [])
    turn = Turn(ledger_of(one("a", State.PINNED, **least(2, 1)), one("b", State.ASKING, **asking(1)), pool_least=7), Look(0.0))
    done(room.spare_the_pool(turn))
    check("who has its own keeps it", [(held.state, held.given.count) for held in turn.ledger.containers.values()], [(State.PINNED, 2), (State.WAITING, None)])
    turn = Turn(ledger_of(one("a", State.PINNED, **asking(2)), one("b", State.ASKING, **asking(4)), pool_least=3), Look(0.0))
    check("what would be left", said(done(room.spare_the_pool(turn))[0]), ["waits b: it would leave 2 CPUs to the pool, and that keeps 3: it runs on the pool until there is room"])


@case
def said_of_fewer() -> None:
    ledger = ledger_of(one("a", State.PINNED, **asking(3, 2)), one("b", State.PINNED, **asking(2)), one("c", State.PINNED, **asking(3, 2, 4)), one("w", State.WAITING, **asking(3, 0)))
    ledger.problems[Topic.ROOM, "b"] = Problem(Kind.FEWER, "b", "b")
    commands, _ = done(room.say_fewer(Turn(ledger, Look(0.0))))
    check("said", (said(commands), sorted(of for _, of in ledger.problems)), (["fewer a: 2 of 3 CPUs, as there are no more"], ["a"]))


@case
def left_beside_each_other() -> None:
    """That there is no room, that what one wants is refused, and that it can't be told of are left beside each other, and each is said once."""
    ledger = ledger_of(one("a", State.PINNED, cpus=cpus("1"), **asking(2, 1)), one("w", State.WAITING, **asking(2, 0)))
    turn, before = Turn(ledger, Look(10.0)), ledger.containers["a"].seen
    refusal = {**{f"update a {count}": ["refused E66 QuotaTooLarge"] for count in (9, 10)}, "rebalance": ["short demand 9 allowed 1-7", "member a", "end"]}

    def left() -> List[str]:
        return sorted(f"{of} {problem.kind.value}" for (_, of), problem in ledger.problems.items())

    check("few", said([*done(room.say_fewer(turn))[0], *done(room.say_waits(turn, "w", "x"))[0]]),
          ["fewer a: 1 of 2 CPUs, as there are no more", "waits w: x: it runs on the pool until there is room"])
    for count in (9, 10):
        done(changes.follow(turn, "a", dataclasses.replace(before, stamp=(count,), config=asks(count))))
        check(f"few, and wants {count}", (said(done(room.say_fewer(turn))[0]), "a fewer" in left()), ([], True))
        commands, _ = done(room.try_one(room.Trial(turn, {"a"}), ledger.containers["a"]), refusal)
        check(f"refused {count}", said(commands), ["refused E66 QuotaTooLarge: a /b: it stays as it was"] if count == 9 else [])
    check("few, and refused", (said(done(room.say_fewer(turn))[0]), left()), ([], ["a fewer", "a refused", "w waits"]))
    done(telling.tell_update(turn, "w", configs.shared({})), {"update": ["refused E50 KernelFault"]})
    check("it can't be told of", left(), ["a fewer", "a refused", "w failed", "w waits"])
    commands, _ = done(telling.tell_update(turn, "w", configs.shared({}), quiet=True))
    check("it is told of", (said([*commands, *done(room.say_waits(turn, "w", "y"))[0]]), left()), ([], ["a fewer", "a refused", "w waits"]))
    done(changes.follow(turn, "a", dataclasses.replace(before, stamp=("old",), config=ledger.containers["a"].demand.config)))
    check("it asks for no more than before", (said(done(room.say_fewer(turn))[0]), left()), ([], ["a fewer", "w waits"]))


# Plans.


@case
def counted() -> None:
    ledger = ledger_of(one("a", State.PINNED, cpus=cpus("1-2")), one("b", State.PINNED, cpus=cpus("3")))
    ledger.pool = cpus("0,4-7")
    outcome = Outcome("plan total 52", 52, {"a": cpus("1-2"), "b": cpus("4")}, cpus("0,3,5-7"))
    check("what changes", plans.changes_of(ledger, outcome), ["hold b 4", "pool 0,3,5-7"])
    plans.count_plan(ledger, outcome, 1)
    plans.count_plan(ledger, outcome, 2)
    check("figures", [ledger.counts[name] for name in ("plans_total", "moves_total", "distance", "distance_beyond_local")], [2, 3, 52, 22])
    found_here = outcome_of(ledger, "plan total 41", "hold a 1-2", "hold b 4", "pool 0,3", "end")
    check("a plan", (found_here.total, found_here.holds, found_here.pool, found_here.shortage), (41, {"a": cpus("1-2"), "b": cpus("4")}, cpus("0,3"), None))
    ledger.titles = {"b": "web(b)"}
    found_here = outcome_of(ledger, "short demand 4 allowed 1-3", "member a", "member b", "end")
    short = found_here.shortage
    check("a shortage", short and (short.demand, short.allowed, short.members, short.missing), (4, cpus("1-3"), ("a", "b"), 1))
    check("its members as the log has them", found_here.text, "short demand 4 allowed 1-3 member a member web(b)")
    check("a refusal", outcome_of(ledger, "refused E90 Busy"), Outcome("refused E90 Busy"))


def outcome_of(ledger: Ledger, *lines: str) -> Outcome:
    return room.outcome_of(ledger, Reply(lines))


@case
def noted() -> None:
    """What numarun says of a group's file names the container as the log does."""
    ledger = ledger_of()
    ledger.titles = {"b": "web(b)"}
    for note, said_of_it in (("b/cpuset.cpus: Permission denied", "web(b)/cpuset.cpus: Permission denied"), ("a/cpuset.cpus: x", "a/cpuset.cpus: x"),
                             ("/t/b/cpuset.cpus: x", "/t/b/cpuset.cpus: x"), ("b", "web(b)"), ("", "")):
        check(note, telling.titled(ledger, note), said_of_it)
    for answer, line in ((Answer(("refused E50 KernelFault",), ("a/x: y", "b/cpuset.cpus: z")), "web(b)/cpuset.cpus: z"), (Answer(("ok",), ("b/x: y",)), "ok")):
        steps, commands = telling.ask(ledger, Ask("step")), []
        next(steps)
        try:
            commands.append(steps.send(answer))
            next(steps)
        except StopIteration as end:
            check(f"why: {line}", (end.value.note, said(commands)), (line, []) if line != "ok" else ("web(b)/x: y", ["note web(b)/x: y"]))


@case
def handed_over() -> None:
    """A plan that is handed over makes who asks pinned; a write that fails leaves it due, is said once, and is tried at growing pauses."""
    ledger = ledger_of(one("a", State.ASKING, **asking(2)), one("s", State.SHARED))
    ledger.due = True
    answers = {"begin": ["plan total 20", "hold a 1-2", "pool 0,3-7", "end"]}
    held = {name: Found(Told("/b", "/f"), ("s",), {}, Group(f"/t/{name}", 1)) for name in "as"}
    for name in "as":
        ledger.change(name, seen=dataclasses.replace(ledger.containers[name].seen, config={}))
    failing = {**answers, "step": ["refused E50 KernelFault"], "sets": ["cpus 1 effective 1 mems 0 effective 0"]}
    commands, ledger = looked(ledger, failing, told=held, groups=groups_of(*held.values()))
    check("a write that fails", (said(commands), ledger.due, ledger.containers["a"].cpus, ledger.containers["a"].state),
          (["plan total 20", "hold a 1-2", "pool 0,3-7", "failed refused E50 KernelFault"], True, cpus("1"), State.ASKING))
    commands, ledger = looked(ledger, failing, told=held, groups=groups_of(*held.values()), now=10.5)
    check("a pause", commands, [])
    ledger.change("a", cpus=None)
    ledger.change("s", cpus=None)
    commands, ledger = looked(ledger, answers, told=held, groups=groups_of(*held.values()), now=11.5)
    check("and then", (said(commands)[-1], ledger.due, ledger.containers["a"].state, [print_list(each.cpus or ()) for each in ledger.containers.values()], ledger.problems, ledger.tried),
          ("done", False, State.PINNED, ["1-2", "0,3-7"], {}, None))


def outcome_of_plan(ledger: Ledger, answer: Callable[[str], Sequence[str]]) -> List[str]:
    """What is said where a plan is worked out, and numarun answers so."""
    return said(answered(plans.plan(Turn(ledger, Look(10.0))), answer)[0])


@case
def no_plan() -> None:
    """Without a plan it is said why, once; a shortage is counted, and what is no shortage is tried again behind a pause. Who is short waits."""
    short = ["short demand 9 allowed 1-7", "member a", "end"]
    for name, held, lines, expected in (
        ("nobody can wait", one("a", State.SHARED), short, (["short demand 9 allowed 1-7 member a"], False, 1)),
        ("no memory", one("a", State.SHARED), ["refused E1 Memory"], (["refused E1 Memory"], True, 0))):
        ledger = ledger_of(held)
        said_of = outcome_of_plan(ledger, lambda line: lines)
        check(name, (said_of, ledger.due, ledger.counts["shortages_total"]), expected)
        check(f"{name}: said once", outcome_of_plan(ledger, lambda line: lines), [])
        check(f"{name}: pauses", ledger.pauses["plan", ""], Pause(12.0, 2.0))
    for ending, expected_state, count in ((False, State.WAITING, 0), (True, State.ASKING, 1)):
        ledger, begins = ledger_of(one("a", State.ASKING, **asking(9))), iter([short, ["plan total 0", "pool 0-7", "end"]])
        lines = outcome_of_plan(ledger, lambda line: ends_meanwhile(ledger, ending, next(begins)) if line == "begin direct" else ["done"] if line == "step" else ["ok"])
        check(f"one can wait, and it ends: {ending}", (ledger.containers["a"].state, ledger.counts["shortages_total"], ledger.due), (expected_state, count, False))
        check(f"no fault of a unit that is stopped: {ending}", (is_undone(ledger, ending), [line for line in lines if line.startswith("short")]), (not ending, []))
    ledger = ledger_of(one("a", State.ASKING, **asking(9)))
    check("what is refused is said at the end too", outcome_of_plan(ledger, lambda line: ends_meanwhile(ledger, True, ["refused E1 Memory"])), ["refused E1 Memory"])


def ends_meanwhile(ledger: Ledger, ending: bool, answer: Sequence[str]) -> Sequence[str]:
    """The answer to a line at which the agent is told to end, if it is."""
    ledger.ending = ledger.ending or ending
    return answer


@case
def no_plan_at_the_end() -> None:
    """Once the agent is told to end no plan is begun, not even behind one that was handed over or somebody who is to wait; it is due, and that is no fault."""
    short, plan = ["short demand 9 allowed 1-7", "member a", "end"], ["plan total 10", "hold a 1", "pool 0,2-7", "end"]
    for name, line_of_end, answers, begun, due in (
        ("before the plan", "update", [short, plan], ["begin direct"], True), ("in the midst of a hand-over", "step", [plan, plan], ["begin direct", "step"], False)):
        ledger, begins = ledger_of(one("a", State.ASKING, **asking(1)), one("w", State.WAITING, **asking(9, 0)), pool_least=0), iter(answers)
        ledger.due = True
        asked: List[str] = []
        steps = plans.arrange(Turn(ledger, Look(10.0)))
        try:
            command = next(steps)
            while True:
                line = command.line if isinstance(command, Ask) and not command.trial else command.verb.value if isinstance(command, Tell) and not command.trial else ""
                asked += [line] if line in ("begin direct", "step") else []
                reply = next(begins) if line == "begin direct" else ["done"] if line == "step" else ["short demand 9 allowed 1-7", "member w", "end"] if line == "" else ["ok"]
                command = steps.send(Answer(tuple(reply), ending=line == line_of_end))
        except StopIteration:
            check(name, (asked, ledger.due, is_undone(ledger, True)), (begun, due, False))
    ledger = ledger_of(one("a", State.ASKING, **asking(1)))
    ledger.due = ledger.ending = True
    check("before all", (lines_of(done(plans.arrange(Turn(ledger, Look(10.0))))[0]), ledger.due), ([], True))


def lines_of(commands: Sequence[Command]) -> List[str]:
    return [command.line for command in commands if isinstance(command, Ask) and not command.trial]


@case
def no_direct_plan() -> None:
    """A numarun that knows no direct hand-overs is asked for others; that is said once."""
    ledger = ledger_of()
    answers = {"begin direct": ["refused E110 BadLine"]}
    commands, _ = done(plans.begin(ledger), answers)
    check("said", [line[:46] for line in said(commands)], ["note this numarun knows no direct hand-overs, "])
    commands = [*commands, *done(plans.begin(ledger), answers)[0]]
    check("asked", [each.line for each in commands if isinstance(each, Ask)], ["begin direct", "begin", "begin"])
    check("and no more", len(said(commands)), 1)
    other = ledger_of()
    commands, _ = done(plans.begin(other), {"begin direct": ["refused E1 Memory"]})
    check("another refusal", ([each.line for each in commands if isinstance(each, Ask)], said(commands), other.direct), (["begin direct"], [], True))


@case
def certificates() -> None:
    """The certificate of each plan, or shortage, is kept where that is asked for; the file of the last one is known, and why it can't be kept is said."""
    ledger = ledger_of(certificates="/c")
    commands, _ = done(plans.plan(Turn(ledger, Look(10.0))), {"certificate": ["cert 1", "end"], "": ["/c/1"]})
    check("kept", ([each.lines for each in commands if isinstance(each, KeepCertificate)], ledger.certificate), ([("cert 1", "end")], "/c/1"))
    done(plans.plan(Turn(ledger, Look(10.0))), {"": []})
    check("the same again", ledger.certificate, "/c/1")
    commands, _ = done(plans.plan(Turn(ledger, Look(10.0))), {"": []}, {KeepCertificate: "/c: full"})
    check("a full disk", ([line for line in said(commands) if line.startswith("failed")], ledger.certificate), (["failed /c: full"], "/c/1"))
    done(plans.plan(Turn(ledger, Look(10.0))), {"": ["/c/2"]})
    check("and then", (ledger.problems, ledger.certificate), ({}, "/c/2"))
    commands, _ = done(plans.plan(Turn(ledger_of(), Look(10.0))))
    check("not asked for", [each for each in commands if isinstance(each, KeepCertificate)], [])


@case
def why_one_waits() -> None:
    """Of each shortage the certificate is kept, also of one by which somebody waits, which has its file as long as it waits for that."""
    short, plan = ["short demand 9 allowed 1-7", "member a", "end"], ["plan total 0", "pool 0-7", "end"]
    for certificate, file in ((["numarun-certificate 2", "end"], "ok"), (["refused E101 NoAnswer"], "")):
        ledger, begins = ledger_of(one("a", State.ASKING, **asking(9)), one("b", State.PINNED, **asking(1)), certificates="/c"), iter([short, plan])
        answers = {"step": ["done"], "certificate": certificate}
        commands, _ = answered(plans.plan(Turn(ledger, Look(10.0))), lambda line: next(begins) if line == "begin direct" else answers.get(line, ["ok"]))
        check(f"{certificate[0]}: of both", len([each for each in commands if isinstance(each, KeepCertificate)]), 2 if file else 0)
        check(f"{certificate[0]}: its file", {name: (held.state, held.certificate) for name, held in ledger.containers.items()}, {"a": (State.WAITING, file), "b": (State.PINNED, "")})
    ledger.change("a", certificate="/c/1")
    turn = Turn(ledger, Look(10.0))
    done(room.give(turn, ledger.containers["a"], asking(2)["demand"], asking(2)["demand"]))
    check("not once it has CPUs", ledger.containers["a"].certificate, "")
    ledger.change("a", certificate="/c/1")
    done(room.make_wait(turn, "a", "it would leave 1 CPU to the pool, and that keeps 2"))
    check("nor where it waits for another cause", (ledger.containers["a"].state, ledger.containers["a"].certificate), (State.WAITING, ""))
    ledger.change("a", certificate="/c/1")
    done(changes.follow_shared(turn, ledger.containers["a"], asking(3)["demand"]))
    check("or for others", (ledger.containers["a"].state, ledger.containers["a"].certificate), (State.WAITING, ""))
    for before, after in (("", "ok"), ("/c/1", "/c/1")):
        ledger.change("a", certificate=before)
        trial = room.Trial(turn)
        answered(room.try_one(trial, ledger.containers["a"]), lambda line: short if line == "rebalance" else ["ok"])
        check(f"one that waits since another run: {before}", ledger.containers["a"].certificate, after)


@case
def steps() -> None:
    """Each write of a plan is a step, until all are done, one fails, or the agent is to end at once; one that is told to end does them all. Then those that get CPUs have them, and those that are never
    moved ask for just these."""
    stay = {"numarun.stay": "true"}
    several = [one("a", State.ASKING, **asking(1)), one("k", State.KEPT, **asking(1)), one("n", State.ASKING, **asking(1)), one("s", State.SHARED),
               one("t", State.PINNED, **asking(2, annotations=stay)), one("w", State.WAITING, **asking(9, 0, annotations=stay))]
    for seen in range(len(several)):
        several[seen] = dataclasses.replace(several[seen], seen=dataclasses.replace(several[seen].seen, config=several[seen].demand.config))
    outcome = Outcome("plan total 0", 0, {"a": cpus("1"), "k": cpus("2"), "t": cpus("4-5")}, cpus("0,6-7"))

    def over(*lines: str, **parts: Any) -> Tuple[List[Command], bool, Ledger]:
        ledger, several_lines = ledger_of(*several, pool_least=3), iter(lines)
        ledger.pauses["plan", ""] = Pause(99.0, 1.0)
        for name, part in parts.items():
            setattr(ledger, name, part)
        commands, made = answered(plans.hand_over(Turn(ledger, Look(10.0)), outcome), lambda line: [next(several_lines)] if line == "step" else ["ok"])
        return commands, made, ledger

    commands, made, ledger = over("more", "more", "done")
    check("all", (made, ledger.counts["steps_total"], said(commands), ledger.due, ledger.pauses), (True, 3, ["done"], False, {}))
    check("what they are", {name: held.state for name, held in ledger.containers.items()},
          {"a": State.PINNED, "k": State.KEPT, "n": State.ASKING, "s": State.SHARED, "t": State.PINNED, "w": State.WAITING})
    told = [(each.verb, each.name, configs.at(each.config, "linux", "resources", "cpu", "cpus")) for each in commands if isinstance(each, Tell)]
    check("who is never moved", (told, [each for each in commands if isinstance(each, RunPool)]), ([(Verb.UPDATE, "t", "4-5")], []))
    commands, made = answered(plans.hand_over(Turn(ledger, Look(10.0)), outcome), lambda line: ["done"])
    check("is told so once", told_of(commands), [])
    for unmade in (False, True):
        problems = {(Topic.CONTAINER, "a"): Problem(Kind.UNTOLD, "a", "a"), (Topic.CONTAINER, "w"): Problem(Kind.FAILED, "w", "w"), (Topic.DEMAND, "k"): Problem(Kind.REFUSED, "k", "k")}
        after = over("done", unmade=unmade, problems=problems)[2]
        check(f"what was to be told on the way, and is still: {unmade}", [name for _, name in after.problems], ["a", "w", "k"] if unmade else ["k"])
    _, made, ledger = over("more", "refused E50 KernelFault")
    check("a write that fails", (made, ledger.counts["steps_total"], ledger.containers["a"].state), (False, 1, State.ASKING))
    commands, made, ledger = over("more", "done", ending=True, due=True)
    check("it ends", (made, lines_of(commands), said(commands), told_of(commands), ledger.due, ledger.pool), (True, ["step", "step"], ["done"], [], False, cpus("0,6-7")))
    _, made, ledger = over("more", "refused E50 KernelFault", ending=True, due=True)
    check("it ends, and a write fails", (made, ledger.due, is_undone(ledger, True)), (False, True, True))
    commands, made, ledger = over(ending=True, ends_at_once=True, due=True)
    check("it ends at once", (made, commands, ledger.due), (False, [], True))


@case
def counted_writes() -> None:
    """The writes that were made are counted: `done` answers the last one, or a step where none was due."""
    outcome = Outcome("plan total 0", 0, {"a": cpus("1"), "k": cpus("2")}, cpus("0,3-7"))
    rows: Sequence[Tuple[str, Mapping[str, str], Sequence[str], int]] = (
        ("no write is due", {}, ["done"], 0), ("one is", {"k": "3"}, ["done"], 1), ("one on the pool", {"p": "0"}, ["done"], 1), ("two are", {"a": "0", "k": "0"}, ["more", "done"], 2),
        ("some that nobody knew of", {}, ["more", "done"], 2), ("one, which is refused", {"a": "0"}, ["refused E50 KernelFault"], 0))
    for name, others, lines, count in rows:
        has, answers = {"a": "1", "k": "2", "p": "0,3-7", **others}, iter(lines)
        ledger = ledger_of(*(one(held, State.SHARED if held == "p" else State.PINNED, cpus=cpus(has[held])) for held in has))
        answered(plans.hand_over(Turn(ledger, Look(10.0)), outcome), lambda line: [next(answers)] if line == "step" else ["ok"])
        check(name, ledger.counts["steps_total"], count)


@case
def planned_again() -> None:
    """A plan that failed is due, and what it changes is said once as long as it is the same."""
    ledger = ledger_of(one("a", State.ASKING, **asking(1)))
    answers = {"begin direct": ["plan total 10", "hold a 1", "pool 0,2-7", "end"], "step": ["refused E50 KernelFault"], "sets": ["cpus 0 effective 0 mems 0 effective 0"]}
    first, second = (said(done(plans.plan(Turn(ledger, Look(10.0))), answers)[0]) for _ in range(2))
    check("said", (first, second, ledger.due), (["plan total 10", "hold a 1", "pool 0,2-7", "failed refused E50 KernelFault"], [], True))
    answers["begin direct"] = ["plan total 10", "hold a 2", "pool 0-1,3-7", "end"]
    check("another one", said(done(plans.plan(Turn(ledger, Look(10.0))), answers)[0]), ["plan total 10", "hold a 2", "pool 0-1,3-7"])
    plans.count_plan(ledger, Outcome("plan total 0", 0, {}, cpus("0-7")), 0)
    check("one without distance", ledger.counts["distance"], 0)
    ledger = ledger_of(one("a", State.PINNED, **asking(3, 2)))
    check("who has fewer is said first", said(done(plans.plan(Turn(ledger, Look(10.0))))[0])[0], "fewer a: 2 of 3 CPUs, as there are no more")


class Scene:
    """The plain model of numarun, groups and a folder (model.py), in which somebody comes or goes before each look."""

    def __init__(self, pool_least: int = 0) -> None:
        self.world = model.World(machine_of(EIGHT), model.Choices(b""), pool_least)
        self.agent = model.Agent(self.world)

    def come(self, **counts: int) -> None:
        for name, count in counts.items():
            self.world.count += 1
            self.world.places[self.world.path(name)] = model.Place(self.world.count, shared=not count)
            self.world.bundles[name] = model.Bundle(model.config_of(count), self.world.count)

    def go(self, *names: str) -> None:
        for name in names:
            del self.world.bundles[name], self.world.places[self.world.path(name)]

    def look(self) -> List[str]:
        """The lines of the next look that are warnings."""
        self.world.now += 100
        self.agent.look(troubled=False)
        return self.agent.said

    def count(self, *names: str) -> List[int]:
        return [len(self.world.places[self.world.path(name)].cpus) for name in names]


@case
def with_odd_configs() -> None:
    """Who comes with a config that numarun refuses runs on the pool; who had CPUs of its own of an agent before stays as it was."""
    odd: Dict[str, object] = {"ociVersion": "1.0.2", "annotations": {}, "linux": {"resources": {"cpu": {"quota": 200000, "period": 100000}}}}
    rows: Sequence[Tuple[Dict[str, object], str, State]] = ((model.config_of(0, "90"), "E63 NoSuchCpu 90", State.SHARED), (odd, "E58 Missing root", State.POOLED))
    for config, why, state in rows:
        scene = Scene()
        scene.come(a=0)
        scene.world.bundles["a"] = model.Bundle(config, 9)
        check(why, (scene.look(), scene.count("a"), scene.agent.ledger.containers["a"].state), ([f"refused {why}: a /g/a: it runs on the pool"], [8], state))
        check(f"{why}: once", scene.look(), [])
        scene = Scene()
        scene.come(a=2)
        scene.look()
        scene.world.bundles["a"] = model.Bundle(config, 9)
        check(f"{why}: of one that runs", (scene.look(), scene.count("a")), ([f"refused {why}: a /g/a: it stays as it was"], [2]))
        scene.agent = model.Agent(scene.world)
        check(f"{why}: by another agent", (scene.look(), scene.count("a"), scene.agent.ledger.containers["a"].state), ([f"refused {why}: a /g/a: it stays as it was"], [2], State.KEPT))


@case
def odd_on_the_cpus_of_another() -> None:
    """What is said of one with an odd config is why that is refused, though its CPUs are another one's too."""
    scene = Scene()
    scene.come(p=2)
    scene.look()
    scene.come(a=0)
    scene.world.places[scene.world.path("a")].cpus = scene.world.places[scene.world.path("p")].cpus
    scene.world.bundles["a"] = model.Bundle(model.config_of(0, "90"), 9)
    check("said", (scene.look(), scene.count("a", "p")), (["refused E63 NoSuchCpu 90: a /g/a: it runs on the pool"], [6, 2]))


@case
def room_behind_a_plan() -> None:
    """Where somebody is to wait behind all, those who wait already may have room, at the same look."""
    for least, asked, why in ((0, 6, "short demand 8 allowed 1-7"), (2, 5, "it would leave 1 CPU to the pool, and that keeps 2")):
        scene = Scene(least)
        scene.come(p=2, q=4)
        scene.look()
        scene.come(w=3)
        scene.look()
        check("one waits", (scene.count("p", "q"), scene.agent.ledger.containers["w"].state), ([2, 4], State.WAITING))
        scene.go("q")
        scene.come(n=asked)
        lines = [line.replace("1,2,3,4,5,6,7", "1-7") for line in scene.look()]
        check(f"another one comes that asks for {asked}", (lines, scene.count("p", "w", "n")), ([f"waits n: {why}: it runs on the pool until there is room"], [2, 3, 3]))
    scene = Scene()
    scene.come(t=2, q=4)
    scene.world.bundles["t"] = model.Bundle(model.config_of(2, **{"numarun.stay": "true"}), 9)
    scene.look()
    scene.come(w=3)
    scene.look()
    scene.go("q")
    scene.world.online -= {min(scene.world.places[scene.world.path("t")].cpus)}
    check("one that is never moved has to move", (scene.look(), scene.count("t", "w")), ([], [2, 3]))


@case
def no_room_behind_a_plan() -> None:
    """Whether others have room is tried once where nobody is to wait behind the plan, and where the plan fails; where they have none no plan follows."""
    begins = {"begin direct": ["plan total 0", "pool 0-7", "end"], "rebalance": ["plan total 0", "pool 0-7", "end"], "update": ["refused E66 QuotaTooLarge"]}
    failing = {**begins, "rebalance": ["short demand 9 allowed 1-7", "member p", "end"], "step": ["refused E50 KernelFault"]}
    for name, answers, expected in (("all is well", begins, (1, 1)), ("a write fails", failing, (1, 1)), ("short in the trial", {**failing, "step": ["done"]}, (2, 1))):
        turn = Turn(ledger_of(one("p", State.PINNED, **asking(2)), one("w", State.WAITING, **asking(9, 0))), Look(10.0))
        turn.ledger.due = True
        commands, _ = done(plans.arrange(turn), answers)
        check(name, (sum(isinstance(each, OpenTrial) for each in commands), sum(isinstance(each, Ask) and each.line == "begin direct" for each in commands)), expected)
