"""Tries by hand, without a process, what becomes of groups that an agent before told of, while nobody tells of them or numarun can't be told of them: which
numarun is shown as it begins, which are let go of and why, and what is left of the CPUs for others. Expected values are worked out by hand from the pages of
operators/. unseen.py tries the same with the program."""

from __future__ import annotations

import dataclasses
from typing import Any, Dict, List, Mapping, Sequence

from decided import asks, container, cpus, done, ledger_of, lines_asked, looked, said, sighting
from parts import PLAN, asking, found, groups_of, trial_of
from trial import case, check
from numarun_host import beginnings, newcomers, placing, room, strangers, telling
from numarun_host.commands import Ask, Command, Start, Taken, Tell, Unlink, Verb
from numarun_host.cpus import print_list
from numarun_host.ledger import Ledger, Pause, State, Stranger
from numarun_host.script import Refused
from numarun_host.seen import Group, Look, Missing, NoGroup, Told
from numarun_host.telling import Turn

OLD = {"forget": ["refused E110 BadLine"]}
RUNS = Group("/t/x", 7, cpus("4-5"), populated=True)


def starting(ledger: Ledger, answers: Mapping[str, Sequence[str]] = {}, **look: Any) -> Any:
    """A look at which a run begins."""
    ledger.started = False
    return looked(ledger, answers, **look)


def shown_by(commands: Sequence[Command]) -> List[Mapping[str, str]]:
    return [command.strangers for command in commands if isinstance(command, Start)]


def left(**groups: Group) -> Ledger:
    """What an agent before has left of these groups."""
    ledger = ledger_of()
    ledger.taken = {group.path: Taken(group.inode, "", "", False) for group in groups.values()}
    return ledger


def forgotten(commands: Sequence[Command]) -> List[str]:
    return [line for line in said(commands) if line.startswith("forgotten")]


# Which numarun is shown.


@case
def shown() -> None:
    """Those of an agent before that have a process and request CPUs that a plan may give; not the system's own, nor others in the place of one."""
    rows: Sequence[Any] = (
            (RUNS, Taken(7, "", "", False), None, True), (RUNS, None, "/t/x", True), (RUNS, None, None, False), (RUNS, Taken(7, "", "", True), None, False),
            (RUNS, Taken(7, "", "", True), "/t/x", False), (RUNS, Taken(8, "", "", False), None, False), (RUNS, Taken(8, "", "", False), "/t/x", False),
            (dataclasses.replace(RUNS, populated=False), Taken(7, "", "", False), "/t/x", False), (dataclasses.replace(RUNS, populated=None), Taken(7, "", "", False), "/t/x", False),
            (dataclasses.replace(RUNS, cpus=cpus("0")), Taken(7, "", "", False), "/t/x", False), (dataclasses.replace(RUNS, cpus=cpus("")), Taken(7, "", "", False), "/t/x", True),
            (dataclasses.replace(RUNS, cpus=cpus("0,4-5")), Taken(7, "", "", False), "/t/x", True), (NoGroup("gone"), Taken(7, "", "", False), "/t/x", False),
            (dataclasses.replace(RUNS, cpus=cpus(""), texts=(None, "0")), Taken(7, "", "", False), "/t/x", False))
    for group, taken, before, expected in rows:
        ledger = ledger_of()
        ledger.taken, ledger.before = {"/t/x": taken} if taken else {}, {"x": (before, None)} if before else {}
        stranger = strangers.shown_at_start(Turn(ledger, Look(0.0, groups={"/t/x": group})))
        has = group.cpus if isinstance(group, Group) else cpus("")
        check(f"{group} {taken} {before}", list(stranger.values()), [Stranger("/t/x", 7, has)] if expected else [])
    ledger.before, ledger.taken, ledger.renewed = {"x": ("/t/x", None), "y": (None, None)}, {}, {"/t/x": Taken(8, "", "", False)}
    check("another one in its place", strangers.shown_at_start(Turn(ledger, Look(0.0, groups={"/t/x": RUNS}))), {})
    for name, inode, expected in (("x", 7, True), ("~+t+x", 7, True), ("x", 8, False)):
        ledger = ledger_of()
        ledger.strangers = {name: Stranger("/t/x", inode, cpus("4"))}
        check(f"to the next run, {name} {inode}", strangers.shown_at_start(Turn(ledger, Look(0.0, groups={"/t/x": RUNS}))), {name: Stranger("/t/x", 7, cpus("4-5"))} if expected else {})
    commands, after = starting(left(x=RUNS), groups={"/t/x": RUNS})
    check("at a start", (shown_by(commands), after.strangers), ([{"~+t+x": "/t/x"}], {"~+t+x": Stranger("/t/x", 7, cpus("4-5"))}))
    check("numarun is asked once whether it knows of that", lines_asked(commands)[0], "forget .")
    commands, after = starting(left(x=dataclasses.replace(RUNS, populated=False)), groups={"/t/x": dataclasses.replace(RUNS, populated=False)})
    check("where there is none", (shown_by(commands), [line for line in lines_asked(commands) if line.startswith("forget")]), ([{}], []))


@case
def names() -> None:
    """By the id under which a container is told of, or else by that of an agent before, unless another one is told of under that; else by none."""
    def named(before: Mapping[str, str], **now: Any) -> List[str]:
        ledger = left(x=RUNS)
        ledger.before = {name: (path, None) for name, path in before.items()}
        return list(strangers.shown_at_start(Turn(ledger, Look(0.0, told=now, groups={"/t/x": RUNS}))))

    a, elsewhere, missing = found("a", asks(2), path="/t/x"), found("a", asks(2)), Missing(Told("/g/a", "/g/a"), "not JSON")
    check("told of", (named({}, a=a), named({"b": "/t/x"}, a=a), named({"a": "/t/x"}, a=a)), (["a"], ["a"], ["a"]))
    check("of one before", (named({"a": "/t/x"}), named({"a": "/t/x"}, a=missing), named({"a": "/t/x"}, b=elsewhere)), (["a"], ["a"], ["a"]))
    check("of another one by now", named({"a": "/t/x"}, a=elsewhere), ["~+t+x"])
    check("of nobody", (named({}), named({"b": "/t/y"})), (["~+t+x"], ["~+t+x"]))
    bad = found("a b", asks(2), path="/t/x")
    check("of what is no id", (named({}, **{"a b": bad}), named({}, **{"..": bad})), (["~+t+x"], ["~+t+x"]))


@case
def older_program() -> None:
    """One that knows of none is said once. Then all is as if none were shown: there is no plan."""
    commands, ledger = starting(left(x=RUNS), OLD, groups={"/t/x": RUNS}, events=("rebalance",))
    note = "note this numarun withholds no CPUs, so there is no plan while a container that runs can't be told of"
    check("said", (said(commands)[0], ledger.strangers, [each for each in commands if isinstance(each, Unlink)]), (note, {}, [Unlink("~+t+x")]))
    check("no plan", (said(commands)[1:], "begin direct" in lines_asked(commands)), (["unseen /t/x: it was told of before, and there is a process in it: no plan until it is told"], False))
    commands, ledger = starting(ledger, OLD, groups={"/t/x": RUNS})
    check("said once", [line for line in said(commands) if line.startswith("note")], [])
    commands, ledger = starting(ledger, groups={"/t/x": RUNS})
    check("a later one knows of them", (ledger.withholds, list(ledger.strangers)), (True, ["~+t+x"]))


# Who is one no more.


@case
def told_of() -> None:
    """Who is a container now is a stranger no more, as numarun has it too: by `create` and `adopt` that are taken."""
    for verb, trial, answer, expected in ((Verb.ADOPT, False, "pid 2", []), (Verb.CREATE, False, "pid 2", []), (Verb.UPDATE, False, "ok", ["a"]), (Verb.ADOPT, False, "refused E50 KernelFault", ["a"]),
                                          (Verb.CREATE, False, "refused E1 Memory", ["a"])):
        ledger = ledger_of()
        ledger.strangers = {"a": Stranger("/t/x", 7, cpus("4-5"))}
        done(telling.ask(ledger, Tell(verb, "a", {}, cpus("4-5"), trial)), {verb.value: [answer]})
        check(f"{verb} {answer}", list(ledger.strangers), expected)
    done(telling.ask(ledger, Tell(Verb.ADOPT, "b", {}, cpus("4-5"))))
    done(telling.ask(ledger, Ask("forget a")))
    check("by no other line", list(ledger.strangers), ["a"])


@case
def let_go() -> None:
    """Who need not be kept from others any more is forgotten, and why is said; its CPUs count again, so that a plan follows."""
    other = dataclasses.replace(RUNS, inode=8)
    ended = "there is no process in it any more"
    rows: Sequence[Any] = (
        (RUNS, {}, {}, None), (dataclasses.replace(RUNS, populated=False), {}, {}, ended), (dataclasses.replace(RUNS, populated=None), {}, {}, ended), (other, {}, {}, ended),
        (NoGroup("gone"), {}, {}, ended), (dataclasses.replace(RUNS, cpus=cpus("0")), {}, {}, "it requests no CPUs that a plan may give"), (dataclasses.replace(RUNS, cpus=cpus("")), {}, {}, None),
        (dataclasses.replace(RUNS, cpus=cpus("6")), {}, {}, None), (RUNS, {"/t/x": "b"}, {}, "it is that of web(b)"), (RUNS, {"/t/y": "b"}, {}, None),
        (RUNS, {}, {"r": "/t/x"}, "its container is refused"), (RUNS, {}, {"r": "/t/y"}, None))
    for group, owners, refused, why in rows:
        ledger = ledger_of()
        ledger.strangers, ledger.titles = {"~x": Stranger("/t/x", 7, cpus("4-5"))}, {"b": "web(b)"}
        turn = Turn(ledger, Look(0.0, groups={"/t/x": group}))
        turn.owners = owners
        turn.there = ledger.refused = {name: dataclasses.replace(sighting(path), group=Group(path, 7, cpus("4-5"), populated=True)) for name, path in refused.items()}
        commands, happened = done(strangers.let_go_of_strangers(turn))
        expected = [Ask("forget ~x"), Unlink("~x")] if why else []
        check(f"{group} {owners} {refused}", ([each for each in commands if isinstance(each, (Ask, Unlink))], said(commands), happened, list(ledger.strangers)),
              (expected, [f"forgotten /t/x: {why}"] if why else [], bool(why), [] if why else ["~x"]))
    ledger.strangers, ledger.ending = {"~x": Stranger("/t/x", 7, cpus("4-5"))}, True
    turn = Turn(ledger, Look(0.0))
    check("it is left to the next agent", (done(strangers.let_go_of_strangers(turn)), list(ledger.strangers)), (([], False), ["~x"]))
    ledger.ending = False
    turn.there = {"t": dataclasses.replace(sighting("/t/x"), group=RUNS)}
    check("numarun knew none", (done(strangers.let_go_of_strangers(turn), {"forget": ["refused E105 NoStranger"]})[1], ledger.strangers), (True, {}))
    ledger.strangers = {"~x": Stranger("/t/x", 7, cpus("4-5"))}
    try:
        done(strangers.let_go_of_strangers(turn), {"forget": ["refused E1 Memory"]})
        check("what else it says", "taken", "refused")
    except Refused as refusal:
        check("what else it says", str(refusal), "numarun: 'refused E1 Memory' to 'forget ~x'")


@case
def refused_as_it_is() -> None:
    """One that is told of and not refused by now is kept from others, whatever was refused before."""
    ledger = ledger_of()
    ledger.strangers = {"~x": Stranger("/t/x", 7, cpus("4-5"))}
    turn = Turn(ledger, Look(0.0, groups={"/t/x": RUNS}))
    seen = dataclasses.replace(sighting("/t/x"), group=RUNS)
    turn.there, ledger.refused = {"t": seen}, {"t": dataclasses.replace(seen, stamp=("other",))}
    check("another config", done(strangers.let_go_of_strangers(turn))[1], False)
    ledger.refused = {"other": seen}
    check("another one", done(strangers.let_go_of_strangers(turn))[1], False)


# Whom it keeps others off.


@case
def kept_off() -> None:
    """A plan may be made where numarun withholds all that a group requests by now, and leaves the pool to the others."""
    for has, inode, cpus_then, expected in (("4-5", 7, "4-5", True), ("4", 7, "4-5", True), ("4-6", 7, "4-5", False), ("", 7, "4-5", False), ("", 7, "", False), ("4-5", 8, "4-5", False),
                                            ("0,4-5", 7, "0,4-5", False), ("4-5", 7, "0,4-5", False), ("4-5", 7, "4-5,7", False)):
        ledger = ledger_of(members={"nodes": ["0-7"], "distances": [[10]], "reserved": "0,7"})
        ledger.reserved = cpus("0")
        ledger.strangers = {"s": Stranger("/t/y", 7, cpus("1-6")), "x": Stranger("/t/x", 7, cpus(cpus_then))}
        turn = Turn(ledger, Look(0.0, groups={"/t/x": Group("/t/x", inode, cpus(has), populated=True)}))
        check(f"{has} {inode}, {cpus_then} at the start", (strangers.is_withheld(turn, "/t/x"), strangers.not_withheld(turn, ["/t/x", "/t/z"])),
              (expected, ["/t/z"] if expected else ["/t/x", "/t/z"]))


@case
def counted() -> None:
    """What is withheld is nobody's: no trial has it, it is not the pool's, and no home counts on it. It counts for who comes."""
    ledger = ledger_of(container("p", State.PINNED, 1, cpus=cpus("1")), pool_least=2)
    ledger.strangers = {"x": Stranger("/t/x", 7, cpus("4-5")), "y": Stranger("/t/y", 7, cpus("5-6")), "s": Stranger("/t/s", 7, cpus("0,2-3"))}
    turn = Turn(ledger, Look(10.0))
    check("withheld", print_list(strangers.withheld(turn)), "4-6")
    check("left", (room.left_to_the_pool(turn), print_list(placing.free_cpus(turn)), print_list(placing.spare_cpus(turn))), (2, "0,2-3,7", "2-3,7"))
    commands, _ = done(room.Trial(turn).open())
    check("a trial", lines_asked(commands), ["offline 4", "offline 5", "offline 6"])
    turn.coming, turn.spare = {"/t/x"}, None
    check("one of them comes", (print_list(strangers.withheld(turn)), room.left_to_the_pool(turn)), ("5-6", 3))
    several = [beginnings.Comer("n", asking(4)["demand"], cpus(""), False)]
    waiting = [list(done(beginnings.begin_all(room.Trial(each), several))[1][1]) for each in (turn, Turn(ledger, Look(10.0)))]
    check("who would wait", waiting, [["n"], ["n"]])
    ledger.running = cpus("0-4")
    check("those that run", print_list(strangers.withheld(Turn(ledger, Look(10.0)))), "4")


@case
def planned_beside() -> None:
    """In a look: a plan is made beside one of whom nobody tells, that leaves its CPUs alone; it is forgotten once it has ended, and a plan follows."""
    new, plan = found("n", asks(1)), ["plan total 10", "hold n 1", "pool 0,2-3,6-7", "end"]
    answers = {"rebalance": plan, "begin direct": plan, "sets n": ["cpus 1 effective 1 mems 0 effective 0"]}
    look: Dict[str, Any] = {"told": {"n": new}, "groups": {"/t/x": RUNS, **groups_of(new)}}
    commands, ledger = starting(left(x=RUNS), answers, **look)
    line = "unseen /t/x: it was told of before, and there is a process in it: no plan gives 4-5 to anybody until it is told"
    check("it begins by a plan", (trial_of(commands, False), [line for line in lines_asked(commands) if line.startswith("offline")]), (["adopt n 1"], ["offline 4", "offline 5"]))
    check("said", said(commands), ["create n /g/n 1", line, "plan total 10", "hold n 1", "pool 0,2-3,6-7", "done"])
    given = {"n": dataclasses.replace(new, group=dataclasses.replace(new.group, cpus=cpus("1")))}
    look = {"told": given, "groups": {"/t/x": RUNS, **groups_of(*given.values())}}
    commands, ledger = looked(ledger, answers, **look)
    check("nothing more", (said(commands), lines_asked(commands), list(ledger.strangers)), ([], [], ["~+t+x"]))
    look["groups"] = {**look["groups"], "/t/x": dataclasses.replace(RUNS, cpus=cpus("6"))}
    commands, ledger = looked(ledger, answers, events=("rebalance",), **look)
    check("somebody gave it others", (said(commands), ledger.due), ([line.replace("no plan gives 4-5 to anybody", "no plan")], True))
    look["groups"] = {**look["groups"], "/t/x": dataclasses.replace(RUNS, populated=False)}
    commands, ledger = looked(ledger, answers, **look)
    check("it has ended", (forgotten(commands), "begin direct" in lines_asked(commands), ledger.problems), (["forgotten /t/x: there is no process in it any more"], True, {}))


@case
def plan_behind() -> None:
    """Behind one that is let go of a plan follows at once, though none was due, or the last one failed."""
    ledger = ledger_of()
    ledger.strangers, ledger.pauses, ledger.due = {"~x": Stranger("/t/x", 7, cpus("4-5"))}, {("plan", ""): Pause(99.0, 1.0)}, False
    commands, _ = looked(ledger, groups={"/t/x": RUNS})
    check("while it runs", lines_asked(commands), [])
    commands, after = looked(ledger)
    check("it has ended", ([line for line in lines_asked(commands) if line in ("forget ~x", "begin direct")], after.pauses), (["forget ~x", "begin direct"], {}))
    x, refused = found("x", asks(9), "4-5", path="/t/x"), ["refused E66 QuotaTooLarge"]
    commands, after = looked(ledger, {"adopt": refused, "create": refused}, told={"x": x}, groups={"/t/x": RUNS})
    check("its container is refused at this look", ([line for line in lines_asked(commands) if line in ("forget ~x", "begin direct")], ("plan", "") in after.pauses),
          (["forget ~x", "begin direct"], False))


@case
def ended_as_others_come() -> None:
    """Before the first plan of a run one that has ended is forgotten before those are told of who come, so that they begin on what it leaves."""
    new, plan = found("n", asks(7)), ["plan total 70", "hold n 1-7", "pool 0", "end"]
    ledger = ledger_of()
    ledger.pool, ledger.strangers = None, {"~x": Stranger("/t/x", 7, cpus("4-5"))}
    commands, ledger = looked(ledger, {"rebalance": plan, "begin direct": plan}, told={"n": new}, groups=groups_of(new))
    check("in this order", [line for line in lines_asked(commands) if line.split(" ")[0] in ("forget", "offline", "rebalance", "begin")], ["forget ~x", "rebalance", "begin direct"])
    check("where it begins", (trial_of(commands, False), ledger.strangers), (["adopt n 1-7"], {}))


@case
def told_at_last() -> None:
    """One of whom nobody told is told of: it keeps its CPUs, and nobody is kept off them for the group any more."""
    commands, ledger = starting(left(x=RUNS), groups={"/t/x": RUNS})
    a = dataclasses.replace(found("a", asks(2), "4-5", path="/t/x"))
    answers = {"begin direct": ["plan total 20", "hold a 4-5", "pool 0-3,6-7", "end"], "sets a": ["cpus 4-5 effective 4-5 mems 0 effective 0"]}
    commands, ledger = looked(ledger, answers, told={"a": a}, groups=groups_of(a))
    lines = [f"adopt {each.name}" if isinstance(each, Tell) else each.line for each in commands if isinstance(each, (Ask, Tell))]
    check("in this order", [line for line in lines if line.split(" ")[0] in ("adopt", "forget", "begin")], ["adopt a", "forget ~+t+x", "begin direct"])
    check("said", (said(commands)[:2], ledger.strangers), (["adopt a /g/a 4-5", "forgotten /t/x: it is that of a"], {}))


@case
def not_told_for_now() -> None:
    """While a container can't be told of that numarun was shown, a plan gives others CPUs if it has its own; there is none if it is on the pool."""
    failing = {**PLAN, "adopt x": ["refused E50 KernelFault"], "create x": ["refused E50 KernelFault"]}
    for has, plan in (("4-5", True), ("0,4-5", False)):
        x, a, b = found("x", asks(2), has), found("a", asks(2)), found("b", asks(1), "5" if has == "1" else "6")
        come = {"x": x, "a": a, "b": b}
        commands, ledger = starting(left(x=x.group), failing, told=come, groups=groups_of(*come.values()))
        check(f"{has}: a plan", ("begin direct" in lines_asked(commands), sorted(ledger.blocking), list(ledger.strangers)), (plan, ["x"], ["x"]))
        commands, ledger = looked(ledger, failing, told=come, groups=groups_of(*come.values()), now=10.5)
        check(f"{has}: it is not tried in the pause", told_of_names(commands), [] if plan else [])
        commands, ledger = looked(ledger, PLAN, told=come, groups=groups_of(*come.values()), now=99.0)
        check(f"{has}: once it is told of", (ledger.blocking, ledger.strangers, "forget x" in lines_asked(commands)), ({}, {}, False))


@case
def while_they_come() -> None:
    """What one has counts as its own until it is told of, and then as withheld if it could not be."""
    for answer, expected in (("refused E50 KernelFault", "4-5"), ("pid 2", "-")):
        x, n = dataclasses.replace(sighting("/t/x", asks(2)), group=RUNS), sighting("/t/n", asks(1))
        turn = Turn(left(x=RUNS), Look(10.0, groups={"/t/x": RUNS, "/t/n": n.group}))
        turn.there, turn.ledger.strangers = {"x": x, "n": n}, {"x": Stranger("/t/x", 7, cpus("4-5"))}
        commands, _ = done(newcomers.take_all(turn), {"adopt x": [answer]})
        check(f"the trial has all, {answer}", [line for line in lines_asked(commands) if line.startswith("offline")], [])
        check(f"and then, {answer}", (print_list(strangers.withheld(turn)), turn.coming), (expected, set()))


def told_of_names(commands: Sequence[Command]) -> List[str]:
    return [line for line in (f"{each.name}" for each in commands if isinstance(each, Tell) and not each.trial) if line == "x"]


@case
def looks_at_them() -> None:
    """A group that is a stranger is looked at, also where nothing is kept of it but a link."""
    ledger = ledger_of()
    ledger.before = {"x": ("/t/x", None)}
    commands, ledger = starting(ledger, groups={"/t/x": RUNS})
    check("by its link", (shown_by(commands), ledger.before), ([{"x": "/t/x"}], {}))
    commands, ledger = looked(ledger, groups={"/t/x": RUNS}, events=("rebalance",))
    check("and named", [line for line in said(commands) if line.startswith("unseen")],
          ["unseen /t/x: it was told of before, and there is a process in it: no plan gives 4-5 to anybody until it is told"])
