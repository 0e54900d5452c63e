"""Tries by hand, without files, which step is next on the way of a partition, what stands against it, and what is said of what came of it. Expected values
are worked out by hand from operators/partitions.md and the kernel's page of cpuset."""

from __future__ import annotations

from types import SimpleNamespace
from typing import Dict, List, Mapping, Optional, Sequence, Tuple

from decided import cpus, ledger_of, said
from trial import case, check
from numarun_host import partition, partitioning
from numarun_host.commands import Answer, Command, LookAtPartition, MakeGroup, Steps, T, Write
from numarun_host.cpus import NO_CPUS, Cpus, print_list
from numarun_host.ledger import Kind, Ledger, Pause, Problem, Topic
from numarun_host.partition import CONTROLS, CPUS_FILE, EXCLUSIVE_FILE, FILE, ISOLATED, MEMBER, ROOT, Below, Beside, Layout, Partition, Step, Stop
from numarun_host.partitioning import Walked
from numarun_host.seen import Look
from numarun_host.telling import Turn

FLAT, DEEP = Layout(("/c/p",)), Layout(("/c/a", "/c/a/b"))
INVALID = "root invalid (Cpu list in cpuset.cpus not exclusive)"


def of(text: Optional[str], *has: Optional[str], effective: str = "1-3", above: Optional[str] = None, **more: object) -> Partition:
    """What a look found, by lists of CPUs: above is what the root has in effect, which is what a partition has not; it is not known where it is empty."""
    files = tuple(None if cpus_of is None else cpus(cpus_of) for cpus_of in has)
    root = ("0,4-7" if text == ROOT else "0-7") if above is None else above
    return Partition(text, files, cpus(effective), cpus(root) if root else None, **more)  # type: ignore[arg-type]


def beside(requests: str, exclusive: str = "", **more: bool) -> Beside:
    return Beside("/c/x", cpus(requests), cpus(exclusive), **more)


def done(steps: Steps[T], looks: Sequence[Partition] = (), whys: Sequence[Optional[str]] = ()) -> Tuple[List[Command], T]:
    """What is yielded, and what it ends with; looks find these in turn, the last one again and again, and steps fail so."""
    commands: List[Command] = []
    left, failing = list(looks), list(whys)
    try:
        command = next(steps)
        while True:
            commands.append(command)
            if isinstance(command, LookAtPartition):
                answer = Answer(partition=left.pop(0) if len(left) > 1 else left[0] if left else None)
            else:
                answer = Answer(why=failing.pop(0) if failing and isinstance(command, (Write, MakeGroup)) else None)
            command = steps.send(answer)
    except StopIteration as end:
        found: T = end.value
        return commands, found


@case
def who_asks() -> None:
    """A group right beside asks for all that it requests; one beside a group above for what it has as exclusive, or for all, where that would be whole."""
    near, far = beside("1-2", "3"), beside("1-2", "3", near=False)
    check("near", [print_list(near.asks(cpus(text))) for text in ("2-4", "5", "1-2")], ["2-3", "-", "1-2"])
    check("far", [print_list(far.asks(cpus(text))) for text in ("2-4", "5", "1-2", "1-3", "1,4")], ["3", "-", "1-2", "1-3", "-"])


@case
def what_is_online() -> None:
    """What the root would have without it: a partition has its CPUs for itself, and so may have an invalid one; a member has not."""
    found = {text: print_list(of(text, "1-3", above="0,4-7").online or NO_CPUS) for text in (ROOT, ISOLATED, MEMBER, INVALID, None)}
    check("online", found, {ROOT: "0-7", ISOLATED: "0-7", MEMBER: "0,4-7", INVALID: "0-7", None: "0,4-7"})
    check("not known", of(ROOT, "1-3", above="").online, None)
    asks = (beside("3"),)
    check("valid", [seen.is_valid for seen in (of(ROOT, "1-3"), of(ROOT, "1-3", beside=asks), of(ROOT, "1-3", "1-3", "1-3", beside=asks), of(MEMBER, "1-3"))],
          [True, False, True, False])
    check("what it says", [of(text).fault(why) for text, why in ((None, ""), ("", "x"), (MEMBER, ""), (INVALID, "x"))],
          ["no such file", "nothing; x", "member", f"{INVALID}; x"])
    steps: Sequence[Optional[Step]] = (Write("/c/p", FILE, ROOT), MakeGroup("/c/p"), None)
    check("in vain", [partition.in_vain(step) for step in steps],
          ["/c/p/cpuset.cpus.partition: 'root' was written, and it is not so", "/c/p: it was made, and is not there", ""])


@case
def next_steps() -> None:
    """On the way to a partition, and to more or fewer CPUs of a valid one."""
    no_way, needs, keeps = ((True, True), (True, True)), (Below("/c/p/x", cpus("5")),), (Below("/c/p/x", cpus("3")),)
    rows: Sequence[Tuple[str, Partition, str, Step]] = (
        ("somebody requests them", of(MEMBER, "1-3", beside=(beside("3"),)), "1-3", Stop("/c/x requests 3")),
        ("one below needs others", of(MEMBER, "1-3", effective="1-5", below=needs), "1-3", Stop("/c/p/x would be left with none of its CPUs 5")),
        ("one below needs what it has", of(MEMBER, "1-3", below=keeps), "1-2", Write("/c/p", FILE, ROOT)),
        ("other CPUs of a member", of(MEMBER, "1-2"), "2-3", Write("/c/p", CPUS_FILE, "2-3")),
        ("more and fewer of a valid one", of(ROOT, "1-3"), "3-5", Write("/c/p", CPUS_FILE, "1-5")),
        ("fewer", of(ROOT, "1-5", effective="1-5"), "3-5", Write("/c/p", CPUS_FILE, "3-5")),
        ("nothing to do, with all CPUs", of(ROOT, "0-7", effective="0-7", above="", way=no_way), "0-7", Stop("")),
        ("and where the root has none left", Partition(ROOT, (cpus("0-7"),), cpus("0-7"), NO_CPUS, way=no_way), "0-7", Stop("")),
        ("invalid", of(INVALID, "1-3"), "1-3", Write("/c/p", FILE, MEMBER)))
    for name, seen, wanted, expected in rows:
        check(name, partition.next_step(FLAT, seen, cpus(wanted)), expected)


@case
def spared_and_changed() -> None:
    """Who has none of its own in effect needs none, and who keeps some needs no others. Nothing is written of no CPUs, or where there is no file."""
    for requests, asked, expected in (("7", "1-2", ("1-2", [])), ("2-3", "1-2", ("1-2", [])), ("3", "1-2", ("1-3", ["/c/p/x would be left with none of its CPUs 3"]))):
        goal, left = partition.spared(of(ROOT, "1-3", below=(Below("/c/p/x", cpus(requests)),)), cpus(asked))
        check(f"{requests}, of {asked}", (print_list(goal), left), expected)
    check("no CPUs", partition.change(FLAT, of(ROOT, "1-2"), NO_CPUS, keeps=True), None)
    check("nothing known of a file", partition.change(FLAT, of(ROOT, None), cpus("1"), keeps=True), Write("/c/p", CPUS_FILE, "1"))
    for keeps, text in ((True, "1-3"), (False, "3")):
        check(f"more, {keeps}", partition.change(FLAT, of(ROOT, "1-2"), cpus("3"), keeps), Write("/c/p", CPUS_FILE, text))


@case
def ways() -> None:
    """Each group on the way gives the controller to those below it, the partition itself only once it is valid."""
    for text, gives, expected in ((MEMBER, (True, False), None), (ROOT, (True, False), Write("/c/p", CONTROLS, "+cpuset")), (ROOT, (True, True), None),
                                  (MEMBER, (False, False), Write("/c", CONTROLS, "+cpuset"))):
        seen = of(text, "1-3", way=tuple((True, given) for given in gives))
        check(f"{text}, {gives}", partition.next_of_way(FLAT, seen), expected)
    check("one that is not there", partition.next_of_way(FLAT, of(MEMBER, "1-3", way=((True, True), (False, False)))), MakeGroup("/c/p"))


@case
def steps_back() -> None:
    """To what was there before: never CPUs that a valid partition beside has, or that are taken from below one."""
    flat, own, others = f"/c/p/{CPUS_FILE}", f"/c/a/b/{EXCLUSIVE_FILE}", f"/c/a/{EXCLUSIVE_FILE}"
    rows: Sequence[Tuple[str, Layout, Partition, Mapping[str, str], Step]] = (
        ("nothing is kept", FLAT, of(MEMBER, "1-3"), {}, Stop()),
        ("no such file", FLAT, of(MEMBER, None), {flat: "1"}, Stop()),
        ("its list", FLAT, of(MEMBER, "1-3"), {flat: "2"}, Write("/c/p", CPUS_FILE, "2")),
        ("an empty one", FLAT, of(MEMBER, "1-3"), {flat: ""}, Write("/c/p", CPUS_FILE, "")),
        ("one with processes", FLAT, of(MEMBER, "1-3", populated=True), {flat: ""}, Write("/c/p", CPUS_FILE, "0-7")),
        ("which is empty already", FLAT, of(MEMBER, "", populated=True), {flat: ""}, Stop()),
        ("where nobody knows the root's", FLAT, of(MEMBER, "1-3", above="", populated=True), {flat: ""}, Write("/c/p", CPUS_FILE, "")),
        ("exclusive ones of one with processes", DEEP, of(MEMBER, "1-3", "1-3", "0-7", populated=True), {own: "", f"/c/a/b/{CPUS_FILE}": ""}, Write("/c/a/b", EXCLUSIVE_FILE, "")),
        ("a partition beside has them", FLAT, of(MEMBER, "1-3", beside=(beside("4", valid=True),)), {flat: "4-5"}, Stop("/c/x requests 4")),
        ("one beside that is none", FLAT, of(MEMBER, "1-3", beside=(beside("4"),)), {flat: "4-5"}, Write("/c/p", CPUS_FILE, "4-5")),
        ("one has what is given up", FLAT, of(MEMBER, "1-2", beside=(beside("", "2", valid=True),)), {flat: "1"}, Write("/c/p", CPUS_FILE, "1")),
        ("one below the group above has it", DEEP, of(MEMBER, "1-3", "", "", beside=(beside("", "3", valid=True),)), {others: "1-2"}, Stop("/c/x requests 3")),
        ("one beside the group above", DEEP, of(MEMBER, "1-3", "", "", beside=(beside("", "3", near=False, valid=True),)), {others: "1-2"}, Write("/c/a", EXCLUSIVE_FILE, "1-2")),
        ("or it has what that had", DEEP, of(MEMBER, "1-3", "", "", beside=(beside("", "5", near=False, valid=True),)), {others: "5"}, Write("/c/a", EXCLUSIVE_FILE, "5")))
    for name, layout, seen, before, expected in rows:
        check(name, partition.step_back(layout, seen, before), expected)


# What comes of it.



@case
def walks() -> None:
    """A walk ends where there is nothing to do, at what is refused, where a step came to nothing, and where what was to be a partition is none."""
    member, false, wrong, root = of(MEMBER, "1-3"), of(ROOT, "1-3", beside=(beside("3"),)), of(INVALID, "1-3"), of(ROOT, "1-3")
    make_root, make_member = Write("/c/p", FILE, ROOT), Write("/c/p", FILE, MEMBER)
    rows: Sequence[Tuple[str, Sequence[Partition], Sequence[Step], Sequence[Optional[str]], Walked, int]] = (
        ("done", (member, root), (make_root, Stop("x")), (), Walked(root, "x"), 1),
        ("refused", (of(MEMBER, "1-3", beside=(beside("3"),)),), (make_root,), ("denied",), Walked(of(MEMBER, "1-3", beside=(beside("3"),)), "denied; /c/x requests 3", True), 1),
        ("in vain", (member,), (make_member, make_member), (), Walked(member, "/c/p/cpuset.cpus.partition: 'member' was written, and it is not so", True), 1),
        ("none came of it", (member, wrong), (make_root, make_member), (), Walked(wrong, failed=True), 1),
        ("a false one", (member, false, member), (make_root, make_member, Stop("y")), (), Walked(member, "y"), 2))
    for name, looks, steps, whys, expected, writes in rows:
        left = list(steps)
        commands, walked = done(partitioning.walk(cpus("1-3"), lambda seen: left.pop(0)), looks, whys)
        check(name, (walked, sum(isinstance(command, Write) for command in commands)), (expected, writes))


def ledger_with(layout: Optional[Layout], held: Mapping[str, Optional[Cpus]] = {}) -> Ledger:
    ledger = ledger_of(partition=layout, system=cpus("0,4-7"))
    ledger.containers = {name: SimpleNamespace(cpus=has) for name, has in held.items()}  # type: ignore[misc]
    return ledger


@case
def wanted() -> None:
    """The CPUs that are not the system's, and those that a container still requests, as far as that is known."""
    check("wanted", print_list(partitioning.wanted_by(ledger_with(FLAT, {"a": cpus("3-4"), "b": None}))), "1-4")
    for layout, seen in ((None, of(ROOT, "1-3")), (FLAT, None)):
        commands, _ = done(partitioning.keep_partition(Turn(ledger_with(layout), Look(1.0, partition=seen)), is_planned=True))
        check(f"{layout}, {seen is None}", commands, [])


@case
def said_of_it() -> None:
    """What is said of one that is broken, and that there is one again where nothing is left to do."""
    turn = Turn(ledger_with(FLAT), Look(1.0, partition=of(ROOT, "1-3", way=((True, True), (True, True)))))
    turn.ledger.problems[Topic.PARTITION, ""] = Problem(Kind.PARTITION, "", "x")
    commands, _ = done(partitioning.keep_partition(turn, is_planned=True))
    check("again", (said(commands), turn.ledger.problems), (["partition /c/p: root again"], {}))
    shares = of(INVALID, "1-3", "1-3", "1-3", beside=(beside("3,5", near=False),), way=((True, True),) * 3)
    turn = Turn(ledger_with(DEEP), Look(1.0, partition=shares))
    turn.ledger.pauses[Topic.PARTITION.value, ""] = Pause(99.0, 1.0)
    commands, _ = done(partitioning.keep_partition(turn, is_planned=True))
    check("who beside a group above only shares a CPU is not blamed", said(commands), [f"partition /c/a/b: {INVALID}"])
    check("pauses of their own", [partitioning.pause_of(seen) for seen in (of(ROOT, "1-3"), of(MEMBER, "1-3"))], ["resize", "partition"])


@case
def outcomes() -> None:
    """What came of a walk: what failed is tried again behind a pause, and what is as it is to be behind the plan ends all of them."""
    pauses = {(topic.value, ""): Pause(99.0, 1.0) for topic in (Topic.PARTITION, Topic.RESIZE)}
    valid, more, broken = of(ROOT, "1-3"), of(ROOT, "1-4"), of(INVALID, "1-2")
    rows: Sequence[Tuple[str, Partition, Walked, bool, List[str], Dict[str, Kind], List[str]]] = (
        ("not planned", valid, Walked(valid), False, [], {}, ["partition", "resize"]),
        ("planned", valid, Walked(valid), True, [], {}, []),
        ("more", valid, Walked(more), True, ["partition /c/p: 1-4 in place of 1-3"], {}, []),
        ("valid again, with others", broken, Walked(valid), True, [], {}, []),
        ("more that failed", valid, Walked(valid, "denied", True), True, ["failed denied"], {"resize": Kind.FAILED}, ["partition", "resize"]),
        ("more that failed before the plan", valid, Walked(valid, "denied", True), False, ["failed denied"], {"resize": Kind.FAILED}, ["partition", "resize"]),
        ("what stands against it", valid, Walked(valid, "/c/x requests 4"), True, ["partition /c/p: /c/x requests 4"], {"resize": Kind.PARTITION}, []),
        ("and before the plan", valid, Walked(valid, "/c/x requests 4"), False, [], {}, ["partition", "resize"]))
    for name, before, walked, is_planned, lines, problems, left in rows:
        turn = Turn(ledger_with(FLAT), Look(1.0, partition=before))
        turn.ledger.pauses = dict(pauses)
        commands, _ = done(partitioning.say_outcome(turn, FLAT, walked, is_planned))
        check(name, (said(commands), {topic.value: problem.kind for (topic, _), problem in turn.ledger.problems.items()}, sorted(what for what, _ in turn.ledger.pauses)),
              (lines, problems, left))
        check(f"{name}: as it is seen by now", turn.look.partition, walked.seen)
