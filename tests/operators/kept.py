"""Tries what the agent keeps from look to look: the files of groups, which stay open, what watched folders tell, and what it decided. Whoever writes a
file, puts another one in its place, takes it away, or makes a folder anew, is seen at the next look, as by one who opens each file anew; and a look that
finds anything else than the last one is worked through."""

from __future__ import annotations

import dataclasses
import os
import random
import resource
from typing import Any, Dict, Iterable, List, Optional, Tuple
from unittest import mock

from decided import as_given, container, cpus, done, ledger_of, said
from trial import case, check, scratch, written
from numarun_host import kept_files
from numarun_host.cgroups import READ, Groups
from numarun_host.commands import Command, LeaveFigures, LeaveState, Say
from numarun_host.cpus import print_list
from numarun_host.decide import decide
from numarun_host.kept_files import GroupFiles
from numarun_host.ledger import Kind, Ledger, Pause, Problem, State, Topic
from numarun_host.runtimes import Watch
from numarun_host.seen import Double, Folder, Group, Look, Missing, NoGroup, Online, Unread
from numarun_host.sources import Folders

LONG_AGO = 1_600_000_000  # seconds: a folder that is as it was then has not changed for a while
TEXTS = ("1-2\n", "0\n", "1-2\n", "max 100000\n", "populated 1\nfrozen 0\n")


def make_old(path: str) -> None:
    os.utime(path, (LONG_AGO, LONG_AGO))


def group(name: str, texts: Iterable[Optional[str]] = TEXTS) -> str:
    """A group with these files, some of them not there, which has been as it is for a while."""
    path = scratch(name)
    os.makedirs(path)
    for file, text in zip(READ, texts):
        if text is not None:
            written(os.path.join(path, file), text)
    make_old(path)
    return path


def put(path: str, text: str) -> None:
    """Another file in the place of one."""
    os.rename(written(scratch("another"), text), path)


def looked_at(groups: Groups, path: str) -> Group:
    found = groups.look_at(path)
    groups.end_look()
    assert isinstance(found, Group), found
    return found


def cpus_of(groups: Groups, path: str) -> str:
    return print_list(looked_at(groups, path).cpus)


def opened() -> int:
    return len(os.listdir("/proc/self/fd"))


@case
def the_same() -> None:
    """A group that has not changed is the same object, and its files are looked for once."""
    groups, path = Groups(scratch()), group("a")
    first, before = looked_at(groups, path), opened()
    with mock.patch.object(kept_files, "open_file", side_effect=AssertionError("a file is opened")):
        check("the same object", all(looked_at(groups, path) is first for _ in range(3)), True)
    check("as many files open", opened(), before)
    groups.files.close_all()
    check("and closed", opened(), before - len(READ))


@case
def written_by_others() -> None:
    """What somebody writes into a file, or puts in its place, or takes away, is seen, at once and however often."""
    groups, path = Groups(scratch()), group("a")
    cpus, limit = os.path.join(path, "cpuset.cpus"), os.path.join(path, "cpu.max")
    check("at first", cpus_of(groups, path), "1-2")
    for text in ("3", "4-5", "1-2", ""):
        written(cpus, text)
        check(f"written: {text!r}", cpus_of(groups, path), text or "-")
    for k in range(20):
        put(cpus, f"{k % 7}\n")
        check(f"put in its place: {k}", cpus_of(groups, path), str(k % 7))
    make_old(path)
    for text in ("6", "7"):
        check("before", cpus_of(groups, path) != text, True)
        put(cpus, text)
        check(f"put in the place of an old one: {text}", cpus_of(groups, path), text)
    make_old(path)
    looked_at(groups, path)
    os.remove(limit)
    check("taken away", looked_at(groups, path).limit, None)
    written(limit, "200000 100000")
    check("and there again", looked_at(groups, path).limit, (200000, 100000))
    for file, text in (("cpuset.mems", "1"), ("cpuset.cpus.effective", "5"), ("cgroup.events", "populated 0")):
        written(os.path.join(path, file), text)
    found = looked_at(groups, path)
    check("the other files", (found.nodes, found.effective, found.populated), ({1}, {5}, False))


@case
def anew() -> None:
    """Another group of the same path is another one, with what its own files have."""
    groups, path = Groups(scratch()), group("a")
    first = looked_at(groups, path)
    os.rename(path, scratch("gone"))
    check("gone", groups.look_at(path), NoGroup(f"{path}: no such group"))
    group("a", ("5\n", *TEXTS[1:]))
    second = looked_at(groups, path)
    check("another one", (second.inode == first.inode, print_list(second.cpus)), (False, "5"))
    check("and not that before", cpus_of(groups, path), "5")
    os.rename(path, scratch("gone-too"))
    group("a", ("6\n", *TEXTS[1:]))
    check("another one between two looks", cpus_of(groups, path), "6")
    written(scratch("gone/cpuset.cpus"), "7")
    check("what the first one has is nobody's", cpus_of(groups, path), "6")


@case
def removed() -> None:
    """The kernel lets nobody read a file that was removed, as those of a controller that is taken away from a group: they are opened anew, and those
    that are there again too. Here a closed one stands for such a file."""
    groups, path = Groups(scratch()), group("a")
    looked_at(groups, path)
    written(os.path.join(path, "cpuset.cpus"), "3")
    make_old(path)
    kept = groups.files.kept[path]
    null = os.open(scratch(), os.O_RDONLY)
    os.dup2(null, kept.files[0])
    check("a file that can't be read any more", cpus_of(groups, path), "3")
    os.close(null)
    for file in READ[:3]:
        os.rename(os.path.join(path, file), scratch(file))
    check("no cpuset", groups.look_at(path), NoGroup(f"{path}: no cpuset.cpus in it", folder=True))
    groups.end_look()
    for file in READ[:3]:
        os.rename(scratch(file), os.path.join(path, file))
    make_old(path)
    check("and again", cpus_of(groups, path), "3")


@case
def long_lists() -> None:
    """A list of more bytes than are read at once is read to its end, however its end changes."""
    groups, path, many = Groups(scratch()), group("a"), ",".join(str(cpu) for cpu in range(0, 1000, 2))
    for size in (399, 400, 401, 799, 800, 801, len(many)):
        text = many[:size].rpartition(",")[0].ljust(size)
        written(os.path.join(path, "cpuset.cpus"), text)
        check(f"a list of {size} bytes", len(looked_at(groups, path).cpus), text.count(",") + 1)
    written(os.path.join(path, "cpuset.cpus"), many + ",4001")
    check("with another end", 4001 in looked_at(groups, path).cpus, True)
    written(os.path.join(path, "cpuset.cpus"), many + ",4003")
    check("and with yet another one", sorted(looked_at(groups, path).cpus)[-1], 4003)


@case
def as_many_as_may_be() -> None:
    """No more files stay open than may, and what is seen is the same; those of groups that are gone, or nobody's any more, are closed."""
    paths, before = [group(f"g{k}") for k in range(6)], opened()
    groups = Groups(scratch())
    groups.files.room = 2 * len(READ) + 1
    for _ in range(3):
        check("each is seen", [print_list(found.cpus) for path in paths for found in [groups.look_at(path)] if isinstance(found, Group)], ["1-2"] * 6)
        groups.end_look()
        check("of two the files stay open", (opened() - before, groups.files.room), (2 * len(READ), 1))
    for k, path in enumerate(paths):
        written(os.path.join(path, "cpuset.cpus"), str(k))
    check("each is seen anew", [cpus_of(groups, path) for path in paths], [str(k) for k in range(6)])
    looked_at(groups, paths[3])
    check("of those that are nobody's they are closed", (opened() - before, list(groups.files.kept)), (len(READ), [paths[3]]))
    os.rename(paths[3], scratch("gone"))
    groups.look_at(paths[3])
    check("and of one that is gone", (opened() - before, groups.files.room), (0, 2 * len(READ) + 1))


@case
def young_folders() -> None:
    """Of a folder that has just changed nothing stays open, since another change may leave the same time."""
    files, path = GroupFiles(READ, 100), group("a")
    now = 1_700_000_000_000_000_000
    with mock.patch("time.time_ns", lambda: now):
        for age, kept in ((0, False), (kept_files.YOUNG, False), (kept_files.YOUNG + 1, True), (-5_000_000_000, False)):
            files.close_all()
            files.read(path, 1, now - age)
            check(f"changed {age} ns ago", path in files.kept, kept)


@case
def limits_of_files() -> None:
    """The process may have as many files open as the system lets it, up to a bound; what is left to all else is not kept."""
    for soft, hard, allowed, kept in ((1024, 524288, 16384, 15872), (1024, 4096, 4096, 3584), (1024, 1024, None, 512), (256, 256, None, 0),
                                      (20000, 20000, None, 15872), (1024, resource.RLIM_INFINITY, 16384, 15872),
                                      (resource.RLIM_INFINITY, resource.RLIM_INFINITY, None, 15872)):
        limit, asked = [(soft, hard)], list[object]()

        def let(_: int, limits: object, asked: List[object] = asked) -> None:
            asked.append(limits)

        with mock.patch.object(resource, "getrlimit", lambda _, limit=limit: limit[0]), mock.patch.object(resource, "setrlimit", let):
            kept_files.allow_files()
            check(f"allowed of {soft} and {hard}", asked, [] if allowed is None else [(allowed, hard)])
            limit[0] = (soft if allowed is None else allowed, hard)
            check(f"kept of {soft} and {hard}", kept_files.files_to_keep(), kept)


@case
def as_by_one_who_opens_each() -> None:
    """Whatever happens to the groups of a tree, by chance: each look finds what one finds who keeps nothing."""
    chance, paths, count = random.Random(20261129), [scratch(f"t{k}") for k in range(4)], 0
    keeps = Groups(scratch())
    for turn in range(3000):
        path = chance.choice(paths)
        way, file = chance.randrange(9), os.path.join(path, chance.choice(READ))
        text = chance.choice(("", "1", "2-3", "0-5", "populated 0", "populated 1", "100000 100000", "x" * 500))
        count += 1
        if not os.path.isdir(path):
            group(os.path.basename(path), [chance.choice((text, None)) for _ in READ] if way < 3 else TEXTS)
        elif way == 0:
            os.rename(path, scratch(f"gone-{count}"))
        elif way == 1 and os.path.exists(file):
            os.remove(file)
        elif way in (2, 3):
            put(file, text)
        elif way == 4:
            make_old(path)
        elif way in (5, 6) and os.path.exists(file):
            written(file, text)
        found: Dict[str, object] = {path: keeps.look_at(path) for path in paths}
        keeps.end_look()
        plain = Groups(scratch())
        plain.files.room = 0
        expected: Dict[str, object] = {path: plain.look_at(path) for path in paths}
        if found != expected:
            check(f"turn {turn}, way {way}", found, expected)
            return
    check("some stay open", bool(keeps.files.kept), True)


# Watched folders.


@case
def folders_again() -> None:
    """A watched folder of which the entries are the same tells the same; what comes, goes or changes in it is told at the next look."""
    root = scratch("g")
    os.makedirs(root)
    source = Folders([Watch(root)])

    def bundle(name: str) -> None:
        os.makedirs(os.path.join(root, name))
        written(os.path.join(root, name, "config.json"), "{}")

    bundle("a")
    bundle("b")
    source.look()
    told = source.told
    source.look()
    check("the same", source.told is told and sorted(told) == ["a", "b"], True)
    bundle("c")
    source.look()
    check("one more", sorted(source.told), ["a", "b", "c"])
    os.rename(os.path.join(root, "a"), scratch("a"))
    source.look()
    check("one less", sorted(source.told), ["b", "c"])
    os.rename(os.path.join(root, "b"), os.path.join(root, "d"))
    source.look()
    check("another name", sorted(source.told), ["c", "d"])
    os.makedirs(os.path.join(root, "stranger"))
    source.look()
    check("a stranger", (source.folders[0].entries, source.folders[0].containers, source.folders[0].stranger), (3, 2, "stranger"))
    check("nothing is kept of who is gone", sorted(source.known), [os.path.join(root, name) for name in ("c", "d")])
    before = source.told["c"]
    os.rename(os.path.join(root, "c"), scratch("c"))
    bundle("c")
    written(os.path.join(root, "c", "status"), '{"pid": 1, "cgroup-path": "/x"}')
    source.look()
    check("another one of its name", (source.told["c"] is before, source.known[os.path.join(root, "c")][1].kept.group), (False, "/x"))


@case
def folders_unread() -> None:
    """One that can't be read has what it had, and the others tell who comes and who ends. Of a family that can't be read each folder that was there
    is looked at."""
    def bundle(*names: str) -> None:
        os.makedirs(scratch(*names))
        written(scratch(*names, "config.json"), "{}")

    def told(*sources: Folders) -> List[List[str]]:
        for source in sources:
            source.look()
        return [sorted(source.told) for source in sources]

    def lines(source: Folders) -> List[str]:
        return [unread.line for unread in source.unread]

    bundle("g", "a")
    bundle("family", "x", "c")
    for name in ("file", "g/no-folder"):
        written(scratch(name), "")
    os.symlink(scratch("circle"), scratch("circle"))
    bad = Folders([Watch(scratch(name)) for name in ("file", "circle", "no\0name", "g")])
    family = Folders([Watch(scratch("family/*"), True), Watch(scratch("g"))])
    check("the good ones", told(bad, family), [["a"], ["a", "c"]])
    said = [f"{scratch('file')}: Not a directory", f"{scratch('circle')}: Too many levels of symbolic links", f"{scratch('no')}\0name: embedded null byte"]
    check("why", (lines(bad), lines(family)), (said, []))
    check("no folder is taken for none", [(folder.there, folder.entries) for folder in bad.folders], [(True, 0)] * 3 + [(True, 2)])
    bundle("g", "b")
    os.rename(scratch("family"), scratch("away"))
    written(scratch("family"), "")
    check("who comes", told(bad, family), [["a", "b"], ["a", "b", "c"]])
    check("the family", lines(family), [f"{scratch('family')}: Not a directory", f"{scratch('family/x')}: Not a directory"])
    os.rename(scratch("g"), scratch("gone"))
    os.symlink(scratch("circle"), scratch("g"))
    check("none is taken for ended", told(bad, family), [["a", "b"], ["a", "b", "c"]])
    os.remove(scratch("family"))
    os.rename(scratch("away"), scratch("family"))
    os.rename(scratch("family/x/c"), scratch("c"))
    check("who ends", (told(family), len(lines(family))), ([["a", "b"]], 1))


# What is decided where nothing is otherwise.


def resting(**settings: Any) -> Tuple[Ledger, Look]:
    """What is known behind a look at which nothing was to be done, of one that is pinned and one that waits; and that look."""
    p, w = container("p", State.PINNED, 1, cpus=cpus("2")), container("w", State.WAITING, cpus=cpus("0-1,3-7"))
    ledger = ledger_of(p, w, **settings)
    ledger.problems[Topic.ROOM, "w"] = Problem(Kind.WAITS, "w", "w: short")
    ledger.pool = cpus("0-1,3-7")
    told = {"p": as_given(p), "w": as_given(w)}
    look = Look(10.0, told, {found.group.path: found.group for found in told.values()}, Online(ledger.running))
    for now in (10.0, 11.0):
        _, ledger = done(decide(ledger, dataclasses.replace(look, now=now)))
    return ledger, look


def again(ledger: Ledger, look: Look) -> Tuple[List[Command], Ledger]:
    """A look, which is no work where it finds what the last one did."""
    with mock.patch("numarun_host.decide.work_through", side_effect=AssertionError("it is worked through")):
        return done(decide(ledger, look))


@case
def at_rest() -> None:
    """A look that finds what the last one did, behind which nothing was to be done, is no work. What time alone brings goes on."""
    ledger, look = resting(figures="f")
    check("at rest", ledger.rest, look)
    same = dataclasses.replace(look, now=12.0, free_memory={0: 1}, told={name: dataclasses.replace(found) for name, found in look.told.items()})
    commands, after = again(ledger, same)
    check("nothing is said, and nothing is known anew", ([command for command in commands if not isinstance(command, LeaveFigures)], after.stands_as(ledger)), ([], True))
    check("seconds go on", (after.times["waited_seconds_total"] - ledger.times["waited_seconds_total"], after.looked), (1.0, 12.0))
    check("and figures", [command.figures["waited_seconds_total"] for command in commands if isinstance(command, LeaveFigures)], [after.times["waited_seconds_total"]])
    check("it stays at rest", again(after, dataclasses.replace(look, now=13.0))[1].rest, look)
    commands, failed = done(decide(ledger, same), faults={LeaveFigures: "f: Read-only file system"})
    check("figures that can't be left", (said(commands), sum(isinstance(command, LeaveState) for command in commands)), (["failed f: Read-only file system"], 1))
    check("and are left again", (Topic.RECORD, "f") in done(decide(failed, dataclasses.replace(look, now=14.0)))[1].problems, False)


@case
def wakened() -> None:
    """Whatever a look finds otherwise is worked through, as is all that is known otherwise, or waits for its time."""
    ledger, look = resting()
    p, (path, group) = look.told["p"], next(iter(look.groups.items()))
    assert isinstance(group, Group) and not isinstance(p, Missing)
    other = dataclasses.replace(p, group=dataclasses.replace(group, cpus=cpus("3")))
    others: Dict[str, Dict[str, Any]] = {
        "a write": {"told": {**look.told, "p": other}, "groups": {**look.groups, path: other.group}},
        "a limit": {"told": {**look.told, "p": dataclasses.replace(p, group=dataclasses.replace(group, limit=(1, 2)))}},
        "a config": {"told": {**look.told, "p": dataclasses.replace(p, stamp=("t",))}},
        "a group that is gone": {"groups": {**look.groups, path: NoGroup("gone")}},
        "one who is gone": {"told": {"p": p}},
        "one who can't be seen": {"told": {**look.told, "p": Missing(p.told, "gone")}},
        "one who stopped": {"told": {**look.told, "p": dataclasses.replace(p, stopped=True)}},
        "one who comes": {"told": {**look.told, "n": dataclasses.replace(p, group=Group("/t/n", 3))}},
        "a CPU": {"online": Online(cpus("0-6"))},
        "an event": {"events": ("rebalance",)},
        "a line": {"wrong": ("line 1",)},
        "a slice": {"slices": ("s.slice",)},
        "what is below it": {"below": {"/t/s.slice": ("x",)}},
        "its processes": {"busy": frozenset({"/t/s.slice"})},
        "a folder": {"folders": (Folder("/g", False),)},
        "a double": {"doubles": (Double("p", "/g/p", "/h/p"),)},
        "a name": {"titles": {"p": "web"}},
        "a folder that can't be read": {"unread": (Unread("/g", "/g: Permission denied"),)},
        "the pool's command": {"pool_command": "true", "pool_fault": "status 1"}}
    for name, parts in others.items():
        try:
            again(ledger, dataclasses.replace(look, **parts))
            check(name, "no work", "worked through")
        except AssertionError as why:
            check(name, str(why), "it is worked through")


@case
def no_rest() -> None:
    """Nothing rests behind a look at which something was said or done, or something is known otherwise, or as long as something waits for its time."""
    ledger, look = resting()
    others: Dict[str, Dict[str, Any]] = {
        "a problem that is settled": {"problems": {(Topic.LOOK, ""): Problem(Kind.FAILED, "", "f")}},
        "a plan that is due": {"due": True},
        "a pause": {"pauses": {("container", "p"): Pause(99.0, 1.0)}},
        "one of whom nothing is known": {"containers": {"w": ledger.containers["w"]}}}
    for name, parts in others.items():
        before = ledger.copy()
        before.rest = None
        for part, value in parts.items():
            setattr(before, part, value)
        commands, after = done(decide(before, look))
        check(name, (after.rest, bool([command for command in commands if isinstance(command, Say)])), (None, name.startswith(("a plan", "one"))))
    commands, after = done(decide(ledger, dataclasses.replace(look, wrong=("line 1",))))
    check("a line that is said", (said(commands), after.rest), (["refused: line 1"], None))
    for _ in range(2):
        commands, after = done(decide(after, dataclasses.replace(look, wrong=("line 1",))))
        check("and each time that it is there", (said(commands), after.rest), (["refused: line 1"], None))
    _, after = done(decide(after, look))
    check("and what is the same behind it", after.rest, look)
    check("what was known before the look is as it was", ledger.rest, look)
