"""Tries --partition without the program, over a model of the kernel's rules (partition_kernel.py): by chance, where others write into groups
beside and upon it, containers hold CPUs, the system's CPUs change, CPUs go, and the agent is killed at any write; with wrong bodies in the
place of the rule, of which each has to be seen; and what is said, made, refused and given back, by hand."""

from __future__ import annotations

import contextlib
import dataclasses
import os
import random
from types import SimpleNamespace
from typing import Callable, Dict, Iterator, List, Mapping, Optional, Sequence, Tuple
from unittest import mock

from partition_kernel import NOT_EXCLUSIVE, NO_SUCH, TOP, UNABLE, Eyes, Kernel, Killed, World, cpus
from trial import EXAMPLES, case, check, long_case, scratch, text_of, written
from numarun_host import cgroups, partition, partition_files, partitioning
from numarun_host.commands import Answer, LookAtPartition, MakeGroup, Say, Steps, Write
from numarun_host.cpus import NO_CPUS, Cpus, print_list
from numarun_host.ledger import Ledger, Settings
from numarun_host.machine import Machine, add_cpus
from numarun_host.partition import CONTROLS, CPUS_FILE, FILE, MEMBER, ROOT, Beside, Layout, Loose, Partition, Step, Stop
from numarun_host.partition_files import Before, give_back, layout_of, make
from numarun_host.partitioning import keep_partition, wanted_by
from numarun_host.script import Refused
from numarun_host.seen import Look
from numarun_host.telling import Turn

CASES = int(os.environ.get("CASES", 2000))
SEED = 20261129
CPUS = frozenset(range(8))
PRESENT = CPUS - {0}
MACHINE = Machine(os.path.join(EXAMPLES, "machines", "two-socket.json"))
MOST_HISTORIES = 2000  # in which each wrong body is seen
ENOUGH = 12  # looks in which all is as it is to be, once nobody stands against it


class Wrong(AssertionError):
    """What no agent may bring about."""


@contextlib.contextmanager
def over(kernel: Kernel) -> Iterator[None]:
    """The files are the model's."""
    with mock.patch.multiple(partition_files, **kernel.patches()), \
            mock.patch.object(os, "mkdir", kernel.mkdir), mock.patch.object(os, "rmdir", kernel.rmdir), \
            mock.patch.object(partition_files, "PartitionFiles", lambda layout, _: Eyes(kernel, layout)):
        yield


# By chance.


def lines_back() -> List[str]:
    """What is said where a partition is given back. Where that fails, each line says so."""
    found = give_back("")
    check("failed", found.failed, bool(found.lines) and all(line.startswith("failed ") for line in found.lines))
    return list(found.lines)


def begun(system: Cpus, layout: Layout, present: Cpus = PRESENT) -> Ledger:
    machine = SimpleNamespace(present=present)
    return Ledger(dataclasses.replace(Settings(MACHINE, partition=layout, system=system), machine=machine))


def hold(ledger: Ledger, held: Mapping[str, Cpus]) -> None:
    """The containers and what they request, of which nothing else is asked here."""
    ledger.containers = {name: SimpleNamespace(cpus=has) for name, has in held.items()}  # type: ignore[misc]


def done(eyes: Eyes, kernel: Kernel, steps: Steps[None]) -> List[str]:
    """Does what is decided; the lines that are said."""
    lines: List[str] = []
    try:
        command = next(steps)
        while True:
            answer = Answer()
            if isinstance(command, LookAtPartition):
                answer = Answer(partition=eyes.sight(command.cpus))
            elif isinstance(command, MakeGroup):
                answer = Answer(why=eyes.make_group(command.path))
            elif isinstance(command, Write):
                answer = Answer(why=kernel.write(f"{command.path}/{command.file}", command.text))
            elif isinstance(command, Say):
                lines.append(command.line)
            command = steps.send(answer)
    except StopIteration:
        return lines


def turned(ledger: Ledger, eyes: Eyes, now: float) -> List[str]:
    """One look and what comes of it before the plan and behind it; the lines that are said."""
    turn = Turn(ledger, Look(now, partition=eyes.sight(None)))
    lines = done(eyes, eyes.kernel, keep_partition(turn, is_planned=False))
    return lines + done(eyes, eyes.kernel, keep_partition(turn, is_planned=True))


class History:
    """An agent and its world, from a tree in which the group may be there already. It begins, turns, is killed, begins again, and gives back."""

    def __init__(self, chance: random.Random) -> None:
        self.chance = chance
        deep = chance.random() < 0.4
        self.kernel = Kernel(CPUS, is_new=deep or chance.random() < 0.5)
        self.layout = layout_of(TOP, "a/b" if deep else "pinned")
        self.kernel.tub = self.layout.path
        self.system: Cpus = NO_CPUS
        self.ledger = begun(NO_CPUS, self.layout)
        self.held: Dict[str, Cpus] = {}
        self.now = 0.0
        self.was_there = chance.random() < 0.5
        if self.was_there:
            self.kernel.nodes[TOP].gives = True
            for group in self.layout.groups:
                self.kernel.make(group, gives=True)
            self.kernel.nodes[self.layout.path].cpus = frozenset(chance.sample(range(8), chance.randrange(4)))
        self.inode, self.had = self.kernel.inode(self.layout.path), self.cpus_of(self.layout.path)
        self.world = World(self.kernel, chance, self.layout, chance.choice((0.0, 0.02, 0.1)))

    def cpus_of(self, path: str) -> Cpus:
        return self.kernel.nodes[path].cpus if path in self.kernel.nodes else NO_CPUS

    def judge(self) -> None:
        if self.kernel.breaks:
            raise Wrong(self.kernel.breaks[0])

    def begin(self) -> bool:
        """An agent begins; whether it was taken."""
        self.ledger = begun(self.system, self.layout)
        try:
            make(self.layout, PRESENT - self.system, "")
        except Refused:
            return False
        self.eyes = Eyes(self.kernel, self.layout)
        return True

    def container(self) -> None:
        """A container comes into the partition, moves to CPUs that it is to have, or goes."""
        kernel, name = self.kernel, self.chance.choice("dn")
        path = f"{self.layout.path}/{name}"
        free = PRESENT - self.system - NO_CPUS.union(*(has for other, has in self.held.items() if other != name)) & kernel.online
        if self.layout.path not in kernel.nodes or not free:
            return
        kernel.moved = True
        if name in self.held and self.chance.random() < 0.3:
            del self.held[name]
            kernel.nodes.pop(path, None)
            return
        if path not in kernel.nodes:
            kernel.make(path, processes=True)
        kernel.nodes[self.layout.path].gives = True
        self.held[name] = kernel.nodes[path].cpus = frozenset(self.chance.sample(sorted(free), min(len(free), self.chance.randrange(1, 3))))

    def turn(self) -> None:
        self.now += self.chance.choice((0.1, 1.0, 100.0))
        hold(self.ledger, self.held)
        self.ledger.due = self.chance.random() < 0.2
        turned(self.ledger, self.eyes, self.now)

    def go_on(self) -> None:
        """Some turns, and agents that are killed at any write, between which all of this happens."""
        runs = False
        for _ in range(self.chance.randrange(3, 16)):
            if self.chance.random() < 0.3:
                self.container()
            if self.chance.random() < 0.1:
                self.system = frozenset(self.chance.sample(range(1, 8), self.chance.randrange(3)))
                runs = False
            self.kernel.kills = self.chance.randrange(8) if self.chance.random() < 0.25 else None
            try:
                runs = runs or self.begin()
                if runs:
                    self.turn()
            except Killed:
                runs = False
            self.judge()
        self.kernel.kills = None

    def settle(self) -> None:
        """Nobody stands against it any more: then it is valid within some looks, and has what it is to have."""
        kernel = self.kernel
        self.world.share = 0.0
        kernel.plug(CPUS)
        for path in [path for path in kernel.nodes if path.rpartition("/")[2] in "stx"]:
            del kernel.nodes[path]
        kernel.moved = True
        if self.layout.path in kernel.nodes and kernel.nodes[self.layout.path].text != MEMBER and kernel.record is None:
            return  # somebody else's, which is no agent's to mend
        self.held = {name: has for name, has in self.held.items() if f"{self.layout.path}/{name}" in kernel.nodes}
        self.system = self.system - NO_CPUS.union(*self.held.values())
        if not self.begin():
            raise Wrong("an agent is refused, though nobody stands against it")
        for _ in range(ENOUGH):
            self.now += 1000
            hold(self.ledger, self.held)
            turned(self.ledger, self.eyes, self.now)
        self.judge()
        seen = self.eyes.sight(NO_CPUS)
        if not seen.is_valid or set(seen.has) != {wanted_by(self.ledger)} or self.ledger.problems:
            raise Wrong("it is no partition, though nobody stands against it")

    def give_back(self) -> None:
        """Killed or not, in the end all is as it was, or it is said what is not."""
        kernel, path = self.kernel, self.layout.path
        kept = kernel.record
        for _ in range(self.chance.randrange(3)):
            kernel.kills = self.chance.randrange(4)
            with contextlib.suppress(Killed):
                lines_back()
            kernel.kills = None
            if kernel.record is None:
                return
        self.world.share = 0.0
        free = sorted(self.had - self.cpus_of(path)) if kept and kept.inode == self.inode and TOP == path.rpartition("/")[0] else []
        if free and self.chance.random() < 0.3:
            kernel.make("/c/s", cpus=frozenset(free[:1]), text=ROOT)
        lines = lines_back() or ["given back"]
        self.judge()
        if any(line.startswith("failed ") for line in lines):
            if kernel.record is None:
                raise Wrong("what could not be given back is forgotten")
            return
        if kept is None or path not in kernel.nodes:
            return
        node, had = kernel.nodes[path], cpus(kept.files[f"{path}/{CPUS_FILE}"])
        whole = kernel.is_populated(path) and not had and node.cpus == kernel.effective(TOP)
        is_other = kept.inode not in (0, node.inode)
        if not is_other and (node.text != MEMBER or node.exclusive or not (node.cpus == had or whole)):
            raise Wrong("it is not given back")
        if whole and node.cpus and not self.said(lines):
            raise Wrong("it is not said what could not be given back")

    def said(self, lines: List[str]) -> bool:
        return lines == ["given back"] or any("since it has processes" in line for line in lines)


def by_chance(number: int) -> None:
    history = History(random.Random(SEED * 1_000_000 + number))
    with over(history.kernel):
        history.kernel.world = history.world
        history.go_on()
        if history.chance.random() < 0.7:
            history.settle()
        history.give_back()


@long_case
def decided_by_chance() -> None:
    for number in range(CASES):
        try:
            by_chance(number)
        except Wrong as why:
            raise AssertionError(f"history {number}: {why}") from why


# Wrong bodies, each of which a property has to see.


def without_asking(layout: Layout, seen: Partition, cpus: Cpus, has: Cpus = NO_CPUS) -> List[str]:
    return []


def without_sparing(seen: Partition, cpus: Cpus) -> Tuple[Cpus, List[str]]:
    return cpus, []


def that_believes_the_text(layout: Layout, seen: Partition, wanted: Cpus) -> Step:
    """It takes any text that begins with `root` for a valid one, and gives it CPUs."""
    if (seen.text or "").startswith(ROOT) and seen.cpus != wanted:
        return Write(layout.path, CPUS_FILE, print_list(wanted))
    return right_step(layout, seen, wanted)


def that_only_tells_it_again(layout: Layout, seen: Partition, wanted: Cpus) -> Step:
    """It makes an invalid one no member first."""
    step = right_step(layout, seen, wanted)
    return Write(layout.path, FILE, ROOT) if step == Write(layout.path, FILE, MEMBER) else step


def that_makes_no_group(layout: Layout, seen: Partition) -> None:
    return None


def back_without_all(layout: Layout, seen: Partition, before: Mapping[str, str]) -> Step:
    """It gives up where the kernel takes no empty list, and says nothing."""
    step = right_back(layout, seen, before)
    return Stop() if isinstance(step, Write) and step.file == CPUS_FILE else step


def back_by_member_alone(layout: Layout, seen: Partition, before: Mapping[str, str]) -> Step:
    return right_back(layout, seen, {})


def undone_and_forgotten(before: Before, work: str) -> List[str]:
    faults = right_undo(before, work)
    partition_files.forget(work)
    return faults


right_step, right_back, right_undo = partition.next_step, partition.step_back, partition_files.undo
WRONG: List[Tuple[str, List[object], str, Callable[..., object]]] = [
    ("an invalid one is given CPUs", [partitioning, partition_files], "next_step", that_believes_the_text),
    ("another partition is broken", [partition], "stands_against", without_asking),
    ("a group below is left with none", [partition], "spared", without_sparing),
    ("it is no partition, though nobody stands against it", [partitioning, partition_files], "next_step", that_only_tells_it_again),
    ("an agent is refused, though nobody stands against it", [partition], "next_of_way", that_makes_no_group),
    ("it is not given back", [partition_files], "step_back", back_without_all),
    ("it is not given back", [partition_files], "step_back", back_by_member_alone),
    ("what could not be given back is forgotten", [partition_files], "undo", undone_and_forgotten),
]


@case
def wrong_bodies() -> None:
    """Each breaks its property in one of the first histories."""
    for wanted, modules, name, body in WRONG:
        with contextlib.ExitStack() as stack:
            for module in modules:
                stack.enter_context(mock.patch.object(module, name, body))
            found = set()
            for number in range(MOST_HISTORIES):
                try:
                    by_chance(number)
                except Wrong as why:
                    found.add(str(why))
                    if wanted in found:
                        break
            check(f"{name}: {body.__name__}", wanted in found, True)


# By hand.


@case
def as_seen() -> None:
    """What a group beside asks of some CPUs: of those of one beside a group above its exclusive ones, or all that it requests if they are no part of it, but the
    whole. What the tree's root would have without the partition, whether it is valid, and what is said of one that is not."""
    for near, asked, expected in ((True, "2,5,7", "2,5"), (True, "6", ""), (False, "1-6", "1-3,5"), (False, "2-6", "5"), (False, "1-3", "1-3"), (False, "1-2", "")):
        check(f"{near} {asked}", Beside("/g", cpus("1-3"), cpus("5"), near).asks(cpus(asked)), cpus(expected))
    for text, above, online in ((ROOT, "0", "0-2"), ("isolated", "0", "0-2"), (MEMBER, "0-2", "0-2"), (MEMBER, "0", "0"), (ROOT, None, None), (None, "0-2", "0-2")):
        seen = Partition(text, (cpus("1-2"),), cpus("1-2"), None if above is None else cpus(above))
        check(f"online with {text}, {above}", seen.online, None if online is None else cpus(online))
    check("nothing is seen", (Partition(None).cpus, Partition(None, (None,)).cpus, Partition(None, (cpus("1"),)).cpus), (NO_CPUS, NO_CPUS, cpus("1")))
    beside = (Beside("/g", cpus("2")),)
    for text, has, others, valid in ((ROOT, 1, (), True), (ROOT, 1, beside, False), (ROOT, 3, beside, True), (MEMBER, 3, (), False), (UNABLE, 1, (), False), (None, 1, (), False)):
        check(f"valid: {text} {has} {len(others)}", Partition(text, (cpus("1-2"),) * has, beside=others).is_valid, valid)
    for text, reason, line in ((None, "", "no such file"), ("", "", "nothing"), (UNABLE, "x requests 1", f"{UNABLE}; x requests 1"), (MEMBER, "", MEMBER)):
        check(f"fault: {text} {reason}", Partition(text).fault(reason), line)
    steps: Sequence[Tuple[Optional[Step], str]] = (
        (Write("/c", FILE, ROOT), "/c/cpuset.cpus.partition: 'root' was written, and it is not so"), (MakeGroup("/c"), "/c: it was made, and is not there"), (None, ""))
    for step, said_of in steps:
        check(f"in vain: {step}", partition.in_vain(step), said_of)


@case
def said() -> None:
    """Which lines are said, and how often; the pauses grow while nothing helps."""
    kernel, layout = Kernel(CPUS, is_new=False, tub="/c/pinned"), layout_of(TOP, "pinned")
    with over(kernel):
        make(layout, PRESENT, "")
        ledger, eyes = begun(NO_CPUS, layout), Eyes(kernel, layout)
        check("nothing of a valid one", turned(ledger, eyes, 0.0), [])
        kernel.make("/c/beside")
        kernel.set_cpus("/c/beside", cpus("3"))
        kernel.nodes["/c/pinned"].text = NOT_EXCLUSIVE
        broken = f"partition /c/pinned: {NOT_EXCLUSIVE}; /c/beside requests 3"
        check("broken, with who stands against it", turned(ledger, eyes, 1.0), [broken])
        check("said once, and not tried", (turned(ledger, eyes, 2.0), kernel.nodes["/c/pinned"].text), ([], NOT_EXCLUSIVE))
        kernel.set_cpus("/c/beside", cpus("0"))
        check("made anew once the cause is gone", (turned(ledger, eyes, 3.0), kernel.nodes["/c/pinned"].text, ledger.problems),
              (["partition /c/pinned: root again"], ROOT, {}))
        kernel.nodes["/c/beside"].cpus = cpus("3")
        check("a false root", (turned(ledger, eyes, 4.0), kernel.nodes["/c/pinned"].text),
              (["partition /c/pinned: root; /c/beside requests 3", "partition /c/pinned: member; /c/beside requests 3"], MEMBER))
        kernel.nodes["/c/beside"].cpus = NO_CPUS
        check("and its end", (turned(ledger, eyes, 5.0), kernel.nodes["/c/pinned"].text), (["partition /c/pinned: root again"], ROOT))
        kernel.nodes["/c/pinned"].text = UNABLE
        tries: List[float] = []
        real = kernel.set_text

        def refusing(path: str, text: str) -> Optional[int]:
            tries.extend([now] if text == MEMBER else [])
            real(path, text)
            kernel.nodes[path].text = UNABLE if text == ROOT else MEMBER
            return None
        with mock.patch.object(kernel, "set_text", refusing):
            for now in (float(second) for second in range(10, 300)):
                turned(ledger, eyes, now)
    gaps = [after - before for before, after in zip(tries, tries[1:])]
    check("at growing pauses", gaps, [1.0, 2.0, 4.0, 8.0, 16.0, 32.0, 64.0, 64.0, 64.0, 64.0][:len(gaps)])
    assert len(gaps) >= 8, gaps


@case
def resized() -> None:
    """More CPUs at once, fewer once nobody requests them; never where a plan is due, where somebody requests them, or where a group below would
    be left with none."""
    kernel, layout = Kernel(CPUS, is_new=False, tub="/c/pinned"), layout_of(TOP, "pinned")
    with over(kernel):
        make(layout, PRESENT, "")
        ledger, eyes = begun(cpus("1-2"), layout), Eyes(kernel, layout)
        hold(ledger, {"a": cpus("2-3")})
        check("as long as one requests them", turned(ledger, eyes, 1.0), ["partition /c/pinned: 2-7 in place of 1-7"])
        hold(ledger, {"a": cpus("3-4")})
        ledger.due = True
        check("not before the plan", (turned(ledger, eyes, 2.0), eyes.cpus()), ([], cpus("2-7")))
        ledger.due = False
        check("fewer", turned(ledger, eyes, 3.0), ["partition /c/pinned: 3-7 in place of 2-7"])
        ledger = begun(cpus("6-7"), layout)
        kernel.make("/c/beside", cpus=cpus("1"))
        kernel.make("/c/pinned/x", cpus=cpus("7"), processes=True)
        check("more that somebody requests, and fewer that one below needs", turned(ledger, eyes, 4.0),
              ["partition /c/pinned: 3-5,7 in place of 3-7",
               "partition /c/pinned: /c/beside requests 1; /c/pinned/x would be left with none of its CPUs 7"])
        check("said once", turned(ledger, eyes, 5.0), [])
        kernel.nodes["/c/beside"].cpus, kernel.nodes["/c/pinned/x"].cpus = NO_CPUS, cpus("3")
        check("then", (turned(ledger, eyes, 6.0) + turned(ledger, eyes, 7.0), ledger.problems),
              (["partition /c/pinned: 1-5,7 in place of 3-5,7", "partition /c/pinned: 1-5 in place of 1-5,7"], {}))


@case
def order() -> None:
    """In a deep layout more comes from the top down, and fewer from below."""
    kernel, layout = Kernel(CPUS, tub="/c/a/b"), layout_of(TOP, "a/b")
    written: List[str] = []

    def write(path: str, text: str) -> Optional[str]:
        written.append(f"{path[3:]} {text}")
        return kernel.write(path, text)
    with over(kernel), mock.patch.object(partition_files, "write_file", write):
        make(layout, PRESENT - cpus("7"), "")
        wanted = ["cgroup.subtree_control +cpuset", "a/cgroup.subtree_control +cpuset", "a/cpuset.cpus.exclusive 1-6", "a/b/cpuset.cpus.exclusive 1-6",
                  "a/b/cpuset.cpus 1-6", "a/b/cpuset.cpus.partition root", "a/b/cgroup.subtree_control +cpuset"]
        check("made", written, wanted)
        for asked, names in ((PRESENT, ("a/cpuset.cpus.exclusive", "a/b/cpuset.cpus.exclusive", "a/b/cpuset.cpus")),
                             (cpus("1-5"), ("a/b/cpuset.cpus", "a/b/cpuset.cpus.exclusive", "a/cpuset.cpus.exclusive"))):
            written.clear()
            Eyes(kernel, layout).go(asked, lambda seen: partition.next_step(layout, seen, asked))
            check(print_list(asked), (written, kernel.nodes["/c/a/b"].text), ([f"{name} {print_list(asked)}" for name in names], ROOT))
        written.clear()
        check("given back", (lines_back(), written, sorted(kernel.nodes)),
              (["given back /c/a/b: removed"], ["a/b/cpuset.cpus.partition member", "a/b/cpuset.cpus ", "a/b/cpuset.cpus.exclusive ",
                                                "a/cpuset.cpus.exclusive "], [TOP]))


@case
def loose() -> None:
    """A process is named once, and again once it went and came."""
    ledger, found = begun(NO_CPUS, layout_of(TOP, "pinned")), (Loose(7, "sh", cpus("3")),)
    said = [[command.line for command in partitioning.say_loose(ledger, one) if isinstance(command, Say)] for one in (found, found, (), found)]
    check("loose", said, [["loose 7 sh: it may run on 3"], [], [], ["loose 7 sh: it may run on 3"]])


@case
def loose_again() -> None:
    """They are looked for now and then, and at once where it is a partition again, which may have moved them."""
    kernel, layout = Kernel(CPUS), layout_of(TOP, "pinned")
    with over(kernel):
        make(layout, PRESENT, "")
        eyes, seen = Eyes(kernel, layout), [Loose(7, "sh", cpus("3"))]
        with mock.patch.object(partition_files, "loose_in", lambda root, asked: tuple(seen)):
            check("at first", eyes.look(0.0).loose, tuple(seen))
            seen.clear()
            check("not a second later", len(eyes.look(1.0).loose), 1)
            kernel.nodes["/c/pinned"].text = NOT_EXCLUSIVE
            check("of none that is broken", eyes.look(2.0).loose, ())
            kernel.nodes["/c/pinned"].text = ROOT
            check("anew", eyes.look(3.0).loose, ())


@case
def loose_by_thread() -> None:
    """Each process of the root group that may run there by one of its threads, also by one that is bound to one CPU; no kernel thread, and nobody who
    has left the group meanwhile for that of a container."""
    files: Dict[str, str] = {}
    for pid, flags, masks in ((7, 0, ("0", "3")), (8, 0x00200000, ("3",)), (9, 0, ("0", "0")), (10, 0, ("0-7",)), (11, 0, ("3",))):
        files[f"/proc/{pid}/stat"] = f"{pid} (a (b) c) S 1 1 1 0 -1 {flags} 0 0"
        files.update({f"/proc/{pid}/task/{k}/status": f"Name:\tx\nCpus_allowed_list:\t{mask}\n" for k, mask in enumerate(masks)})
    threads = {pid: [path.rpartition("/")[0] for path in files if path.startswith(f"/proc/{pid}/task/")] for pid in range(7, 12)}
    members = iter(("7 8 9 10 11", "7 8 9 10 12"))

    def read(path: str) -> Optional[str]:
        return next(members) if path == "/c/cgroup.procs" else files.get(path)
    with mock.patch.multiple(partition_files, read_file=read, children=lambda path: threads[int(path.split("/")[2])]), mock.patch.object(cgroups, "read_file", read):
        check("loose", list(partition_files.loose_in(TOP, cpus("2-4"))), [Loose(7, "a (b) c", cpus("3")), Loose(10, "a (b) c", cpus("2-4"))])


@case
def made() -> None:
    kernel = Kernel(CPUS)
    with over(kernel):
        for group, path in (("pinned", "/c/pinned"), ("a.slice/b", "/c/a.slice/b")):
            check("made", (came(kernel, group), kernel.effective(TOP), kernel.effective(path)), (ROOT, cpus("0"), PRESENT))
            check("the next agent's", came(kernel, group), ROOT)
            check("another one beside", came(kernel, "other"), f"--partition: an agent before made one of {path}: give that back first, by --release")
            check("given back", (lines_back(), sorted(kernel.nodes), kernel.record), ([f"given back {path}: removed"], [TOP], None))
        kernel.make("/c/pinned", cpus=cpus("4-5"))
        check("one that was there", (came(kernel, "pinned"), lines_back(), kernel.nodes["/c/pinned"].cpus),
              (ROOT, ["given back /c/pinned: member"], cpus("4-5")))
        kernel.nodes["/c/pinned"].cpus, kernel.nodes["/c/pinned"].text = PRESENT, ROOT
        check("one that somebody else made", (came(kernel, "pinned"), lines_back(), kernel.nodes["/c/pinned"].text), (ROOT, [], ROOT))


@case
def given_back() -> None:
    """In a group with processes it gets all CPUs in place of none; what is refused is kept; and another group in its place is left alone."""
    kernel = Kernel(CPUS)
    with over(kernel):
        came(kernel, "pinned")
        kernel.make("/c/pinned/x", cpus=cpus("3"), processes=True)
        check("with processes", (lines_back(), kernel.nodes["/c/pinned"].cpus, kernel.nodes["/c/pinned"].text, kernel.record),
              (["given back /c/pinned: member, cpus 0-7, since it has processes"], CPUS, MEMBER, None))
        kernel.nodes["/c/pinned"].cpus = cpus("1-2")
        came(kernel, "pinned")
        kernel.make("/c/beside", cpus=cpus("0"))
        kernel.nodes["/c/pinned"].text = MEMBER
        kernel.nodes["/c/beside"].cpus, kernel.nodes["/c/beside"].text = cpus("2"), ROOT
        kernel.nodes["/c/pinned"].cpus = cpus("3-7")
        check("a partition beside has them", (lines_back(), kernel.nodes["/c/beside"].text, kernel.record is None),
              (["failed /c/beside requests 2"], ROOT, False))
        kernel.nodes["/c/beside"].text = MEMBER
        check("later", (lines_back(), kernel.record), (["given back /c/pinned: member"], None))
        kernel.nodes["/c/beside"].cpus = kernel.nodes["/c/pinned"].cpus = NO_CPUS
        came(kernel, "a/b")
        kernel.remove("/c/a/b")
        kernel.make("/c/a/b", cpus=cpus("5"))
        before = kernel.now().nodes
        check("another group", (lines_back(), kernel.nodes == before, kernel.record),
              (["given back /c/a/b: nothing, since it is another group by now"], True, None))


def came(kernel: Kernel, group: str, asked: str = "1-7") -> str:
    """What comes of it: the file's text, or why it is refused."""
    layout = layout_of(TOP, group)
    kernel.tub = layout.path
    try:
        make(layout, cpus(asked), "")
    except Refused as why:
        return str(why)
    return kernel.nodes[layout.path].text


@case
def refused() -> None:
    whole = "--partition: the machine file has all CPUs of /c, so none is left to the rest of the host (numarun-describe --system)"
    beside: Mapping[str, Mapping[str, object]] = {"/c/s": {"cpus": cpus("0,3")}}
    near: Mapping[str, Mapping[str, object]] = {"/c/a": {"gives": True}, "/c/a/s": {"cpus": cpus("3")}}
    table: List[Tuple[str, Kernel, Mapping[str, Mapping[str, object]], str, str, str]] = [
        ("no partitions", Kernel(CPUS, has=False), {}, "pinned", "1-7",
         "--partition: /c/pinned: this kernel has no partitions: there is no cpuset.cpus.partition"),
        ("two deep on an old kernel", Kernel(CPUS, is_new=False), {}, "a/b", "1-7",
         "--partition: /c/a/b: this kernel has no cpuset.cpus.exclusive, so a partition is right below /c"),
        ("all CPUs", Kernel(CPUS), {}, "pinned", "0-7", whole),
        ("none of them", Kernel(CPUS), {}, "pinned", "8-9", "--partition: /c has none of the CPUs 8-9"),
        ("no name", Kernel(CPUS), {}, "/", "1-7", "--partition: '/' is no group below /c"),
        ("a way out", Kernel(CPUS), {}, "../x", "1-7", "--partition: '../x' is no group below /c"),
        ("a file", Kernel(CPUS), {}, "cgroup.procs", "1-7", "--partition: /c/cgroup.procs is a file, and no group"),
        ("cgroup v1", Kernel(CPUS, has=False, is_v2=False), {}, "pinned", "1-7", "--partition: /c: no cgroup v2 tree"),
        ("a group beside", Kernel(CPUS), beside, "pinned", "1-7", "--partition: /c/s requests 3"),
        ("a partition beside", Kernel(CPUS), {"/c/s": {"cpus": cpus("3"), "text": ROOT}}, "pinned", "1-7", "--partition: /c/s requests 3"),
        ("two deep beside one that requests more", Kernel(CPUS), beside, "a/b", "1-7", ROOT),
        ("two deep beside one inside", Kernel(CPUS), {"/c/s": {"cpus": cpus("3")}}, "a/b", "1-7", "--partition: /c/s requests 3"),
        ("two deep beside an exclusive one", Kernel(CPUS), {"/c/s": {"exclusive": cpus("3,5")}}, "a/b", "1-7", "--partition: /c/s requests 3,5"),
        ("two deep and near", Kernel(CPUS), near, "a/b", "1-7", "--partition: /c/a/s requests 3"),
        ("isolated", Kernel(CPUS), {"/c/pinned": {"cpus": PRESENT, "text": "isolated"}}, "pinned", "1-7",
         "--partition: /c/pinned: isolated: no load is balanced there, so all threads of a container may run on one CPU"),
        ("of other CPUs", Kernel(CPUS), {"/c/pinned": {"cpus": cpus("1"), "text": ROOT}}, "pinned", "2-3",
         "--partition: /c/pinned is a partition of somebody else: root, with 1"),
        ("invalid", Kernel(CPUS), {"/c/pinned": {"cpus": cpus("2-3"), "text": NO_SUCH}}, "pinned", "2-3",
         f"--partition: /c/pinned is a partition of somebody else: {NO_SUCH}, with 2-3"),
    ]
    for what, kernel, groups, group, asked, wanted in table:
        with over(kernel):
            kernel.nodes[TOP].gives = True
            for path, parts in groups.items():
                kernel.make(path, **parts)
            before = kernel.now().nodes
            try:
                got = came(kernel, group, asked)
            except Refused as why:
                got = str(why)
            check(what, got, wanted)
            check(f"{what}: what is left", got == ROOT or (kernel.nodes == before and kernel.record is None), True)


@case
def no_group() -> None:
    """A file in a folder, also where the way to the group leads over it: nothing is kept or written."""
    top = scratch("tree")
    for folder in (top, scratch("work")):
        os.mkdir(folder)
    for file in ("cgroup.procs", CONTROLS, "cgroup.controllers"):
        written(os.path.join(top, file), "")
    for group in ("cgroup.procs", "cgroup.procs/x"):
        try:
            make(layout_of(top, group), PRESENT, scratch("work"))
            got = "made"
        except Refused as why:
            got = str(why)
        check(group, got, f"--partition: {top}/cgroup.procs is a file, and no group")
        check(f"{group}: what is left", (text_of(os.path.join(top, CONTROLS)), os.listdir(scratch("work"))), ("", []))


@case
def lacking() -> None:
    """A machine file's object with CPUs that it lacks: they are on the node of the first reserved one, in cores as large as the others."""
    def file(*nodes: str, **more: object) -> Mapping[str, object]:
        return {"nodes": list(nodes), "reserved": "5", "about": "x", **more}
    check("without cores", add_cpus(file("2-3", "", "4-5"), cpus("0,7-8")), file("2-3", "", "0,4-5,7-8"))
    check("with cores", add_cpus(file("2-3", "", "4-5", cores=["2-3", "4-5"]), cpus("0-1,7-8")),
          file("2-3", "", "0-1,4-5,7-8", cores=["2-3", "4-5", "0-1", "7-8"]))
    with contextlib.suppress(Refused):
        check("half a core", add_cpus(file("2-3", "", "4-5", cores=["2-3", "4-5"]), cpus("0-1,7")), "refused")


@case
def killed() -> None:
    """Killed at any step of making one, the next agent finds what the first one made, or makes it; and killed at any step of giving back, the
    next release gives it back."""
    for group in ("pinned", "a/b"):
        steps = {"making": 0, "giving back": 0}
        for what in steps:
            while True:
                kernel = Kernel(CPUS)
                with over(kernel):
                    kernel.kills = steps[what] if what == "making" else None
                    with contextlib.suppress(Killed):
                        came(kernel, group)
                    is_whole = kernel.kills is None or kernel.kills >= 0
                    kernel.kills = steps[what] if what == "giving back" else None
                    with contextlib.suppress(Killed):
                        lines_back() if what == "giving back" else came(kernel, group)
                    is_whole = is_whole and (kernel.kills is None or kernel.kills >= 0)
                    kernel.kills = None
                    lines = lines_back()
                    check(f"{group}, {what}, killed before step {steps[what] + 1}",
                          (lines in ([], [f"given back {kernel.tub}: removed"]), sorted(kernel.nodes), kernel.record), (True, [TOP], None))
                if is_whole:
                    break
                steps[what] += 1
        assert steps["making"] >= 4 and steps["giving back"] >= 2, steps
