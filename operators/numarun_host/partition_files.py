"""The files of a cpuset partition: it is looked at, made at the agent's start, and given back. What was there before is kept in a file of the
agent's folder before the first write, so that an agent that is killed leaves nothing that the next one, or `--release`, can't give back."""

from __future__ import annotations

import errno
import json
import os
import select
from dataclasses import dataclass, field
from functools import partial
from typing import Callable, Dict, Iterator, List, Mapping, Optional, Tuple

from .cgroups import allowed_to, populated_in, read_file, set_in
from .commands import Answer, LookAtPartition, MakeGroup, Steps, Write
from .configs import parse_text
from .cpus import NO_CPUS, Cpus, print_list
from .partition import (CONTROLS, CPUS_FILE, EXCLUSIVE_FILE, FILE, ISOLATED, MEMBER, ROOT, Below, Beside, Layout, Loose, Partition, Step, next_step,
                        step_back)
from .partitioning import Walked, walk
from .script import Refused, read_text, replace_file
from .taken import inode_of, write_file

RECORD_BYTES = 1 << 20
EFFECTIVE = "cpuset.cpus.effective"
LOOSE_PAUSE = 60.0  # seconds between two looks through the root group
STAYS = (errno.ENOENT, errno.ENOTEMPTY, errno.EBUSY)  # a group that is gone, or that somebody is in
KERNEL_THREAD = 0x00200000  # PF_KTHREAD, of proc(5)'s flags


@dataclass
class Before:
    """What was there before the agent made a partition: the groups that it made, what the files had, and which group that is by now."""

    path: str
    inode: int = 0
    made: List[str] = field(default_factory=list)
    files: Dict[str, str] = field(default_factory=dict)


class PartitionFiles:
    """The partition as it is looked at. The file stays open, since poll(2) says of an open one when its text has changed."""

    def __init__(self, layout: Layout, work: str) -> None:
        self.layout, self.work = layout, work
        self.file: Optional[int] = None
        self.inode: Optional[int] = None
        self.loose: Tuple[Loose, ...] = ()
        self.next_loose = 0.0

    def look(self, now: float) -> Partition:
        """The look of a turn, at who is in the root group too: anew once it is a partition again, since that may have moved them."""
        if now >= self.next_loose:
            self.loose, self.next_loose = tuple(loose_in(self.layout.root, self.cpus())), now + LOOSE_PAUSE
        seen = self.sight(None)
        if seen.text != ROOT:
            self.loose, self.next_loose = (), now
        return seen

    def sight(self, wanted: Optional[Cpus]) -> Partition:
        """A look, at who is below too where it has more CPUs than these. The text is read last: if it says `root` then, it did so while the
        others were read."""
        path, root = self.layout.path, self.layout.root
        self.see_another()
        effective = set_in(read_file(f"{path}/{EFFECTIVE}")) or NO_CPUS
        beside = tuple(found for above in (root, *self.layout.groups[:-1]) for found in beside_in(above, self.layout))
        below = tuple(below_in(path)) if wanted is not None and effective - wanted else ()
        way = tuple((inode_of(group) is not None, gives(group)) for group in (root, *self.layout.groups))
        has = tuple(set_in(read_file(f"{group}/{file}")) for group, file in self.layout.files)
        populated = bool(populated_in(read_file(f"{path}/cgroup.events")))
        above = set_in(read_file(f"{root}/{EFFECTIVE}"))
        text = self.text()
        return Partition(text, has, effective, above, beside, below, way, populated, self.loose if text == ROOT else ())

    def see_another(self) -> None:
        """Where somebody has made another group in its place, what that has by now is what is given back."""
        path, inode = self.layout.path, inode_of(self.layout.path)
        before = read_before(self.work) if inode not in (None, self.inode) else None
        self.inode = inode
        if not before or not inode or inode == before.inode:
            return
        if before.inode or path not in before.made:
            before.made = [group for group in before.made if group != path]
            before.files.update({file: text for file, text in files_of(self.layout).items() if os.path.dirname(file) == path})
        before.inode = inode
        save(before, self.work)

    def text(self) -> Optional[str]:
        """The text of the file, by the file that is open, or else by opening it anew."""
        for _ in range(2):
            try:
                if self.file is None:
                    self.file = os.open(f"{self.layout.path}/{FILE}", os.O_RDONLY | os.O_CLOEXEC)
                return os.pread(self.file, 1 << 12, 0).decode(errors="replace").strip()
            except OSError:
                self.close()
        return None

    def cpus(self) -> Cpus:
        return set_in(read_file(f"{self.layout.path}/{CPUS_FILE}")) or NO_CPUS

    def make_group(self, path: str) -> Optional[str]:
        """Makes a group of the layout, which is kept before; why it can't, or nothing."""
        before = read_before(self.work) or Before(self.layout.path, 0, [], files_of(self.layout))
        before.made = [*(made for made in before.made if made != path), path]
        before.files.update({file: "" for file in before.files if os.path.dirname(file) == path})
        before.inode = before.inode if path != self.layout.path else 0
        save(before, self.work)
        try:
            os.mkdir(path)
        except OSError as error:
            before.made.remove(path)
            save(before, self.work)
            return None if error.errno == errno.EEXIST else f"{path}: {error.strerror}"
        self.see_another()
        return None

    def watch(self, waiter: select.poll) -> None:
        if self.file is not None:
            waiter.register(self.file, select.POLLPRI)

    def close(self) -> None:
        if self.file is not None:
            os.close(self.file)
            self.file = None

    def go(self, wanted: Cpus, step_of: Callable[[Partition], Step]) -> Walked:
        """Walks the way of `step_of` to its end."""
        try:
            return self.carry_out(walk(wanted, step_of))
        finally:
            self.close()

    def carry_out(self, steps: Steps[Walked]) -> Walked:
        try:
            command = next(steps)
            while True:
                if isinstance(command, LookAtPartition):
                    answer = Answer(partition=self.sight(command.cpus))
                elif isinstance(command, MakeGroup):
                    answer = Answer(why=self.make_group(command.path))
                else:
                    assert isinstance(command, Write)
                    answer = Answer(why=write_file(f"{command.path}/{command.file}", command.text))
                command = steps.send(answer)
        except StopIteration as end:
            found: Walked = end.value
            return found


def gives(group: str) -> bool:
    """Whether those below have the controller."""
    return "cpuset" in (read_file(f"{group}/{CONTROLS}") or "").split()


def children(path: str) -> List[str]:
    try:
        return sorted(entry.path for entry in os.scandir(path) if entry.is_dir(follow_symlinks=False))
    except OSError:
        return []


def beside_in(above: str, layout: Layout) -> Iterator[Beside]:
    """The groups here that request CPUs, but for those of the layout."""
    for path in children(above):
        cpus, exclusive = (set_in(read_file(f"{path}/{file}")) or NO_CPUS for file in (CPUS_FILE, EXCLUSIVE_FILE))
        if path not in layout.groups and cpus | exclusive:
            yield Beside(path, cpus, exclusive, above == os.path.dirname(layout.path), read_file(f"{path}/{FILE}") in (ROOT, ISOLATED))


def below_in(path: str) -> Iterator[Below]:
    """The groups below that request CPUs."""
    for child in children(path):
        cpus = set_in(read_file(f"{child}/{CPUS_FILE}"))
        if cpus:
            yield Below(child, cpus)
        yield from below_in(child)


def loose_in(root: str, cpus: Cpus) -> Iterator[Loose]:
    """The processes of the root group that may run on some of these CPUs, by one of their threads at least. Kernel threads are none, nor is
    who has left it meanwhile, as a container's first process does."""
    found = list(seen_loose(root, cpus))
    still = processes_in(root) if found else []
    return (process for process in found if str(process.pid) in still)


def processes_in(group: str) -> List[str]:
    return (read_file(f"{group}/cgroup.procs") or "").split()


def seen_loose(root: str, cpus: Cpus) -> Iterator[Loose]:
    for pid in processes_in(root):
        stat = read_file(f"/proc/{pid}/stat")
        if not stat or int(stat.rpartition(")")[2].split()[6]) & KERNEL_THREAD:
            continue
        allowed = NO_CPUS.union(*(allowed_to(thread) for thread in children(f"/proc/{pid}/task")))
        if allowed & cpus:
            yield Loose(int(pid), stat.partition("(")[2].rpartition(")")[0], allowed & cpus)


# It is made.


def layout_of(root: str, group: str) -> Layout:
    """The groups that a path below the root names."""
    names = [name for name in group.split("/") if name]
    if not names or any(name in (".", "..") for name in names):
        raise Refused(f"--partition: {group!r} is no group below {root}")
    return Layout(tuple("/".join([root, *names[:k + 1]]) for k in range(len(names))))


def is_file(path: str) -> bool:
    """Whether something is there that is no group."""
    return os.path.lexists(path) and not os.path.isdir(path)


def make(layout: Layout, cpus: Cpus, work: str) -> None:
    """Makes the partition with these CPUs, unless it is there already. Where that can't be, what was done is undone, and the reason is the
    kernel's, with the name of who stands against it."""
    for path in filter(is_file, layout.groups):
        raise Refused(f"--partition: {path} is a file, and no group")
    before, inode, files = read_before(work), inode_of(layout.path), PartitionFiles(layout, work)
    if before and before.path != layout.path:
        raise Refused(f"--partition: an agent before made one of {before.path}: give that back first, by --release")
    if before and before.inode and before.inode == inode:
        return  # what it lacks by now is mended at the looks
    if before and inode is None:
        before.inode = 0
    if not before or before.inode:
        if is_there(layout, cpus):
            return
        before = Before(layout.path, inode or 0, [], files_of(layout))
    if read_file(f"{layout.root}/cgroup.controllers") is None:
        raise Refused(f"--partition: {layout.root}: no cgroup v2 tree")
    save(before, work)
    outcome = files.go(cpus, partial(next_step, layout, wanted=cpus))
    if outcome.seen.is_valid:
        return
    left = undo(read_before(work) or before, work)
    where = "" if outcome.reason and outcome.seen.text in (None, MEMBER) else f"{layout.path}: "
    said = outcome.reason if outcome.seen.text in (None, MEMBER) and outcome.reason else outcome.seen.fault(outcome.reason)
    raise Refused("; ".join([f"--partition: {where}{said}", *(f"not undone: {fault}" for fault in left)]))


def files_of(layout: Layout) -> Dict[str, str]:
    """What the files that are to have its CPUs have."""
    return {f"{group}/{file}": read_file(f"{group}/{file}") or "" for group, file in layout.files}


def is_there(layout: Layout, cpus: Cpus) -> bool:
    """Whether somebody has made just this partition already."""
    text, has = read_file(f"{layout.path}/{FILE}"), set_in(read_file(f"{layout.path}/{CPUS_FILE}"))
    if text is None or text == MEMBER:
        return False
    if text.startswith(ISOLATED):
        raise Refused(f"--partition: {layout.path}: {text}: no load is balanced there, so all threads of a container may run on one CPU")
    if text == ROOT and has == cpus:
        return True
    raise Refused(f"--partition: {layout.path} is a partition of somebody else: {text}, with {print_list(has or NO_CPUS)}")


# It is given back.


def place_of(work: str) -> str:
    return os.path.join(work, "partition.json")


def save(before: Before, work: str) -> None:
    replace_file(place_of(work), json.dumps({"path": before.path, "inode": before.inode, "made": before.made, "files": before.files}))


def read_before(work: str) -> Optional[Before]:
    """What was kept; nothing where that is no such record."""
    try:
        found: Mapping[str, object] = parse_text(read_text(place_of(work), RECORD_BYTES), place_of(work))
    except Refused:
        return None
    path, inode, made, files = (found.get(name) for name in ("path", "inode", "made", "files"))
    if not isinstance(path, str) or not isinstance(inode, int) or not isinstance(made, list) or not isinstance(files, dict):
        return None
    texts = {str(file): text for file, text in files.items() if isinstance(text, str)}
    return Before(path, inode, [group for group in made if isinstance(group, str)], texts)


def forget(work: str) -> None:
    if os.path.exists(place_of(work)):
        os.remove(place_of(work))


def layout_in(before: Before) -> Layout:
    """The layout that a record is of: its files have one of each group where it is deep."""
    groups = tuple(os.path.dirname(file) for file in before.files if file.endswith(f"/{EXCLUSIVE_FILE}"))
    return Layout(groups or (before.path,))


def undo(before: Before, work: str) -> List[str]:
    """Makes the group a member, gives its files back what they had, and removes what was made, where nobody is in it; what could not be. What
    was kept stays for another try then."""
    layout = layout_in(before)
    outcome = PartitionFiles(layout, work).go(NO_CPUS, partial(step_back, layout, before=before.files))
    faults = [outcome.reason or f"{before.path}: {outcome.seen.text}"] if outcome.failed or outcome.reason else []
    for group in reversed(before.made if not faults else []):
        try:
            os.rmdir(group)
        except OSError as error:
            faults += [] if error.errno in STAYS else [f"{group}: {error.strerror}"]
    if not faults:
        forget(work)
    return faults


@dataclass(frozen=True)
class GivenBack:
    """What came of giving a partition back, as lines, of which there are none where there was no partition; and whether something failed."""

    lines: Tuple[str, ...] = ()
    failed: bool = False


def give_back(work: str) -> GivenBack:
    """Gives a partition back, if there is one. A group that somebody else made in its place is left alone."""
    before = read_before(work)
    if not before:
        return GivenBack()
    inode = inode_of(before.path)
    if before.inode and inode not in (None, before.inode):
        forget(work)
        return GivenBack((f"given back {before.path}: nothing, since it is another group by now",))
    faults = undo(before, work)
    if faults:
        return GivenBack(tuple(f"failed {fault}" for fault in faults), failed=True)
    says, has = read_file(f"{before.path}/{FILE}"), read_file(f"{before.path}/{CPUS_FILE}")
    more = f", cpus {has}, since it has processes" if has and not before.files.get(f"{before.path}/{CPUS_FILE}") else ""
    return GivenBack((f"given back {before.path}: {says or 'removed'}{more}",))
