"""A cpuset partition: a group from whose CPUs the kernel keeps all groups outside (cgroup v2, `cpuset.cpus.partition`). What a look finds of it,
and which single step is next on the way to what it is to be: a partition with these CPUs, or what it was before.

Making it, mending it, growing, shrinking and giving back are all this: a look, one step, another look, until there is nothing to do. So no
write is made on what an older look found, and who is killed between two writes leaves what the next look goes on from.

The rules are those of Linux 6.1 and 6.12, where they were tried. A write into `cpuset.cpus.partition` may answer success though no partition
came of it. After a write of `cpuset.cpus` an invalid one may say `root` though a group beside has one of its CPUs: so CPUs are written to one
that is valid, or a member, and to no other. A write of CPUs that a partition beside has makes both invalid: so none is made of CPUs that a
group beside requests."""

from __future__ import annotations

from dataclasses import dataclass
from typing import List, Mapping, Optional, Tuple, Union

from .commands import MakeGroup, Write
from .cpus import NO_CPUS, Cpus, print_list, read_list

FILE, CPUS_FILE, EXCLUSIVE_FILE = "cpuset.cpus.partition", "cpuset.cpus", "cpuset.cpus.exclusive"
CONTROLS, CONTROLLER = "cgroup.subtree_control", "+cpuset"
ROOT, MEMBER, ISOLATED = "root", "member", "isolated"


@dataclass(frozen=True)
class Layout:
    """The groups from right below the tree's root down to that of the partition, which is the last. One that is deeper than the first gets its
    CPUs by `cpuset.cpus.exclusive` of each, which Linux 6.12 has and 6.1 has not."""

    groups: Tuple[str, ...]

    @property
    def root(self) -> str:
        return self.groups[0].rpartition("/")[0]

    @property
    def path(self) -> str:
        return self.groups[-1]

    @property
    def is_deep(self) -> bool:
        return len(self.groups) > 1

    @property
    def files(self) -> Tuple[Tuple[str, str], ...]:
        """The files that have its CPUs, in the order in which they are written where they get more."""
        exclusive = tuple((group, EXCLUSIVE_FILE) for group in self.groups) if self.is_deep else ()
        return *exclusive, (self.path, CPUS_FILE)


@dataclass(frozen=True)
class Beside:
    """A group beside the partition, or beside one above it: what it requests, what of that by `cpuset.cpus.exclusive`, and whether it is a valid
    partition itself. One that is near is beside the partition, and not beside a group above."""

    path: str
    cpus: Cpus
    exclusive: Cpus = NO_CPUS
    near: bool = True
    valid: bool = False

    def asks(self, cpus: Cpus) -> Cpus:
        """What of these CPUs can't be a partition's because of it. Beside a group above that is what it has as exclusive, or all that it requests
        if these CPUs are a part of it no more, but the whole."""
        if self.near:
            return (self.cpus | self.exclusive) & cpus
        return (self.exclusive & cpus) | (self.cpus if self.cpus <= cpus else NO_CPUS)


@dataclass(frozen=True)
class Below:
    """A group below the partition that requests CPUs."""

    path: str
    cpus: Cpus


@dataclass(frozen=True)
class Loose:
    """A process of the tree's root group that may run on CPUs of the partition, as Linux 6.1 lets one that was moved there later."""

    pid: int
    name: str
    cpus: Cpus


@dataclass(frozen=True)
class Partition:
    """What a look finds: the text of the file, or nothing where there is none; what each file that has its CPUs has, or nothing where that is
    not there; what it and the tree's root have in effect; who is beside, and who is below, which is looked for only where CPUs are to be
    taken away; of the root and each group whether it is there, and gives those below it the controller; and whether a process is in it."""

    text: Optional[str]
    has: Tuple[Optional[Cpus], ...] = ()
    effective: Cpus = NO_CPUS
    above: Optional[Cpus] = None
    beside: Tuple[Beside, ...] = ()
    below: Tuple[Below, ...] = ()
    way: Tuple[Tuple[bool, bool], ...] = ()
    populated: bool = False
    loose: Tuple[Loose, ...] = ()

    @property
    def is_deep(self) -> bool:
        return len(self.has) > 1

    @property
    def cpus(self) -> Cpus:
        """What it requests itself."""
        return (self.has[-1] if self.has else None) or NO_CPUS

    @property
    def online(self) -> Optional[Cpus]:
        """The CPUs that the tree's root would have without the partition. One two deep that is broken keeps its CPUs on Linux 6.12 until it is
        told to be a member."""
        return None if self.above is None else self.above | (NO_CPUS if self.text in (None, MEMBER) else self.effective)

    @property
    def is_valid(self) -> bool:
        """Right below the root it is none where a group beside requests one of its CPUs, whatever the file says."""
        return self.text == ROOT and (self.is_deep or not any(group.asks(self.cpus) for group in self.beside))

    def fault(self, reason: str) -> str:
        """What the file says of one that is not valid, and what stands against it."""
        said = "no such file" if self.text is None else self.text or "nothing"
        return "; ".join(text for text in (said, reason) if text)


@dataclass(frozen=True)
class Stop:
    """There is nothing to do, or nothing that can be done, and why."""

    reason: str = ""


Step = Union[Write, MakeGroup, Stop]


def in_vain(step: Optional[Step]) -> str:
    """What is said of a step that the kernel answered as done, and of which nothing came."""
    if isinstance(step, Write):
        return f"{step.path}/{step.file}: {step.text!r} was written, and it is not so"
    return f"{step.path}: it was made, and is not there" if isinstance(step, MakeGroup) else ""


def next_step(layout: Layout, seen: Partition, wanted: Cpus) -> Step:
    """What is next on the way to a valid partition with these CPUs."""
    if seen.is_valid:
        return step_of_valid(layout, seen, wanted)
    if seen.text == ROOT:
        return Write(layout.path, FILE, MEMBER)
    goal, left = spared(seen, wanted)
    reason = "; ".join(stands_against(layout, seen, goal) or (left if goal - wanted - seen.cpus else []))
    if reason:
        return Stop(reason)
    if seen.text is None:
        return next_of_way(layout, seen) or Stop(f"{layout.path}: this kernel has no partitions: there is no {FILE}")
    if None in seen.has:
        return Stop(f"{layout.path}: this kernel has no {EXCLUSIVE_FILE}, so a partition is right below {layout.root}")
    if seen.text != MEMBER:
        return Write(layout.path, FILE, MEMBER)
    return change(layout, seen, goal, keeps=False) or Write(layout.path, FILE, ROOT)


def step_of_valid(layout: Layout, seen: Partition, wanted: Cpus) -> Step:
    """Gives a valid one more CPUs, or fewer. It gets none that somebody requests, and gives none up that a group below can't do without."""
    against = stands_against(layout, seen, seen.cpus | wanted, seen.cpus) if wanted - seen.cpus else []
    goal, left = spared(seen, wanted & seen.cpus if against else wanted)
    return (change(layout, seen, goal, keeps=True) or next_of_way(layout, seen) or Stop("; ".join([*against, *left])))


def stands_against(layout: Layout, seen: Partition, cpus: Cpus, has: Cpus = NO_CPUS) -> List[str]:
    """Why these CPUs can't be the partition's, but for what it has."""
    if seen.online is not None and not seen.online & cpus:
        return [f"{layout.root} has none of the CPUs {print_list(cpus)}"]
    if seen.online is not None and not seen.online - cpus:
        return [f"the machine file has all CPUs of {layout.root}, so none is left to the rest of the host (numarun-describe --system)"]
    asked = [(group.path, group.asks(cpus) - group.asks(has)) for group in seen.beside]
    return [f"{path} requests {print_list(asks)}" for path, asks in asked if asks]


def asking(seen: Partition, cpus: Cpus) -> List[str]:
    """Who beside requests some of these CPUs, in whatever way."""
    requested = [(group.path, (group.cpus | group.exclusive) & cpus) for group in seen.beside]
    return [f"{path} requests {print_list(both)}" for path, both in requested if both]


def spared(seen: Partition, cpus: Cpus) -> Tuple[Cpus, List[str]]:
    """These CPUs, and those of each group below that would be left with none of its own, which the kernel would give all of the partition's;
    and who that is."""
    owned = [(group.path, group.cpus & seen.effective) for group in seen.below]
    squeezed = [(path, has) for path, has in owned if has and not has & cpus]
    return cpus.union(*(has for _, has in squeezed)), [f"{path} would be left with none of its CPUs {print_list(has)}" for path, has in squeezed]


def change(layout: Layout, seen: Partition, goal: Cpus, keeps: bool) -> Optional[Write]:
    """The next write by which its files have these CPUs: from the top down where they get more, and else from below. While it keeps what it has,
    each file gets all that it is to have before one gives something up."""
    files = [(group, file, has or NO_CPUS) for (group, file), has in zip(layout.files, seen.has)]
    for group, file, has in files:
        if goal - has:
            return Write(group, file, print_list(has | goal if keeps else goal))
    for group, file, has in reversed(files):
        if has - goal and goal:
            return Write(group, file, print_list(goal))
    return None


def next_of_way(layout: Layout, seen: Partition) -> Union[Write, MakeGroup, None]:
    """The next group that is not there, or that does not give those below it the controller. The partition gives it too, since the kernel lets
    nobody take it away above then."""
    for path, (there, gives) in zip((layout.root, *layout.groups), seen.way):
        if not there:
            return MakeGroup(path)
        if not gives and (path != layout.path or seen.is_valid):
            return Write(path, CONTROLS, CONTROLLER)
    return None


def step_back(layout: Layout, seen: Partition, before: Mapping[str, str]) -> Step:
    """What is next on the way to what was there before: a member first, and then what its files had. In a group with processes the kernel takes
    no empty list, so it gets all CPUs of the tree's root then."""
    if seen.text not in (None, MEMBER):
        return Write(layout.path, FILE, MEMBER)
    for (group, file), has in reversed(list(zip(layout.files, seen.has))):
        text = before.get(f"{group}/{file}")
        if text is None or has is None:
            continue
        had = read_list(text, file)
        if not had and file == CPUS_FILE and seen.populated and has:
            had = seen.above or NO_CPUS
        if had != has:
            taken = taken_by(seen, had if group == layout.path else NO_CPUS, NO_CPUS if group == layout.path else has - had)
            return Stop("; ".join(taken)) if taken else Write(group, file, print_list(had, empty=""))
    return Stop()


def taken_by(seen: Partition, had: Cpus, given: Cpus) -> List[str]:
    """The partitions beside that would be broken, since they have CPUs that it had before, or some that the group above them gives up."""
    found = [(group.path, group.asks(had) | (group.exclusive & given if group.near else NO_CPUS)) for group in seen.beside if group.valid]
    return [f"{path} requests {print_list(cpus)}" for path, cpus in found if cpus]
