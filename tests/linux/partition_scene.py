"""What the parts of partitions share: a machine whose first CPU is the system's, and a scene with an agent, containers in a partition and
processes outside of it. At each look each container has CPUs and no two share one, and while the file says `root` nobody outside may run
where a container may."""

import contextlib
import errno
import itertools
import json
import os

import tree
import watched
from tree import ROOT, cpus, read, write

NAME, SYSTEM, CPUS = "pinned", {0}, set(range(1, 8))
DEEP = "numarun.slice/numarun-pinned.slice"
MACHINE = "/tmp/partition.json"
SLICE = f"{ROOT}/system.slice/cpuset.cpus"
NODES = ("1", "2-3", "4-5", "6-7")


def write_machine(nodes=NODES, reserved="1"):
    described = json.loads(read(tree.MACHINE))
    described.update(nodes=list(nodes), reserved=reserved)
    with open(f"{MACHINE}.new", "w") as file:
        json.dump(described, file)
    os.rename(f"{MACHINE}.new", MACHINE)


def is_new():
    """Whether the kernel has cpuset.cpus.exclusive, as since 6.7."""
    return os.path.exists(f"{ROOT}/system.slice/cpuset.cpus.exclusive")


def layouts():
    return [NAME, *([DEEP] if is_new() else [])]


def told(path, text, answer=0):
    """A write whose answer is known. What a group with a process requests can't be empty again, so the system's CPU is what is taken back to."""
    found = write(path, text)
    assert found == answer, (path, text, errno.errorcode.get(found, found))


def programs():
    """The processes of numarun that run."""
    found = []
    for pid in filter(str.isdigit, os.listdir("/proc")):
        with contextlib.suppress(OSError):
            found += [pid] if read(f"/proc/{pid}/comm") == "numarun" and tree.alive(int(pid)) else []
    return found


class Scene:
    """Containers in the partition and one outside of it, processes in the root group and in a slice, and an agent."""

    looks = 0

    def __init__(self, group):
        self.group, self.path, self.top = group, f"{ROOT}/{group}", f"{ROOT}/{group.split('/')[0]}"
        self.file = f"{self.path}/cpuset.cpus.partition"
        self.outside = [tree.spawn(ROOT), watched.group("system.slice/s1")]
        self.inside, self.asks = {}, {"db": 2, "net": 1, "web": 0}
        self.agent = None

    # The agent.

    def begin(self, *more):
        self.agent = watched.Agent("--partition", self.group, *more)
        self.agent.until(self.is_root, "a partition")

    def brought(self, text, *more, holds=lambda: True):
        """An agent that begins with these words has planned, brings the partition to these CPUs, and ends once this holds."""
        said = len(watched.lines())
        self.begin(*more)
        self.agent.until(lambda: "done" in watched.lines()[said:] and self.has() == text and holds(), text)
        self.settles(text)
        self.end()

    def end(self, kill=None):
        """The agent ends, or is killed, and then its program ends behind it, so that no lock is left."""
        if kill:
            self.agent.process.send_signal(kill)
            self.agent.process.wait()
            assert tree.until(lambda: not programs()), programs()
        else:
            self.agent.end()

    # What is there.

    def is_deep(self):
        return "/" in self.group

    def is_root(self):
        return os.path.exists(self.file) and read(self.file) == "root"

    def has(self):
        return read(f"{self.path}/cpuset.cpus")

    def said(self, since=0):
        """The lines of the log on the partition itself."""
        return [line for line in watched.lines()[since:] if line.startswith(f"partition {self.path}: ")]

    def containers_come(self):
        for name, node in (("db", 1), ("net", 3), ("web", 0)):
            self.come(name, node)

    def come(self, name, node):
        quota = self.asks[name]
        self.inside[name] = watched.come(name, self.group_of(name), **({"quota": quota} if quota else {}), mems=str(node))

    def group_of(self, name):
        return f"{self.group}/numarun/{name}"

    def on(self, name):
        return cpus(watched.requested(self.group_of(name)))

    def sets(self):
        return {name: self.on(name) for name in self.inside}

    # What has to be so.

    def is_settled(self):
        """Each that asks for CPUs has as many of its own, and runs there and nowhere else. Who asks for none has some, since numarun knows it."""
        return all(self.has_its_own(name) if self.asks[name] else self.on(name) for name in self.inside)

    def has_its_own(self, name):
        has = self.on(name)
        return len(has) == self.asks[name] and not has & {1} and watched.runs_on(self.inside[name], has)

    def nobody_is_squeezed(self, where):
        """Each that asks for CPUs has as many of its own, at any time."""
        sets = self.sets()
        assert all(len(has) == self.asks[name] and not has & {1} for name, has in sets.items() if self.asks[name]), (where, sets)
        return True

    def look(self, where):
        """Each container has CPUs, and no two share one but the reserved, unless both are on the pool, ever; and nobody outside may run where a
        pinned one may, while the file says `root` before and behind the look."""
        before, sets = self.is_root(), self.sets()
        may = {pid: tree.allowed(pid) for pid in (*self.inside.values(), *self.outside)}
        if sets != self.sets():
            return
        Scene.looks += 1
        assert all(sets.values()), (where, sets)
        for one, other in itertools.combinations(sets, 2):
            assert not (sets[one] & sets[other]) - {1} or not (self.asks[one] or self.asks[other]), (where, sets)
        if before and self.is_root():
            for pid in self.outside:
                for name in ("db", "net") if self.inside else ():
                    assert not (may[pid] or set()) & (may[self.inside[name]] or set()), (where, may, sets)

    def settles(self, where):
        self.agent.until(self.is_settled, where)
        self.look(where)
