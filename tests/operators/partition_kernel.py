"""A model of the kernel's rules on cpuset partitions, as they were seen on Linux 6.1 and 6.12, by the files of a tree in memory. It answers the
reads and writes of the agent, and remembers what no agent may bring about."""

from __future__ import annotations

import copy
import errno
import functools
import os
import random
from dataclasses import dataclass, field
from typing import Any, Callable, Dict, Iterator, List, Optional

from numarun_host.cpus import NO_CPUS, Cpus, print_list, read_list
from numarun_host.partition import CONTROLS, CPUS_FILE, EXCLUSIVE_FILE, FILE, ISOLATED, MEMBER, ROOT, Layout, Partition
from numarun_host.partition_files import Before, PartitionFiles

TOP = "/c"
NOT_EXCLUSIVE, EMPTY = "root invalid (Cpu list in cpuset.cpus not exclusive)", "root invalid (cpuset.cpus is empty)"
UNABLE = "root invalid (Parent unable to distribute cpu downstream)"
NO_SUCH, HOTPLUG = "root invalid (Invalid cpu list in cpuset.cpus)", "root invalid (No cpu available due to hotplug)"


def cpus(text: str) -> Cpus:
    return read_list(text, "")


@functools.lru_cache(maxsize=None)
def text_of(found: Cpus) -> str:
    return print_list(found, empty="")


class Killed(Exception):
    """The agent is killed before this write."""


@dataclass
class Node:
    inode: int
    cpus: Cpus = NO_CPUS
    exclusive: Cpus = NO_CPUS
    text: str = MEMBER
    gives: bool = False      # whether it gives the controller to those below
    processes: bool = False
    keeps: bool = False      # two deep: a group beside broke it, and it keeps its CPUs until it is a member


@dataclass
class Kernel:
    """A tree by the paths of its groups. `moved` is whether the world has changed since the agent's last look: what it does then may be wrong,
    and no agent could know. `breaks` has what it did wrong though it could know."""

    online: Cpus
    is_new: bool = True     # whether it has cpuset.cpus.exclusive, and tries again where an invalid one is told to be a root
    has: bool = True        # whether it has partitions
    is_v2: bool = True      # whether the tree is one of cgroup v2
    nodes: Dict[str, Node] = field(default_factory=lambda: {TOP: Node(1, processes=True)})
    inodes: int = 1
    record: Optional[Before] = None
    tub: str = ""
    moved: bool = False
    world: Callable[[], None] = lambda: None   # what happens before a step of the agent
    kills: Optional[int] = None                # the agent is killed before this write of its own
    breaks: List[str] = field(default_factory=list)
    is_writing: bool = False  # whether it is between a look of the agent and what it does then

    # What is so.

    def children(self, path: str) -> List[str]:
        return sorted(found for found in self.nodes if found.rpartition("/")[0] == path)

    def below(self, path: str) -> List[str]:
        return sorted(found for found in self.nodes if found.startswith(f"{path}/"))

    def beside(self, path: str) -> List[str]:
        return [found for found in self.children(path.rpartition("/")[0]) if found != path]

    def is_deep(self, path: str) -> bool:
        return path.count("/") > 2

    def is_populated(self, path: str) -> bool:
        return any(self.nodes[found].processes for found in (path, *self.below(path)))

    def roots(self) -> Iterator[str]:
        return (path for path, node in self.nodes.items() if node.text in (ROOT, ISOLATED))

    def has_its_own(self, path: str) -> bool:
        """Whether its CPUs are in effect nowhere else."""
        node = self.nodes[path]
        return node.text in (ROOT, ISOLATED) or (node.keeps and node.text != MEMBER)

    def effective(self, path: str) -> Cpus:
        node = self.nodes[path]
        if path == TOP:
            return self.online - NO_CPUS.union(*(node.cpus for other, node in self.nodes.items() if self.has_its_own(other)))
        if self.has_its_own(path):
            return node.cpus & self.online
        above = self.effective(path.rpartition("/")[0])
        return node.cpus & above or above

    def files_of(self, path: str) -> bool:
        """Whether the controller is on, so that its files are there."""
        return path == TOP or self.nodes[path.rpartition("/")[0]].gives

    # What the agent reads.

    def read(self, path: str) -> Optional[str]:
        group, _, file = path.rpartition("/")
        node = self.nodes.get(group)
        if node is None or (file == "cgroup.controllers" and not (group == TOP and self.is_v2)):
            return None
        if file == "cgroup.controllers":
            return "cpuset"
        if file == CONTROLS:
            return "cpuset" if node.gives else ""
        if file == "cgroup.events":
            return f"populated {int(self.is_populated(group))}\nfrozen 0"
        if file == "cgroup.procs" or not self.files_of(group):
            return "" if file == "cgroup.procs" else None
        if file == "cpuset.cpus.effective":
            return text_of(self.effective(group))
        if group == TOP:
            return None
        if file == EXCLUSIVE_FILE:
            return text_of(node.exclusive) if self.is_new and self.has else None
        if file == CPUS_FILE:
            return text_of(node.cpus)
        return node.text if file == FILE and self.has else None

    def inode(self, path: str) -> Optional[int]:
        """What stat(2) finds, which knows files too."""
        return self.nodes[path].inode if path in self.nodes else 2 if self.is_file(path) else None

    def is_file(self, path: str) -> bool:
        return path not in self.nodes and self.read(path) is not None

    # What changes.

    def make(self, path: str, **parts: object) -> Node:
        self.inodes += 1
        self.nodes[path] = Node(self.inodes, **parts)  # type: ignore[arg-type]
        return self.nodes[path]

    def conflicts(self, path: str, asked: Cpus) -> List[str]:
        return [other for other in self.beside(path) if (self.nodes[other].cpus | self.nodes[other].exclusive) & asked]

    def set_cpus(self, path: str, asked: Cpus) -> Optional[int]:
        node = self.nodes[path]
        if not asked and node.cpus and self.is_populated(path):
            return errno.ENOSPC
        met = [other for other in self.conflicts(path, asked) if self.nodes[other].text in (ROOT, ISOLATED)]
        for other in met:
            self.nodes[other].text, self.nodes[other].keeps = NOT_EXCLUSIVE, self.is_deep(other)
        was, node.cpus = node.text, asked
        if was.startswith("root invalid"):
            node.text = ROOT  # falsely, where the cause is still there
        elif was in (ROOT, ISOLATED):
            node.text = self.judged(path, was)
        return None

    def judged(self, path: str, wanted: str) -> str:
        """What comes of a group that is to be a partition."""
        node, before = self.nodes[path], self.nodes[path].text
        node.text = MEMBER
        above = self.effective(TOP)
        node.text = before
        if not node.cpus:
            return EMPTY
        if self.is_deep(path):
            way = [path[:k] for k in range(len(path)) if path[k] == "/" and k > len(TOP)] + [path]
            if any(not node.cpus <= self.nodes[group].exclusive for group in way):
                return "root invalid (Invalid cpu list in cpuset.cpus.exclusive)"
        elif self.conflicts(path, node.cpus):
            return NOT_EXCLUSIVE
        if not node.cpus & above:
            return NO_SUCH
        return wanted if above - node.cpus else UNABLE

    def set_exclusive(self, path: str, asked: Cpus) -> Optional[int]:
        for other in self.beside(path):
            found = self.nodes[other]
            inside = found.cpus and found.cpus <= asked
            if found.exclusive & asked or inside or (found.text in (ROOT, ISOLATED) and found.cpus & asked):
                return errno.EINVAL
        self.nodes[path].exclusive = asked
        for group in (path, *self.below(path)):
            if self.nodes[group].text == ROOT and not self.nodes[group].cpus <= asked:
                self.nodes[group].text = NO_SUCH
        return None

    def set_text(self, path: str, text: str) -> Optional[int]:
        node = self.nodes[path]
        if text == MEMBER:
            node.text, node.keeps = MEMBER, False
        elif node.text == MEMBER or (self.is_new and node.text != text):
            node.text = self.judged(path, text)
        return None

    def set_controls(self, path: str, text: str) -> Optional[int]:
        if text == "-cpuset" and any(self.nodes[child].gives for child in self.children(path)):
            return errno.EBUSY
        self.nodes[path].gives = text == "+cpuset"
        for group in self.below(path) if text == "-cpuset" else []:
            self.nodes[group].cpus, self.nodes[group].exclusive, self.nodes[group].text = NO_CPUS, NO_CPUS, MEMBER
        return None

    def plug(self, online: Cpus) -> None:
        self.online = online
        for path, node in self.nodes.items():
            if node.text == ROOT and not node.cpus & online:
                node.text = HOTPLUG
            elif node.text == HOTPLUG and node.cpus & online:
                node.text = self.judged(path, ROOT)

    def remove(self, path: str) -> Optional[int]:
        if path not in self.nodes:
            return errno.ENOENT
        if self.children(path) or self.nodes[path].processes:
            return errno.EBUSY
        del self.nodes[path]
        return None

    def apply(self, path: str, text: str) -> Optional[int]:
        group, _, file = path.rpartition("/")
        if self.read(path) is None:
            return errno.ENOENT
        if file == CPUS_FILE:
            return self.set_cpus(group, cpus(text))
        if file == EXCLUSIVE_FILE:
            return self.set_exclusive(group, cpus(text))
        return self.set_text(group, text) if file == FILE else self.set_controls(group, text)

    # What the agent does.

    def step(self) -> None:
        """Before each step of the agent that changes something the world may move, or the agent ends."""
        if self.kills is not None:
            self.kills -= 1
            if self.kills < 0:
                raise Killed
        self.is_writing = True
        self.world()
        self.is_writing = False

    def write(self, path: str, text: str) -> Optional[str]:
        self.step()
        group, _, file = path.rpartition("/")
        before = self.now() if not self.moved else None
        failed = self.apply(path, text)
        if before:
            self.judge(before, group, file)
        return f"{path}: {os.strerror(failed)}" if failed else None

    def now(self) -> Kernel:
        found = copy.copy(self)
        found.nodes = {path: copy.copy(node) for path, node in self.nodes.items()}
        return found

    def is_false(self, path: str) -> bool:
        return not self.is_deep(path) and bool(self.conflicts(path, self.nodes[path].cpus))

    def judge(self, before: Kernel, group: str, file: str) -> None:
        """What may not come of a write that was made on a true look."""
        text = before.nodes[self.tub].text if self.tub in before.nodes else MEMBER
        if file in (CPUS_FILE, EXCLUSIVE_FILE) and (text.startswith("root invalid") or (text == ROOT and before.is_false(self.tub))):
            self.breaks.append("an invalid one is given CPUs")
        for other in before.roots():
            is_true = before.nodes[other].cpus <= before.nodes[other].exclusive if self.is_deep(other) else not before.is_false(other)
            if is_true and other not in (self.tub, group) and self.nodes[other].text not in (ROOT, ISOLATED):
                self.breaks.append("another partition is broken")
        if file in (CPUS_FILE, EXCLUSIVE_FILE) and text == ROOT and before.nodes[self.tub].cpus:
            for path in before.below(self.tub):
                own, left = (found.nodes[path].cpus & found.effective(self.tub) for found in (before, self))
                if own and not left:
                    self.breaks.append("a group below is left with none")

    def mkdir(self, path: str) -> None:
        self.step()
        if path in self.nodes:
            raise FileExistsError(errno.EEXIST, "File exists")
        if path.rpartition("/")[0] not in self.nodes:
            raise FileNotFoundError(errno.ENOENT, "No such file or directory")
        self.make(path)

    def rmdir(self, path: str) -> None:
        self.step()
        failed = self.remove(path)
        if failed:
            raise OSError(failed, os.strerror(failed))

    # In place of the files.

    def save(self, before: Before, _: str) -> None:
        self.record = copy.deepcopy(before)

    def forget(self, _: str) -> None:
        self.record = None

    def patches(self) -> Dict[str, Any]:
        """What stands in the place of the functions of partition_files that reach the system."""
        return {"read_file": self.read, "write_file": self.write, "children": self.children, "inode_of": self.inode, "is_file": self.is_file, "save": self.save,
                "read_before": lambda _: copy.deepcopy(self.record), "forget": self.forget}


class Eyes(PartitionFiles):
    """A look at the model. The world may move before it, and what the agent does behind it is judged by it."""

    def __init__(self, kernel: Kernel, layout: Layout) -> None:
        super().__init__(layout, "")
        self.kernel = kernel

    def sight(self, wanted: Optional[Cpus]) -> Partition:
        self.kernel.world()
        found = super().sight(wanted)
        self.kernel.moved = False
        return found

    def text(self) -> Optional[str]:
        """In place of the text by the open file."""
        return self.kernel.read(f"{self.layout.path}/{FILE}")


class World:
    """What others do, by chance."""

    def __init__(self, kernel: Kernel, chance: random.Random, layout: Layout, share: float) -> None:
        self.kernel, self.chance, self.layout, self.share = kernel, chance, layout, share

    def some(self, most: int) -> Cpus:
        return frozenset(self.chance.sample(sorted(self.kernel.online), min(len(self.kernel.online), self.chance.randrange(most + 1))))

    def __call__(self) -> None:
        while self.chance.random() < self.share:
            self.kernel.moved = True
            self.chance.choice((self.others, self.others, self.hotplug, self.upon_it, self.strange))()

    def others(self) -> None:
        """Groups beside it, and beside one above it, that request CPUs, become partitions, and go."""
        kernel, chance = self.kernel, self.chance
        path = f"{chance.choice((TOP, *self.layout.groups[:-1]))}/{chance.choice(('s', 't'))}"
        if path.rpartition("/")[0] not in kernel.nodes:
            return
        if path not in kernel.nodes:
            kernel.make(path, processes=chance.random() < 0.5)
        happens = chance.randrange(5)
        if happens < 2:
            kernel.apply(f"{path}/{CPUS_FILE}", print_list(self.some(2), empty=""))
        elif happens == 2:
            kernel.apply(f"{path}/{FILE}", chance.choice((ROOT, MEMBER)))
        elif happens == 3 and kernel.is_new:
            kernel.apply(f"{path}/{EXCLUSIVE_FILE}", print_list(self.some(2), empty=""))
        else:
            kernel.nodes[path].processes = False
            kernel.remove(path)

    def hotplug(self) -> None:
        all_of = frozenset(range(8))
        gone = self.chance.choice((NO_CPUS, NO_CPUS, self.some(3), all_of - {0}))
        if gone != all_of:
            self.kernel.plug(all_of - (gone - {0}))

    def upon_it(self) -> None:
        """Somebody writes the partition's own files, takes the controller away, or makes the group anew, though not between a look of the agent
        and its write into the group, which nothing can tell."""
        kernel, path = self.kernel, self.layout.path
        happens = self.chance.randrange(4)
        if happens < 2:
            kernel.apply(f"{path}/{FILE}", self.chance.choice((MEMBER, ISOLATED)))
        elif happens == 2:
            kernel.apply(f"{path.rpartition('/')[0]}/{CONTROLS}", "-cpuset")
        elif path in kernel.nodes and not kernel.is_writing and not kernel.remove(path) and self.chance.random() < 0.5:
            kernel.make(path)

    def strange(self) -> None:
        """A group below it of which nobody told the agent comes, requests others, or goes."""
        kernel, path = self.kernel, f"{self.layout.path}/x"
        if self.layout.path not in kernel.nodes:
            return
        if path not in kernel.nodes:
            kernel.make(path, processes=True)
            kernel.nodes[self.layout.path].gives = True
        if self.chance.random() < 0.3:
            kernel.nodes[path].processes = False
            kernel.remove(path)
        else:
            kernel.apply(f"{path}/{CPUS_FILE}", print_list(self.some(2), empty=""))
