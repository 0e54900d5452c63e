"""The agent's own folder, and in it the links to groups that `numarun run --cgroup` is given as its tree. The links are the agent's alone:
what is no link there, no command can reach. A tree is one agent's until that and its run have ended."""

from __future__ import annotations

import fcntl
import os
import shutil
import time
from typing import Dict, List, Mapping, Optional, Sequence, Tuple

from .commands import NAMELESS
from .cpus import Cpus, print_list
from .script import Refused

PATIENCE = 5  # seconds that the run of an agent that was killed has to end
CPUS_IN_EFFECT, NODES_IN_EFFECT = "cpuset.cpus.effective", "cpuset.mems.effective"  # what numarun compares at its start


def locked(folder: str) -> int:
    """A lock that a run of numarun inherits, so that the next agent waits for it."""
    file, until = os.open(folder, os.O_RDONLY | os.O_DIRECTORY), time.monotonic() + PATIENCE
    while True:
        try:
            fcntl.flock(file, fcntl.LOCK_EX | fcntl.LOCK_NB)
            return file
        except BlockingIOError:
            if time.monotonic() > until:
                raise Refused(f"{folder}: another agent or program has it") from None
            time.sleep(0.05)


class Links:
    def __init__(self, root: str, work: str, held: Sequence[int] = ()) -> None:
        """`held` are the locks of the agent's folder, and of a tree in which the root is a group."""
        self.root = os.path.abspath(root)
        if not os.path.isdir(self.root):
            raise Refused(f"{root}: no folder")
        os.makedirs(work, exist_ok=True)
        self.locks: List[int] = [*held, *(locked(folder) for folder in (self.root, *(() if held else (work,))))]
        shutil.rmtree(os.path.join(work, "bundles"), ignore_errors=True)
        self.folder = os.path.join(work, "tree")
        self.links = os.path.join(self.folder, "numarun")
        os.makedirs(self.links, exist_ok=True)
        # The groups of an agent before by their ids.
        ids = [name for name in os.listdir(self.links) if not name.startswith(NAMELESS)]
        self.before: Dict[str, Tuple[Optional[str], Optional[bool]]] = {name: (self.linked(name), None) for name in ids}
        self.link_file("cgroup.controllers")

    def link_file(self, name: str) -> None:
        link, path = os.path.join(self.folder, name), os.path.join(self.root, name)
        if os.path.islink(link):
            os.unlink(link)
        if os.path.lexists(path):
            os.symlink(path, link)

    def linked(self, name: str) -> Optional[str]:
        path = os.path.join(self.links, name)
        return os.readlink(path) if os.path.islink(path) else None

    def leave(self, groups: Mapping[str, str]) -> None:
        """Links these groups by these names, and no others."""
        for name in os.listdir(self.links):
            if name not in groups:
                self.unlink(name)
        for name, path in groups.items():
            if self.linked(name) != path:
                self.link(name, path)

    def link(self, name: str, path: str) -> None:
        self.unlink(name)
        os.symlink(path, os.path.join(self.links, name))

    def unlink(self, name: str) -> None:
        path = os.path.join(self.links, name)
        if os.path.islink(path):
            os.unlink(path)
        elif os.path.isdir(path):
            os.rmdir(path)

    def show(self, file: str, members: Cpus) -> None:
        """Leaves what numarun compares with the machine file, where the kernel tells it: of the root what the machine file has of it."""
        path = os.path.join(self.folder, file)
        if os.path.lexists(path):
            os.unlink(path)
        if os.path.exists(os.path.join(self.root, file)):
            with open(path, "w") as shown:
                shown.write(print_list(members, empty="") + "\n")
