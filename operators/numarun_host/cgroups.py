"""The groups of a cgroup v2 tree as they are read, and where runtimes say that the group of a container is."""

from __future__ import annotations

import os
import re
from typing import Dict, FrozenSet, Optional, Set, Tuple, Union

from .configs import Config, Limit, at, parse_text
from .cpus import NO_CPUS, Cpus, read_list
from .kept_files import GroupFiles, Raw, files_to_keep, read_raw
from .script import Refused, read_text
from .seen import Group, NoGroup

CONFIG_BYTES = 1 << 20
CPUS = "cpuset.cpus"
LIMIT = "cpu.max"
EACH = "/"
ALLOWED = re.compile(r"^Cpus_allowed_list:\s*(\S+)$", re.MULTILINE)
READ = (CPUS, "cpuset.mems", "cpuset.cpus.effective", LIMIT, "cgroup.events")
ANON = ("inactive_anon", "active_anon", "unevictable")  # what of a group's memory is no page cache that can be freed; shared memory is in it


def text_in(found: Optional[bytes]) -> Optional[str]:
    try:
        return None if found is None else found.decode().strip()
    except ValueError:
        return None


def read_file(path: str) -> Optional[str]:
    """A file of a group, or nothing."""
    return text_in(read_raw(path))


def memory_by_node(path: str) -> Dict[int, int]:
    """The bytes that a group has of each node, but for page cache, which counts as free there."""
    found: Dict[int, int] = {}
    for line in (read_file(f"{path}/memory.numa_stat") or "").splitlines():
        for node, bytes in re.findall(r" N([0-9]{1,4})=([0-9]{1,18})", line) if line.startswith(ANON) else []:
            found[int(node)] = found.get(int(node), 0) + int(bytes)
    return found


def set_in(text: Optional[str]) -> Optional[Cpus]:
    """The set of a file's list; none where it was never written, and nothing where it can't be read."""
    try:
        return None if text is None else read_list(text, "")
    except Refused:
        return None


def may_run_elsewhere(path: str, cpus: Cpus) -> bool:
    """Whether a thread of a group, or of one below it, may run on other CPUs than these."""
    threads = (thread for folder, _, _ in os.walk(path) for thread in (read_file(f"{folder}/cgroup.threads") or "").split())
    return any(allowed_to(f"/proc/{thread}") - cpus for thread in threads)


def allowed_to(thread: str) -> Cpus:
    """The CPUs on which the thread of this folder may run; none where it is gone."""
    found = ALLOWED.search(read_file(f"{thread}/status") or "")
    return set_in(found[1]) or NO_CPUS if found else NO_CPUS


def limit_in(text: Optional[str]) -> Optional[Limit]:
    """The quota and the period of `cpu.max`; nothing where it has none."""
    found = re.fullmatch(r"([1-9][0-9]{0,17}) ([1-9][0-9]{0,17})", text or "")
    return (int(found[1]), int(found[2])) if found else None


def populated_in(text: Optional[str]) -> Optional[bool]:
    found = re.search(r"^populated ([01])$", text or "", re.M)
    return found[1] == "1" if found else None


def is_partition(text: Optional[str]) -> bool:
    """Whether a group is the root of a partition, also one that is invalid at the moment."""
    return (text or "").startswith(("root", "isolated"))


class Groups:
    """The groups of a tree. What has not changed since the last look is the same object."""

    def __init__(self, root: str, top: Optional[str] = None) -> None:
        self.root, self.top = root, top or root  # where the containers are, and from where runtimes tell paths
        self.files = GroupFiles(READ, files_to_keep())
        self.last: Dict[str, Tuple[int, Raw, Group]] = {}
        self.looked_at: Set[str] = set()

    def look_at(self, path: str) -> Union[Group, NoGroup]:
        self.looked_at.add(path)
        try:
            there = os.stat(path)
        except (OSError, ValueError):
            self.files.close(path)
            return NoGroup(f"{path}: no such group")
        inode = there.st_ino
        raw = self.files.read(path, inode, there.st_mtime_ns)
        before = self.last.get(path)
        if before and before[0] == inode and before[1] == raw:
            return before[2]
        texts = tuple(map(text_in, raw))
        if texts[0] is None and not os.path.lexists(f"{path}/{READ[0]}"):
            return NoGroup(f"{path}: no cpuset.cpus in it", folder=True)
        cpus, nodes, effective = (set_in(text) for text in texts[:3])
        group = Group(path, inode, cpus or NO_CPUS, nodes, effective, limit_in(texts[3]), populated_in(texts[4]), (texts[0], texts[1]))
        self.last[path] = inode, raw, group
        return group

    def end_look(self) -> None:
        """Forgets those that were not looked at."""
        for path in (self.last.keys() | self.files.kept.keys()) - self.looked_at:
            self.last.pop(path, None)
            self.files.close(path)
        self.looked_at = set()

    def effective_nodes(self) -> Optional[Cpus]:
        return set_in(read_file(f"{self.root}/cpuset.mems.effective"))

    def effective_cpus(self) -> Optional[Cpus]:
        return set_in(read_file(f"{self.root}/cpuset.cpus.effective"))

    def children(self, path: str) -> Tuple[str, ...]:
        try:
            return tuple(sorted(entry.name for entry in os.scandir(path) if entry.is_dir(follow_symlinks=False)))
        except OSError:
            return ()

    def named(self, slices: Tuple[str, ...]) -> Tuple[str, ...]:
        """The groups that --rest names, below the root: `/` names each one of the root that is no partition of its own."""
        every = self.children(self.root) if EACH in slices else ()
        each = tuple(name for name in every if not is_partition(read_file(f"{self.root}/{name}/cpuset.cpus.partition")))
        return tuple(dict.fromkeys(group for name in slices for group in (each if name == EACH else (name,))))

    def ways_to(self, slices: Tuple[str, ...], paths: FrozenSet[str]) -> Set[str]:
        """The groups of the system, among these and below them, that are above one of these paths."""
        tops = tuple(f"{self.root}/{name}" for name in slices)
        found: Set[str] = set()
        for path in paths:
            above = path.rpartition("/")[0]
            while above.startswith(tops) and above not in found:
                if any(above == top or above.startswith(f"{top}/") for top in tops):
                    found.add(above)
                above = above.rpartition("/")[0]
        return found


def scope_of(text: str) -> str:
    """The path of SLICE:PREFIX:NAME, as systemd has it: a-b.slice is in a.slice."""
    first, prefix, name = (text.split(":") + ["", ""])[:3]
    parts = (first or "system.slice").rsplit(".slice", 1)[0].split("-")
    slices = ["-".join(parts[:k + 1]) + ".slice" for k in range(len(parts))] if any(parts) else []
    return "/".join(slices + [name if name.endswith(".slice") else f"{prefix}-{name}.scope"])


def read_json(path: str) -> Config:
    """A JSON object in a file that somebody else writes, so that it may be there in part."""
    return parse_text(read_text(path, CONFIG_BYTES), path)


def state_of_runtime(folder: str) -> Optional[Config]:
    """What a runtime keeps of a container: crun's `status`, or runc's `state.json`."""
    for file in ("status", "state.json"):
        path = os.path.join(folder, file)
        if os.path.isfile(path):
            return read_json(path)
    return None


def group_in(state: Optional[Config]) -> Optional[str]:
    """The group that a runtime's state names."""
    for names in (("cgroup-path",), ("cgroup_paths", "")):
        found = at(state, *names)
        if isinstance(found, str) and found:
            return found
    return None


def group_path(root: str, parent: str, name: str, config: Config, folder: Optional[str], told: Optional[str]) -> str:
    """The path of a container's group: as the event says, or else the runtime's state, its config, or its id below the group of those of
    which nothing else is said."""
    found: object = told
    if found is None:
        path = at(config, "linux", "cgroupsPath")
        stated = group_in(state_of_runtime(folder)) if folder is not None else None
        found = stated or (scope_of(path) if isinstance(path, str) and path.count(":") == 2 else path)
    return root + below_root(root, found if isinstance(found, str) and found else f"{parent}/{name}").rstrip("/")


def below_root(root: str, path: str) -> str:
    """A group's path as it is below the root of the tree, which may stand before it."""
    text = path[len(root):] if path.startswith(f"{root}/") else path
    return os.path.normpath(f"/{text}").replace("//", "/")


def has_ended(folder: str) -> bool:
    """Whether the process that a runtime's state names has ended, so that the runtime calls the container stopped."""
    try:
        state = state_of_runtime(folder)
    except Refused:
        return False
    for pid_name, start_name in (("pid", "process-start-time"), ("init_process_pid", "init_process_start")):
        pid, start = at(state, pid_name), at(state, start_name)
        if isinstance(pid, int) and not isinstance(pid, bool) and pid > 0:
            return not is_process(pid, start)
    return False


def is_process(pid: int, start: object) -> bool:
    """Whether there is a process of this number that began then, if that is known."""
    text = read_file(f"/proc/{pid}/stat")
    if text is None:
        return False
    fields = text.rpartition(")")[2].split()
    return not isinstance(start, int) or not start or len(fields) < 20 or fields[19] == str(start)
