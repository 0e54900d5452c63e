"""Gives back what an agent took: each group requests again what it did before, or all CPUs and nodes where the kernel takes no empty
list of a group that has processes. The partition comes first, since a group can request the system's CPUs only behind that. No agent may
run meanwhile."""

from __future__ import annotations

import os
from typing import Optional, Sequence

from .cgroups import LIMIT, limit_in, read_file, set_in
from .commands import Taken
from .cpus import print_list
from .links import CPUS_IN_EFFECT, NODES_IN_EFFECT, Links
from .partition_files import give_back as give_partition_back
from .partition_files import read_before
from .slices import FILES
from .taken import Whole, read_record, write_file, write_limit

ONLINE = "/sys/devices/system/cpu/online"


def release(root: str, work: str, slices: Sequence[str]) -> int:
    """Says what was given back; 1 where a write was refused."""
    links, record = Links(root, work), read_record(work)
    links.leave({})
    partition = give_partition_back(work)
    for line in partition.lines:
        print(line)
    status = 1 if partition.failed else 0
    if partition.lines and not partition.failed:
        record.whole = (read_file(f"{links.root}/{CPUS_IN_EFFECT}"), record.whole[1])
    if not all(text not in (None, "-") for text in record.whole):
        record.whole = (read_file(f"{links.root}/{CPUS_IN_EFFECT}") or "", read_file(f"{links.root}/{NODES_IN_EFFECT}") or "")
    more = [path for path in (os.path.join(links.root, name) for name in slices) if os.path.isdir(path)]
    for path in sorted({*record.groups, *more}):
        why = give_back(path, record.groups.get(path, Taken(0, "", "", True)), record.whole)
        if why:
            print(f"failed {why}")
            status = 1
            continue
        has, taken = [read_file(os.path.join(path, file)) or "-" for file in FILES], record.groups.pop(path, None)
        limit = f" {LIMIT} {read_file(os.path.join(path, LIMIT))}" if taken and taken.limit else ""
        print(f"given back {path}: cpus {has[0]} mems {has[1]}{limit}")
    if record.groups:
        record.save(record.groups)
    elif os.path.exists(record.path):
        os.remove(record.path)
    return status


def is_kept(work: str) -> bool:
    """Whether an agent has kept something that can be given back."""
    return bool(read_record(work).groups) or read_before(work) is not None


def give_back(path: str, taken: Taken, whole: Whole) -> Optional[str]:
    """Lets a group request what it did before, or all; why it can't, or nothing."""
    for file, text, everything in zip(FILES, (taken.cpus, taken.nodes), (left_by_partitions(path, whole[0]), whole[1])):
        if text is None:
            continue
        why = write_file(os.path.join(path, file), text)
        why = write_file(os.path.join(path, file), everything or "") if why and not text else why
        if why:
            return why
    return give_limit_back(os.path.join(path, LIMIT), taken)


def left_by_partitions(path: str, everything: Optional[str]) -> Optional[str]:
    """These CPUs but for those that run and that the group above has not in effect: a partition beside has them, which ends if anybody
    requests one."""
    above, online = (set_in(read_file(file)) for file in (f"{os.path.dirname(path)}/{CPUS_IN_EFFECT}", ONLINE))
    cpus = set_in(everything)
    return everything if above is None or online is None or cpus is None else print_list(cpus - (online - above))


def give_limit_back(path: str, taken: Taken) -> Optional[str]:
    """Lets a group have the limit again that was lifted, if nobody gave it another one since; why it can't, or nothing."""
    found = read_file(path)
    lifted = taken.limit and found is not None and limit_in(found) is None
    return write_limit(path, taken.limit) if lifted else None
