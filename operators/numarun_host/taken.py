"""What groups requested before the agent took them up, kept in a file of its folder, so that it can be given back: by --release all of
it, and of a group of the system that is on the way to a pinned container at once."""

from __future__ import annotations

import json
import os
from dataclasses import dataclass, field
from typing import Dict, List, Mapping, Optional, Tuple

from .commands import Taken
from .configs import Limit, is_number, parse_text
from .cpus import Cpus, print_list
from .script import Refused, read_kept, replace_file

RECORD_BYTES = 64 << 20
Whole = Tuple[Optional[str], Optional[str]]  # all CPUs and all nodes, as lists


def write_file(path: str, text: str) -> Optional[str]:
    """One write of the system; why it was refused, or nothing. A path or a text that can't be one of the system's is refused too."""
    try:
        file = os.open(path, os.O_WRONLY | os.O_TRUNC | os.O_NONBLOCK)
        try:
            os.write(file, f"{text}\n".encode())
        finally:
            os.close(file)
    except (OSError, ValueError) as why:
        return f"{path}: {getattr(why, 'strerror', None) or why}"
    return None


def write_limit(path: str, limit: Optional[Limit]) -> Optional[str]:
    """The same of a limit, or that there is none, whose period stays as it is then."""
    return write_file(path, f"{limit[0]} {limit[1]}" if limit else "max")


@dataclass
class Record:
    """The file: what was taken of each group that is there as it was then, and of those in whose place another group is by now."""

    path: str
    whole: Whole = (None, None)
    groups: Dict[str, Taken] = field(default_factory=dict)
    renewed: Dict[str, Taken] = field(default_factory=dict)

    def save(self, groups: Mapping[str, Taken]) -> None:
        entries = {path: entry_of(taken) for path, taken in groups.items()}
        listed = [path for path, taken in groups.items() if taken.listed]
        replace_file(self.path, json.dumps({"all": list(self.whole), "groups": entries, "listed": listed}))


def entry_of(taken: Taken) -> List[object]:
    """An entry of the file, which has a fifth member where a limit was lifted."""
    return [taken.inode, taken.cpus, taken.nodes, taken.system, *([list(taken.limit)] if taken.limit else [])]


def read_record(work: str) -> Record:
    """What an agent before has kept; nothing where that is no such record."""
    record = Record(os.path.join(work, "taken.json"))
    try:
        found = parse_text(read_kept(record.path, RECORD_BYTES), record.path)
    except Refused:
        return record
    record.whole = whole_of(found.get("all"))
    groups = found.get("groups")
    for path, entry in groups.items() if isinstance(groups, dict) else []:
        taken, inode = taken_of(entry, is_named(path, found.get("listed"))), inode_of(path)
        if taken and inode == taken.inode:
            record.groups[path] = taken
        elif taken and inode:
            record.renewed[path] = taken
    return record


def whole_of(found: object) -> Whole:
    if isinstance(found, list) and len(found) == 2 and all(is_text(text) for text in found):
        return found[0], found[1]
    return None, None


def is_text(found: object) -> bool:
    """Whether it is a text that can stand in a file: one in UTF-8 has no halves of surrogate pairs."""
    return isinstance(found, str) and not any("\ud800" <= sign <= "\udfff" for sign in found)


def is_named(path: str, paths: object) -> bool:
    return isinstance(paths, list) and path in paths


def taken_of(entry: object, listed: bool = False) -> Optional[Taken]:
    if not isinstance(entry, list) or len(entry) not in (4, 5):
        return None
    inode, cpus, nodes, system = entry[:4]
    texts = all(text is None or is_text(text) for text in (cpus, nodes))
    return Taken(inode, cpus, nodes, bool(system), limit_of(entry[4:]), listed) if isinstance(inode, int) and texts else None


def limit_of(members: List[object]) -> Optional[Limit]:
    """The limit that an entry ends with, if it has one."""
    found = members[0] if members else None
    if isinstance(found, list) and len(found) == 2 and all(is_number(part) and part > 0 for part in found):
        return found[0], found[1]
    return None


def inode_of(path: str) -> Optional[int]:
    try:
        return os.stat(path).st_ino
    except (OSError, ValueError):
        return None


def whole_machine(cpus: Cpus, nodes: Cpus) -> Whole:
    return print_list(cpus), print_list(nodes)
