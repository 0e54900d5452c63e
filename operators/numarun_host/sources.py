"""Where containers are told: lines of standard input, and folders of bundles or of a runtime's state. What they come to is kept as
containers that ought to be there, by their ids, so that who looks late sees what is, and nothing twice."""

from __future__ import annotations

import os
import select
from dataclasses import dataclass
from typing import Dict, Iterator, List, Optional, Sequence, Tuple, Union

from .runtimes import Watch
from .seen import Double, Folder, Told, Unread
from .states import Kept, kept_in

ROOT = "/sys/fs/cgroup"  # of the tree, where no other is named
LINE = 8192  # bytes of an event, as of a line of a script
PIECE = 1 << 16
Unreadable = Dict[str, Unread]  # by its path
EVENTS = {"created": (2, 3), "started": (1,), "ended": (1,), "offline": (1,), "online": (1,), "rebalance": (0,)}


class Input:
    """Events of standard input. All lines that are there are taken at once."""

    def __init__(self) -> None:
        self.told: Dict[str, Told] = {}
        self.rest, self.count, self.ended = b"", 0, False
        self.wrong: List[str] = []
        self.events: List[str] = []  # those other than of containers, in their order
        self.folders: Tuple[Folder, ...] = ()
        self.doubles: Tuple[Double, ...] = ()
        self.unread: Tuple[Unread, ...] = ()

    def look(self) -> None:
        """Takes the lines that are there."""
        lines: List[Tuple[int, bytes]] = []
        while not self.ended and len(lines) < PIECE and select.select([0], [], [], 0)[0]:
            piece = os.read(0, PIECE)
            self.ended = not piece
            lines += self.lines(piece or b"\n")
        self.events = [event for number, line in lines for event in self.event(number, line)]

    def lines(self, piece: bytes) -> List[Tuple[int, bytes]]:
        """The lines that end in a piece, with their numbers. Of one that is too long the beginning is kept."""
        *whole, rest = (self.rest + piece).split(b"\n")
        self.rest = rest[:LINE + 1]
        self.count += len(whole)
        return [(self.count - len(whole) + k, line) for k, line in enumerate(whole, 1)]

    def event(self, number: int, line: bytes) -> List[str]:
        try:
            words = line.decode().split() if len(line) <= LINE else None
        except UnicodeDecodeError:
            words = None
        if words == []:
            return []
        if not words or words[0] not in EVENTS or len(words) - 1 not in EVENTS[words[0]]:
            self.wrong.append(f"line {number}: {line[:60].decode(errors='replace')!r} is no event (see --help)")
            return []
        return self.take_up(number, words[0], words[1:])

    def take_up(self, number: int, kind: str, words: List[str]) -> List[str]:
        if kind == "created":
            self.told[words[0]] = Told(words[1], words[1], words[2] if len(words) > 2 else None, number)
        elif kind == "ended" and self.told.pop(words[0], None) is None:
            self.wrong.append(f"line {number}: unknown {words[0]}")
        elif kind in ("offline", "online"):
            return [f"{kind} {words[0]}"]
        return ["rebalance"] if kind == "rebalance" else []


@dataclass(frozen=True)
class Entry:
    """A container in a watched folder, by its id, and what is kept of it there."""

    name: str
    told: Told
    kept: Kept

    def is_of(self, other: Entry) -> bool:
        """Whether both tell of one container, as of one group."""
        return self is other or (self.kept.group is not None and self.kept.group == other.kept.group)


@dataclass(frozen=True)
class Listed:
    """A watched folder, and whether a runtime's name stands for it: its entries by their names, with what is there of a container; nothing where
    there is no such folder."""

    path: str
    by_runtime: bool
    entries: Optional[Tuple[Tuple[str, Optional[Entry]], ...]]


class Folders:
    """The containers of folders: of bundles, or of the state of a runtime. Their ids are the entries. A folder that is not there yet
    is an empty one. One that can't be read has what it had at the last look, and the others are looked at all the same. Of two containers
    of one id the one that is told already goes on, or else that of the folder that was named first. If two folders tell of one group
    they tell of one container, and what its runtime keeps of it is more than what a hook does."""

    ended = False

    def __init__(self, watches: Sequence[Watch], root: str = ROOT) -> None:
        self.watches, self.root = watches, root
        self.told: Dict[str, Told] = {}
        self.known: Dict[str, Tuple[Tuple[int, int], Entry]] = {}  # by its folder what was told of it, and when that had changed last
        self.seen: List[Listed] = []  # each folder at the last look
        self.families: Dict[str, List[str]] = {}  # by the folder in which they are those of a family at the last look
        self.folders: Tuple[Folder, ...] = ()
        self.doubles: Tuple[Double, ...] = ()
        self.unread: Tuple[Unread, ...] = ()
        self.wrong: List[str] = []
        self.events: List[str] = []

    def look(self) -> None:
        before = {listed.path: listed for listed in self.seen}
        unread: Unreadable = {}
        seen = [self.listed(path, by_runtime, before.get(path), unread) for path, by_runtime in self.paths(unread)]
        self.unread = tuple(unread.values())
        if seen != self.seen:
            self.seen = seen
            self.choose()

    def choose(self) -> None:
        """What is told by what was seen, where that is otherwise than it was."""
        found: Dict[str, List[Entry]] = {}
        folders = []
        for listed in self.seen:
            entries = listed.entries or ()
            containers = [entry for _, entry in entries if entry]
            stranger = next((name for name, entry in entries if not entry), "")
            for entry in containers:
                found.setdefault(entry.name, []).append(entry)
            folders.append(Folder(listed.path, listed.entries is not None, len(entries), len(containers), stranger, listed.by_runtime))
        self.folders = tuple(folders)
        chosen = {name: self.chosen(name, several) for name, several in found.items()}
        self.doubles = tuple(Double(name, entry.told.folder or "", chosen[name].told.folder or "")
                             for name, several in found.items() for entry in several if not entry.is_of(chosen[name]))
        self.told = {name: entry.told for name, entry in chosen.items()}
        there = {entry.told.folder for several in found.values() for entry in several}
        self.known = {folder: known for folder, known in self.known.items() if folder in there}

    def listed(self, path: str, by_runtime: bool, before: Optional[Listed], unread: Unreadable) -> Listed:
        """A folder as it is; where it can't be read, as it was, or else without entries."""
        names = names_in(path)
        if isinstance(names, Unread):
            unread[path] = names
            return before or Listed(path, by_runtime, ())
        return Listed(path, by_runtime, None if names is None else tuple((name, self.entry(f"{path}/{name}")) for name in names))

    def paths(self, unread: Unreadable) -> Iterator[Tuple[str, bool]]:
        """The folders that are watched now, and whether a runtime's name stands for them; the one in which they are where there is none."""
        for watch in self.watches:
            if not watch.is_family:
                yield watch.path, watch.by_runtime
                continue
            for path in self.family_in(watch.parent, unread) or [watch.parent]:
                yield path, True

    def family_in(self, parent: str, unread: Unreadable) -> List[str]:
        """The folders in one; where that can't be read, those that were there."""
        names = names_in(parent)
        if isinstance(names, Unread):
            unread[parent] = names
            return self.families.get(parent, [])
        folders = [path for path in (os.path.join(parent, name) for name in names or ()) if os.path.isdir(path)]
        self.families[parent] = folders
        return folders

    def chosen(self, name: str, several: List[Entry]) -> Entry:
        if len(several) == 1:
            return several[0]
        before = self.told.get(name)
        first = next((entry for entry in several if before and entry.told.folder == before.folder), several[0])
        return next((entry for entry in several if entry.is_of(first) and entry.kept.by_runtime), first)

    def entry(self, folder: str) -> Optional[Entry]:
        """What is there of a container. Its state is read anew where its folder is another one, or has changed, or was not as it ought to be."""
        try:
            found = os.stat(folder)
        except (OSError, ValueError):
            return None
        stamp = found.st_ino, found.st_mtime_ns
        known = self.known.get(folder)
        if known and known[0] == stamp and not known[1].kept.fault:
            return known[1]
        kept = kept_in(folder, self.root)
        if kept is None:
            return None
        name = os.path.basename(folder)
        fault = kept.fault if is_word(name) else f"{ascii(folder)}: a name with blanks, or with signs that can't be printed, is no id"
        entry = Entry(id_of(name), Told(kept.bundle, folder, listed=kept.listed, fault=fault, nodes=kept.nodes), kept)
        self.known[folder] = stamp, entry
        return entry


def names_in(path: str) -> Union[List[str], None, Unread]:
    """The names of the entries that may be containers, in their order; nothing where there is no such folder."""
    try:
        return sorted(name for name in os.listdir(path) if name[0] != ".")
    except FileNotFoundError:
        return None
    except (OSError, ValueError) as why:
        return Unread(path, f"{path}: {getattr(why, 'strerror', None) or why}")


def is_word(name: str) -> bool:
    """Whether a name can stand in a line."""
    return name.isprintable() and name.split() == [name]


def id_of(name: str) -> str:
    """The id of an entry; one that is no word stands between quotation marks, as no other does."""
    return name if is_word(name) else ascii(name)


Source = Union[Input, Folders]
