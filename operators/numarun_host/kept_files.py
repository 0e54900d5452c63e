"""The files of groups, which are kept open as far as may be, so that a look reads each by one call."""

from __future__ import annotations

import os
import resource
import time
from dataclasses import dataclass
from typing import Dict, List, Optional, Tuple

FILE_BYTES = 1 << 16
PIECE = 400  # bytes into which most files of a group fit
FLAGS = os.O_RDONLY | os.O_CLOEXEC | os.O_NONBLOCK
YOUNG = 1_000_000_000  # nanoseconds behind a change of a folder within which the next one may leave the same time there
MOST_FILES, OTHERS = 16384, 512  # that the process may have open, and those of them that are left to all else
Raw = Tuple[Optional[bytes], ...]


def bounded(limit: int) -> int:
    return MOST_FILES if limit == resource.RLIM_INFINITY else min(limit, MOST_FILES)


def allow_files() -> None:
    """Lets this process have more files open than the 1,024 that are usual, as far as the system lets it."""
    soft, hard = resource.getrlimit(resource.RLIMIT_NOFILE)
    if bounded(soft) < bounded(hard):
        resource.setrlimit(resource.RLIMIT_NOFILE, (bounded(hard), hard))


def files_to_keep() -> int:
    """How many may be kept open."""
    return max(0, bounded(resource.getrlimit(resource.RLIMIT_NOFILE)[0]) - OTHERS)


def open_file(path: str) -> Optional[int]:
    try:
        return os.open(path, FLAGS)
    except (OSError, ValueError):
        return None


def read_whole(file: int, found: bytes) -> bytes:
    """The bytes of an open file of which these are the first."""
    piece = found
    while len(piece) == PIECE and len(found) < FILE_BYTES:
        piece = os.pread(file, PIECE, len(found))
        found += piece
    return found


def read_open(file: Optional[int]) -> Optional[bytes]:
    try:
        return None if file is None else read_whole(file, os.pread(file, PIECE, 0))
    except OSError:
        return None


def read_raw(path: str) -> Optional[bytes]:
    """The bytes of a file of a group, or nothing."""
    file = open_file(path)
    try:
        return read_open(file)
    finally:
        if file is not None:
            os.close(file)


@dataclass(frozen=True)
class Kept:
    """The open files of a group, and which folder that is, with when that had changed last, in nanoseconds."""

    inode: int
    changed: int
    files: Tuple[int, ...]


class GroupFiles:
    """Reads these files of groups. They stay open of a folder that has been as it is for a while, and are read again without looking for their
    names as long as it is that folder, and has not changed: the kernel lets nobody read one that was removed, and what is put into the place of one
    in a plain folder changes that."""

    def __init__(self, names: Tuple[str, ...], room: int) -> None:
        self.names, self.room = names, room
        self.kept: Dict[str, Kept] = {}
        self.pieces, self.beginnings = (PIECE,) * len(names), (0,) * len(names)

    def read(self, path: str, inode: int, changed: int) -> Raw:
        """What the files of a group have, whose folder has this inode, and had changed last then."""
        kept = self.kept.get(path)
        if kept is not None:
            if kept.inode == inode and kept.changed == changed:
                try:
                    return self.read_again(kept.files)
                except OSError:
                    pass  # they are removed, as those of a controller are where that is taken away from a group
            self.close(path)
        return self.open(path, inode, changed)

    def read_again(self, files: Tuple[int, ...]) -> Raw:
        found = tuple(map(os.pread, files, self.pieces, self.beginnings))
        return tuple(map(read_whole, files, found)) if PIECE in map(len, found) else found

    def open(self, path: str, inode: int, changed: int) -> Raw:
        files = [open_file(f"{path}/{name}") for name in self.names]
        found = tuple(map(read_open, files))
        opened: List[int] = [file for file in files if file is not None]
        if None not in found and len(opened) <= self.room and time.time_ns() - changed > YOUNG:
            self.kept[path] = Kept(inode, changed, tuple(opened))
            self.room -= len(opened)
        else:
            for file in opened:
                os.close(file)
        return found

    def close(self, path: str) -> None:
        """Nothing is kept of this group."""
        kept = self.kept.pop(path, None)
        for file in kept.files if kept else ():
            os.close(file)
            self.room += 1

    def close_all(self) -> None:
        for path in list(self.kept):
            self.close(path)
