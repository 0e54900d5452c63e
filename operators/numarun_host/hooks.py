"""Hooks that wait until the agent has answered of a container, at a socket in the agent's folder: a line with the id is told, and a line
of JSON is answered."""

from __future__ import annotations

import contextlib
import json
import os
import socket
import time
from typing import Callable, Dict, Iterator, List, Mapping, Optional, Tuple

from .script import Refused

PATIENCE = 120  # seconds after which nobody waits any more
LINE = 256      # bytes of what is told
MOST = 256      # hooks at once, so that enough of the 512 files are left that no group's are
SECONDS = 1.0   # that one has to take its answer
STATUS = "?status"  # what is told by one who asks what the agent knows
AnswerOf = Callable[[str], Optional[Mapping[str, object]]]


@contextlib.contextmanager
def near(path: str) -> Iterator[str]:
    """A shorter name of a socket, since one may have some 100 bytes: by its folder, which is open meanwhile."""
    folder = os.open(os.path.dirname(path) or ".", os.O_RDONLY | os.O_DIRECTORY)
    try:
        yield f"/proc/self/fd/{folder}/{os.path.basename(path)}"
    finally:
        os.close(folder)


class Hooks:
    """Those that wait: by its connection the bytes that one told, and until when it waits."""

    def __init__(self, path: str) -> None:
        self.path = path
        self.waiting: Dict[socket.socket, Tuple[bytes, float]] = {}
        self.door = socket.socket(socket.AF_UNIX, socket.SOCK_STREAM)
        with contextlib.suppress(FileNotFoundError):
            os.unlink(path)
        try:
            with near(path) as name:
                self.door.bind(name)
        except OSError as why:
            raise Refused(f"{path}: {why.strerror or why}") from None
        self.door.listen(64)
        self.door.setblocking(False)

    def files(self) -> List[int]:
        """What is to be looked at: it is ready where somebody comes who is taken up, or tells."""
        door = [self.door.fileno()] if len(self.waiting) < MOST else []
        return [*door, *(hook.fileno() for hook, (told, _) in self.waiting.items() if not told.endswith(b"\n"))]

    def take(self) -> None:
        """Hears those who come, and what they tell."""
        with contextlib.suppress(OSError):
            while len(self.waiting) < MOST:
                hook = self.door.accept()[0]
                hook.setblocking(False)
                self.waiting[hook] = b"", time.monotonic() + PATIENCE
        for hook, (told, until) in list(self.waiting.items()):
            self.hear(hook, told, until)

    def hear(self, hook: socket.socket, told: bytes, until: float) -> None:
        piece: Optional[bytes]
        try:
            piece = hook.recv(LINE)
        except BlockingIOError:
            piece = None
        except OSError:
            piece = b""
        if piece == b"" or len(told + (piece or b"")) > LINE or time.monotonic() > until:
            self.close(hook)
        elif piece:
            self.waiting[hook] = told + piece, until

    def answer(self, answer_of: AnswerOf) -> None:
        """Answers those of whose containers there is something to say."""
        for hook, (told, _) in list(self.waiting.items()):
            name = told.decode(errors="replace")
            answer = answer_of(name[:-1]) if name.endswith("\n") else None
            if answer:
                with contextlib.suppress(OSError):
                    hook.settimeout(SECONDS)
                    hook.sendall(f"{json.dumps(answer)}\n".encode())
                self.close(hook)

    def close(self, hook: socket.socket) -> None:
        del self.waiting[hook]
        hook.close()
