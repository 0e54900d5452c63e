"""What systemd is told of a service of Type=notify, as sd_notify(3) has it: that it is ready, that it works, that it ends."""

from __future__ import annotations

import contextlib
import os
import socket

READY, WORKS, ENDS = "READY=1", "WATCHDOG=1", "STOPPING=1"
IN_THE_MIDST = f"{WORKS}\nEXTEND_TIMEOUT_USEC=60000000"  # it works, and where it is not ready yet it is waited for another minute


def patience_of_watchdog() -> float:
    """The seconds in which it wants to hear from the service, or no end of them."""
    text = os.environ.get("WATCHDOG_USEC", "")
    return int(text) / 1_000_000 if text.isascii() and text.isdecimal() and int(text) else float("inf")


def notify(state: str) -> None:
    """Tells the service manager, where there is one that wants to be told."""
    path = os.environ.get("NOTIFY_SOCKET", "")
    if path:
        with contextlib.suppress(OSError), socket.socket(socket.AF_UNIX, socket.SOCK_DGRAM) as door:
            door.sendto(state.encode(), f"\0{path[1:]}" if path.startswith("@") else path)
