"""What the agent leaves for others to read: its figures as a textfile of node_exporter, its last state, and the certificate of each plan by its
date."""

from __future__ import annotations

import json
import os
import time
from datetime import datetime, timezone
from typing import Mapping, Optional, Tuple

from .script import Refused, replace_file

KEPT, KEPT_BYTES = 1000, 256 << 20  # certificates, and their bytes, that are kept
SUFFIX = "Z.certificate"
LAST_STATE = "status.json"
FIGURES = {
    "plans_total": ("counter", "plans that were handed over to the end"),
    "moves_total": ("counter", "CPUs that a container got which its group did not request before"),
    "steps_total": ("counter", "writes of hand-overs that were made"),
    "shortages_total": ("counter", "plans that could not be, since there are too few CPUs"),
    "refused_writes_total": ("counter", "writes that the kernel refused"),
    "distance": ("gauge", "the total distance of the last plan"),
    "distance_beyond_local": ("gauge", "what is more in it than if each CPU were at 10"),
    "containers_pinned": ("gauge", "containers with CPUs of their own"),
    "containers_shared": ("gauge", "containers on the pool"),
    "containers_waiting": ("gauge", "containers on the pool until there is room"),
    "containers_squeezed": ("gauge", "pinned containers that have not in effect what they were given"),
    "waited_seconds_total": ("counter", "seconds that containers waited for room, those of each added up"),
    "squeezed_seconds_total": ("counter", "seconds that pinned containers had not in effect what they were given, those of each added up"),
    "partition_valid": ("gauge", "1 where the containers need be in no partition, or are in a valid one"),
    "loose_processes": ("gauge", "processes of the root group that may run on CPUs of the partition"),
    "undone": ("gauge", "what is left undone, of containers, plans, writes and the look at the machine"),
    "look_timestamp_seconds": ("gauge", "when the machine was last looked at"),
}


def text_of(figures: Mapping[str, float]) -> str:
    """The figures as node_exporter reads them."""
    return "".join(f"# HELP numarun_{name} {what}\n# TYPE numarun_{name} {kind}\nnumarun_{name} {figures[name]:.12g}\n"
                   for name, (kind, what) in FIGURES.items())


def leave_figures(path: str, figures: Mapping[str, float]) -> None:
    replace_file(path, text_of({**figures, "look_timestamp_seconds": int(time.time())}))


def leave_state(path: str, state: Mapping[str, object], ended: bool) -> None:
    """The agent's last state, with when that was."""
    now = datetime.now(timezone.utc).isoformat(timespec="seconds")
    replace_file(path, json.dumps({"running": False, "ended": ended, "time": now, **state}) + "\n")


class Certificates:
    """A folder of the last certificates."""

    def __init__(self, folder: str, most: int = KEPT) -> None:
        self.folder, self.most = folder, most
        self.last: Optional[Tuple[str, ...]] = None
        self.path = ""  # of the last one
        if folder:
            try:
                os.makedirs(folder, exist_ok=True)
            except OSError as why:
                raise Refused(f"{folder}: {why.strerror}") from None

    def keep(self, lines: Tuple[str, ...]) -> Optional[str]:
        """Keeps a certificate, unless it is the last one again; its file, and nothing of what is none."""
        if lines == self.last:
            return self.path
        if not lines[0].startswith("numarun-certificate"):
            return None
        name = datetime.now(timezone.utc).strftime("%Y-%m-%dT%H-%M-%S.%f")[:-3] + SUFFIX
        path = os.path.join(self.folder, name)
        replace_file(path, "\n".join(lines) + "\n")
        self.last, self.path = lines, path
        self.drop_old()
        return path

    def drop_old(self) -> None:
        """Takes the oldest certificates away, so that the folder is bounded."""
        try:
            found = [entry for entry in os.scandir(self.folder) if entry.name.endswith(SUFFIX)]
            kept = size = 0
            for entry in sorted(found, key=lambda entry: entry.name, reverse=True):
                kept, size = kept + 1, size + entry.stat().st_size
                if kept > self.most or (size > KEPT_BYTES and kept > 1):
                    os.remove(entry.path)
        except OSError as why:
            raise Refused(f"{self.folder}: {why.strerror}") from None
