"""How much memory of each node is free, or can be freed, as the kernel tells it."""

from __future__ import annotations

import os
import re
from typing import Optional

from .homes import FreeMemory
from .machine import Machine
from .script import Refused, read_text

MEMINFO_BYTES = 1 << 16
# What the kernel has free, and what it frees once somebody wants memory: on a warm host page cache has nearly all.
# Shared memory and tmpfs are in none of these lists.
FREE = ("MemFree", "Active(file)", "Inactive(file)")
SLABS = ("KReclaimable", "SReclaimable")  # the first one that is told, since it has the other in it


def free_memory(folder: str, machine: Machine) -> FreeMemory:
    """The bytes of each node with CPUs that are free, or can be freed, by its meminfo."""
    return {node: free_of(folder, node) for node, cpus in enumerate(machine.nodes) if cpus}


def free_of(folder: str, node: int) -> Optional[int]:
    try:
        text = read_text(os.path.join(folder, f"node{node}", "meminfo"), MEMINFO_BYTES)
    except Refused:
        return None
    told = {name: int(kib) * 1024 for name, kib in re.findall(r"([A-Z][\w()]+):\s*([0-9]{1,15}) kB", text)}
    slabs = next((told[name] for name in SLABS if name in told), 0)
    return sum(told.get(name, 0) for name in FREE) + slabs if "MemFree" in told else None
