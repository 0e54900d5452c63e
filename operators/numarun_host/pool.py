"""How many CPUs are left to those that have none of their own."""

from __future__ import annotations

import re

from .machine import Machine

POOL_LEAST = "10%"
CORES = 2  # that a part of the machine comes to at least


def is_pool_least(text: str) -> bool:
    return re.fullmatch(r"[0-9]{1,4}|[0-9]{1,2}%|100%", text) is not None


def pool_least_of(text: str, machine: Machine) -> int:
    """A number of CPUs, or a part of the machine's, in whole cores."""
    if not text.endswith("%"):
        return int(text)
    cpus = -(-len(machine.present) * int(text[:-1]) // 100)
    return max(-(-cpus // machine.threads), CORES if int(text[:-1]) else 0) * machine.threads
