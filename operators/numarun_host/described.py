"""A machine as a machine file describes it, and how it is written."""

from __future__ import annotations

import json
import os
import sys
from dataclasses import dataclass
from typing import List, Sequence

from .cpus import NO_CPUS, Cpus, print_list
from .script import Refused

UNREACHABLE = 255  # a distance that is not told


def say(text: str) -> None:
    print(f"{os.path.basename(sys.argv[0])}: {text}", file=sys.stderr)


def check_system(system: Cpus, present: Cpus, online: Cpus, cores: Sequence[Cpus]) -> None:
    """Refuses CPUs that can't be left to the system, out of a machine that has these CPUs and cores."""
    if system - present:
        raise Refused(f"--system: CPUs that no node has: {print_list(system - present)}")
    parts = [core for core in cores if core & system not in (NO_CPUS, core)]
    if parts:
        raise Refused(f"--system: the core {print_list(parts[0])} is left to the system in part")
    if not online & present - system:
        raise Refused("--system: no CPU that is online is left to containers")


@dataclass(frozen=True)
class Described:
    nodes: Sequence[Cpus]
    distances: Sequence[Sequence[int]]
    reserved: Cpus
    offline: Cpus
    cores: Sequence[str]  # none where each CPU is one

    def text(self) -> str:
        """The text of the machine file."""
        lines: List[str] = [
            f'"nodes": {json.dumps([print_list(cpus, "") for cpus in self.nodes])}',
            f'"distances": {json.dumps(self.distances)}',
            f'"reserved": "{print_list(self.reserved)}"',
            f'"offline": {json.dumps(print_list(self.offline, ""))}',
        ]
        if self.cores:
            lines.append(f'"cores": {json.dumps(self.cores)}')
        return "{\n  " + ",\n  ".join(lines) + "\n}"
