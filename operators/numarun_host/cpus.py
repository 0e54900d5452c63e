"""Lists of CPUs and of nodes as cpuset(7) has them, List Format, and sets of CPUs as masks."""

from __future__ import annotations

import re
from typing import FrozenSet, Iterable, Iterator, List, Tuple

from .script import Refused

Cpus = FrozenSet[int]
NO_CPUS: Cpus = frozenset()
# As much as numarun takes.
CPUS, NODES = 4096, 128


def read_ranges(text: str, place: str) -> Iterator[Tuple[int, int]]:
    """The ranges of a list of CPUs; `-` has none, as in numarun's answers."""
    for item in [] if text.strip() == "-" else text.split(","):
        found = re.fullmatch(r"\s*(?:([0-9]{1,9})(?:-([0-9]{1,9}))?)?\s*", item)
        first, last = (int(found[1]), int(found[2] or found[1])) if found and found[1] else (0, -1)
        if not found or (found[1] and not first <= last < CPUS):
            raise Refused(f"{place}: {item.strip()[:40]!r} is no CPU or range of CPUs below {CPUS}")
        yield first, last


def read_list(text: str, place: str) -> Cpus:
    """The set of a list of CPUs."""
    return frozenset(cpu for first, last in read_ranges(text, place) for cpu in range(first, last + 1))


def print_list(cpus: Iterable[int], empty: str = "-") -> str:
    ranges: List[Tuple[int, int]] = []
    for cpu in sorted(cpus):
        if ranges and ranges[-1][1] == cpu - 1:
            ranges[-1] = ranges[-1][0], cpu
        else:
            ranges.append((cpu, cpu))
    return ",".join(str(a) if a == b else f"{a}-{b}" for a, b in ranges) or empty


def counted(number: int, what: str = "CPU") -> str:
    return f"{number} {what}{'s' * (number != 1)}"


def mask_of(cpus: Iterable[int]) -> int:
    """A set as a whole number whose bit N is CPU N."""
    return sum(1 << cpu for cpu in cpus)


def cpus_of(mask: int) -> Cpus:
    return frozenset(cpu for cpu, bit in enumerate(bin(mask)[:1:-1]) if bit == "1")


def size(mask: int) -> int:
    return bin(mask).count("1")
