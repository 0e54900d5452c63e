"""The direct order of a hand-over: which write comes next. It is written from docs/formats.md alone, "Scripts", over plain sets."""

from collections import defaultdict
from dataclasses import dataclass
from functools import cached_property
from typing import DefaultDict, FrozenSet, List, NamedTuple, Optional, Sequence, Tuple

Cpus = FrozenSet[int]
Write = Tuple[int, Cpus]


@dataclass(frozen=True)
class Live:
    """A live container of a hand-over. `own` says whether it asks for CPUs of its own, which it shares with nobody."""

    own: bool
    requests: Cpus
    target: Cpus
    allowed: Cpus


class Host(NamedTuple):
    """The reserved and the online CPUs, and the CPUs of each core."""

    reserved: Cpus
    online: Cpus
    cores: Sequence[Cpus]

    def first_whole(self, cpus: Cpus, count: int) -> Cpus:
        """The first cores that are all among these CPUs, as many as make so many CPUs up."""
        whole = sorted((core for core in self.cores if core <= cpus), key=min)
        size = len(self.cores[0])
        return frozenset().union(*whole[: -(-count // size)])


class HandOver:
    """The live containers of a hand-over, in the order of creation, as they stand now."""

    def __init__(self, containers: Sequence[Live], host: Host) -> None:
        self.containers, self.host = containers, host
        self.all = range(len(containers))
        self.requesters: DefaultDict[int, List[int]] = defaultdict(list)
        for k, one in enumerate(containers):
            for cpu in self.beyond(one.requests):
                self.requesters[cpu].append(k)
        self.blockers = [self.first_blocker(k) for k in self.all]

    # What is said of each.

    def beyond(self, cpus: Cpus) -> Cpus:
        return cpus - self.host.reserved

    def moves(self, k: int) -> bool:
        return self.containers[k].requests != self.containers[k].target

    def lets_go(self, k: int) -> bool:
        return bool(self.beyond(self.containers[k].requests - self.containers[k].target))

    def are_rivals(self, k: int, d: int) -> bool:
        return d != k and (self.containers[k].own or self.containers[d].own)

    def first_blocker(self, k: int) -> Optional[int]:
        lacks = self.containers[k].target - self.containers[k].requests
        return min((d for cpu in lacks for d in self.requesters.get(cpu, ()) if self.are_rivals(k, d)), default=None)

    def waits_for(self, k: int) -> Optional[int]:
        return self.blockers[k]

    def in_ring(self, k: int) -> bool:
        at = self.waits_for(k)
        for _ in self.all:
            if at is None or at == k:
                break
            at = self.waits_for(at)
        return at == k

    def asked(self, k: int) -> Cpus:
        asks = self.lets_go if self.containers[k].own else self.moves
        askers = [d for d in self.all if d != k and self.containers[d].own and asks(d)]
        return frozenset().union(*(self.containers[d].target for d in askers))

    def yields(self, k: int) -> bool:
        return self.in_ring(k) and bool(self.beyond(self.containers[k].requests & self.asked(k)))

    def way(self, k: int) -> Cpus:
        taken = frozenset().union(*(self.containers[d].requests for d in self.all if self.are_rivals(k, d)))
        one = self.containers[k]
        return (one.requests - self.beyond(self.asked(k))) | (one.target - taken)

    @cached_property
    def has_ring(self) -> bool:
        return any(map(self.in_ring, self.all))

    @cached_property
    def spare(self) -> Cpus:
        return self.beyond(self.host.online) - frozenset().union(*(one.requests for one in self.containers))

    def places(self, k: int) -> Cpus:
        return (self.containers[k].allowed & self.spare) - self.asked(k)

    # The writes.

    def takes(self, k: int) -> bool:
        return self.moves(k) and self.waits_for(k) is None

    def takes_now(self, k: int) -> bool:
        """A target that is free is taken, but by one that only grows if it would take the last spare CPUs beside a ring."""
        return self.takes(k) and (self.lets_go(k) or not self.spare <= self.containers[k].target or not self.has_ring)

    def is_new(self, k: int) -> bool:
        return self.containers[k].own and not self.beyond(self.containers[k].requests)

    def aside(self, k: int) -> Optional[Cpus]:
        """What one with CPUs of its own gets that gives way beside the reserved CPUs, if it can."""
        one, way = self.containers[k], self.way(k)
        room = bool(self.beyond(way & self.host.online))
        lacks = max(min(len(one.requests), len(one.target)) - len(way), 0)
        places = self.host.first_whole(self.places(k) - way, lacks if room else max(lacks, 1))
        return way | places if room or self.host.first_whole(self.places(k), 1) else None

    def shared_way(self, k: int) -> Cpus:
        way = self.way(k)
        return way if way & self.host.online else way | self.host.reserved

    def due(self) -> Optional[Write]:
        """The place of the container that is written next, and what it gets."""
        at_once = [k for k in self.all if self.takes_now(k)]
        own = [k for k in at_once if self.containers[k].own]
        for first in ([k for k in own if self.is_new(k)], [k for k in at_once if self.lets_go(k)], own):
            if first:
                return first[0], self.containers[first[0]].target
        giving = [k for k in self.all if self.yields(k)]
        for k in giving:
            if not self.containers[k].own:
                return k, self.shared_way(k)
        for k in giving:
            aside = self.aside(k)
            if aside is not None:
                return k, aside
        if giving:
            return giving[0], self.way(giving[0]) | self.host.reserved
        return next(((k, self.containers[k].target) for k in self.all if self.takes(k)), None)
