"""Ten families of hand-overs: containers come to a machine, and then some of them go, come or get another home again and again."""

from __future__ import annotations

import json
import os
import random
from dataclasses import dataclass
from typing import Dict, Iterator, List, Optional, Tuple

from numarun_host.cpus import print_list

RESERVED = (0, 1)


@dataclass(frozen=True)
class Family:
    """What a machine has, and what happens on it before each plan. So many containers come, as far as there is room for them."""

    cpus: int
    nodes: int
    containers: int
    shared: int
    sizes: Tuple[int, ...]
    plans: int
    asked: int = 92         # of 100 CPUs, so many are asked for at most
    lists: bool = False     # half of the containers may have a third of the CPUs
    replaced: int = 3       # of 100 containers, so many go, and others come
    rehomed: int = 0        # of 100, so many get another home
    drained: bool = False   # a quarter of a node's CPUs goes offline, and comes back before the next plan; nobody comes


FAMILIES = {
    "mixed": Family(1024, 4, 180, 20, (1, 2, 4, 8, 16), 40),
    "own": Family(1024, 4, 180, 20, (1, 2, 4, 8, 16), 40, lists=True),
    "drain": Family(1024, 4, 180, 20, (1, 2, 4, 8), 24, replaced=2, drained=True),
    "full": Family(1024, 4, 170, 0, (1, 2, 4, 8, 16), 40, asked=100),
    "one": Family(1024, 4, 1000, 0, (1,), 20, asked=100),
    "fleet": Family(2048, 8, 1000, 20, (1, 2, 3), 20),
    "rehome": Family(1024, 4, 170, 0, (2, 4, 8), 40, asked=100, replaced=0, rehomed=5),
    "rehome1": Family(1024, 4, 1000, 0, (1,), 20, asked=100, replaced=0, rehomed=5),
    "rehomes": Family(1024, 4, 170, 20, (1, 2, 4, 8), 40, replaced=0, rehomed=5),
    "big": Family(4096, 8, 1000, 24, (1, 2, 3, 4), 20, rehomed=5),
}


class Churn:
    """What happens on a machine of a family: its lines for `numarun run`, with files for them in the working directory."""

    def __init__(self, family: Family, seed: int) -> None:
        self.family, self.chance = family, random.Random(seed)
        size = family.cpus // family.nodes
        self.nodes = [range(k * size, (k + 1) * size) for k in range(family.nodes)]
        self.live: List[Tuple[str, int]] = []
        self.came = self.asked = 0
        self.room = (family.cpus - len(RESERVED)) * family.asked // 100
        self.off: List[int] = []
        self.bundles: Dict[Tuple[int, int, Optional[str]], str] = {}

    def write_machine(self) -> None:
        near = [[10 if i == j else 21 if i // 2 == j // 2 else 31 for j in range(len(self.nodes))] for i in range(len(self.nodes))]
        told = {"nodes": [print_list(node) for node in self.nodes], "distances": near, "reserved": print_list(RESERVED)}
        with open("machine.json", "w", encoding="utf-8") as file:
            json.dump(told, file)

    def bundle(self, count: int, home: int = 0, allowed: Optional[str] = None) -> str:
        key = (count, home, allowed)
        if key not in self.bundles:
            section: Dict[str, object] = {"quota": count * 100_000, "period": 100_000, "mems": str(home)} if count else {}
            section.update({"cpus": allowed} if allowed else {})
            name = self.bundles[key] = f"b{len(self.bundles)}"
            os.makedirs(name, exist_ok=True)
            with open(os.path.join(name, "config.json"), "w", encoding="utf-8") as file:
                json.dump({"ociVersion": "1.0.2", "root": {"path": "r"}, "linux": {"resources": {"cpu": section}}}, file)
        return self.bundles[key]

    def come(self) -> Iterator[str]:
        """A container, if there is room."""
        count = min(self.chance.choice(self.family.sizes), self.room - self.asked)
        if count == 0:
            return
        home, allowed = self.chance.randrange(len(self.nodes)), None
        if self.family.lists and self.chance.random() < 0.5:
            allowed = print_list(self.chance.sample(range(len(RESERVED), self.family.cpus), self.family.cpus // 3))
        name = f"c{self.came}"
        self.live.append((name, count))
        self.came, self.asked = self.came + 1, self.asked + count
        yield f"create {name} {self.bundle(count, home, allowed)}"

    def go(self) -> List[str]:
        name, count = self.live.pop(self.chance.randrange(len(self.live)))
        self.asked -= count
        return [f"kill {name} KILL", f"delete {name}"]

    def fill(self) -> Iterator[str]:
        while len(self.live) < self.family.containers and self.asked < self.room:
            yield from self.come()

    def first(self) -> Iterator[str]:
        """All that come before the first plan."""
        yield from (f"create s{k} {self.bundle(0)}" for k in range(self.family.shared))
        for _ in range(self.family.containers):
            yield from self.come()

    def change(self) -> Iterator[str]:
        """What happens before another plan."""
        family = self.family
        for name, count in self.chance.sample(self.live, len(self.live) * family.rehomed // 100):
            yield f"update {name} {self.bundle(count, self.chance.randrange(len(self.nodes)))}"
        if family.replaced:
            for _ in range(max(1, len(self.live) * family.replaced // 100)):
                yield from self.go()
            yield from self.drain() if family.drained else self.fill()

    def drain(self) -> Iterator[str]:
        if self.off:
            yield from (f"online {cpu}" for cpu in self.off)
            self.room, self.off = self.room + len(self.off), []
            return
        node = self.nodes[self.chance.randrange(len(self.nodes))]
        self.off = self.chance.sample(node[2:], len(node) // 4)
        while self.asked > self.room - len(self.off):
            yield from self.go()
        self.room -= len(self.off)
        yield from (f"offline {cpu}" for cpu in self.off)
