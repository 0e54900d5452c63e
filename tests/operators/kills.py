"""Kills the agent, and only that, at moments by chance and starts it again, while containers come, go and come back under their
ids, some with a config that is written in two parts. `kills.py [SEED [MOMENTS]]`. Looks at the tree all the while: who requests CPUs
without a reserved one has them as its own, and they are with no other container; and no container that had its CPUs is squeezed
onto the reserved ones, by whatever cause. Who comes while a plan is handed over may get what was meant for the one before, as the pool's CPUs, which are
nobody's own. It goes on beyond its moments until enough has happened, however slow the machine is."""

from __future__ import annotations

import os
import random
import sys
import tempfile
import time
from typing import Dict, List, Mapping, Set, Tuple

from sites import begun
from trial import check, failed, long_case, scratch
from worlds import MOST, SAYS, Squeeze, World, count_causes
from numarun_host.cpus import Cpus

RESERVED = frozenset({0, 8})
# No two CPUs differ for anyone, so that no plan moves a container that has its CPUs.
MACHINE = {"nodes": ["0-7", "8-15"], "distances": [[10, 21], [21, 10]], "reserved": "0,8"}
PINNED, SHARED = [f"p{k}" for k in range(6)], [f"s{k}" for k in range(4)]


class Killed(World):
    def __init__(self, folder: str, seed: int) -> None:
        super().__init__(folder, MACHINE, random.Random(seed))
        self.online("0-15")
        self.shared: List[Tuple[str, List[Tuple[str, str]], Mapping[str, Cpus]]] = []
        self.squeezed: Dict[int, Squeeze] = {}  # the containers that had them, and then had not
        self.had: Set[int] = set()  # the containers, each time that one came, that had all their CPUs

    def happen(self) -> None:
        name = self.chance.choice(PINNED + SHARED)
        with self.lock:
            was = name in self.there
            if was:
                self.go(name)
            if not was or self.chance.random() < 0.5:
                self.come(name, self.chance.choice([1, 2]) if name in PINNED else None)

    def judge(self, sets: Mapping[str, Cpus]) -> None:
        names, now = sorted(sets), time.strftime("%H:%M:%S")
        own = {name for name in names if name in PINNED and not sets[name] & RESERVED}
        both = [(a, b) for a in names for b in names if a < b and {a, b} & own and sets[a] & sets[b]]
        self.shared += [(now, both, sets)] if both else []
        for name in PINNED:
            wish = self.there.get(name)
            if wish and len(sets[name] - RESERVED) == wish.count:
                self.had.add(wish.number)
            elif wish and wish.number in self.had:
                self.squeezed.setdefault(wish.number, self.squeeze(name))

    def counts(self) -> Mapping[str, int]:
        """How many lines of each kind the agents said."""
        words = [line.split(" ")[1:2] for line in self.said()]
        return {kind: words.count([kind]) for kind in ("adopt", "create", "ended", "plan", "hold")}

    def is_enough(self, moments: int) -> bool:
        """Whether agents found containers that others had left, and pinned some, as often as can be asked for."""
        counts = self.counts()
        return counts["adopt"] * 4 > moments and counts["hold"] * 4 > moments and self.looks > 20 * moments


def killed_at_moments(folder: str, seed: int, moments: int) -> None:
    world, chance, began, times = Killed(folder, seed), random.Random(seed + 1000), time.monotonic(), 0
    world.begin()
    while (times < moments or not world.is_enough(moments)) and time.monotonic() < began + MOST:
        before, times = world.said_bytes(), times + 1
        run = begun(world, "--home", "none")
        world.await_words(before, chance.choice([0.3, SAYS]))
        time.sleep(chance.uniform(0, 0.8))
        run.kill()
        check("it ran until it was killed", run.wait(), -9)
    world.stand_still()
    check("the last run", begun(world, "--home", "none", "--rounds", "4").wait(), 0)
    world.check_end()
    check("CPUs with two containers", world.shared[:2] + world.shared[-1:], [])
    causes = count_causes(world.squeezed.values(), world.said(), PINNED, RESERVED)
    check("squeezed ones", causes, dict.fromkeys(causes, 0))
    check("enough has happened", world.is_enough(moments), True)
    print(f"kills, seed {seed}: {times} kills, {world.looks} looks ({world.torn} torn), {len(world.shared)} unsafe, squeezed by {causes}; "
          f"{len(world.had)} of {world.count} had their CPUs; {dict(world.counts())}")


@long_case
def by_chance() -> None:
    killed_at_moments(scratch("machine"), 1, 40)


if __name__ == "__main__":
    asked = [int(word) for word in sys.argv[1:]]
    with tempfile.TemporaryDirectory() as made:
        killed_at_moments(os.path.join(made, "machine"), *(asked + [1, 40][len(asked):]))
    sys.exit(1 if failed else 0)
