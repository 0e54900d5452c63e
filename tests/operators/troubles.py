"""Kills the program, the agent, or both at moments by chance, and starts the agent again, while containers come, go and come back
under their ids, configs and limits change, configs come in two parts, or are broken or refused for a while, the watched folder goes
away for a while, others write into groups, and CPUs flap. `troubles.py [SEED [MOMENTS]]`. It looks at the tree all the while: who requests CPUs without a reserved one has
them as its own, and in no look they are with another group that has a process. Who had its own and then requests reserved ones
alone is squeezed; that is counted by its cause. A move, a plan that takes it to other CPUs, is none but in a ring of containers that wait for
each other. It goes on beyond its moments until each of these things has happened, however slow the machine is."""

from __future__ import annotations

import dataclasses
import os
import random
import signal
import subprocess
import sys
import tempfile
import time
from typing import Dict, List, Mapping, Optional

from sites import begun
from trial import case, check, failed, long_case, scratch, text_of
from worlds import MOST, SAYS, Cause, Squeeze, World, cause_of, count_causes, plans_of
from numarun_host.cpus import Cpus

RESERVED = frozenset({0})
MACHINE = {"nodes": ["0-7", "8-15"], "distances": [[10, 21], [21, 10]], "reserved": "0"}
PINNED, SHARED = [f"p{k}" for k in range(5)], ["s0", "s1"]
BROKEN = ["{", "[]", '{"ociVersion": "1.0.2"}', '{"ociVersion": "1.0.2", "root": {"path": "r"}, "linux": {"resources": {"cpu": {"cpus": "90"}}}}']
DOES = ("come", "go", "configure", "break_config", "limit", "flap", "hide", "drift")
OF_ONE = ("configure", "break_config", "limit", "drift")  # what happens to a container that runs
WHICH = ("program", "agent", "both")


class Troubled(World):
    """Each container has a process."""

    def __init__(self, folder: str, seed: int) -> None:
        super().__init__(folder, MACHINE, random.Random(seed))
        self.online("0-15")
        self.unsafe: List[str] = []
        self.own: Dict[str, Cpus] = {}                # which CPUs each one had last as its own
        self.squeezed: List[Squeeze] = []             # those that had not any more
        self.did = dict.fromkeys(DOES, 0)

    def begin_one(self, name: str) -> None:
        self.come(name, self.chance.choice([1, 2]) if name in PINNED else None, self.chance.choice(["0", "1"]) if name in PINNED else None)

    def make_group(self, name: Optional[str], cpus: str = "", group: Optional[str] = None) -> None:
        super().make_group(name, cpus, group)
        self.put(f"numarun/{name}", "cgroup.events", "populated 1")
        self.put(f"numarun/{name}", "cpu.max", "max 100000")

    def go(self, name: str) -> None:
        self.put(f"numarun/{name}", "cgroup.events", "populated 0")
        super().go(name)
        self.own.pop(name, None)

    def write_config(self, name: str, text: str) -> None:
        self.put_whole(self.at("g", name, "config.json"), text)

    def configure(self, name: str) -> None:
        """Another limit in the config. It counts as long as the group has none itself."""
        other = dataclasses.replace(self.there[name], count=3 - (self.there[name].count or 0))
        self.write_config(name, other.config())
        if "max" in text_of(self.group(name, "cpu.max")):
            self.there[name] = other

    def break_config(self, name: str) -> None:
        """A config that is none, or can't be had; until there is another one."""
        self.write_config(name, self.chance.choice(BROKEN))

    def repair(self, name: str) -> None:
        """The config as it ought to be; what its group has by now counts before it."""
        self.write_config(name, self.there[name].config())

    def limit(self, name: str) -> None:
        """Another limit of the group alone."""
        self.there[name] = dataclasses.replace(self.there[name], count=3 - (self.there[name].count or 0))
        self.put(f"numarun/{name}", "cpu.max", f"{(self.there[name].count or 0) * 100000} 100000")

    def drift(self, name: str) -> None:
        """Somebody else's write, of CPUs that are nobody's."""
        self.put(f"numarun/{name}", "cpuset.cpus", "0")
        self.own.pop(name, None)

    def flap(self) -> None:
        cpu = self.chance.randrange(1, 16)
        self.online(",".join(str(k) for k in range(16) if k != cpu))
        time.sleep(self.chance.uniform(0, 0.4))
        self.online("0-15")

    def hide(self) -> None:
        os.rename(self.at("g"), self.at("hidden"))
        time.sleep(self.chance.uniform(0, 0.2))
        os.rename(self.at("hidden"), self.at("g"))

    def happen(self) -> None:
        name, what = self.chance.choice(PINNED + SHARED), self.chance.choice(["come", "come", *DOES])
        if what == "flap":
            self.flap()
        with self.lock:
            runs = [pinned for pinned in PINNED if pinned in self.there]
            if what in ("come", "go") and name in self.there:
                self.go(name)
                self.did["go"] += what == "come"
            if what == "come":
                self.begin_one(name)
            elif what in OF_ONE and not runs:
                return
            elif what in OF_ONE:
                getattr(self, what)(self.chance.choice(runs))
            elif what == "hide":
                self.hide()
            self.did[what] += 1

    def judge(self, sets: Mapping[str, Cpus]) -> None:
        for name, cpus in sets.items():
            if not cpus or cpus == RESERVED:
                if cpus and name in self.own:
                    self.squeezed.append(self.squeeze(name))
                    del self.own[name]
            elif not cpus & RESERVED:
                self.own[name] = cpus
                both = [other for other in sets if other != name and sets[other] & cpus]
                self.unsafe += [f"{time.strftime('%H:%M:%S')} {name} and {both}: {dict(sets)}, {self.there}"] if both else []
            else:
                self.own.pop(name, None)

    def is_enough(self, moments: int) -> bool:
        return self.looks > 20 * moments and min(self.did.values()) > 0


def children(pid: int) -> List[int]:
    """The program that an agent runs."""
    try:
        return [int(child) for child in text_of(f"/proc/{pid}/task/{pid}/children").split()]
    except OSError:
        return []


def kill(run: subprocess.Popen[bytes], which: str) -> int:
    """Kills the program, the agent, or both, by their ids."""
    found = children(run.pid) if which != "agent" else []
    for pid in found + ([run.pid] if which != "program" or not found else []):
        try:
            os.kill(pid, signal.SIGKILL)
        except ProcessLookupError:
            pass
    return run.wait()


def settle(world: Troubled) -> None:
    """What was broken is as it ought to be, and the last agent has some looks."""
    world.stand_still()
    for name in PINNED:
        if name in world.there:
            world.repair(name)
            if world.chance.random() < 0.3:
                world.drift(name)
    check("the last run", begun(world, "--rounds", "6").wait() in (0, 1), True)


def killed_at_moments(folder: str, seed: int, moments: int) -> None:
    world, chance, began = Troubled(folder, seed), random.Random(seed + 1000), time.monotonic()
    killed = dict.fromkeys(WHICH, 0)
    world.begin()
    while (sum(killed.values()) < moments or not world.is_enough(moments)) and time.monotonic() < began + MOST:
        before = world.said_bytes()
        run = begun(world)
        world.await_words(before, SAYS)
        time.sleep(chance.uniform(0, 1.2))
        which = chance.choice(WHICH)
        killed[which] += 1
        check(f"the {which} was killed", kill(run, which) in (-9, 1), True)
    settle(world)
    world.check_end()
    found = count_causes(world.squeezed, world.said(), PINNED, RESERVED)
    check("CPUs of one's own with another one", world.unsafe[:4], [])
    check("squeezed without a cause, or by a move", [found[cause.value] for cause in (Cause.NONE, Cause.MOVE)], [0, 0])
    check("enough has happened", (world.is_enough(moments), world.did), (True, world.did))
    print(f"troubles, seed {seed}: killed {killed}: {world.looks} looks ({world.torn} torn), {len(world.unsafe)} unsafe; "
          f"squeezed by {found}; {world.did}")


@case
def causes() -> None:
    """By which cause one is squeezed, of plans that are told by hand."""
    before = {name: frozenset(cpus) for name, cpus in {"p0": {1}, "p1": {2}, "s0": {0, 3, 4}, "s1": {0, 3, 4}}.items()}
    rows: Mapping[str, Cause] = {
        "hold p0 2,hold p1 1": Cause.RING, "hold p0 5,hold p1 1": Cause.MOVE, "hold p0 2,hold p1 5": Cause.MOVE, "hold p0 3,pool 0-1": Cause.RING,
        "hold p0 3,pool 0": Cause.MOVE, "waits p0: no place,hold p0 2,hold p1 1": Cause.PLACE, "hold p1 1": Cause.NONE, "pool 0": Cause.NONE,
    }
    for text, expected in rows.items():
        said = text.split(",")
        lines = [f"0 {line}" for line in ("adopt p0 b 1", "plan total 20", *said, "done", "plan total 0", "done")]
        check(text, cause_of(Squeeze("p0", before, len("0 adopt p0 b 1\n0 plan")), plans_of(lines), PINNED, RESERVED), expected)


@long_case
def by_chance() -> None:
    killed_at_moments(scratch("machine"), 1, 24)


if __name__ == "__main__":
    asked = [int(word) for word in sys.argv[1:]]
    with tempfile.TemporaryDirectory() as made:
        killed_at_moments(os.path.join(made, "machine"), *(asked + [1, 24][len(asked):]))
    sys.exit(1 if failed else 0)
