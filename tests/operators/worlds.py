"""A machine in plain folders on which something happens all the while, by chance, and which is looked at all the while: what the tests share
that kill the agent. Who had CPUs of its own and is seen on reserved ones is squeezed, and the plans that the agents told say by which cause."""

from __future__ import annotations

import enum
import json
import os
import random
import shutil
import threading
import time
from collections import Counter
from dataclasses import dataclass
from typing import Collection, Dict, Iterable, List, Mapping, Optional, Sequence

from sites import Tree, config_of, section_of
from trial import SLOWER, check, text_of, written
from numarun_host.cpus import NO_CPUS, Cpus, read_list

MOST = 300 * SLOWER  # seconds in which enough has to happen
SAYS = 20 * SLOWER   # seconds in which an agent says something


@dataclass(frozen=True)
class Wish:
    """A container that came as the so-manieth: how many CPUs it asks for, if any, and on which node."""

    number: int
    count: Optional[int]
    home: Optional[str] = None

    def config(self) -> str:
        section = section_of(self.count or 0)
        return json.dumps(config_of({**section, **({"mems": self.home} if self.home else {})}))


class Cause(enum.Enum):
    """Why one is squeezed. A ring is one of containers that wait for each other while they move, and a move is one without."""

    RING = "a ring"
    MOVE = "a move"
    PLACE = "a place that was lost"
    NONE = "no cause"


@dataclass(frozen=True)
class Squeeze:
    """One that had CPUs of its own and has not any more: what all requested at the look before, and how many bytes the agents had said by then."""

    name: str
    before: Mapping[str, Cpus]
    said: int


@dataclass(frozen=True)
class Plan:
    """What agents said from one plan to the next, as words without their times, and how many bytes were said before."""

    begins: int
    lines: List[List[str]]

    def of(self, name: str) -> List[List[str]]:
        return [words for words in self.lines if words[1:2] in ([name], [f"{name}:"])]

    def targets(self, pinned: Collection[str], requested: Mapping[str, Cpus]) -> Dict[str, Cpus]:
        """What the plan gives to each: it says what it changes."""
        told = {words[1] if words[0] == "hold" else "": read_list(words[-1], "a plan") for words in self.lines if words[0] in ("hold", "pool")}
        return {name: told.get(name if name in pinned else "", cpus) for name, cpus in requested.items()}


def plans_of(said: Iterable[str]) -> List[Plan]:
    """The plans that agents told; the first has what was said before any."""
    found, at = [Plan(0, [])], 0
    for line in said:
        words = line.split(" ")[1:]
        if words[:1] == ["plan"]:
            found.append(Plan(at, []))
        found[-1].lines.append(words)
        at += len(line.encode()) + 1
    return found


def is_in_ring(name: str, requested: Mapping[str, Cpus], targets: Mapping[str, Cpus], pinned: Collection[str]) -> bool:
    """Whether one waits for another that waits for another, and so on, that waits for it, since each has some of the target of the one before."""
    reached, last = set[str](), {name}
    while last:
        last = {other for one in last for other in requested
                if other != one and {one, other} & set(pinned) and (targets[one] - requested[one]) & requested[other]} - reached
        reached |= last
    return name in reached


def cause_of(squeeze: Squeeze, plans: Sequence[Plan], pinned: Collection[str], reserved: Cpus) -> Cause:
    """By what was said of it at the plan by then, or at the one before or behind."""
    latest = max(k for k, plan in enumerate(plans) if plan.begins <= squeeze.said)
    near = plans[max(latest - 1, 0):latest + 2]
    kinds = {words[0] for plan in near for words in plan.of(squeeze.name)}
    requested = {name: cpus - reserved for name, cpus in squeeze.before.items()}
    targets = [{name: cpus - reserved for name, cpus in plan.targets(pinned, requested).items()} for plan in near]
    if "waits" in kinds:
        return Cause.PLACE
    if "hold" not in kinds:
        return Cause.NONE
    return Cause.RING if any(is_in_ring(squeeze.name, requested, one, pinned) for one in targets) else Cause.MOVE


def count_causes(squeezed: Iterable[Squeeze], said: Iterable[str], pinned: Collection[str], reserved: Cpus) -> Dict[str, int]:
    """How many were squeezed by each cause. What was said is printed where that is none, or no more than a move."""
    plans, found = plans_of(said), Counter[Cause]()
    for squeeze in squeezed:
        cause = cause_of(squeeze, plans, pinned, reserved)
        found[cause] += 1
        if cause in (Cause.MOVE, Cause.NONE):
            print("squeezed by", cause.value, squeeze, [words for plan in plans for words in plan.of(squeeze.name)][-8:])
    return {cause.value: found[cause] for cause in Cause}


class World(Tree):
    """The containers of a machine. A look counts where two readings, one behind the other, are the same."""

    def __init__(self, folder: str, machine: Mapping[str, object], chance: random.Random) -> None:
        super().__init__(folder, machine)
        self.chance, self.lock, self.ended = chance, threading.Lock(), False
        self.there: Dict[str, Wish] = {}
        self.before: Mapping[str, Cpus] = {}  # what each requested at the last look
        self.count = self.looks = self.torn = 0
        self.threads = [threading.Thread(target=way, daemon=True) for way in (self.change, self.watch)]
        written(self.at("out"), "")

    def group(self, name: str, *file: str) -> str:
        return self.at("root", "numarun", name, *file)

    def come(self, name: str, count: Optional[int], home: Optional[str] = None) -> None:
        """A container, of which the config may come in two parts."""
        self.count += 1
        self.there[name] = Wish(self.count, count, home)
        self.make_group(name)
        os.mkdir(self.at("g", name))
        text = self.there[name].config()
        with open(self.at("g", name, "config.json"), "w", encoding="utf-8") as file:
            if self.chance.random() < 0.3:
                file.write(text[:40])
                file.flush()
                time.sleep(0.01)
                text = text[40:]
            file.write(text)

    def go(self, name: str) -> None:
        """Each of its folders at once, in either order, though somebody may write into it."""
        ways = [self.at("g", name), self.group(name)]
        self.chance.shuffle(ways)
        for path in ways:
            self.put_away(path)
        del self.there[name]

    def happen(self) -> None:
        """One thing of all that happens."""
        raise NotImplementedError

    def judge(self, sets: Mapping[str, Cpus]) -> None:
        """What is to be said of what the containers request; it is called with the lock."""
        raise NotImplementedError

    def change(self) -> None:
        while not self.ended:
            self.happen()
            time.sleep(self.chance.uniform(0.0, 0.5))

    def reading(self) -> Dict[str, str]:
        return {name: text_of(self.group(name, "cpuset.cpus")) for name in self.there}

    def look(self) -> None:
        with self.lock:
            first = self.reading()
            if first != self.reading():
                self.torn += 1
                return
            self.looks += 1
            sets = {name: read_list(text, name) if text.strip() else NO_CPUS for name, text in first.items()}
            self.judge(sets)
            self.before = sets

    def squeeze(self, name: str) -> Squeeze:
        """What is to be known of one that is squeezed by now."""
        return Squeeze(name, self.before, self.said_bytes())

    def watch(self) -> None:
        while not self.ended:
            self.look()
            time.sleep(0.0005)

    def begin(self) -> None:
        for thread in self.threads:
            thread.start()

    def stand_still(self) -> None:
        """Nothing more happens."""
        self.ended = True
        for thread in self.threads:
            thread.join()

    def said_bytes(self) -> int:
        """How much agents have said so far."""
        return os.path.getsize(self.at("out"))

    def await_words(self, before: int, seconds: float) -> None:
        """Waits until an agent says more than this, for so long at most."""
        until = time.monotonic() + seconds
        while time.monotonic() < until and self.said_bytes() == before:
            time.sleep(0.005)

    def said(self) -> List[str]:
        """The lines of all agents."""
        return text_of(self.at("out")).splitlines()

    def check_end(self) -> None:
        """Each has what it asks for in the end, and no agent had a fault of its own."""
        for _ in range(3):
            self.look()
        left = {name: len(read_list(text, name)) for name, text in self.reading().items() if self.there[name].count}
        check("what each has in the end", left, {name: wish.count for name, wish in self.there.items() if wish.count})
        check("no traceback", [line for line in self.said() if "Traceback" in line], [])
        if os.environ.get("KEEP"):
            shutil.copy(self.at("out"), os.environ["KEEP"])
