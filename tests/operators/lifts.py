"""Tries --lift: who has CPUs of its own has no limit meanwhile, and gets it again when it has none of its own, at a release, and by an agent that
does not lift. By hand in plain folders, and by chance over the plain model, where the agent is killed at any command."""

from __future__ import annotations

import dataclasses
import json
import os
import random
import time
from typing import Optional, Sequence, Tuple

from decisions import MACHINE
from sites import Open, Site
from model import Agent, Choices, Killed, World
from numarun_host.cgroups import Groups
from numarun_host.commands import Answer, SetLimit, Taken
from numarun_host.configs import Limit
from numarun_host.doing import Ending, Hands, PoolCommand
from numarun_host.ledger import State
from numarun_host.log import logger
from numarun_host.records import Certificates
from numarun_host.seen import Group
from numarun_host.taken import Record, read_record, write_file
from trial import case, check, long_case, told

CASES = int(os.environ.get("CASES", 1500))
SEED = 20261129


def limit(site: Site, name: str) -> str:
    return site.file(f"numarun/{name}", "cpu.max")


def limited(site: Site, name: str, cpus: float, quota: str) -> None:
    site.come(name, cpus)
    site.put(f"numarun/{name}", "cpu.max", quota)


def kept(site: Site, name: str) -> Optional[Limit]:
    taken = read_record(site.at("work")).groups.get(site.at("root/numarun", name))
    return taken.limit if taken else None


@case
def lifted_and_given_back() -> None:
    """Over restarts with and without --lift, and a release."""
    site = Site()
    limited(site, "a", 2, "200000 100000")
    limited(site, "s", 0, "max 100000")
    limited(site, "half", 0.5, "50000 100000")
    status, lines = site.run("--lift", "--defaults")
    said = "lift a: no limit in place of 200000 100000, since it has CPUs of its own"
    check("lifted", (status, [limit(site, name) for name in ("a", "s", "half")], lines.count(said)), (0, ["max", "max 100000", "50000 100000"], 1))
    check("kept before", (kept(site, "a"), kept(site, "half")), ((200000, 100000), None))
    status, lines = site.run("--lift", "--defaults", rounds="2")
    check("the next agent goes on", (status, limit(site, "a"), site.has("a"), [line for line in lines if line.startswith(("update", "limit a"))]),
          (0, "max", ["1-2"], []))
    check("one by which nothing is lifted", (site.run("--defaults")[0], limit(site, "a"), kept(site, "a")), (0, "200000 100000", None))
    site.run("--lift", "--defaults")
    words = ["release", "--cgroup", site.at("root"), "--work", site.at("work")]
    status, out, _ = told("numarun-agent", *words)
    check("released", (status, limit(site, "a"), "mems - cpu.max 200000 100000" in out), (0, "200000 100000", True))
    site.run("--lift", "--defaults")
    site.put("numarun/a", "cpu.max", "300000 100000")
    check("not where somebody gave it another one", (told("numarun-agent", *words)[0], limit(site, "a")), (0, "300000 100000"))


@case
def while_it_runs() -> None:
    """A limit that changes is followed and lifted again; who goes to the pool, or has ended, has its own again."""
    site = Site()
    limited(site, "a", 2, "200000 100000")
    agent = Open(site, "--lift")
    agent.until("lift")
    site.put("numarun/a", "cpu.max", "300000 100000")
    lines = agent.until("lift")
    check("followed", (site.has("a"), f"update a {site.at('g/a')}" in lines, limit(site, "a"), kept(site, "a")), (["1-3"], True, "max", (300000, 100000)))
    site.configure("a", 0)
    site.put("numarun/a", "cpu.max", "max 100000")
    limited(site, "b", 7, "700000 100000")
    agent.until("waits b")
    check("who waits has its limit", limit(site, "b"), "700000 100000")
    site.go("a")
    agent.until("lift b")
    check("once it has its CPUs it has none", (limit(site, "b"), site.has("b")), ("max", ["1-7"]))
    site.online("0-6")
    lines = agent.until("limit b")
    until = time.monotonic() + 20
    while kept(site, "b") and time.monotonic() < until:
        time.sleep(0.05)
    check("and again when a CPU goes", (limit(site, "b"), kept(site, "b"), lines[-1]), ("700000 100000", None, "limit b: 700000 100000 again"))
    site.online("0-7")
    agent.until("lift b")
    limited(site, "c", 0, "max 100000")
    agent.until("create c")
    agent.until("done")
    os.rename(site.at("g/b"), site.at("gone-b"))
    agent.until("ended b")
    agent.end()
    check("ended, and its group is left", limit(site, "b"), "700000 100000")


@case
def refused() -> None:
    """A limit that can't be written is said once, and tried again."""
    site = Site()
    limited(site, "a", 1, "100000 100000")
    path = site.at("root/numarun/a/cpu.max")
    os.remove(path)
    os.mkfifo(path)  # it can be neither read nor written without somebody at its other end
    os.remove(path)
    os.symlink("/proc/self/cmdline", path)
    check("none that can be read", (site.run("--lift")[0], kept(site, "a")), (0, None))
    os.remove(path)
    os.symlink("/proc/sys/kernel/ostype", path)
    check("and nothing that is a limit", (site.run("--lift")[0], kept(site, "a")), (0, None))
    world = LimitedWorld(MACHINE, Choices(b""))
    world.come()
    world.come()
    agent = Agent(world)
    world.unwritable = True
    said = []
    for _ in range(6):
        world.now += 1000
        agent.look(troubled=False)
        said += agent.said
    check("said once", [line for line in said if "cpu.max" in line], ["failed /tree/a/cpu.max: Permission denied"])
    world.unwritable = False
    world.now += 100000
    agent.look(troubled=False)
    check("and done when it can be", (world.limits[world.places["/tree/a"].inode], world.wrong), (None, []))


@case
def another_by_then() -> None:
    """Where somebody writes another limit between the look and the write, that stays."""
    site = Site()
    limited(site, "a", 1, "100000 100000")
    path = site.at("root/numarun/a")
    inode = os.stat(path).st_ino
    hands = Hands("", "", None, site.folder, None, Record(""), Certificates(""), "", PoolCommand(""), logger(), Ending(), 1.0)
    check("another one", (hands.set_limit(SetLimit(path, inode, None, (200000, 100000))), limit(site, "a")), (Answer(stale=True), "100000 100000"))
    check("that one", (hands.set_limit(SetLimit(path, inode, None, (100000, 100000))), limit(site, "a")), (Answer(), "max"))
    check("given back", (hands.set_limit(SetLimit(path, inode, (5, 10), None)), limit(site, "a")), (Answer(), "5 10"))
    check("another group by then", (hands.set_limit(SetLimit(path, inode + 1, None, (5, 10))), limit(site, "a")), (Answer(stale=True), "5 10"))
    check("no group", hands.set_limit(SetLimit(site.at("nowhere"), inode, None, None)), Answer(stale=True))
    found = Groups(site.at("root")).look_at(path)
    check("read", isinstance(found, Group) and found.limit, (5, 10))


@case
def taken_away_by_then() -> None:
    """Where somebody takes the limit away between the look and the write, nothing is given back later."""
    class Between(LimitedWorld):
        def set_limit(self, command: SetLimit) -> Answer:
            inode = self.places[command.path].inode
            self.limits[inode] = self.theirs[inode] = None
            return super().set_limit(command)

    world = Between(MACHINE, Choices(b""))
    world.come()
    agent = Agent(world)
    agent.look(troubled=False)
    check("nothing is kept", ([taken.limit for taken in world.taken.values()], world.wrong), ([None], []))


@case
def records() -> None:
    """What is kept has a fifth member where a limit is lifted, and names the groups whose CPUs are a runtime's list; others, and what is none, are
    read as without."""
    site = Site()
    os.makedirs(site.at("work"))
    inode = os.stat(site.folder).st_ino
    table: Sequence[Tuple[Sequence[object], Optional[Limit]]] = (
        ([], None), ([[5, 10]], (5, 10)), ([None], None), ([[5]], None), ([[0, 10]], None), ([["5", 10]], None), ([True], None))
    for members, expected in table:
        with open(site.at("work/taken.json"), "w") as file:
            json.dump({"all": ["0-7", "0"], "groups": {site.folder: [inode, "", "", False, *members]}}, file)
        taken = read_record(site.at("work")).groups[site.folder]
        check(f"read {members}", taken, Taken(inode, "", "", False, expected))
    for cpus, nodes in (("\ud800", ""), ("", "\udfff"), ("1\udc00", None), (5, "")):
        with open(site.at("work/taken.json"), "w") as file:
            json.dump({"all": [cpus, nodes], "groups": {site.folder: [inode, cpus, nodes, False]}}, file)
        record = read_record(site.at("work"))
        check(f"texts that no file can have: {cpus!a} {nodes!a}", (record.whole, record.groups), ((None, None), {}))
    check("nor any write", [write_file(path, "\ud800") is None for path in (site.at("machine.json"), "a\0b", site.at("\ud800"))], [False] * 3)
    record = read_record(site.at("work"))
    both = Taken(inode, "1", "", False, (7, 8), True)
    record.save({site.folder: both, "/x": Taken(2, None, "", True)})
    found = json.load(open(site.at("work/taken.json")))
    check("and written", (found["groups"], found["listed"]), ({site.folder: [inode, "1", "", False, [7, 8]], "/x": [2, None, "", True]}, [site.folder]))
    check("and read", read_record(site.at("work")).groups, {site.folder: both})


# By chance.


@dataclasses.dataclass
class LimitedWorld(World):
    """Limits change at every fourth thing that happens, and no record is lost, so that each limit can be given back."""

    lifts: bool = True
    unwritable: bool = False

    def happen(self) -> None:
        if self.choices.below(4) == 1:
            self.limit_anew()
        else:
            super().happen()

    def lose_record(self) -> None:
        pass

    def set_limit(self, command: SetLimit) -> Answer:
        return Answer(why=f"{command.path}/cpu.max: Permission denied") if self.unwritable else super().set_limit(command)


def settled(agent: Agent) -> None:
    """Behind all trouble those that have CPUs of their own are lifted, and all others have theirs."""
    world = agent.world
    world.settle()
    for _ in range(40):
        world.now += 100
        agent.look(troubled=False)
    for name, container in agent.ledger.containers.items():
        place = world.places[container.seen.group.path]
        free = agent.ledger.settings.lift and container.state in (State.PINNED, State.KEPT)
        if world.limits[place.inode] != (None if free else world.theirs[place.inode]):
            world.wrong.append(f"{name} is {container.state.value}, and has {world.limits[place.inode]} of {world.theirs[place.inode]}")
        limit = world.theirs[place.inode]
        if free and limit and container.demand.count != limit[0] // limit[1]:
            world.wrong.append(f"{name} asks for {container.demand.count} CPUs, and its limit was {limit}")


def fault_of(case: bytes) -> Optional[str]:
    world = LimitedWorld(MACHINE, Choices(case))
    agent = Agent(world)
    while world.choices.are_left:
        for _ in range(world.choices.below(3)):
            world.happen()
        try:
            agent.look(troubled=True)
        except Killed:
            world.lifts = world.choices.below(4) > 0
            agent = Agent(world)
    if world.choices.below(2):
        settled(agent)
    world.release_limits()
    return world.wrong[0] if world.wrong else None


@long_case
def by_chance() -> None:
    chance, fault = random.Random(SEED), None
    for _ in range(CASES):
        case = bytes(chance.randrange(256) for _ in range(chance.choice((40, 100, 300))))
        fault = fault or (lambda found: found and f"{found}: {case!r}")(fault_of(case))
    check("by chance", fault, None)
