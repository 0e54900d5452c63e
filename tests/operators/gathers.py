"""Tries by hand what becomes of threads that may run on CPUs which their group does not request, as of a process that came while CPUs were off. Linux
6.12 was seen to leave it these CPUs, and to take them away where the group gets others; tests/linux/parts/came.py tries that with a kernel."""

from __future__ import annotations

import dataclasses
import os
from typing import Any, List, Optional, Tuple

from decided import container, cpus, done, ledger_of, sighting
from decisions import MACHINE
from model import Agent, Bundle, Choices, World, config_of
from parts import one
from trial import case, check, scratch
from numarun_host import gathering
from numarun_host.cgroups import may_run_elsewhere
from numarun_host.commands import Answer, Command, Gather, Say
from numarun_host.cpus import NO_CPUS, print_list
from numarun_host.doing import Ending, Hands, PoolCommand
from numarun_host.ledger import Kind, Problem, State, Topic
from numarun_host.log import logger
from numarun_host.records import Certificates
from numarun_host.seen import Look
from numarun_host.taken import Record
from numarun_host.telling import Turn


def group_with(folder: str, requested: str, threads: str) -> Tuple[str, int]:
    """A folder with the files of a group, and its inode; it may be there."""
    os.makedirs(folder, exist_ok=True)
    for file, text in (("cpuset.cpus", requested), ("cgroup.threads", threads)):
        with open(os.path.join(folder, file), "w") as opened:
            opened.write(f"{text}\n")
    return folder, os.stat(folder).st_ino


def hands() -> Hands:
    return Hands("", "", None, scratch("work"), None, Record(""), Certificates(""), "", PoolCommand(""), logger(), Ending(), 1.0)


@case
def threads_of_groups() -> None:
    """A thread of the group, or of one below it, that may run elsewhere; one that is gone may run nowhere."""
    mine, own = os.sched_getaffinity(0), str(os.getpid())
    least, path = frozenset({min(mine)}), scratch("of-threads")
    rows = ((own, "", frozenset(mine), False), (own, "", frozenset(mine) - least, True), ("", own, frozenset(mine) - least, True), ("", "", frozenset[int](), False),
            ("999999999", "", frozenset[int](), False), ("x", "", frozenset[int](), False))
    for above, below, has, expected in rows:
        group_with(path, "0", above)
        group_with(os.path.join(path, "below"), "0", below)
        check(f"{above} {below} {sorted(has)}", may_run_elsewhere(path, has), expected)
    check("no group", may_run_elsewhere(scratch("nowhere"), frozenset()), False)


@case
def writes() -> None:
    """The same group gets other CPUs and then its own, if a thread may run elsewhere; a group that is another, or requests others by now, is left alone."""
    free = 1 + max(os.sched_getaffinity(0))
    asks, others = frozenset({free, free + 1}), frozenset({free})
    path, inode = group_with(scratch("gathered"), print_list(asks), str(os.getpid()))

    def gather(**parts: Any) -> Tuple[Answer, str]:
        answer = hands().gather(dataclasses.replace(Gather(path, inode, asks, others), **parts))
        with open(os.path.join(path, "cpuset.cpus")) as file:
            return answer, file.read().strip()

    check("it is gathered", gather(), (Answer(), print_list(asks)))
    check("another group", gather(inode=inode + 1), (Answer(stale=True), print_list(asks)))
    check("other CPUs by now", gather(cpus=others), (Answer(stale=True), print_list(asks)))
    group_with(path, print_list(asks), "")
    check("no thread", gather(), (Answer(stale=True), print_list(asks)))
    group_with(path, print_list(asks), str(os.getpid()))
    os.remove(os.path.join(path, "cpuset.cpus"))
    check("no such file", hands().gather(Gather(path, inode, asks, others)), Answer(stale=True))


@case
def who_is_gathered() -> None:
    """Each that requests CPUs, two at least that are there, and not all of them: where it was not seen before, or a CPU came that it does not request;
    once, unless that fails."""
    def gathers(requests: str, came: str = "", why: Optional[str] = None, failed: bool = False, known: bool = True) -> Tuple[List[Command], bool, Optional[Kind]]:
        ledger = ledger_of(one("a", State.SHARED, cpus=cpus(requests)))
        ledger.problems = {(Topic.THREADS, "a"): Problem(Kind.FAILED, "a", "why")} if failed else {}
        ledger.running, ledger.reserved, ledger.came = cpus("1-5"), cpus("0"), cpus(came)
        ledger.gathered = frozenset({1, 7} if known else {7})
        turn = Turn(ledger, Look(0.0), there={"a": sighting("/t/a", cpus=cpus(requests))})
        commands, _ = done(gathering.gather_all(turn), faults={Gather: why} if why else {})
        check("what came is no news any more, and of one that is gone nothing is known", (ledger.came, 7 in ledger.gathered), (NO_CPUS, False))
        return [command for command in commands if not isinstance(command, Say)], 1 in ledger.gathered, ledger.problem(Topic.THREADS, "a")

    gather = [Gather("/t/a", 1, cpus("0-4"), cpus("0-3"))]
    for requests, came, others in (("0-4", "5", "0-3"), ("0,4", "5", "0"), ("2-3,6-7", "5", "2"), ("0-5", "5", ""), ("0-4", "", ""), ("", "5", ""), ("3", "5", ""), ("3,7", "5", ""),
                                   ("0-4", "3-5", "0-3"), ("0-4", "3-4", "")):
        expected: List[Command] = [Gather("/t/a", 1, cpus(requests), cpus(others))] if others else []
        check(f"{requests}, and {came} came", gathers(requests, came), (expected, True, None))
    check("one that was not seen before", gathers("0-4", known=False), (gather, True, None))
    check("one that requests all", gathers("0-5", known=False), ([], True, None))
    check("it fails", gathers("0-4", "5", "/t/a/cpuset.cpus: Read-only file system"), (gather, False, Kind.FAILED))
    check("and then not", gathers("0-4", failed=True, known=False), (gather, True, None))
    check("and then it requests all", gathers("0-5", failed=True, known=False), ([], True, None))
    ledger = ledger_of(container("a", State.SHARED))
    ledger.settings = dataclasses.replace(ledger.settings, root=None)
    ledger.came = cpus("5")
    check("without a tree", done(gathering.gather_all(Turn(ledger, Look(0.0), there={"a": sighting(cpus=cpus("0-4"))})))[0], [])


def come(world: World, name: str, config: Any) -> None:
    world.count += 1
    world.place(name, frozenset())
    world.bundles[name] = Bundle(config, world.count)
    world.limits[world.count] = world.theirs[world.count] = None


def looks(agent: Agent, count: int = 2) -> None:
    for _ in range(count):
        agent.world.now += 100
        agent.look(troubled=False)


@case
def over_looks() -> None:
    """A CPU that comes is one's own only once nobody else's threads may run on it: of a container that came while it was off, and requests all others."""
    for restarts in (False, True):
        world = World(MACHINE, Choices(b""))
        world.set_online(world.present - {5})
        come(world, "s", config_of(0))
        agent = Agent(world)
        looks(agent)
        come(world, "b", config_of(1, "5"))
        looks(agent)
        place = world.places["/tree/s"]
        check("before", (place.cpus, place.strays, world.places["/tree/b"].cpus), (world.present - {5}, frozenset({5}), world.present - {5}))
        world.happened += 1
        world.set_online(world.present)
        agent = Agent(world) if restarts else agent
        looks(agent)
        check("once it came", (place.cpus, place.strays, world.places["/tree/b"].cpus, world.wrong), (world.present - {5}, frozenset(), frozenset({5}), []))


@case
def of_a_newcomer() -> None:
    """A CPU is one's own only once the threads of a container are off it whose config could not be read while the CPU was off, and which requests all others."""
    world = World(MACHINE, Choices(b""))
    world.set_online(world.present - {5})
    come(world, "s", config_of(0))
    world.places["/tree/s"].strays, world.places["/tree/s"].cpus = frozenset({5}), world.present - {5}
    world.bundles["s"] = Bundle(None, 1)
    agent = Agent(world)
    looks(agent)
    world.happened += 1
    world.set_online(world.present)
    come(world, "b", config_of(1, "5"))
    looks(agent)
    place = world.places["/tree/s"]
    check("before it is told of", (place.strays, world.places["/tree/b"].cpus), (frozenset({5}), frozenset({5})))
    world.happened += 1
    world.bundles["s"] = Bundle(config_of(0), 9)
    looks(agent)
    check("behind that", (place.cpus, place.strays, world.wrong), (world.present - {5}, frozenset(), []))
