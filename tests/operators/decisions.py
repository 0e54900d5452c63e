"""Tries what the agent decides, without a process: whatever comes in whatever order over a plain model of the kernel, of a watched folder and
of numarun (model.py). Containers come, go and come back, some with CPUs that their runtimes gave them, configs flip, break and can't be had,
limits change, also where agents lift them, CPUs flap, writes fail, the folder is away, others write, all of it also between any two commands; and the agent is killed at any of them.
`decisions.py [CASES [SEED [JOBS]]]` draws cases of all lengths without hypothesis, by so many processes side by side, a thousand by each seed from
SEED on: a million is some two hours of one processor.

- No container with a process is given up, and nobody's processes are ended.
- Who requests CPUs without a reserved one has them for itself, after each write.
- Who comes before a run's first plan, while nobody requests the CPUs that it gives him, is never on the reserved CPUs alone.
- As long as nothing happens no warning is said twice, but for what another run of numarun refuses anew.
- Once all is well, who can be served is served within some looks, so that the pool keeps what is left to it, limits are followed, and lifted of
  just those that have CPUs of their own, nothing but who has no room is left undone, and then nothing more is said or written.
- Once all have gone, nothing of them is left."""

from __future__ import annotations

import json
import multiprocessing
import os
import random
import subprocess
import sys
import tempfile
from collections import Counter
from typing import Callable, Optional

from trial import check, failed, long_case
from model import RESERVED, Agent, Choices, Killed, World, read
from numarun_host.cpus import NO_CPUS, Cpus
from numarun_host.ledger import CONTAINER_PAUSES, CONTAINER_TOPICS, FULL, STANDING, Kind, State, Topic
from numarun_host.machine import Machine

SHORT = int(os.environ.get("CASES", "3000"))  # drawn cases of each case below
LONG = SHORT // 6
THOUSAND = 1000  # cases of a seed, where they are drawn by hand
SEED = 20261128
LOOKS = 12  # in which who can be served is served: at the longest pause of what failed before one is tried again at the second look


def machine() -> Machine:
    with tempfile.NamedTemporaryFile("w", suffix=".json") as file:
        json.dump({"nodes": ["0-7"], "distances": [[10]], "reserved": "0"}, file)
        file.flush()
        return Machine(file.name)


MACHINE = machine()


def troubled(world: World) -> Agent:
    """An agent, or one after another, as long as something happens."""
    agent = Agent(world)
    while world.choices.are_left:
        for _ in range(world.choices.below(3)):
            world.happen()
        try:
            agent.look(troubled=True)
        except Killed:
            agent = Agent(world)
    return agent


def looks(agent: Agent, most: int) -> None:
    """So many looks at which nothing happens, each behind all pauses, or as many as there are up to one at which there is nothing to be done: what
    comes behind that is looked at once more, in place of all that would be the same."""
    for _ in range(most):
        agent.world.now += 100
        agent.look(troubled=False)
        if agent.rests:
            return


def check_served(agent: Agent, taken: Cpus) -> None:
    """Nobody who waits, or takes fewer CPUs than it asks for, asks for so many as may be had, of those that it names if it names some, while
    others have taken these; but for one that is never moved."""
    world = agent.world
    for name, container in agent.ledger.containers.items():
        wanted, waits = container.wanted or container.demand, container.state is State.WAITING
        has, own = (0, NO_CPUS) if waits else (container.given.count or 0, container.cpus or NO_CPUS)
        named = read(wanted.config["linux"]["resources"]["cpu"].get("cpus", ""))  # type: ignore[index]
        free = min(len((named or world.present) - RESERVED - (taken - own)), len(world.present - taken) - world.pool_least + has)
        if has < (wanted.count or 0) <= free and (waits or not container.stays):
            world.wrong.append(f"{name} waits for {wanted.count} CPUs, and {free} may be had")


def check_limits(agent: Agent) -> None:
    """Whose group has a limit asks for that, unless it can't be had; and that is lifted of just those that have CPUs of their own, if it is."""
    world, ledger = agent.world, agent.ledger
    for name, container in ledger.containers.items():
        inode = world.places[world.path(name)].inode
        limit, free = world.theirs[inode], world.lifts and container.state.has_had_a_plan
        if world.limits[inode] != (None if free else limit):
            world.wrong.append(f"{name} is {container.state.value}, and has {world.limits[inode]} of {limit}")
        asks = (container.wanted or container.demand).count
        if limit and ledger.problem(Topic.DEMAND, name) is None and asks != limit[0] // limit[1]:
            world.wrong.append(f"{name} asks for {asks} CPUs, and its limit is {limit}")


def check_undone(agent: Agent) -> None:
    """What is left undone of a container is just that it has no room, or that what it asks for by now can't be had, both if both are so. Of one that
    has to leave the pool its CPUs that is not asked."""
    world, ledger = agent.world, agent.ledger
    for name, container in ledger.containers.items():
        lacks = Kind.WAITS if container.state is State.WAITING else Kind.KEEPS if container.wanted else Kind.FEWER
        has_all = lacks is Kind.FEWER and container.given.count == container.demand.count
        if ledger.problem(Topic.ROOM, name) is not (None if has_all else lacks):
            world.wrong.append(f"{name} {lacks.value}, unless {has_all}: {ledger.problem(Topic.ROOM, name)}")
        is_refused = agent.program is not None and isinstance(agent.program.demand(world.asked(name)), str)
        is_known = ledger.problem(Topic.DEMAND, name) is not None
        if is_known and not is_refused or is_refused and not is_known and (has_all or not world.pool_least):
            world.wrong.append(f"{name} is refused: {is_refused}, and that is left undone: {is_known}")


def settled(agent: Agent) -> None:
    """Behind all trouble: who can be served is served, and it is quiet then."""
    world = agent.world
    world.settle()
    looks(agent, LOOKS)
    taken = NO_CPUS.union(*(row.cpus for row in (agent.program.rows.values() if agent.program else ()) if row.count is not None))
    check_served(agent, taken)
    check_limits(agent)
    check_undone(agent)
    if agent.program and agent.program.strangers:
        world.wrong.append(f"{agent.program.strangers} are withheld, and all are told of")
    told = sorted(name for name in world.bundles if name not in agent.ledger.containers)
    if told:
        world.wrong.append(f"{told} are not told of: {agent.ledger.problems}")
    for name, row in agent.program.rows.items() if agent.program else ():
        if row.count is not None and len(world.places[world.path(name)].cpus - RESERVED) != row.count:
            world.wrong.append(f"{name} asks for {row.count} CPUs, and has {sorted(world.places[world.path(name)].cpus)}")
        if row.count is None and world.places[world.path(name)].cpus != world.present - taken:
            world.wrong.append(f"{name} is shared, and has {sorted(world.places[world.path(name)].cpus)}")
    undone = [problem for problem in agent.ledger.problems.values() if problem.kind not in (*FULL, Kind.REFUSED)]
    if undone:
        world.wrong.append(f"left undone, and all is well: {undone}")
    strays = world.links.keys() - agent.ledger.containers.keys() - agent.ledger.strangers.keys()
    if strays:
        world.wrong.append(f"{strays} are links of nobody")
    before = {path: place.cpus for path, place in world.places.items()}
    for _ in range(1 if agent.rests else 3):
        world.now += 100
        agent.look(troubled=False)
        if agent.lines:
            world.wrong.append(f"said where nothing happens: {agent.lines}")
    if before != {path: place.cpus for path, place in world.places.items()}:
        world.wrong.append("written where nothing happens")


def begun_anew(agent: Agent) -> Agent:
    """Another agent over what runs, behind a release: most groups request nothing."""
    world = agent.world
    world.release_limits()
    for place in world.places.values():
        world.set_cpus(place, place.cpus if place.inode % 4 == 0 else frozenset())
    world.links.clear()
    world.taken = {}
    return Agent(world)


def refused(agent: Agent) -> None:
    """Where no write is taken any more, nothing is said twice."""
    world, said = agent.world, Counter[str]()
    world.read_only, world.happened = 1 << 30, world.happened + 1
    world.flap()
    world.come()
    world.limit_anew()
    for _ in range(6):
        world.now += 100
        before = agent.ledger
        agent.look(troubled=False)
        said.update(agent.said)
        if not agent.said and all(getattr(before, name) == getattr(agent.ledger, name) for name in STANDING if name not in ("pauses", "counts")):
            break  # all pauses are over each time, so that nothing would be said again
    if any(count > 1 for count in said.values()):
        world.wrong.append(f"said again: {said.most_common(1)[0]}")
    world.settle()


def left(agent: Agent) -> None:
    """Once all have gone, nothing of them is left."""
    world = agent.world
    world.bundles.clear()
    world.places.clear()
    looks(agent, 4)
    ledger = agent.ledger
    kept = [ledger.containers, ledger.refused, ledger.blocking, ledger.taken, ledger.before, ledger.renewed, ledger.strangers, world.links, world.copies, world.taken,
            [key for key in ledger.problems if key[0] in CONTAINER_TOPICS], [key for key in ledger.pauses if key[0] in CONTAINER_PAUSES], ledger.unsaid]
    if any(kept):
        world.wrong.append(f"left: {kept}")


def fault_of(case: bytes) -> Optional[str]:
    """What goes wrong in a case, or nothing."""
    world = World(MACHINE, Choices(case))
    world.pool_least = (0, 0, 2, 3)[world.choices.below(4)]
    world.withholds = world.choices.below(4) < 3
    world.lifts = world.choices.below(4) == 3
    agent = troubled(world)
    settled(agent)
    agent = begun_anew(agent)
    settled(agent)
    refused(agent)
    left(agent)
    return world.wrong[0] if world.wrong else None


def short_days(count: int, seed: int) -> str:
    """Cases that hypothesis makes, which makes one that fails as short as it can; the fault of that."""
    try:
        import hypothesis
    except ImportError:  # Debian's, where another Python comes first
        return by_debians_python(count, seed)

    few = "CASES" in os.environ  # as where mutants are tried: then no fault is made short
    phases = [hypothesis.Phase.generate] if few else [hypothesis.Phase.generate, hypothesis.Phase.shrink]

    @hypothesis.seed(seed)
    @hypothesis.settings(max_examples=count, deadline=None, database=None, suppress_health_check=list(hypothesis.HealthCheck), phases=phases)
    @hypothesis.given(hypothesis.strategies.binary(max_size=400))
    def whatever_comes(drawn: bytes) -> None:
        fault = fault_of(drawn)
        assert fault is None, (fault, drawn)

    try:
        whatever_comes()
    except AssertionError as why:
        return str(why)
    return ""


def by_debians_python(count: int, seed: int) -> str:
    """The same by Debian's Python, if that has hypothesis."""
    if sys.executable == "/usr/bin/python3" or not os.path.exists("/usr/lib/python3/dist-packages/hypothesis"):
        print("decisions: passed over, as there is no hypothesis and python3-hypothesis can't be installed")
        return ""
    words = f"import decisions; fault = decisions.short_days({count}, {seed}); print(fault, end='')"
    here = os.path.dirname(os.path.abspath(__file__))
    ran = subprocess.run(["/usr/bin/python3", "-B", "-c", words], cwd=here, stdout=subprocess.PIPE, check=True)
    return ran.stdout.decode()


def first_fault(count: int, chance: random.Random, length: Callable[[], int]) -> str:
    """The first fault of so many cases, whatever they are, with its case."""
    for _ in range(count):
        drawn = bytes(chance.choices(range(256), k=length()))
        fault = fault_of(drawn)
        if fault:
            return f"{fault}: {drawn!r}"
    return ""


def long_days(count: int, seed: int) -> str:
    """Longer cases than hypothesis makes."""
    chance = random.Random(seed)
    return first_fault(count, chance, lambda: chance.choice((100, 300, 1000)))


def days_of_all_lengths(seed: int) -> str:
    """A thousand cases of up to 512 bytes, of which as many have one to two bytes as have 256 to 512."""
    chance = random.Random(seed)
    return first_fault(THOUSAND, chance, lambda: int(2 ** chance.uniform(0, 9)))


@long_case
def short() -> None:
    check("short cases", short_days(SHORT, SEED), "")


@long_case
def more_short() -> None:
    check("short cases", short_days(SHORT, SEED + 1), "")


@long_case
def other_short() -> None:
    check("short cases", short_days(SHORT, SEED + 2), "")


@long_case
def long() -> None:
    check("long cases", long_days(LONG, SEED), "")


@long_case
def other_long() -> None:
    check("long cases", long_days(LONG, SEED + 1), "")


def by_hand(cases: int, seed: int, jobs: int) -> None:
    """As many thousands of cases as these are, up to the first fault."""
    seeds = range(seed, seed + -(-cases // THOUSAND))
    with multiprocessing.Pool(jobs) as pool:
        for done, fault in enumerate(pool.imap(days_of_all_lengths, seeds), 1):
            check(f"what is decided, seed {seeds[done - 1]}", fault, "")
            if failed:
                return
            if done % 10 == 0 or done == len(seeds):
                print(f"what is decided: {done * THOUSAND} cases as expected, seeds {seed} to {seeds[done - 1]}", flush=True)


if __name__ == "__main__":
    asked = [int(word) for word in sys.argv[1:]]
    by_hand(*asked, *(10_000, SEED, 1)[len(asked):])
    sys.exit(1 if failed else 0)
