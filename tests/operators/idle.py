"""Counts what a look of the agent costs where nothing happens, with 200 containers: the calls of functions, Python's and C's, which are the same on
each machine; and, with room for a busy one, its seconds and its memory."""

from __future__ import annotations

import os
import resource
import sys
import time
from collections import Counter
from typing import List

from sites import Open, Site
from numarun_host import agent as agents
from numarun_host.doing import Ending
from numarun_host.machine import Machine
from trial import SLOWER, case, check

COUNT = 200
CALLS = 28           # of a look, for each container, at most; and those beside
CALLS_BESIDE = 400
SECONDS = 0.010      # of processor, for a look, on a machine that does nothing else
BUSY = 2.0           # what it may take more where half of the processors are busy: threads that share a core slow each other down
MEGABYTES = 25
LOOKS = 160
PAUSE = "0.05"
TURNS = 6            # of which the quietest counts
A_WHILE = 1.2        # seconds behind which the files of a group that has not changed stay open


def crowded() -> Site:
    """200 containers with their limits, half of them with CPUs of their own, which they have in effect, and slices of the system's beside."""
    site = Site({"nodes": ["0-127"], "distances": [[10]], "reserved": "0"})
    for k in range(COUNT):
        name = f"c{k:03}"
        site.come(name, k % 2)
        for file, text in (("cpuset.cpus.effective", ""), ("cpu.max", "100000 100000" if k % 2 else "max 100000"), ("cgroup.events", "populated 1\nfrozen 0")):
            with open(site.at("root/numarun", name, file), "w") as opened:
                opened.write(text + "\n")
    for group in ("system.slice", "user.slice", "init.scope"):
        site.make_group(None, group=group)
    site.run(*more(site))
    for k in range(COUNT):
        group = f"numarun/c{k:03}"
        site.put(group, "cpuset.cpus.effective", site.file(group))
    return site


def more(site: Site) -> List[str]:
    return ["--rest", "/", "--lift", "--textfile", site.at("numarun.prom")]


def calls_of_a_look(agent: agents.Agent) -> int:
    """How many functions are called in one turn, Python's and C's."""
    calls: "Counter[str]" = Counter()

    def count(frame: object, event: str, function: object) -> None:
        if event in ("call", "c_call"):
            calls[event] += 1

    sys.setprofile(count)
    try:
        agent.turn()
    finally:
        sys.setprofile(None)
    return sum(calls.values())


def counted(site: Site) -> int:
    """The calls of the quietest of some looks: one at which files are opened, or figures are left, takes more."""
    words = agents.words_of(site.words(*more(site)))
    agent = agents.made(words, Machine(words.machine), words.work, Ending())
    out = os.dup(1)
    with open(os.devnull, "w") as silent:
        os.dup2(silent.fileno(), 1)
        try:
            for _ in range(2):
                agent.turn()
                time.sleep(A_WHILE)
            return min(calls_of_a_look(agent) for _ in range(TURNS))
        finally:
            sys.stdout.flush()
            os.dup2(out, 1)
            os.close(out)
            agent.close()
            for lock in agent.hands.links.locks if agent.hands.links else ():
                os.close(lock)


@case
def calls() -> None:
    total = counted(crowded())
    most = COUNT * CALLS + CALLS_BESIDE
    print(f"an idle look of {COUNT} containers: {total} calls, of at most {most}")
    check("calls of an idle look", total <= most, True)
    check("and it looks at all", total >= COUNT * 10, True)


def spent(site: Site, rounds: int) -> float:
    """The seconds of processor that an agent takes with so many looks, and what it starts."""
    before = resource.getrusage(resource.RUSAGE_CHILDREN)
    site.run(*more(site), "--pause", PAUSE, rounds=str(rounds))
    after = resource.getrusage(resource.RUSAGE_CHILDREN)
    return after.ru_utime + after.ru_stime - before.ru_utime - before.ru_stime


@case
def seconds() -> None:
    site = crowded()
    few = min(spent(site, 2) for _ in range(3))
    many = min(spent(site, 2 + LOOKS) for _ in range(3))
    each, load, processors = (many - few) / LOOKS, os.getloadavg()[0], len(os.sched_getaffinity(0))
    most = SECONDS * SLOWER * (1 if load < processors / 2 else BUSY)
    print(f"an idle look of {COUNT} containers: {1000 * each:.1f} ms of processor, of at most {1000 * most:.0f}, at load {load:.1f} on {processors}")
    check("seconds of an idle look", each <= most, True)


@case
def memory() -> None:
    site = crowded()
    agent = Open(site, *more(site))
    agent.until("done")
    for _ in range(20):
        time.sleep(0.1)
    with open(f"/proc/{agent.process.pid}/status") as file:
        found = {line.split(":")[0]: line.split()[1] for line in file if line.startswith("VmRSS")}
    print(f"an agent of {COUNT} containers: {int(found['VmRSS']) / 1024:.1f} MB")
    check("memory", int(found["VmRSS"]) / 1024 <= MEGABYTES, True)
    agent.end()
