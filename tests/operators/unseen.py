"""Tries the agent and numarun where groups run that an agent before told of, while nobody tells of them or numarun can't be told of them: they keep their
CPUs, and the others go on without these."""

from __future__ import annotations

import os
import signal

from sites import Open, Site, of
from trial import case, check, told


def lost(name: str, *others: str) -> Site:
    """A machine on which no agent runs, and on which one of those that run is told of no more, nor known by an id."""
    site = Site()
    site.come("a", 2)
    site.come("s")
    for each in ("a", "s"):
        site.put(f"numarun/{each}", "cgroup.events", "populated 1")
    check("before", (site.run()[0], site.has("a", "s")), (0, ["1-2", "0,3-7"]))
    os.rename(site.at("g", name), site.at("away"))
    for file in (f"tree/numarun/{name}", *others):
        os.remove(site.at("work", file))
    return site


def unseen(site: Site, name: str, plan: str) -> str:
    return f"unseen {site.at('root/numarun', name)}: it was told of before, and there is a process in it: {plan} until it is told"


@case
def without_an_id() -> None:
    """Nobody gets what one has of whom nobody tells, and the others go on; once it is told of it is one as all others."""
    site = lost("a")
    site.come("b", "1-2")
    agent = Open(site)
    lines = agent.until("done")
    check("said", of(lines, "unseen", "waits", "create"), [f"create b {site.at('g/b')} 0,3-7", "waits b: short demand 2 allowed -: it runs on the pool until there is room",
                                                          unseen(site, "a", "no plan gives 1-2 to anybody")])
    check("it keeps its own, and b waits on the pool", site.has("a", "b", "s"), ["1-2", "0,3-7", "0,3-7"])
    site.come("c", 2)
    agent.until("create c")
    agent.until("done")
    check("who comes gets others", site.has("a", "b", "c", "s"), ["1-2", "0,5-7", "3-4", "0,5-7"])
    os.rename(site.at("away"), site.at("g/a"))
    lines = agent.until("update b") + agent.until("done")
    check("it is told of", (of(lines, "adopt", "forgotten")), ([f"adopt a {site.at('g/a')} 1-2", f"forgotten {site.at('root/numarun/a')}: it is that of a"]))
    check("b has what it names", (site.has("b", "c"), len(site.has("a")[0]), agent.end()), (["1-2", "3-4"], 3, (0, [])))


@case
def it_ends() -> None:
    """What one had counts again once it has ended, of whom nobody tells; also where an agent was begun meanwhile."""
    site = lost("a")
    site.come("b", 7)
    for _ in range(2):
        agent = Open(site)
        agent.until("done")
        check("it keeps its own", (site.has("a", "b", "s"), agent.end()[0]), (["1-2", "0,3-7", "0,3-7"], 1))
    agent = Open(site)
    agent.until("done")
    site.put("numarun/a", "cgroup.events", "populated 0")
    lines = agent.until("update b") + agent.until("done")
    check("it has ended", (of(lines, "forgotten"), site.has("b", "s")), ([f"forgotten {site.at('root/numarun/a')}: there is no process in it any more"], ["1-7", "0"]))
    full = "note the pool has 1 CPU, and it is reserved: nobody else gets CPUs of its own"
    check("and is nothing any more", (sorted(os.listdir(site.at("work/tree/numarun"))), agent.end()), (["b", "s"], (0, [full])))


@case
def without_a_record() -> None:
    """The same where the record of what was taken is gone too, but not the link."""
    site = lost("s", "taken.json")
    os.rename(site.at("away"), site.at("g/s"))
    os.rename(site.at("g/a"), site.at("away"))
    site.come("b", "1-2")
    agent = Open(site)
    lines = agent.until("done")
    check("it keeps its own", (of(lines, "unseen"), site.has("a", "b", "s")), ([unseen(site, "a", "no plan gives 1-2 to anybody")], ["1-2", "0,3-7", "0,3-7"]))
    os.rename(site.at("away"), site.at("g/a"))
    lines = agent.until("update b") + agent.until("done")
    check("it is told of", (of(lines, "adopt", "forgotten"), agent.end()), ([f"adopt a {site.at('g/a')} 1-2"], (0, [])))


@case
def on_the_pool() -> None:
    """While one is on the pool of whom nobody tells there is no plan, since the others would have the reserved CPUs alone."""
    site = lost("s")
    site.come("t", has="0,3-7")
    site.come("b", 2)
    agent = Open(site)
    lines = agent.until("unseen")
    check("no plan", (lines[-1], site.has("a", "b", "s", "t")), (unseen(site, "s", "no plan"), ["1-2", "0", "0,3-7", "0,3-7"]))
    os.rename(site.at("away"), site.at("g/s"))
    agent.until("done")
    check("once it is told of", (site.has("a", "b", "s", "t"), agent.end()), (["1-2", "3-4", "0,5-7", "0,5-7"], (0, [])))


@case
def not_for_now() -> None:
    """While numarun can't be told of one, since a write fails, it keeps its CPUs, and the others go on."""
    site = lost("a")
    os.rename(site.at("away"), site.at("g/a"))
    mems = site.at("root/numarun/a/cpuset.mems")
    os.remove(mems)
    os.mkdir(mems)
    site.come("b", "1-4")
    agent = Open(site)
    lines = agent.until("done")
    check("it keeps its own", (of(lines, "failed")[0][:20], of(lines, "unseen"), site.has("a", "b", "s")), ("failed a/cpuset.mems", [], ["1-2", "0,3-7", "0,3-7"]))
    site.come("c", 2)
    agent.until("create c")
    agent.until("done")
    check("who comes gets others", site.has("a", "c", "s"), ["1-2", "3-4", "0,5-7"])
    os.rmdir(mems)
    site.put("numarun/a", "cpuset.mems", "")
    lines = agent.until("done")
    check("it is told of", (of(lines, "adopt", "forgotten"), site.has("c"), len(site.has("a")[0])), ([f"adopt a {site.at('g/a')} 1-2"], ["3-4"], 3))
    agent.end()


KILLS = """
if line == b"phase\\n":
    os.kill(os.getppid(), signal.SIGKILL)
    break
"""


@case
def killed_as_it_begins() -> None:
    """An agent that is killed before it has told of anybody leaves to the next one what it found."""
    site = lost("a")
    os.rename(site.at("away"), site.at("g/a"))
    site.run()
    os.rename(site.at("g/a"), site.at("away"))
    agent = Open(site, *site.stand_in(KILLS))
    check("killed", agent.process.wait(), -signal.SIGKILL)
    site.come("b", 1)
    agent = Open(site)
    lines = agent.until("done")
    check("the next one knows who that is", (of(lines, "stays", "unseen"), site.has("a", "b")), (["stays a: it is told of no more; there is a process in its group"], ["1-2", "3"]))
    agent.end()


@case
def released() -> None:
    """A release gives back what one has of whom nobody tells, and leaves no link: the next agent knows of nobody."""
    site = lost("a")
    agent = Open(site)
    agent.until("done")
    agent.end()
    check("a link without an id", [name[0] for name in sorted(os.listdir(site.at("work/tree/numarun")))], ["s", "~"])
    status, _, _ = told("numarun-agent", "release", "--cgroup", site.at("root"), "--work", site.at("work"))
    check("given back", (status, site.has("a", "s"), os.listdir(site.at("work/tree/numarun"))), (0, ["", ""], []))
    site.come("b", "1-2")
    status, lines = site.run()
    check("nobody is left", (status, of(lines, "unseen", "waits"), site.has("b")), (0, [], ["1-2"]))
