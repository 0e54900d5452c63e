"""Tries the homes that the agent and numarun-dry-run give to containers which name no nodes of memory, and containers that are never moved."""

from __future__ import annotations

import os

from sites import IN_FOLDERS, QUOTA, Open, Site
from numarun_host import homes
from numarun_host.cpus import read_list
from numarun_host.machine import Machine
from numarun_host.memory import free_memory
from trial import case, check, told

# Four nodes of two cores with two CPUs each; 0 is at 15 from 1, and 2 from 3.
FOUR = {"nodes": ["0-3", "4-7", "8-11", "12-15"], "distances": [[10, 15, 30, 30], [15, 10, 30, 30], [30, 30, 10, 15], [30, 30, 15, 10]],
        "reserved": "0-1", "cores": [f"{cpu}-{cpu + 1}" for cpu in range(0, 16, 2)]}
TWO = {"nodes": ["0-3", "4-7"], "distances": [[10, 21], [21, 10]], "reserved": "0"}
GIB = 1 << 30


def memory(site: Site, *free: int) -> None:
    for node, bytes in enumerate(free):
        os.makedirs(site.at("nodes", f"node{node}"), exist_ok=True)
        with open(site.at("nodes", f"node{node}", "meminfo"), "w") as file:
            file.write(f"Node {node} MemTotal:  99999999 kB\nNode {node} MemFree:  {bytes // 1024} kB\n")


@case
def chosen() -> None:
    """By hand: the fewest nodes, near each other, with little more than is asked for; memory decides where it is short."""
    site = Site(FOUR)
    machine = Machine(site.at("machine.json"))
    free = machine.present - machine.reserved
    for count, limit, free_gib, taken, expected in [
        (2, 0, (9, 9, 9, 9), "", {0}),       # node 0 has one core left: it fits best
        (4, 0, (9, 9, 9, 9), "", {1}),       # two cores: 1, 2 and 3 are alike
        (4, 0, (9, 1, 9, 9), "", {2}),       # and of these the one with the most memory, the lowest of them
        (2, 4, (3, 9, 9, 9), "", {1}),       # node 0 has too little memory
        (6, 0, (9, 9, 9, 9), "", {0, 1}),    # three cores: 0 and 1 are near, and nothing is left over
        (8, 0, (9, 9, 9, 9), "", {2, 3}),
        (6, 0, (9, 9, 9, 9), "4-5", {2, 3}),
        (4, 20, (9, 9, 9, 9), "", {0, 1, 2}),  # two nodes together have too little memory
        (4, 12, (9, 1, 9, 9), "", {2, 3}),
        (16, 0, (9, 9, 9, 9), "", None),     # no room anywhere
        (2, 40, (9, 9, 9, 9), "", None),
    ]:
        memory(site, *(GIB * gib for gib in free_gib))
        config = {"linux": {"resources": {"memory": {"limit": limit * GIB}}}}
        found = homes.home_of(machine, config, count, free - read_list(taken, "taken"), free_memory(site.at("nodes"), machine))
        check(f"a home for {count} CPUs and {limit} GiB of {free_gib} without {taken!r}", found, expected)
    site = Site({"nodes": ["0-1", "2-3", "4-5", "6-7"], "distances": [[10 if a == b else 30 if {a, b} == {1, 2} else 20 for b in range(4)] for a in range(4)],
                 "reserved": "0"})
    spread = Machine(site.at("machine.json"))
    check("two large nodes rather than three near ones", homes.home_of(spread, {}, 4, spread.present - {0, 7}, {}), {1, 2})
    named = {"linux": {"resources": {"cpu": {"mems": "3"}}}}
    check("one that names its nodes", homes.home_of(machine, named, 2, free, free_memory(site.at("nodes"), machine)), None)


@case
def kept() -> None:
    """A home is told with the copy of the config, kept across restarts, and no newcomer is given what is promised."""
    site = Site(TWO)
    site.online("0-7")
    memory(site, GIB, GIB)
    more = ("--nodes", site.at("nodes"))
    site.come("a", 3)
    site.come("b", 3)
    site.come("s")
    status, lines = site.run(*more)
    check("a home each", ([line for line in lines if line.startswith("home")], site.has("a", "b")), (["home a 0", "home b 1"], ["1-3", "4-6"]))
    check("their memory", [site.file(f"numarun/{name}", "cpuset.mems") for name in "abs"], ["0", "1", "0-1"])
    site.log()
    memory(site, GIB, 0)
    status, lines = site.run(*more)
    check("kept across a restart", (status, [line for line in lines if line.startswith(("home", "hold"))], site.has("a", "b")), (0, [], ["1-3", "4-6"]))
    agent = Open(site, *more)
    agent.until("done")
    site.go("a")
    site.configure("b", 2)
    agent.until("update b")
    agent.until("done")
    check("and where its limit changes", (site.has("b"), site.file("numarun/b", "cpuset.mems")), (["4-5"], "1"))
    site.come("c", linux={"resources": {"cpu": {"quota": 2 * QUOTA, "period": QUOTA}, "memory": {"limit": GIB // 2}}})
    check("memory", [line for line in agent.until("done") if line.startswith("home")], ["home c 0"])
    check("the end", agent.end()[0], 0)


@case
def where_it_is() -> None:
    """What a container has on a node counts for its home there, and one that fits nowhere is named."""
    site = Site(TWO)
    site.online("0-7")
    memory(site, GIB, GIB)
    for name, gib in (("a", 4), ("b", 3)):
        site.come(name, linux={"resources": {"cpu": {"quota": 2 * QUOTA, "period": QUOTA}, "memory": {"limit": gib * GIB}}})
    site.put("numarun/a", "memory.numa_stat", f"anon N0=5 N1=5\ninactive_anon N0=0 N1={GIB}\nactive_anon N0=4096 N1={2 * GIB}\nfile N0={9 * GIB} N1=0")
    status, lines = site.run("--nodes", site.at("nodes"))
    named = "note no home for b: no node where it could be has the 3.0 GiB of its memory limit"
    check("homes", (status, [line for line in lines if line.startswith(("home", "note"))], site.has("a")), (0, ["home a 1", named], ["4-5"]))


@case
def none() -> None:
    """Without homes each CPU is as near as another, and all nodes are its memory."""
    site = Site(TWO)
    site.online("0-7")
    site.come("a", 5)
    status, lines = site.run("--home", "none")
    check("no home", ([line for line in lines if line.startswith("home")], site.file("numarun/a", "cpuset.mems"), "plan total 50" in lines), ([], "0-1", True))
    site = Site(TWO)
    site.online("0-7")
    site.come("x", "6-7", has="6-7")
    status, lines = site.run()
    check("one that has its CPUs", ([line for line in lines if line.startswith("home")], site.has("x")), (["home x 1"], ["6-7"]))


@case
def later() -> None:
    """Who waits gets a home when there is room."""
    site = Site(TWO)
    site.online("0-7")
    site.come("a", 3)
    site.come("b", 3)
    site.run()
    site.come("c", 3)
    agent = Open(site)
    check("it waits", [line for line in agent.until("done") if line.startswith(("home", "waits"))][-1].split(":")[0], "waits c")
    site.go("b")
    check("room", "home c 1" in agent.until("done"), True)
    check("its CPUs", (len(read_list(site.has("c")[0], "c")), site.file("numarun/c", "cpuset.mems"), agent.end()[0]), (3, "1", 0))


@case
def shown() -> None:
    """numarun-dry-run has the same homes."""
    site = Site(TWO)
    memory(site, GIB, 2 * GIB)
    words = (site.at("machine.json"), "--program", IN_FOLDERS, "--pool-least", "0", "--after", "-")
    script = f"create a {site.at('g/a')}\nrebalance\n"
    site.come("a", linux={"resources": {"cpu": {"quota": 3 * QUOTA, "period": QUOTA, "mems": "0"}}})
    status, out, _ = told("numarun-dry-run", *words, "--cpus", "3", text=script)
    check("the other node", (status, out.splitlines()), (0, ["new would have 4-6: 3 CPUs, distance 30", "its home would be node 1", "total distance: 60; 0 CPUs of the others would move"]))
    status, out, _ = told("numarun-dry-run", *words, "--cpus", "2", "--nodes", site.at("nodes"))
    check("on an empty machine", out.splitlines()[1], "its home would be node 0")
    site.come("b", 3)
    status, out, _ = told("numarun-dry-run", *words[:5], "--running", site.at("g"), "--nodes", site.at("nodes"), "--cpus", "1")
    check("beside others, which have homes too", out.splitlines(), ["new would have 7: 1 CPU, distance 10", "its home would be node 1",
                                                                   "total distance: 70; 0 CPUs of the others would move"])
    status, out, _ = told("numarun-dry-run", *words, "--cpus", "5", "--home", "none", text=script)
    check("without homes", "home" in out, False)


def far_site() -> Site:
    """Two containers that are far from home, since a third one has the near CPUs; one of the two is never to be moved."""
    site = Site(TWO)
    site.online("0-7")
    for name, cpus, stay in (("near", "1-3", {}), ("db", 0, {"numarun.stay": "true"}), ("other", 0, {})):
        section = {"cpu": {"cpus": cpus} if cpus else {"quota": 2 * QUOTA, "period": QUOTA, "mems": "0"}}
        site.come(name, linux={"resources": section}, annotations=stay)
    return site


@case
def staying() -> None:
    """One with the annotation is never moved, though it would be nearer elsewhere; where its CPU goes it gets another one."""
    site = far_site()
    agent = Open(site)
    agent.until("done")
    check("both are far", site.has("near", "db", "other"), ["1-3", "4-5", "6-7"])
    site.go("near")
    agent.until("ended near")
    agent.until("done")
    check("one comes home, one stays", site.has("db", "other"), ["4-5", "1-2"])
    site.come("x", 1)
    agent.until("create x")
    agent.until("done")
    check("it stays", site.has("db"), ["4-5"])
    site.configure("db", 1, linux={"resources": {"cpu": {"quota": QUOTA, "period": QUOTA, "mems": "0"}}}, annotations={"numarun.stay": "true"})
    agent.until("update db")
    agent.until("done")
    check("a limit that is lowered", site.has("db"), ["4"])
    site.online("0-3,5-7")
    agent.until("done")
    check("its CPU goes", (site.has("db")[0] != "4", len(read_list(site.has("db")[0], "db")), agent.end()[0]), (True, 1, 0))


@case
def staying_over_restarts() -> None:
    site = far_site()
    check("both are far", (site.run()[0], site.has("db", "other")), (0, ["4-5", "6-7"]))
    site.go("near")
    check("the other one comes home while no agent ran", (site.run()[0], site.has("db", "other")), (0, ["4-5", "1-2"]))
