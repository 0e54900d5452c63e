"""Tries `--rest /`: each group of the root that is on nobody's way is held on the pool, whatever it is called; what is on the way is let go, a
partition is left alone, and a group that a container takes over is told anew as that container's."""

from __future__ import annotations

import os
import shutil
from typing import Any, Dict, List

from sites import Open, Site
from numarun_host.cgroups import is_partition
from numarun_host.taken import read_record
from trial import case, check, told


def place(group: str) -> Dict[str, Any]:
    return {"linux": {"cgroupsPath": f"/{group}"}}


def rooted() -> Site:
    """A machine whose root has the controller cpuset switched on for all of its groups."""
    site = Site()
    for file in ("cpuset.cpus", "cpuset.mems"):
        site.put("numarun", file, "")
    return site


def cpus(site: Site, *groups: str) -> List[str]:
    return [site.file(group) for group in groups]


@case
def all_of_them() -> None:
    """Those that are there, one that comes later, and those beside a container in one of them."""
    site = rooted()
    for group in ("system.slice", "init.scope", "dev-hugepages.mount", "odd name@x", "docker", "docker/other"):
        site.make_group(None, group=group)
    site.come("db", 2, **place("docker/db"))
    site.come("free", 1)
    agent = Open(site, "--rest", "/")
    lines = agent.until("done")
    check("each is told", sorted(line.split()[1] for line in lines if line.startswith("adopt")),
          sorted(["dev-hugepages.mount", "docker+other", "init.scope", "odd_name_x-e6aed037", "system.slice"]))
    check("they are on the pool", cpus(site, "system.slice", "init.scope", "dev-hugepages.mount", "odd name@x", "docker/other"), ["0,4-7"] * 5)
    check("and not what is above a container", cpus(site, "docker", "numarun"), ["", ""])
    check("the containers", cpus(site, "docker/db", "numarun/free"), ["1-2", "3"])
    site.make_group(None, group="late.slice")
    agent.until("adopt late.slice")
    agent.until("done")
    check("one that comes later", cpus(site, "late.slice"), ["0,4-7"])
    shutil.rmtree(site.at("root/late.slice"))
    agent.until("ended late.slice")
    shutil.rmtree(site.at("root/docker/db"))
    shutil.rmtree(site.at("g/db"))
    agent.until("adopt docker ")
    agent.until("done")
    check("nobody is below it any more", (cpus(site, "docker", "init.scope"), agent.end()[0]), (["0-2,4-7", "0-2,4-7"], 0))
    status, out, _ = told("numarun-agent", "release", "--cgroup", site.at("root"), "--work", site.at("work"), "--rest", "/")
    check("given back", (status, cpus(site, "docker", "init.scope", "system.slice", "odd name@x", "numarun/free")), (0, [""] * 5))
    site.put("init.scope", "cpuset.cpus", "5")
    status, out, _ = told("numarun-agent", "release", "--cgroup", site.at("root"), "--work", site.at("work"), "--rest", "/")
    check("and nothing more", (status, out, cpus(site, "init.scope")), (0, f"nothing was kept in {site.at('work')}\n", ["5"]))


@case
def partitions() -> None:
    """A group that is a partition of its own is nobody's to hold."""
    site = rooted()
    for group, text in (("isolated", "isolated"), ("root", "root"), ("broken", "root invalid (Cpu list in cpuset.cpus not exclusive)"), ("member", "member")):
        site.make_group(None, "7" if group != "member" else "", group=group)
        site.put(group, "cpuset.cpus.partition", text)
    site.make_group(None, "7", group="no file")
    site.come("a", 2)
    check("a status", site.run("--rest", "/")[0], 0)
    check("left alone", cpus(site, "isolated", "root", "broken"), ["7", "7", "7"])
    check("held", cpus(site, "member", "no file"), ["0,3-7", "0,3-7"])
    check("words", [is_partition(text) for text in (None, "", "member", "root", "isolated", "root invalid (x)")], [False, False, False, True, True, True])
    site = rooted()
    site.make_group(None, "7", group="named")
    site.put("named", "cpuset.cpus.partition", "root")
    site.run("--rest", "/,named")
    check("one that is named", cpus(site, "named"), ["0-7"])


@case
def taken_over() -> None:
    """A group of the root that a container's runtime made, before the container is told of, under the same id."""
    site = rooted()
    site.make_group(None, group="db")
    agent = Open(site, "--rest", "/")
    agent.until("adopt db ")
    agent.until("done")
    site.come("db", 2, group=False, **place("db"))
    lines = agent.until("done")
    check("it is told anew", ([line.split()[0] for line in lines if " db" in line][:2], "hold db 1-2" in lines), (["ended", "adopt"], True))
    check("its own", cpus(site, "db"), ["1-2"])
    taken = read_record(site.at("work")).groups[site.at("root/db")]
    check("and no group of the system's any more", (taken.system, taken.cpus), (False, ""))
    agent.process.kill()
    agent.process.wait()
    with open(site.at("g/db/config.json"), "w") as file:
        file.write("{")
    with open(site.at("root/db/cgroup.events"), "w") as file:
        file.write("populated 1\nfrozen 0\n")
    status, lines = site.run("--rest", "/")
    check("it stays across a restart", (cpus(site, "db"), [line.split(":")[0] for line in lines if line.startswith("stays")]), (["1-2"], ["stays db"]))
    os.remove(site.at("root/db/cgroup.events"))
    shutil.rmtree(site.at("g/db"))
    status, lines = site.run("--rest", "/")
    check("and is held again once nobody tells of it", (status, cpus(site, "db"), read_record(site.at("work")).groups[site.at("root/db")].system), (0, ["0-7"], True))
