"""Tries the agent beside the groups of the system itself: those above a pinned container are let go, those beside it are held on the
pool; and what was taken is given back."""

from __future__ import annotations

import json
import os
import shutil
from typing import Any, Dict

from sites import Open, Site
from numarun_host import release, slices
from numarun_host.cpus import Cpus, print_list, read_list
from trial import case, check, refuses, told

REST = ("--rest", "system.slice,user.slice,init.scope", "--rest", "machine.slice")
SLICES = ("system.slice", "user.slice", "machine.slice")


def place(group: str) -> Dict[str, Any]:
    return {"linux": {"cgroupsPath": f"/{group}"}}


def effective(site: Site, group: str) -> Cpus:
    """What a kernel has in effect: what is requested of what the group above has, or all of that."""
    if not group or not os.path.exists(site.at("root", group, "cpuset.cpus")):
        return frozenset(range(8))
    above = effective(site, os.path.dirname(group))
    return read_list(site.file(group), group) & above or above


@case
def slices_with_containers() -> None:
    """As podman and docker have it by systemd: a scope in a slice that is to be held on the pool."""
    site = Site()
    for name in (*SLICES, "system.slice/sshd.service", "system.slice/cron.service", "system.slice/a-b.slice", "system.slice/a-b.slice/x.service"):
        site.make_group(None, group=name)
    site.make_group(None, group="numarun/free")
    site.come("pod", 2, **place("machine.slice/libpod-pod.scope"))
    site.come("dock", 1, **place("system.slice/a-b.slice/docker-dock.scope"))
    site.come("free", 1, group=False)
    site.come("web", **place("machine.slice/libpod-web.scope"))
    status, _ = site.run(*REST)
    groups = {"pod": "machine.slice/libpod-pod.scope", "dock": "system.slice/a-b.slice/docker-dock.scope", "free": "numarun/free"}
    check("each has in effect what it requests", {name: print_list(effective(site, group)) for name, group in groups.items()},
          {name: site.file(group) for name, group in groups.items()})
    check("as many as they ask for", (status, [len(effective(site, group)) for group in groups.values()]), (0, [2, 1, 1]))
    pool = site.file("user.slice")
    check("the others are on the pool", [site.file(f"system.slice/{name}") for name in ("sshd.service", "cron.service", "a-b.slice/x.service")], [pool] * 3)
    check("and what is above a container is not", [site.file(name) for name in ("system.slice", "system.slice/a-b.slice", "machine.slice")], [""] * 3)
    check("one that asks for none", (site.file("machine.slice/libpod-web.scope"), len(read_list(pool, "")), "0" in pool), (pool, 4, True))


@case
def comes_later() -> None:
    """A container comes into a slice that is on the pool, and ends."""
    site = Site()
    for name in ("system.slice", "system.slice/sshd.service"):
        site.make_group(None, group=name)
    site.come("other", "7")
    agent = Open(site, *REST)
    agent.until("done")
    check("a slice on the pool", (site.file("system.slice"), site.file("system.slice/sshd.service")), ("0-6", ""))
    site.come("dock", 2, **place("system.slice/docker-dock.scope"))
    lines = agent.until("done")
    check("let go", f"all CPUs for {site.at('root/system.slice')}: dock is below it" in lines, True)
    check("what is beside it first", lines.index(f"adopt system.slice+sshd.service {site.at('root/system.slice/sshd.service')} 0-6")
          < lines.index(f"all CPUs for {site.at('root/system.slice')}: dock is below it"), True)
    check("its CPUs", [site.file(f"system.slice{name}") for name in ("", "/docker-dock.scope", "/sshd.service")], ["", "1-2", "0,3-6"])
    shutil.rmtree(site.at("root/system.slice/docker-dock.scope"))
    shutil.rmtree(site.at("g/dock"))
    agent.until("adopt system.slice")
    agent.until("done")
    check("on the pool again", (site.file("system.slice"), agent.end()[0]), ("0-6", 0))


@case
def held_before() -> None:
    """A slice that an agent without such care has left on the pool, above a container."""
    site = Site()
    site.make_group(None, "0,3-7", group="machine.slice")
    site.come("pod", 2, has="1-2", **place("machine.slice/libpod-pod.scope"))
    status, _ = site.run(*REST)
    check("a slice that was on the pool", (status, site.file("machine.slice"), site.file("machine.slice/libpod-pod.scope")), (0, "", "1-2"))
    status, _ = site.run()
    check("--rest is not said any more", (status, site.file("machine.slice")), (0, ""))


@case
def cannot_be() -> None:
    """A slice that can't be let go, and one with processes of its own, are named and counted."""
    site = Site({"nodes": ["0-7,4000-4001"], "distances": [[10]], "reserved": "0"})
    site.online("0-7,4000-4001")
    site.make_group(None, group="machine.slice")
    os.remove(site.at("root/machine.slice/cpuset.cpus"))
    os.symlink("/sys/devices/system/cpu/present", site.at("root/machine.slice/cpuset.cpus"))  # nobody can write it
    site.come("pod", 2, **place("machine.slice/libpod-pod.scope"))
    status, lines = site.run(*REST)
    path = site.at("root/machine.slice")
    found = [line for line in lines if line.startswith("refused")]
    check("one that can't be written", (status, [line.split(":")[:2] for line in found]),
          (1, [[f"refused {path}", " pod is below it, and gets no CPUs"]]))
    site = Site()
    site.make_group(None, group="machine.slice")
    site.put("machine.slice", "cgroup.procs", "17")
    site.come("pod", 2, **place("machine.slice/libpod-pod.scope"))
    path = site.at("root/machine.slice")
    check("processes beside it", [line for line in site.run(*REST)[1] if line.startswith("refused")],
          [f"refused {path}: it can't be on the pool, since pod is below it; its own processes run on all CPUs"])


@case
def squeezed() -> None:
    """A pinned container that has not in effect what it was given is said at each look, and counted."""
    site = Site()
    site.come("a", 2)
    site.put("numarun/a", "cpuset.cpus.effective", "0-7")
    agent = Open(site, "--textfile", site.at("figures"))
    agent.until("done")
    site.put("numarun/a", "cpuset.cpus.effective", "0,3")
    check("something above it was narrowed", agent.until("squeezed"), ["squeezed a: 0,3 in effect in place of 1-2"])
    site.come("b", 1)
    agent.until("done")
    check("it is counted", "\nnumarun_containers_squeezed 1\n" in open(site.at("figures")).read(), True)
    site.put("numarun/a", "cpuset.cpus.effective", "1-2")
    site.come("c", 1)
    agent.until("done")
    site.come("d", 1)
    agent.until("done")
    check("and no more", ("\nnumarun_containers_squeezed 0\n" in open(site.at("figures")).read(), agent.end()[0]), (True, 0))


@case
def ids() -> None:
    for group, expected in [("system.slice", "system.slice"), ("system.slice/a@b.service", "system.slice+a_b.service-"), ("a" * 70, "a" * 55 + "-")]:
        found = slices.id_of(group)
        check(f"an id for {group}", (found[:len(expected)], len(found) <= 64), (expected, True))
    check("two groups", slices.id_of("a/b@c") != slices.id_of("a/b_c"), True)


@case
def beside_a_partition() -> None:
    """Who gets all CPUs back gets none that runs and that the group above has not in effect, for a partition has it; 7 is off."""
    site, online = Site(), release.ONLINE
    site.make_group(None, group="system.slice")
    group, above = site.at("root/system.slice"), site.at("root/cpuset.cpus.effective")
    for path, text in ((site.at("online"), "0-6"), (above, "0-4,6")):
        with open(path, "w") as file:
            file.write(text + "\n")
    release.ONLINE = site.at("online")
    try:
        check("all but the partition's", release.left_by_partitions(group, "0-7"), "0-4,6-7")
        check("no list", release.left_by_partitions(group, None), None)
        os.remove(above)
        check("nothing is known", release.left_by_partitions(group, "0-7"), "0-7")
    finally:
        release.ONLINE = online


@case
def released() -> None:
    """All that was taken is given back, as it was before; not while an agent runs."""
    site = Site()
    site.make_group(None, group="system.slice")
    site.come("a", 2)
    site.come("b", "4-7", has="4-7")
    agent = Open(site, *REST)
    agent.until("done")
    check("taken", (site.file("system.slice"), site.has("a", "b"), site.file("numarun/a", "cpuset.mems")), ("0,3", ["1-2", "4-7"], "0"))
    words = ["--release", "--cgroup", site.at("root"), "--work", site.at("work")]
    refuses("numarun-agent", *words, says="another agent or program has it")
    agent.process.kill()
    agent.process.wait()
    site.run(*REST)
    status, out, err = told("numarun-agent", *words)
    check("given back", (status, out.count("given back"), err), (0, 3, ""))
    check("as it was", (site.file("system.slice"), site.has("a", "b"), site.file("system.slice", "cpuset.mems")), ("", ["", "4-7"], ""))
    check("nothing is left to give back", told("numarun-agent", *words), (0, f"nothing was kept in {site.at('work')}\n", ""))
    site.make_group(None, "0,3", group="user.slice")
    status, out, _ = told("numarun-agent", *words, "--rest", "user.slice")
    check("one that is named", (status, site.file("user.slice")), (0, ""))
    check("and taken again", (site.run(*REST)[0], site.file("system.slice")), (0, "0,3"))
    entry = json.load(open(site.at("work/taken.json")))["groups"][site.at("root/system.slice")]
    check("what is kept", entry[1:], ["", "", True])
    check("without a tree", told("numarun-agent", "--release")[0], 2)
    for text in ("{", "[]", '{"groups": 5}', '{"all": 5, "groups": {"/": [1]}}', '{"groups": {"/x": 5}}'):
        with open(site.at("work/taken.json"), "w") as file:
            file.write(text)
        check(f"a record that is none: {text}", (told("numarun-agent", *words), site.run(*REST)[0]), ((0, f"nothing was kept in {site.at('work')}\n", ""), 0))
