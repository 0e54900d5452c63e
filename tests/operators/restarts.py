"""Tries what an agent leaves to the next one: an agent that is told to end in the midst of a look, one that is killed behind a write for
a container which is another one by then, and containers whose configs can't be had any more, while it runs and at a start."""

from __future__ import annotations

import json
import os
import signal
import subprocess
import time
from typing import Optional

from sites import QUOTA, Open, Site, of
from numarun_host.cpus import read_list
from trial import case, check, told


@case
def in_a_look() -> None:
    """It is told to end while it looks, where nothing happened: nothing is left undone."""
    site = Site()
    for name, count in (("a", 2), ("b", 1), ("s", 0)):
        site.come(name, count)
    site.run()
    for turn in range(8):
        agent = Open(site, "--pause", "0.01")
        agent.until("done")
        time.sleep(0.1 + turn / 50)
        check("told to end in a look", agent.end(), (0, []))


@case
def in_a_look_with_more() -> None:
    """It is told to end while it has not told of all newcomers: no fault of its own, which its last line says, and the next one tells of them."""
    site = Site({"nodes": ["0-127"], "distances": [[10]], "reserved": "0"})
    site.come("first", 1)
    agent = Open(site)
    agent.until("done")
    agent.process.send_signal(signal.SIGSTOP)
    for k in range(300):
        site.come(f"c{k:03}", int(k % 5 == 0))
    agent.process.send_signal(signal.SIGCONT)
    agent.until("create c")
    status, lines = agent.end()
    told_of = of(agent.lines + lines, "create c")
    check("some were not told of", (status, of(lines, "done"), len(told_of) < 300), (0, [], True))
    check("which is said", lines[-1:], ["note a plan is due: the next agent begins with it"])
    check("the next one", (site.run()[0], len(site.has("c000")[0]) > 0, "" in site.has(*(f"c{k:03}" for k in range(300)))), (0, True, False))


LATE = """
begins += line == b"begin direct\\n"
steps += line == b"step\\n"
if line == b"begin direct\\n" and begins == 1:  # a container comes back in the place of `a`, and its config is not there yet; `b` comes
    for old, new in (("g/a", "old-a"), ("root/numarun/a", "old-group"), ("anew", "root/numarun/a"), ("b", "g/b")):
        os.rename(os.path.join(site, old), os.path.join(site, new))
killed = {when}
if killed:
    os.kill(os.getppid(), signal.SIGKILL)
"""
BREAKS = """
if killed:
    break
"""


def late(killed: str) -> Site:
    """A plan moves `a`, whose group is another one by then, and the agent is killed behind the last write, or later in its next look."""
    site = Site()
    site.come("a", 1)
    site.run()
    site.make_group(None, group="../anew")
    site.come("b", "2")
    os.rename(site.at("g/b"), site.at("b"))
    site.online("0,2-7")
    agent = Open(site, *site.stand_in(LATE.format(when=killed), BREAKS, site=site.folder, begins=0, steps=0))
    check("killed", agent.process.wait(), -9)
    until = time.monotonic() + 30
    while site.has("a") != ["2"] and time.monotonic() < until:
        time.sleep(0.01)
    check("the new group has what was meant for the one before", site.has("a"), ["2"])
    return site


BEHIND_THE_WRITE, IN_THE_NEXT_LOOK = "steps == 1", "line.startswith(b'create b ')"


@case
def killed_and_told() -> None:
    """One that is told at once has what it got so, since nobody else has it, until there is a plan."""
    site = late(BEHIND_THE_WRITE)
    site.come("a", 2, group=False)
    status, lines = site.run()
    check("told at once", (status, of(lines, "late", "adopt"), site.has("a", "b")), (0, [f"adopt a {site.at('g/a')} 2"], ["3-4", "2"]))


def nobody_shares(killed: str, name: Optional[str]) -> None:
    """The next agent does not know what the group has by that plan, nor which container it is: nobody gets CPUs that it shares with it."""
    site = late(killed)
    agent = Open(site)
    lines = agent.until("done")
    said = f"late {name or site.at('root/numarun/a')}: 2 of the one before: on the reserved CPUs until it is told"
    check("nobody shares it", (of(lines, "late"), site.has("a", "b")), ([said], ["0", "2"]))
    agent.process.kill()
    agent.process.wait()
    check("and at one more start", (site.run()[0], site.has("a", "b")), (0, ["0", "2"]))
    site.come("a", 1, group=False)
    status, lines = site.run()
    check("once it is told", (status, site.has("a", "b")), (0, ["3", "2"]))
    status, out, _ = told("numarun-agent", "--release", "--cgroup", site.at("root"), "--work", site.at("work"))
    check("given back", (status, site.has("a", "b")), (0, ["", ""]))


@case
def killed_behind_a_late_write() -> None:
    nobody_shares(BEHIND_THE_WRITE, "a")


@case
def killed_in_the_next_look() -> None:
    """The same where the agent has seen that `a` ended, and is killed before it has looked at the new group."""
    nobody_shares(IN_THE_NEXT_LOOK, None)


@case
def late_in_a_slice() -> None:
    """The same of a group of the system, which is above a pinned container by now: it is let go."""
    site = Site()
    for name in ("machine.slice", "machine.slice/pods"):
        site.make_group(None, group=name)
    site.come("other", 1)
    site.come("top", 1, linux={"cgroupsPath": "/machine.slice/top"})
    rest = ("--rest", "machine.slice")
    check("held by itself", (site.run(*rest)[0], site.file("machine.slice/pods")), (0, "0,3-7"))
    site.make_group(None, "0,3-7", group="../anew")
    os.rename(site.at("root/machine.slice/pods"), site.at("old"))
    os.rename(site.at("anew"), site.at("root/machine.slice/pods"))
    site.come("pod", 2, linux={"cgroupsPath": "/machine.slice/pods/pod"})
    status, lines = site.run(*rest)
    check("let go", (status, site.file("machine.slice/pods"), len(read_list(site.file("machine.slice/pods/pod"), "pod"))), (0, "", 2))


def broken(site: Site, name: str, text: str) -> None:
    """A config in place of the one that is there, of which nobody sees a part."""
    with open(site.at("broken"), "w") as file:
        file.write(text)
    os.rename(site.at("broken"), site.at("g", name, "config.json"))


@case
def unreadable() -> None:
    """A config that is no JSON any more leaves a container as it is, also at a start, and nobody waits for it."""
    for text, why in (("{", "not JSON"), ("[]", "no JSON object")):
        site = Site()
        for name, count in (("a", 2), ("s", 0)):
            site.come(name, count)
            site.put(f"numarun/{name}", "cgroup.events", "populated 1")
        agent = Open(site)
        agent.until("done")
        said = f"stays a: {site.at('g/a/config.json')}: {why}; there is a process in its group"
        broken(site, "a", text)
        check(f"{why}: it stays", agent.until("stays")[-1:], [said])
        site.come("b", 1)
        agent.until("create b")
        agent.until("done")
        check(f"{why}: the others go on", (site.has("a", "b", "s"), agent.end()[0]), (["1-2", "3", "0,4-7"], 1))
        site.come("c", "1")
        agent = Open(site)
        lines = agent.until("done")
        check(f"{why}: at a start", (of(lines, "stays", "unseen", "absent"), site.has("a", "b")), ([said], ["1-2", "3"]))
        check(f"{why}: one that names its CPU waits", [line.split(":")[0] for line in of(lines, "waits")], ["waits c"])
        site.configure("a", 2)
        agent.until("update a")
        agent.until("done")
        found = [len(read_list(has, "a")) for has in site.has("a", "b", "c")]
        check(f"{why}: once it can be read", (found, site.has("c"), agent.end()[0]), ([2, 1, 1], ["1"], 0))


@case
def told_again_by_lines() -> None:
    """What was told by standard input is as it was until it is told again, or has no process any more."""
    site = Site()
    for name, count in (("a", 2), ("b", 1), ("c", 1)):
        site.come(name, count)
        site.put(f"numarun/{name}", "cgroup.events", "populated 1")
    tell = {name: f"created {name} {site.at('g', name)}\n" for name in "abc"}
    check("at first", (site.run("--listen", text="".join(tell.values()))[0], site.has("a", "b", "c")), (0, ["1-2", "3", "4"]))
    site.put("numarun/c", "cgroup.events", "populated 0")
    agent = Open(site, "--listen", stdin=subprocess.PIPE)
    site.come("d", "3-7")
    lines = agent.until("done")
    check("nobody was told of", sorted(line.split(":")[0] for line in of(lines, "stays", "ended", "unseen")), ["stays a", "stays b"])
    site.log()
    agent.tell(f"{tell['a']}{tell['b']}created d {site.at('g/d')}\n")
    lines = agent.until("waits d") + agent.until("done")
    check("told again", (of(lines, "ended", "adopt"), site.has("a", "b"), [line for line in site.log() if line[0] in "ab"]), ([], ["1-2", "3"], []))
    agent.end_input()
    check("d waits", agent.process.wait(), 1)


@case
def unreadable_while_others_are_reserved() -> None:
    """The same where all reserved CPUs go and come back, so that the agent takes up all anew: who has CPUs of its own keeps them."""
    site = Site({"nodes": ["0-7"], "distances": [[10]], "reserved": "7"})
    for name, count in (("first", 1), ("a", 2), ("s", 0)):
        site.come(name, count)
        site.put(f"numarun/{name}", "cgroup.events", "populated 1")
        site.run()
    agent = Open(site)
    agent.until("done")
    for name in ("a", "s"):
        broken(site, name, "{")
        agent.until(f"stays {name}")
    check("before", site.has("first", "a", "s"), ["0", "1-2", "3-7"])
    site.online("0-6")
    agent.until("done")
    check("another one is reserved", site.has("a", "s"), ["1-2", site.has("s")[0]])
    site.online("0-7")
    agent.until("done")
    check("it is back", (site.has("a"), "7" in site.has("s")[0]), (["1-2"], True))
    site.put("numarun/a", "cgroup.events", "populated 0")
    agent.until("ended a")
    agent.until("done")
    check("one ends", ({1, 2} <= read_list(site.has("s")[0], "s"), agent.end()[0]), (True, 1))


@case
def unreadable_on_the_pool() -> None:
    """The same of one that has none of its own: it is on the pool of each plan. Its nodes of memory are left as they are."""
    site = Site({"nodes": ["0-3", "4-7"], "distances": [[10, 21], [21, 10]], "reserved": "0"})
    site.online("0-7")
    site.come("s", linux={"resources": {"cpu": {"mems": "1"}}})
    site.put("numarun/s", "cgroup.events", "populated 1")
    site.run()
    broken(site, "s", "{")
    site.come("b", "3")
    check("on the pool", (site.run()[0], site.has("s", "b"), site.file("numarun/s", "cpuset.mems")), (1, ["0-2,4-7", "3"], "1"))


def config(cpu: object = None, **more: object) -> str:
    return json.dumps({"ociVersion": "1.0.2", "root": {"path": "r"}, "linux": {"resources": {"cpu": cpu or {}}}, **more})


CANNOT_BE = [("E58 Missing root", json.dumps({"ociVersion": "1.0.2", "linux": {"resources": {"cpu": {"quota": QUOTA}}}})),
             ("E59 BadVersion", config({"quota": QUOTA}, ociVersion="2.0.0")), ("E60 BadField linux.resources.cpu.quota", config({"quota": "x"})),
             ("E60 BadField linux.resources.cpu", config("x")), ("E62 BadCpus E10 0", config({"cpus": "x"})), ("E63 NoSuchCpu 90", config({"cpus": "90"})),
             ("E64 BadMems E10 0", config({"quota": QUOTA, "mems": "x"})), ("E65 NoSuchNode 7", config({"quota": QUOTA, "mems": "7"})),
             ("E66 QuotaTooLarge", config({"quota": 5000 * QUOTA}))]


@case
def refused_for_good() -> None:
    """A config that can't be had leaves a container as it is, also at a start, and nobody is given its CPUs."""
    for fault, text in CANNOT_BE:
        site = Site()
        site.come("a", 2)
        site.come("s")
        agent = Open(site)
        agent.until("done")
        broken(site, "a", text)
        said = f"refused {fault}: a {site.at('g/a')}: it stays as it was"
        check(f"{fault}: while it runs", (agent.until("refused")[-1:], site.has("a", "s"), agent.end()[0]), ([said], ["1-2", "0,3-7"], 1))
        site.come("c", 5)
        agent = Open(site)
        lines = agent.until("done")
        check(f"{fault}: at a start", (of(lines, "refused", "waits", "fewer"), site.has("a", "c", "s")), ([said], ["1-2", "3-7", "0"]))
        site.configure("a", 1)
        agent.until("update a")
        agent.until("done")
        check(f"{fault}: once it can be had", (site.has("a") in (["1"], ["2"]), site.has("c"), agent.end()[0]), (True, ["3-7"], 0))


@case
def refused_at_first() -> None:
    """One that comes with such a config runs on the pool, and not on the CPUs of others. (Who asks for more than there are keeps what it has.)"""
    for fault, text in CANNOT_BE:
        for has in ("", "1-3")[:1 + (fault != "E66 QuotaTooLarge")]:
            site = Site()
            site.come("new", has=has)
            broken(site, "new", text)
            site.come("a", 2)
            status, lines = site.run(rounds="2")
            check(f"{fault}, {has!r}", (status, of(lines, "refused"), site.has("a", "new")[0] in ("1-2", "4-5"), read_list(site.has("new")[0], "new")),
                  (1, [f"refused {fault}: new {site.at('g/new')}: it runs on the pool"], True, set(range(8)) - read_list(site.has("a")[0], "a")))
