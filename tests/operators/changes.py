"""Tries the agent where something changes under it: limits, CPUs that go, configs that can't be seen for a while, what others write
into a group, and a machine that is another one than the machine file's."""

from __future__ import annotations

import math
import os
import signal
import time
from typing import List

from sites import QUOTA, Open, Site, of
from numarun_host.commands import Level, Say
from numarun_host.cpus import read_list
from numarun_host.ledger import Ledger, Settings, Topic
from numarun_host.machine import Machine
from numarun_host.sightings import say_absent
from trial import case, check, text_of, written

LEAST, STAY = "numarun.least", "numarun.stay"


def writes(site: Site, name: str) -> List[str]:
    """What was written for one since the last time."""
    return [line.split(" ")[1] for line in site.log() if line.startswith(f"{name} ")]


def count(site: Site, name: str) -> int:
    return len(read_list(site.has(name)[0], name))


@case
def gone_cpus() -> None:
    """One whose only CPU goes runs on the pool until there is room; a newcomer has its CPU at once, and nobody else is touched."""
    site = Site()
    site.come("x", "5")
    site.come("y", 2)
    agent = Open(site)
    agent.until("done")
    site.log()
    site.online("0-4,6-7")
    lines = agent.until("done")
    check("it waits", of(lines, "waits", "short"), ["waits x: short demand 1 allowed -: it runs on the pool until there is room"])
    check("on the pool", (site.has("x", "y"), writes(site, "y")), (["0,3-4,6-7", "1-2"], []))
    site.come("n", 1)
    agent.until("create n")
    agent.until("done")
    check("a newcomer", site.has("n", "y"), ["3", "1-2"])
    site.online("0-7")
    lines = agent.until("done")
    check("and it is told that it ended", (f"update x {site.at('g/x')}" in lines, site.has("x", "y", "n"), agent.end()[0]), (True, ["5", "1-2", "3"], 0))
    site.online("0-4,6-7")
    status, lines = site.run(rounds="2")
    check("at a start as well", (status, len(of(lines, "waits x")), site.has("x", "y", "n")), (1, 1, ["0,4,6-7", "1-2", "3"]))


@case
def detour() -> None:
    """Who keeps none of his CPUs gets his new ones by one write where they are free, and does not run on the reserved one meanwhile."""
    site = Site()
    site.come("a", 1)
    agent = Open(site)
    agent.until("done")
    site.log()
    site.online("0,2-7")
    agent.until("done")
    check("at once", (site.log(), agent.end()[0]), (["a 2"], 0))
    site = Site()
    for name, cpus in (("a", 1), ("b", 2), ("c", 1)):
        site.come(name, cpus)
    agent = Open(site)
    agent.until("done")
    check("before", site.has("a", "b", "c"), ["1", "2-3", "4"])
    site.log()
    site.online("0,2,5-7")
    agent.until("done")
    check("one write for each", (site.log(), agent.end()[0]), (["a 5", "b 2,6", "c 7"], 0))


@case
def among_several() -> None:
    """Of those who are short the youngest waits, and the others keep what they have."""
    site = Site()
    for name in ("a", "b", "c"):
        site.come(name, 1, linux={"resources": {"cpu": {"cpus": "1-3", "quota": QUOTA, "period": QUOTA}}})
        site.run()
    check("three on three", site.has("a", "b", "c"), ["1", "2", "3"])
    agent = Open(site)
    agent.until("done")
    site.log()
    site.online("0-2,4-7")
    lines = agent.until("done")
    check("the youngest waits", (len(of(lines, "waits c")), site.has("a", "b"), writes(site, "a"), agent.end()[0]), (1, ["1", "2"], [], 0))


@case
def limits() -> None:
    """A limit that changes is told as it is: no end, no way by the reserved CPU, and the CPUs that are kept."""
    site = Site()
    site.come("w", 3)
    site.come("y", 2)
    agent = Open(site)
    agent.until("done")
    site.log()
    site.configure("w", 2)
    lines = agent.until("done")
    check("lowered", (of(lines, "ended", "create", "adopt"), site.has("w", "y"), writes(site, "w")), ([], ["1-2", "4-5"], ["1-2"]))
    site.configure("w", 3)
    lines = agent.until("done")
    check("raised", (of(lines, "ended", "create", "adopt"), set(site.has("w")) <= {"1-3", "1-2,6", "1-2,7"}, "0" in writes(site, "w")), ([], True, False))
    has = site.has("w")
    site.configure("w", 7)
    lines = agent.until("keeps")
    check("raised without room", (lines[-1], site.has("w"), writes(site, "w")),
          ("keeps w: short demand 9 allowed 1-7: it stays at 3 CPUs until there is room", has, []))
    site.come("z", 1)
    agent.until("create z")
    agent.until("done")
    check("the others go on", (len(site.has("z")[0]), site.has("w")), (1, has))
    site.go("y")
    site.go("z")
    agent.until("update w")
    agent.until("done")
    has, (status, rest) = site.has("w"), agent.end()
    check("room", (has, [status, *agent.lines[-20:], rest] if status else []), (["1-7"], []))


@case
def kept_place() -> None:
    """One whose limit changed is still older than those that came behind it; a restart finds a lowered one with more than it asks for."""
    site = Site()
    site.come("a", 3)
    site.run()
    site.come("b", 3)
    site.run()
    site.configure("a", 2)
    site.log()
    status, lines = site.run()
    check("changed while no agent ran", (status, of(lines, "waits", "create"), site.has("a", "b"), "0" in writes(site, "a")), (0, [], ["1-2", "4-6"], False))
    agent = Open(site)
    agent.until("done")
    site.configure("a", 3)
    agent.until("done")
    site.online("0-5")
    lines = agent.until("done")
    check("the younger one waits", (of(lines, "waits")[0].split(":")[0], count(site, "a"), agent.end()[0]), ("waits b", 3, 0))


@case
def other_configs() -> None:
    """A config by which one is pinned, is shared, or is refused."""
    site = Site()
    site.come("a", 2)
    site.come("s")
    agent = Open(site)
    agent.until("done")
    site.configure("a", 0)
    agent.until("done")
    check("shared by now", site.has("a", "s"), ["0-7", "0-7"])
    site.configure("s", "4-5")
    agent.until("update s")
    agent.until("done")
    check("pinned by now", site.has("a", "s"), ["0-3,6-7", "4-5"])
    site.log()
    site.configure("s", "90")
    check("refused", agent.until("refused"), [f"refused E63 NoSuchCpu 90: s {site.at('g/s')}: it stays as it was"])
    time.sleep(0.5)
    check("it stays as it was", (site.has("a", "s"), site.log(), agent.end()[0]), (["0-3,6-7", "4-5"], [], 1))


@case
def updated_groups() -> None:
    """What crun update and podman update leave: cpu.max and cpuset.mems of the group, while the config says what it did."""
    site = Site({"nodes": ["0-3", "4-7"], "distances": [[10, 21], [21, 10]], "reserved": "0"})
    site.online("0-7")
    site.come("db", linux={"resources": {"cpu": {"quota": QUOTA, "period": QUOTA, "mems": "0"}}})
    site.come("web")
    site.put("numarun/db", "cpu.max", "100000 100000")
    site.put("numarun/web", "cpu.max", "max 100000")
    agent = Open(site)
    agent.until("done")
    check("as the configs say", (site.has("db", "web"), site.file("numarun/db", "cpuset.mems")), (["1", "0,2-7"], "0"))
    site.put("numarun/db", "cpu.max", "200000 100000")
    agent.until("update db")
    agent.until("done")
    check("another quota", site.has("db"), ["1-2"])
    site.put("numarun/db", "cpuset.mems", "1")
    agent.until("update db")
    agent.until("done")
    check("other nodes", (site.has("db"), site.file("numarun/db", "cpuset.mems")), (["4-5"], "1"))
    site.put("numarun/web", "cpu.max", "50000 100000")
    agent.until("update web")
    agent.until("done")
    check("a quota for one that had none", count(site, "web"), 1)
    site.put("numarun/db", "cpuset.mems", "7")
    check("a node that is not there", agent.until("drift"), ["drift db has nodes 7 in place of 1: that is written again"])
    check("what is left", agent.end()[0], 0)
    status, lines = site.run(rounds="2")
    check("a restart has the same", (status, of(lines, "hold", "drift", "update"), site.has("db"), site.file("numarun/db", "cpuset.mems")), (0, [], ["4-5"], "1"))


@case
def unseen() -> None:
    """A config, or the whole folder, that can't be seen for a while ends nobody who has a process; who has none has ended."""
    site = Site()
    for name, count in (("a", 2), ("b", 1), ("s", 0)):
        site.come(name, count)
        site.put(f"numarun/{name}", "cgroup.events", f"populated {int(name != 'b')}\nfrozen 0")
    agent = Open(site)
    agent.until("done")
    site.log()
    os.rename(site.at("g"), site.at("away"))
    lines = agent.until("done")
    check("the folder is away", (of(lines, "ended"), sorted(line.split(":")[0] for line in of(lines, "stays"))), (["ended b"], ["stays a", "stays s"]))
    check("those who live keep theirs", (site.has("a"), writes(site, "a")), (["1-2"], []))
    os.rename(site.at("away"), site.at("g"))
    agent.until("create b")
    agent.until("done")
    check("it is back", (site.has("a", "b"), len(writes(site, "a"))), (["1-2", "3"], 0))
    os.rename(site.at("g/a/config.json"), site.at("config"))
    check("a config", agent.until("stays"), ["stays a: it is told of no more; there is a process in its group"])
    site.put("numarun/a", "cgroup.events", "populated 0")
    check("its process ended", agent.until("ended"), ["ended a"])
    agent.end()


@case
def unseen_at_the_start() -> None:
    """The same where no agent ran meanwhile: nobody gets what one has who can't be seen, and the others go on."""
    site = Site()
    site.come("a", 2)
    site.put("numarun/a", "cgroup.events", "populated 1")
    site.run()
    os.rename(site.at("g/a"), site.at("away"))
    site.come("b", "1-2")
    agent = Open(site)
    lines = agent.until("done")
    check("a is not seen", of(lines, "stays", "waits", "unseen"), ["stays a: it is told of no more; there is a process in its group",
                                                                   "waits b: short demand 4 allowed 1-2: it runs on the pool until there is room"])
    check("it keeps its own", site.has("a", "b"), ["1-2", "0,3-7"])
    site.come("c", 1)
    agent.until("create c")
    agent.until("done")
    check("who comes gets others", (site.has("a", "c"), agent.end()[0]), (["1-2", "3"], 1))
    agent = Open(site)
    agent.until("done")
    os.rename(site.at("away"), site.at("g/a"))
    agent.until("update b")
    agent.until("done")
    check("b has what it names, and a others", (site.has("b"), count(site, "a"), site.has("c"), agent.end()), (["1-2"], 2, ["3"], (0, [])))


HIDES = """
hides = line.startswith(b"adopt a ") and b"/told/" in line and not os.path.exists(f"{away}.once")
if hides:
    open(f"{away}.once", "w").close()
    os.rename(folder, away)
"""
SHOWS = """
if hides:
    time.sleep(0.5)
    os.rename(away, folder)
"""


@case
def away_for_a_moment() -> None:
    """The copy of a config is away just when numarun reads it: it is told of again, and nobody gets what it has meanwhile."""
    site = Site()
    site.come("a", 2)
    site.run()
    site.come("b", "1-2")
    words = site.stand_in(HIDES, SHOWS, folder=site.at("work/bundles/told/a"), away=site.at("away"))
    status, lines = site.run(*words, rounds="8")
    check("said and told again", (status, of(lines, "absent", "adopt")), (0, [f"absent a: {site.at('g/a')}: can't be read", f"adopt a {site.at('g/a')} 1-2"]))
    check("once it is told", site.has("a", "b"), ["3-4", "1-2"])
    log = site.log()
    check("it had left first", [line for line in log[:log.index("b 1-2")] if line.startswith("a ")][-1:], ["a 3-4"])


@case
def late_write() -> None:
    """A container came back under its id while a plan was handed over, so that its new group was written for the one before, and its config
    is not there yet: nobody shares these CPUs with it."""
    site = Site()
    site.come("a", 2)
    agent = Open(site)
    agent.until("done")
    agent.process.send_signal(signal.SIGSTOP)
    site.make_group("new", "1-2\n")  # beside the old one, which has another inode so
    site.go("a")
    os.rename(site.at("root/numarun/new"), site.at("root/numarun/a"))
    site.come("b", "1-2")
    agent.process.send_signal(signal.SIGCONT)
    lines = agent.until("done")
    check("the new group", (site.has("a", "b"), of(lines, "late")), (["0", "1-2"], ["late a: 1-2 of the one before: on the reserved CPUs until it is told"]))
    site.come("a", 1, group=False)
    agent.until("adopt a")
    agent.until("done")
    check("once it is told", (count(site, "a"), site.has("b"), agent.end()[0]), (1, ["1-2"], 0))


@case
def no_work() -> None:
    """A group that can't be written asks for no plan again and again, and is tried at growing pauses."""
    site = Site()
    site.come("db", 2)
    agent = Open(site)
    agent.until("done")
    site.make_group("web")
    os.remove(site.at("root/numarun/web/cpuset.cpus"))
    os.mkdir(site.at("root/numarun/web/cpuset.cpus"))  # no write can replace it
    site.come("web", group=False)
    lines = agent.until("failed")
    time.sleep(3)
    status, rest = agent.end()
    check("one line, and no plan", (status, len(of(lines, "failed")), of(rest, "plan", "done", "failed", "create")), (1, 1, []))
    began = time.monotonic()
    agent = Open(site, "--textfile", site.at("figures"))
    agent.until("failed")
    end = time.monotonic() + 30
    time.sleep(4)
    while int(figure(site, "numarun_refused_writes_total")) < 2 and time.monotonic() < end:
        time.sleep(0.1)
    agent.end()
    tries = int(figure(site, "numarun_refused_writes_total"))
    # Each pause is twice the one before, from 0.1 s on. Until the first plan there are two ways, which a busy machine has at two looks.
    most = 5 + int(math.log2((time.monotonic() - began) / 0.1 + 1))
    check(f"{tries} tries in some seconds, of at most {most}, and plans", (2 <= tries <= most, figure(site, "numarun_plans_total")), (True, "1"))


def figure(site: Site, name: str) -> str:
    """What the agent's file of figures has of it by now; 0 where that is not written yet."""
    try:
        with open(site.at("figures")) as file:
            lines = dict(line.split(" ") for line in file.read().splitlines() if not line.startswith("#"))
    except FileNotFoundError:
        return "0"
    return lines.get(name, "0")


@case
def drift() -> None:
    """What others write is written over again, once a look, and nobody else notices; at a container's own restart there is none."""
    site = Site({"nodes": ["0-3", "4-7"], "distances": [[10, 21], [21, 10]], "reserved": "0"})
    site.online("0-7")
    site.come("db", 2, linux={"resources": {"cpu": {"quota": 2 * QUOTA, "period": QUOTA, "mems": "0"}}})
    site.come("web")
    site.make_group(None, group="system.slice")
    agent = Open(site, "--rest", "system.slice")
    agent.until("done")
    site.log()
    site.write("db", "0-7")
    check("a line", agent.until("drift"), ["drift db has 0-7 in place of 1-2: that is written again"])
    site.come("z", 1)
    agent.until("done")
    check("it is mended", (site.has("db"), writes(site, "db")), (["1-2"], ["1-2"]))
    site.put("numarun/db", "cpuset.mems", "")
    check("nodes", agent.until("drift"), ["drift db has nodes - in place of 0: that is written again"])
    site.put("system.slice", "cpuset.mems", "1")
    check("those of the system", agent.until("drift"), ["drift system.slice has nodes 1 in place of 0-1: that is written again"])
    site.go("z")
    agent.until("done")
    check("all mended", (site.file("numarun/db", "cpuset.mems"), site.file("system.slice", "cpuset.mems")), ("0", "0-1"))
    for _ in range(5):
        site.go("db")
        site.come("db", 2)
        agent.until("create db")
        agent.until("done")
    status, rest = agent.end()
    check("no drift at a restart", (status, of(rest, "drift")), (0, []))


@case
def machines() -> None:
    """A machine that is not just as in its file: a CPU more, a reserved one that is off, a partition beside. The agent goes on, and starts."""
    site = Site({"nodes": ["0-7"], "distances": [[10]], "reserved": "0-1"})
    site.come("a", 2)
    site.put("", "cpuset.cpus.effective", "0-7")
    agent = Open(site)
    agent.until("done")
    site.online("0-8")
    site.put("", "cpuset.cpus.effective", "0-8")
    site.come("b", 1)
    lines = agent.until("done")
    check("a CPU more, and it goes on", site.has("a", "b"), ["2-3", "4"])
    agent.end()
    status, lines = site.run()
    check("and starts", (status, lines[0], site.has("a", "b")), (0, "note CPUs 8 are left alone: the machine file has none of them", ["2-3", "4"]))
    site.online("0,2-7")
    site.put("", "cpuset.cpus.effective", "0,2-7")
    status, lines = site.run()
    check("a reserved one is off", (status, of(lines, "note", "refused"), site.has("a", "b")), (0, ["note of the reserved CPUs 1 are not there"], ["2-3", "4"]))
    agent = Open(site)
    agent.until("done")
    site.put("", "cpuset.cpus.effective", "0,2-5")
    check("a partition beside", agent.until("done")[:3],
          ["offline 6", "offline 7", f"note CPUs 6-7 are left alone: they are online, and not in effect in {site.at('root')}"])
    site.come("c", 1)
    agent.until("done")
    check("a newcomer", (site.has("a", "b", "c"), agent.end()[0]), (["2-3", "4", "5"], 0))
    status, lines = site.run()
    check("and it starts", (status, site.has("a", "b", "c")), (0, ["2-3", "4", "5"]))
    site.put("", "cpuset.mems.effective", "0-3")
    check("nodes that the file has not", site.run()[0], 0)


@case
def no_reserved() -> None:
    """All reserved CPUs are off: another core is reserved, and those who run keep what they have."""
    site = Site({"nodes": ["0-7"], "distances": [[10]], "reserved": "7"})
    site.come("a", "2-3")
    site.come("s")
    agent = Open(site)
    agent.until("done")
    site.log()
    site.online("0-6")
    lines = agent.until("done")
    check("another one", (of(lines, "note")[-1:], site.has("a", "s"), writes(site, "a")[-1:]),
          (["note of the reserved CPUs 7 are not there, and 0 are reserved in place of them"], ["2-3", "0-1,4-6"], ["2-3"]))
    agent.end()
    check("it starts", (site.run()[0], site.has("a", "s")), (0, ["2-3", "0-1,4-6"]))
    agent = Open(site)
    agent.until("done")
    site.online("0-7")
    agent.until("done")
    check("it is back", (site.has("a", "s"), agent.end()[0]), (["2-3", "0-1,4-7"], 0))


@case
def one_group() -> None:
    """Two ids whose configs name one group: the second one is not told."""
    site = Site()
    site.make_group(None, group="pod")
    for name in ("db", "two"):
        site.come(name, 1, group=False, linux={"cgroupsPath": "/pod"})
    status, lines = site.run(rounds="2")
    check("the second one", (status, of(lines, "refused", "drift")), (1, [f"refused: its group is that of db: two {site.at('g/two')}"]))
    check("the first one", site.file("pod"), "1")


@case
def least_room() -> None:
    """One that waits and takes fewer gets fewer where these fit, and all of them later."""
    site = Site()
    site.come("a", 3)
    site.come("b", 2)
    site.run()
    site.come("full", 2)
    site.come("flex", 4, annotations={LEAST: "2"})
    agent = Open(site)
    agent.until("waits flex")
    agent.until("done")
    site.go("b")
    agent.until("fewer")
    agent.until("done")
    check("fewer", count(site, "flex"), 2)
    site.go("a")
    agent.until("update flex")
    agent.until("done")
    check("and all", (count(site, "flex"), agent.end()[0]), (4, 0))


@case
def not_yet() -> None:
    """What a runtime is in the midst of making is called absent at the second look, and not at the first; or else at the end."""
    site = Site()
    ledger = Ledger(Settings(Machine(site.at("machine.json"))))
    check("at the first look", (list(say_absent(ledger, "a", "no such group")), (Topic.CONTAINER, "a") in ledger.problems), ([], True))
    check("at the second", list(say_absent(ledger, "a", "no such group")), [Say("absent a: no such group", Level.WARNING)])
    site.come("ghost", 1, group=False)
    status, said = site.run()
    check("at the end", (status, of(said, "absent")), (1, [f"absent ghost: {site.at('root/numarun/ghost')}: no such group"]))


@case
def bounded_certificates() -> None:
    """The oldest certificates go where there are more than are kept."""
    site = Site()
    os.makedirs(site.at("kept"))
    for k in range(5):
        open(site.at("kept", f"2020-01-0{k + 1}T00-00-00.000Z.certificate"), "w").close()
    open(site.at("kept/mine"), "w").close()
    site.come("a", 1)
    site.run("--certificates", site.at("kept"), "--keep", "3")
    kept = sorted(os.listdir(site.at("kept")))
    check("three, and what is no certificate", (len(kept), kept[:2], kept[-1]), (4, ["2020-01-04T00-00-00.000Z.certificate", "2020-01-05T00-00-00.000Z.certificate"], "mine"))
    os.truncate(site.at("kept/2020-01-05T00-00-00.000Z.certificate"), 256 << 20)
    site.come("b", 1)
    site.run("--certificates", site.at("kept"))
    kept = [name for name in os.listdir(site.at("kept")) if name.startswith("2020")]
    check("and 256 MiB", (kept, len(os.listdir(site.at("kept")))), ([], 3))


PARTS_OF_DISTANCE = [[10, 255, 255, 255], [255, 10, 20, 20], [255, 20, 10, 255], [255, 20, 255, 10]]


def partition_site() -> Site:
    """A machine on which c can be on 7 or 2 alone, and a on 2 or 3, with a group that is to be a partition; CPU 0 is the system's."""
    site = Site({"nodes": ["1,4-6", "2", "3", "7"], "distances": PARTS_OF_DISTANCE, "reserved": "1"})
    site.online("0-7")
    os.makedirs(site.at("root/pinned"))
    for group, cpus in (("", "0-7"), ("pinned", "1-7")):
        for file, text in (("cgroup.controllers", "cpuset"), ("cgroup.subtree_control", "cpuset"), ("cpuset.cpus.effective", cpus), ("cpuset.mems.effective", "0-3")):
            written(site.at("root", group, file), f"{text}\n")
    for file, text in (("cpuset.cpus", "1-7"), ("cpuset.cpus.partition", "member")):
        written(site.at("root/pinned", file), f"{text}\n")
    for name, count, node in (("a", 1, "1"), ("c", 1, "3"), ("d", 2, "0")):
        cpu = {"quota": count * QUOTA, "period": QUOTA, "mems": node}
        site.come(name, linux={"resources": {"cpu": cpu}, "cgroupsPath": f"/pinned/numarun/{name}"})
    return site


def in_partition(site: Site, *names: str) -> List[str]:
    return [site.file(f"pinned/numarun/{name}") for name in names]


@case
def smaller_file() -> None:
    """A machine file that lacks CPUs by now which containers of the partition have. Each leaves them by one write for CPUs as many, also one that waits for
    another one's, and then the partition gives them up; with the file before it has them again at once."""
    site = partition_site()
    whole, words = text_of(site.at("machine.json")), ("--partition", "pinned")
    site.run(*words, rounds="2")
    check("at first", (in_partition(site, "a", "c", "d"), site.file("pinned", "cpuset.cpus.partition")), (["2", "7", "4-5"], "root"))
    site.log()
    site.put_whole(site.at("machine.json"), whole.replace("1,4-6", "1,4,6").replace('"7"', '""'))
    status, lines = site.run(*words, rounds="2")
    taken_up = ["a 2", "c 7", "d 4-5"]  # an `adopt` writes what the container has
    check("what is written", (status, sorted(site.log())), (0, sorted([*taken_up, "a 3", "c 2", "d 4,6"])))
    shrunk = f"partition {site.at('root/pinned')}: 1-4,6 in place of 1-7"
    check("in this order", [line for line in lines if line in ("done", shrunk)], ["done", shrunk])
    check("the partition", site.file("pinned"), "1-4,6")
    check("nothing else at the next agent", (site.run(*words, rounds="2")[0], sorted(site.log()), site.file("pinned")), (0, ["a 3", "c 2", "d 4,6"], "1-4,6"))
    site.put_whole(site.at("machine.json"), whole)
    check("the file before", (site.run(*words, rounds="2")[0], site.file("pinned"), in_partition(site, "a", "c")), (0, "1-7", ["2", "7"]))
