"""Tries numarun-agent over the program in plain folders: what it tells, what the groups request then, and how it goes on where a
write, a group, a config or a line of input is not as it ought to be."""

from __future__ import annotations

import json
import os
import re
import shutil
import signal
import subprocess
from typing import Mapping, Optional, Sequence, Tuple

from sites import IN_FOLDERS, QUOTA, Open, Site, untimed
from numarun_host import cgroups, states
from numarun_host.cpus import read_list
from numarun_host.program import Run
from numarun_host.script import Refused
from trial import EXAMPLES, bad_files, bad_output, case, check, long_case, piped, refuses, scratch, told, words_and_help


MACHINE = os.path.join(EXAMPLES, "machines", "two-socket.json")
DATABASE, PACKETS, WEB, CONTROL = (f"examples/bundles/{name}" for name in ("database", "packet-processing", "web", "real-time"))
PLAIN = (MACHINE, "--program", IN_FOLDERS)


@case
def plain() -> None:
    """Without a tree: the plans alone."""
    events = f"created database {DATABASE}\ncreated packets {PACKETS}\n"
    status, out, err = told("numarun-agent", *PLAIN, text=events)
    expected = [f"create database {DATABASE}", f"create packets {PACKETS}", "plan total 182", "hold database 1-3,6-8,17-19,22-24", "hold packets 4-5,20-21",
                "pool 0,9-16,25-31", "done"]
    check("two containers at once", (status, untimed(out), err), (0, expected, ""))
    for more, left in [("", 0), ("offline 5\n", 1), ("offline 5\nonline 5\n", 0), ("created x no\n", 1), ("ended nobody\n", 1),
                           ("offline 0\nrebalance\n", 1), ("ended packets\n", 0), ("\n", 0), ("foo\n", 1), ("created x\n", 1), ("\xff\n", 1),
                           (f"created ../x {WEB}\n", 1), ("x" * 300000 + "\nrebalance\n", 1)]:
        status, out, err = told("numarun-agent", *PLAIN, text=events + more)
        check(f"after {more[:40]!r}", (status, "plan" in out or "short demand 4" in out, err), (left, True, ""))
    status, out, _ = told("numarun-agent", *PLAIN, text=f"foo\ncreated x\nended x\ncreated .. {WEB}\n" + events + "offline 0\nrebalance\n")
    expected = ["refused: line 1: 'foo' is no event (see --help)", "refused: line 2: 'created x' is no event (see --help)",
                "refused: line 3: unknown x", "refused E51 Reserved: offline 0", f"refused E91 BadId: .. {WEB}"]
    lines = untimed(out)
    check("what is refused", [line for line in lines if line.startswith("refused")], expected)
    check("and what is behind it", lines[-2:], ["pool 0,9-16,25-31", "done"])


@case
def restart() -> None:
    """A new run adopts what the groups request, and writes nothing else into them."""
    site = Site()
    for name, count in (("a", 2), ("b", 3), ("s", 0)):
        site.come(name, count)
    status, lines = site.run()
    check("a first run", (status, site.has("a", "b", "s")), (0, ["1-2", "3-5", "0,6-7"]))
    check("one write each", sorted(site.log()), ["a 1-2", "b 3-5", "s 0,6-7"])
    site.go("a")
    site.come("c", 1)
    status, lines = site.run()
    check("a second one", (status, site.has("b", "c", "s")), (0, ["3-5", "1", "0,2,6-7"]))
    check("it adopts", lines[:3], [f"adopt b {site.at('g/b')} 3-5", f"adopt s {site.at('g/s')} 0,6-7", f"create c {site.at('g/c')} 1"])
    writes = site.log()
    check("what runs is not squeezed", [line for line in writes if line in ("b 0", "s 0")], [])
    status, lines = site.run()
    found = (status, [line for line in lines if line.startswith("hold")], sorted(set(site.log())))
    check("nothing new", found, (0, [], ["b 3-5", "c 1", "s 0,2,6-7"]))
    check("the links are the agent's own", sorted(os.listdir(site.at("work/tree/numarun"))), ["b", "c", "s"])


@case
def under_its_id() -> None:
    """A container that came back under its id, one whose group is not there, and one with a config in parts."""
    site = Site()
    site.come("a", 2)
    site.come("ghost", 1, group=False)
    agent = Open(site)
    check("the others go on", agent.until("absent"), [f"create a {site.at('g/a')} 1-2", "plan total 20", "hold a 1-2", "pool 0,3-7", "done",
                                                      f"absent ghost: {site.at('root/numarun/ghost')}: no such group"])
    site.make_group("ghost")
    agent.until("done")
    check("its group came", site.has("a", "ghost"), ["1-2", "3"])
    site.go("a")
    site.come("a", 1)
    check("back under its id", "ended a" in agent.until("create a"), True)
    agent.until("done")
    check("and pinned again", (site.has("a", "ghost")[1], len(read_list(site.has("a")[0], "a"))), ("3", 1))
    shutil.rmtree(site.at("root/numarun/a"))
    agent.until("done")
    site.make_group("half")
    os.mkdir(site.at("g/half"))
    text = json.dumps({"ociVersion": "1.0.2", "root": {"path": "r"}, "linux": {"resources": {"cpu": {"cpus": "6-7"}}}})
    file = open(site.at("g/half/config.json"), "w")
    file.write(text[:50])
    file.flush()
    check("a config in part", agent.until("absent half")[-1], f"absent half: {site.at('g/half/config.json')}: not JSON")
    file.write(text[50:])
    file.close()
    agent.until("done")
    check("and whole", site.has("half", "ghost"), ["6-7", "3"])
    check("a bundle whose group went is left undone", agent.end()[0], 1)


@case
def refused_writes() -> None:
    """A tree that turns read-only and back, for an agent that runs and for one that starts."""
    site = Site()
    site.come("a", 2)
    agent = Open(site)
    agent.until("done")
    open(site.at("work/tree/read-only"), "w").close()
    site.come("b", 1)
    check("read-only", agent.until("failed"), ["failed b/cpuset.cpus: 0: Read-only file system (os error 30)"])
    site.go("a")
    lines = agent.until("ended a")
    os.remove(site.at("work/tree/read-only"))
    lines += agent.until("create b") + agent.until("done")
    check("writable again", (site.has("b"), agent.end()), (["1"], (0, [])))
    check("said once", [line for line in lines if line.startswith("failed")], [])
    site.come("c", 1)
    site.come("s")
    site.run()
    agent = Open(site)
    agent.until("done")
    open(site.at("work/tree/read-only"), "w").close()
    site.online("0-6")
    check("a write of a hand-over", agent.until("failed"),
          ["offline 7", "plan total 20", "pool 0,3-6", "failed s/cpuset.cpus: 0,3-6: Read-only file system (os error 30)"])
    site.online("0-7")
    check("tried again", agent.until("plan"), ["online 7", "plan total 20"])
    site.online("0-5")
    lines = agent.until("failed") + ["and"]
    os.remove(site.at("work/tree/read-only"))
    check("said once", (agent.until("done"), site.has("b", "c", "s"), agent.end()), (["done"], ["1", "2", "0,3-5"], (0, [])))
    open(site.at("work/tree/read-only"), "w").close()
    status, lines = site.run(rounds="3")
    found = (status, *(sum(line.startswith(word) for line in lines) for word in ("failed", "plan")))
    check("a start in a read-only tree", found, (1, 3, 0))
    os.remove(site.at("work/tree/read-only"))
    check("and behind it", (site.run()[0], site.has("b", "c", "s")), (0, ["1", "2", "0,3-5"]))


@case
def admission() -> None:
    """A newcomer without a place runs on the pool, also across a restart, until there is room."""
    site = Site()
    for name, count in (("a", 4), ("b", 2), ("s", 0)):
        site.come(name, count)
    agent = Open(site)
    agent.until("done")
    site.come("big", 3)
    lines = agent.until("plan")
    check("no place", lines[1:], ["waits big: short demand 9 allowed 1-7: it runs on the pool until there is room", "plan total 60"])
    agent.until("done")
    check("it runs on the pool", (site.has("a", "b", "big", "s")), ["1-4", "5-6", "0,7", "0,7"])
    site.come("c", 1)
    agent.until("create c")
    agent.until("done")
    check("nobody waits for it", site.has("c"), ["7"])
    check("told to end while one waits", agent.end()[0], 0)
    site.log()
    agent = Open(site)
    agent.until("waits")
    agent.end()
    check("none is squeezed", {line for line in site.log() if line in ("a 0", "b 0", "c 0")}, set())
    agent = Open(site)
    agent.until("waits")
    site.go("a")
    check("room", agent.until("update")[-2:], ["ended a", f"update big {site.at('g/big')}"])
    agent.until("done")
    check("it is pinned", (site.has("b", "big", "c", "s"), agent.end()[0]), (["5-6", "1-3", "7", "0,4"], 0))


@case
def fewer() -> None:
    """One that takes fewer CPUs where one went, also across a restart, and a newcomer that does."""
    site = Site()
    site.come("a", "5-6", annotations={"numarun.least": "1"})
    site.come("b", 2)
    agent = Open(site)
    agent.until("done")
    site.log()
    site.online("0-4,6-7")
    check("one CPU less", agent.until("done"), ["offline 5", "fewer a: 1 of 2 CPUs, as there are no more", "plan total 30", "hold a 6", "done"])
    site.come("c", 1)
    agent.until("create c")
    agent.until("done")
    check("the others go on", (site.has("a", "b", "c"), agent.end()[0]), (["6", "1-2", "3"], 0))
    site.log()
    check("after a restart", (site.run()[0], site.has("a", "b", "c"), sorted(set(site.log()))), (1, ["6", "1-2", "3"], ["a 6", "b 1-2", "c 3"]))
    site.online("0-7")
    check("it is back", (site.run()[0], site.has("a", "b", "c")), (0, ["5-6", "1-2", "3"]))
    site.come("d", 9, annotations={"numarun.least": "2"})
    check("a newcomer", (site.run()[0], site.has("a", "b", "c", "d")), (1, ["5-6", "1-2", "3", "4,7"]))
    site.come("e", 3, annotations={"numarun.least": "2"})
    site.make_group("s")
    status, lines = site.run()
    check("and one without a place", (status, site.has("a", "b", "c"), sum(line.startswith("waits") for line in lines)), (1, ["5-6", "1-2", "3"], 1))


@case
def who_is_pinned() -> None:
    site = Site()
    site.come("whole", 2)
    site.come("part", 0.5)
    site.come("said", 1.5, annotations={"numarun.pin": "true"})
    site.come("listed", "7")
    site.come("left", 2, annotations={"numarun.pin": "false"})
    for rule, expected in [("all", ["1-2", "3", "4-5", "7", "0,6"]), ("whole", ["1-2", "0,3-6", "0,3-6", "7", "0,3-6"]),
                           ("annotated", ["0,3-7", "0,3-7", "1-2", "0,3-7", "0,3-7"])]:
        for name in ("whole", "part", "said", "listed", "left"):
            open(site.at("root/numarun", name, "cpuset.cpus"), "w").close()
        status, _ = site.run("--pin", rule)
        check(f"--pin {rule}", (status, site.has("whole", "part", "said", "listed", "left")), (0, expected))


@case
def named_cpus() -> None:
    """One with no quota asks for the cores that it names as a whole, but for reserved ones, and not for as many CPUs as it names."""
    site = Site(machine={"nodes": ["0-3,8-11", "4-7,12-15"], "distances": [[10, 21], [21, 10]], "reserved": "0,8",
                         "cores": ["0,8", "1,9", "2,10", "3,11", "4,12", "5,13", "6,14", "7,15"]})
    site.online("0-15")
    site.come("a", "0-2,8-11", has="1-2,9-10")
    status, lines = site.run()
    check("the cores that it names", (status, [line for line in lines if line.startswith(("adopt", "fewer", "home"))], site.has("a")),
          (0, [f"adopt a {site.at('g/a')} 1-2,9-10", "home a 0"], ["1-2,9-10"]))


@case
def refused_sections() -> None:
    """Who asks for CPUs that nobody can have runs on the pool, and is told anew when the config is another one."""
    site = Site()
    site.come("a", 2)
    site.come("none", "90", has="1")
    site.come("mems", linux={"resources": {"cpu": {"mems": "7"}}})
    agent = Open(site)
    lines = agent.until("done")
    check("two that are refused", [line for line in lines if line.startswith(("refused", "adopt"))],
          [f"adopt none {site.at('g/none')} 1", f"refused E63 NoSuchCpu 90: none {site.at('g/none')}: it runs on the pool",
           f"refused E65 NoSuchNode 7: mems {site.at('g/mems')}: it runs on the pool"])
    check("what they have", site.has("a", "none", "mems"), ["1-2", "0,3-7", "0,3-7"])
    site.come("new", "5", group=False)
    os.rename(site.at("g/new/config.json"), site.at("g/none/config.json"))
    agent.until("hold none")
    agent.until("done")
    check("a config of another time", (site.has("a", "none"), agent.end()[0]), (["1-2", "5"], 1))


@case
def pool_hook() -> None:
    site = Site()
    site.come("a", 2)
    hook = site.at("hook")
    with open(hook, "w") as file:
        file.write(f'#!/bin/sh\necho "$@" >> {site.at("pools")}\n')
    os.chmod(hook, 0o755)
    check("a hook", (site.run("--pool", f"{hook} --to", rounds="3")[0], open(site.at("pools")).read()), (0, "--to 0,3-7\n"))
    expected = [f"adopt a {site.at('g/a')} 1-2", "plan total 20", "pool 0,3-7", "done", "failed false 0,3-7: status 1"]
    check("a hook that fails", site.run("--pool", "false"), (1, expected))


@case
def flapping() -> None:
    """Ten CPUs that go and come: who has none of them is not written again."""
    site = Site({"nodes": ["0-15"], "distances": [[10]], "reserved": "0"})
    site.come("a", "1-3")
    site.come("b", "14-15")
    agent = Open(site)
    agent.until("done")
    site.log()
    for cpu in range(4, 14):
        site.online(f"0-{cpu - 1},{cpu + 1}-15")
        agent.until("done")
        site.online("0-15")
        agent.until("done")
    check("ten CPUs that flap", (site.log(), site.has("a", "b"), agent.end()[0]), ([], ["1-3", "14-15"], 0))
    agent = Open(site)
    agent.until("done")
    site.online("0-1,3-15")
    lines = agent.until("done")
    check("a shortage", (lines[:2], site.has("a", "b")), (["offline 2", "waits a: short demand 3 allowed 1,3: it runs on the pool until there is room"],
                                                         ["0-1,3-13", "14-15"]))
    site.online("0-15")
    lines = agent.until("done")
    check("it is back", (f"update a {site.at('g/a')}" in lines, site.has("a", "b"), agent.end()[0]), (True, ["1-3", "14-15"], 0))
    site.online("0-1,3-15")
    status, lines = site.run()
    check("at a start", (status, [line for line in lines if line.startswith(("waits", "short"))], site.has("b")),
          (1, ["waits a: short demand 3 allowed 1,3: it runs on the pool until there is room"], ["14-15"]))
    site.online("0,14-15")
    agent = Open(site)
    agent.until("done")
    site.online("0-15")
    agent.until("update a")
    agent.until("done")
    check("ten CPUs at once", (site.has("a", "b"), agent.end()[0]), (["1-3", "14-15"], 0))


@long_case
def storm(count: int = 400) -> None:
    """400 containers at once: one plan, and one write each. They end at once, too."""
    site = Site({"nodes": ["0-127"], "distances": [[10]], "reserved": "0"})
    for k in range(count):
        site.come(f"c{k:03}", int(k % 5 == 0))
    status, lines = site.run()
    check("a storm", (status, len(site.log()), sum(line.startswith("plan") for line in lines)), (0, count, 1))
    agent = Open(site)
    agent.until("done")
    for k in range(1, count):
        site.go(f"c{k:03}")
    ended = 0
    while ended < count - 1:
        ended += sum(line.startswith("ended") for line in agent.until("done"))
    check("its end", (site.has("c000"), agent.end()[0]), (["1"], 0))


@case
def rest() -> None:
    """Groups of the system itself are held on the pool; one that is not there is none, and comes when it is."""
    site = Site()
    site.come("a", 2)
    site.make_group("x", group="system.slice")
    agent = Open(site, "--rest", "system.slice,/user.slice/,init.scope")
    lines = agent.until("done")
    check("the rest of the machine", sorted(line for line in lines if line.startswith(("create", "adopt", "absent"))),
          [f"adopt system.slice {site.at('root/system.slice')} 0,3-7", f"create a {site.at('g/a')} 1-2"])
    site.make_group("x", group="user.slice")
    agent.until("done")
    has = [open(site.at("root", name, "cpuset.cpus")).read() for name in ("system.slice", "user.slice", "numarun/a")]
    check("it runs on the pool", (has, agent.end()[0]), (["0,3-7\n", "0,3-7\n", "1-2\n"], 0))
    status, _, err = told("numarun-agent", *PLAIN, "--rest", "system.slice")
    check("without a tree", (status, "--rest is of a tree" in err), (2, True))


@case
def recorded() -> None:
    """The figures for node_exporter, and the certificates by their dates, which hold."""
    site = Site({"nodes": ["0-3", "4-7"], "distances": [[10, 21], [21, 10]], "reserved": "0"})
    site.online("0-7")
    site.come("a", linux={"resources": {"cpu": {"quota": 5 * QUOTA, "period": QUOTA, "mems": "1"}}})
    site.come("s")
    more = ("--textfile", site.at("numarun.prom"), "--certificates", site.at("kept"))
    check("a plan", site.run(*more)[0], 0)
    figures = dict(line.split(" ") for line in open(site.at("numarun.prom")).read().splitlines() if not line.startswith("#"))
    del figures["numarun_look_timestamp_seconds"]
    expected = {"plans_total": "1", "moves_total": "5", "steps_total": "0", "waited_seconds_total": "0", "squeezed_seconds_total": "0", "shortages_total": "0", "refused_writes_total": "0", "distance": "61", "distance_beyond_local": "11",
                "containers_pinned": "1", "containers_shared": "1", "containers_waiting": "0", "containers_squeezed": "0", "partition_valid": "1", "loose_processes": "0", "undone": "0"}
    check("its figures", figures, {f"numarun_{name}": figure for name, figure in expected.items()})
    site.come("big", 4)
    check("a newcomer waits", site.run(*more, rounds="2")[0], 1)
    text = open(site.at("numarun.prom")).read()
    check("and is counted", ["\nnumarun_containers_waiting 1\n" in text, "\nnumarun_undone 1\n" in text], [True, True])
    waited = float(text.partition("\nnumarun_waited_seconds_total ")[2].split("\n")[0])
    check("and for how long", 0.05 < waited < 30, True)
    kept = sorted(os.listdir(site.at("kept")))
    texts = [open(site.at("kept", name)).read() for name in kept]
    check("certificates by their dates", [bool(re.fullmatch(r"20[-0-9]{8}T[-0-9]{8}\.[0-9]{3}Z\.certificate", name)) for name in kept], [True] * len(kept))
    whole = [text.startswith("numarun-certificate 2\nrow a 5 ") and text.endswith("\nend\n") for text in texts]
    check("they are whole", (len(kept) >= 2, whole), (True, [True] * len(kept)))
    status, lines = site.run("--textfile", site.at("nowhere", "x"), "--certificates", site.at("kept"))
    check("a folder that is not there", (status, [line for line in lines if "nowhere" in line]),
          (1, [f"failed {site.at('nowhere', 'x')}: No such file or directory"]))
    refuses("numarun-agent", *PLAIN, "--certificates", "/proc/no/where", says="/proc/no/where: No such file")


@case
def one_agent() -> None:
    """The second one is refused; after a kill -9 the next one waits for the run of the one before."""
    site = Site()
    site.come("a", 1)
    agent = Open(site)
    agent.until("done")
    status, out, err = told("numarun-agent", *site.words("--work", site.at("second")))
    check("two agents, one tree", (status, out, err), (1, "", f"numarun-agent: {site.at('root')}: another agent or program has it\n"))
    agent.process.kill()
    agent.process.wait()
    check("killed, and the next", site.run()[0], 0)
    site.write("a", "5")
    agent = Open(site)
    agent.until("done")
    site.write("a", "0-7")
    check("somebody else writes", agent.until("drift"), ["drift a has 0-7 in place of 5: that is written again"])
    agent.end(signal.SIGINT)


@case
def beside_a_run() -> None:
    """An agent beside a run by hand, and a run beside an agent: who comes second is refused."""
    site = Site()
    site.come("a", 1)
    more = ("--cgroup", site.at("root"), "--adopt")
    by_hand = Run(IN_FOLDERS, site.at("machine.json"), None, more)
    check("an agent beside a run", told("numarun-agent", *site.words("--rounds", "1")), (1, "", f"numarun-agent: {site.at('root')}: another agent or program has it\n"))
    by_hand.close()
    agent = Open(site)
    agent.until("done")
    try:
        Run(IN_FOLDERS, site.at("machine.json"), None, more)
        why = "taken"
    except Refused as refused:
        why = str(refused)
    says = f"{site.at('machine.json')}: refused E50 KernelFault (error: {site.at('root')}: another program has it)"
    check("a run beside an agent", (why, site.has("a"), agent.end()[0]), (says, ["1"], 0))


@case
def told_by_lines() -> None:
    """Events of standard input, with groups of their own."""
    site = Site()
    site.make_group("x", group="system.slice")
    site.come("a", 2)
    site.come("rest")
    agent = Open(site, "--listen", stdin=subprocess.PIPE)
    agent.tell(f"created a {site.at('g/a')}\ncreated rest {site.at('g/rest')} system.slice\n")
    agent.until("done")
    check("a group of another name", open(site.at("root/system.slice/cpuset.cpus")).read(), "0,3-7\n")
    agent.tell(f"ended a\ncreated a {site.at('g/a')}\n")
    check("ended and created at once", agent.until("plan")[:2], ["ended a", f"adopt a {site.at('g/a')} 1-2"])
    agent.end_input()
    check("the end of input", agent.process.wait(), 0)


@case
def places() -> None:
    """Where runtimes say that a group is."""
    site = Site()
    state = site.at("state")
    os.mkdir(state)
    table: Sequence[Tuple[Mapping[str, object], Optional[Tuple[str, object]], str]] = [
        ({}, None, "numarun/c"),
        ({"linux": {"cgroupsPath": "/libpod_parent/x"}}, None, "libpod_parent/x"),
        ({"linux": {"cgroupsPath": "../../etc"}}, None, "etc"),
        ({"linux": {"cgroupsPath": "machine-a.slice:libpod:x"}}, None, "machine.slice/machine-a.slice/libpod-x.scope"),
        ({"linux": {"cgroupsPath": ":cri:x"}}, None, "system.slice/cri-x.scope"),
        ({"linux": {"cgroupsPath": 5}}, None, "numarun/c"),
        ({"linux": {"cgroupsPath": "/a"}}, ("status", {"cgroup-path": "/b/c"}), "b/c"),
        ({"linux": {"cgroupsPath": "/a"}}, ("state.json", {"cgroup_paths": {"": site.at("root/k/l")}}), "k/l"),
    ]
    for config, file, expected in table:
        for name in os.listdir(state):
            os.remove(os.path.join(state, name))
        if file:
            json.dump(file[1], open(os.path.join(state, file[0]), "w"))
        check(f"the group of {config} {file}", cgroups.group_path(site.at("root"), "numarun", "c", config, state, None), site.at("root", expected))
    json.dump({"config": {"labels": ["x=y", "bundle=/some/where"]}}, open(os.path.join(state, "state.json"), "w"))
    check("runc's bundle", states.kept_in(state, "/"), states.Kept("/some/where", by_runtime=True))


@long_case
def refusals() -> None:
    words_and_help("numarun-agent", "operators/numarun-agent examples/machines/two-socket.json")
    refuses("numarun-agent", MACHINE, "--program", "no-such-program", says="no-such-program: no program (see --program)")
    bad_files("numarun-agent", ["--program", IN_FOLDERS])
    bad_output("numarun-agent", *PLAIN, text="rebalance\n")
    piped("numarun-agent", *PLAIN, text="rebalance\n")
    name = scratch("ends")
    with open(name, "w") as file:
        file.write("#!/bin/sh\nread line; echo settled; read line\n")
    os.chmod(name, 0o755)
    status, _, err = told("numarun-agent", MACHINE, "--program", name, text="rebalance\n")
    check("a program that ends", (status, "ends: ended at 'begin direct' with no answer, status 0" in err), (1, True))
    refuses("numarun-agent", MACHINE, "--program", shutil.which("yes") or "", says=f"{MACHINE}: run ")
    refuses("numarun-agent", *PLAIN, "--cgroup", "no-such-root", says="no-such-root: no folder")
    refuses("numarun-agent", *PLAIN, "--slit", "no-such-table", says="refused E113 ReadFault")
    check("a folder that is not there yet", told("numarun-agent", *PLAIN, "--watch", "no-such-folder", "--online", "/dev/null", "--rounds", "1")[0], 1)
    refuses("numarun-agent", *PLAIN, "--watch", EXAMPLES, "--online", "no-such-list", says="no-such-list: No such file")
    refuses("numarun-agent", *PLAIN, "--watch", EXAMPLES, "--online", "README.md", says="README.md: '# numarun")
    check("no pause", told("numarun-agent", *PLAIN, "--pause", "inf")[0], 2)
    site = Site()
    open(site.at("root/cpuset.cpus.effective"), "w").write("8-30\n")
    refuses("numarun-agent", *site.words(), says=f"machine.json: none of its CPUs is there, or in effect in {site.at('root')}")
