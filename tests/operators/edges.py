"""Tries the agent at its edges: a config that is replaced between two reads, what is left in its folder, a slow command of --pool, a program
that stands still or has no pids left, one id in two folders, folders without containers, long ids, a container that has stopped."""

from __future__ import annotations

import json
import os
import re
import signal
import socket
import subprocess
import time
from typing import Sequence, Tuple

from sites import IN_FOLDERS, QUOTA, Open, Site, of
from numarun_host.configs import Config
from numarun_host.devices import node_of_device
from numarun_host.ledger import Ledger, Settings, Sighting
from numarun_host.machine import Machine
from numarun_host.names import Names
from numarun_host.placing import choose_home
from numarun_host.program import Run
from numarun_host.script import Refused
from numarun_host.seen import Group, Look, Told
from numarun_host.telling import Turn
from trial import case, check, command, long_case, refuses, scratch, text_of, told, written


BETWEEN = """
if line.startswith(b"create s0 ") and os.path.exists(new):
    os.rename(new, config)
"""


@case
def between() -> None:
    """A config by which one is pinned comes between the agent's read and numarun's: it waits, as it asks by then."""
    site = Site({"nodes": ["0-3"], "distances": [[10]], "reserved": "0"})
    site.online("0-3")
    site.come("big", 3)
    site.come("s0")
    site.come("next", 2, group=False)
    os.rename(site.at("g/next"), site.at("next"))
    words = site.stand_in(BETWEEN, new=site.at("next/config.json"), config=site.at("g/s0/config.json"))
    status, lines = site.run(*words, rounds="4")
    check("it goes on", (status, site.has("big", "s0")), (1, ["1-3", "0"]))
    check("and it waits", [line.split(":")[0] for line in of(lines, "waits")], ["waits s0"])


@case
def nothing_left() -> None:
    """What the agent keeps of a container goes with it, also of one that was refused, or that waited."""
    site = Site()
    site.come("a", 2)
    site.come("b", 2)
    site.come("waits", 7)
    site.come("refused", linux={"resources": {"cpu": {"cpus": "x"}}})
    agent = Open(site)
    agent.until("waits")
    agent.until("done")
    for name in ("a", "waits", "refused"):
        site.go(name)
    agent.until("ended waits")
    agent.until("done")
    site.come("last", 1)
    agent.until("create last")
    agent.until("done")
    kept = [os.listdir(site.at("work/bundles", which)) for which in ("told", "trial")]
    check("copies", (sorted(kept[0]), set(kept[1]) <= {"b", "last"}), (["b", "last"], True))
    groups = json.load(open(site.at("work/taken.json")))["groups"]
    check("what was taken", sorted(os.path.basename(path) for path in groups), ["b", "last"])
    check("links", (sorted(os.listdir(site.at("work/tree/numarun"))), agent.end()[0]), (["b", "last"], 0))


@case
def slow_pool() -> None:
    """A slow command of --pool keeps no hook waiting, and none is run beside another; one that does not end is ended."""
    site = Site()
    with open(site.at("slow"), "w") as file:
        file.write(f'#!/bin/sh\nsleep 3\necho "$1" >> {site.at("pools")}\n')
    os.chmod(site.at("slow"), 0o755)
    agent = Open(site, "--pool", site.at("slow"))
    site.come("a", 2)
    agent.until("done")
    site.come("b", 1)
    began = time.monotonic()
    agent.until("create b")
    agent.until("done")
    check("the next one is not kept waiting", (time.monotonic() - began < 2.5, site.has("b")), (True, ["3"]))
    until = time.monotonic() + 20
    while time.monotonic() < until and not (os.path.exists(site.at("pools")) and open(site.at("pools")).read().count("\n") == 2):
        time.sleep(0.1)
    check("one after another", (open(site.at("pools")).read(), agent.end()[0]), ("0,3-7\n0,4-7\n", 0))


STANDING = """
if line.startswith(b"create b"):
    time.sleep(600)
"""


@case
def standing_still() -> None:
    """A program that answers nothing any more: SIGTERM is heard all the same, and without one the agent ends after its patience."""
    for more, number, line, says in (((), signal.SIGTERM, "create", "where it is to end"), (("--patience", "2"), None, "sets", "in 2 s")):
        site = Site()
        site.come("a", 2)
        words = command("numarun-agent", *site.words(*site.stand_in(STANDING.replace("create", line)), *more))
        run = subprocess.Popen(words, stdin=subprocess.DEVNULL, stdout=subprocess.PIPE, stderr=subprocess.PIPE, text=True)
        assert run.stdout
        check("it has begun", any("done" in line for line in iter(run.stdout.readline, "")), True)
        site.come("b", 1)
        time.sleep(1)
        began = time.monotonic()
        if number:
            run.send_signal(number)
        out, err = run.communicate(timeout=60)
        check(f"it ends {says}", (run.returncode, says in err, time.monotonic() - began < 20), (1, True, True))


STEPS = """#!/usr/bin/python3 -B
import os, sys, time
begun, step = 0, 0
for line in sys.stdin:
    words, answer = line.split(), "ok"
    if words[0] == "phase":
        answer = "settled"
    elif words[0] == "create":
        answer = "pid 2"
    elif words[0] == "sets":
        answer = "cpus 0 effective 0 mems 0 effective 0"
    elif words[0] in ("begin", "rebalance"):
        answer, step, begun = "plan total 10\\nhold a 1\\npool 0,2-7\\nend", 0, begun + 1
    elif words[0] == "step":
        time.sleep(0.8)
        step += 1
        with open(sys.argv[0] + ".log", "a") as file:
            print(begun, step, file=file)
        answer = REFUSAL if step == WRONG else "done" if step == 4 else "more"
    print(answer, flush=True)
"""


@case
def told_in_a_hand_over() -> None:
    """Told to end in the midst of a hand-over the agent ends that first, and its status is 0. A second signal ends it behind the write that is made, which is
    no fault either, and a line says what is left; so does a write that fails, which is one."""
    left = "note the hand-over to the last plan has not ended: the next agent takes it up"
    for name, wrong, signals, steps, last, status in (
        ("once", 0, [signal.SIGTERM], 4, "done", 0), ("twice", 0, [signal.SIGTERM, signal.SIGTERM], 2, left, 0), ("by two signals", 0, [signal.SIGINT, signal.SIGTERM], 2, left, 0),
        ("and a write fails", 3, [signal.SIGTERM], 3, left, 1)):
        program = written(scratch(f"steps-{len(os.listdir(scratch()))}"), STEPS.replace("WRONG", str(wrong)).replace("REFUSAL", '"refused E50 KernelFault"'), 0o755)
        machine = written(scratch("machine.json"), json.dumps({"nodes": ["0-7"], "distances": [[10]], "reserved": "0"}))
        os.makedirs(scratch("a"), exist_ok=True)
        written(scratch("a", "config.json"), json.dumps({"linux": {"resources": {"cpu": {"quota": QUOTA, "period": QUOTA}}}}))
        run = subprocess.Popen(command("numarun-agent", machine, "--program", program, "--pause", "60"), stdin=subprocess.PIPE, stdout=subprocess.PIPE, stderr=subprocess.PIPE, text=True)
        assert run.stdin and run.stdout
        run.stdin.write(f"created a {scratch('a')}\n")
        run.stdin.flush()
        lines = [run.stdout.readline() for _ in range(4)]
        check(f"{name}: it has begun", lines[-1].split(" ")[1:], ["pool", "0,2-7\n"])
        while not os.path.exists(f"{program}.log"):
            time.sleep(0.01)
        for number in signals:
            run.send_signal(number)
            time.sleep(0.1)
        out, err = run.communicate(timeout=60)
        made = text_of(f"{program}.log").splitlines()
        said_last = [line.partition(" ")[2] for line in out.splitlines()[-1:]]
        check(name, (run.returncode, made[-1:], said_last, err), (status, [f"1 {steps}"], [last], ""))


SLOW = """#!/usr/bin/python3 -B
import sys, time
for line in sys.stdin:
    time.sleep(0 if line == "phase\\n" else 3)
    print("settled" if line == "phase\\n" else "ok", flush=True)
"""


@case
def moves_pages() -> None:
    """A program that is silent where the kernel moves pages is waited for, and systemd hears that the agent works; SIGTERM is heard all the same."""
    slow = written(scratch("slow"), SLOW, 0o755)
    door = socket.socket(socket.AF_UNIX, socket.SOCK_DGRAM)
    door.bind(scratch("door"))
    os.environ["NOTIFY_SOCKET"] = scratch("door")
    run = Run(slow, "m", patience=2)
    check("it is waited for", run.ask("adopt a /b"), ["ok"])
    check("what systemd hears", door.recv(99), b"WATCHDOG=1\nEXTEND_TIMEOUT_USEC=60000000")
    for asked, ends, says in (("step", None, "no answer to 'step' in 2 s"), ("create a /b", 1, "no answer to 'create a /b' where it is to end")):
        began = time.monotonic()
        run = Run(slow, "m", patience=2, until=lambda: began + ends if ends else None)
        try:
            check(asked, run.ask(asked), "refused")
        except Refused as why:
            check(asked, (says in str(why), time.monotonic() - began < 2.9), (True, True))
        run.close()


NO_PIDS = """
if line.startswith(b"create b") and not os.path.exists(once):
    open(once, "w").close()
    print("refused E45 NoPids", flush=True)
    continue
"""


@case
def no_pids() -> None:
    """A run that has no pids left is followed by another one, which takes up all that is there."""
    site = Site()
    site.come("a", 2)
    agent = Open(site, *site.stand_in(NO_PIDS, once=site.at("once")))
    agent.until("done")
    site.log()
    site.come("b", 1)
    lines = agent.until("create b") + agent.until("done")
    check("another run", (of(lines, "adopt"), site.has("a", "b"), "a 0" in site.log(), agent.end()[0]), ([f"adopt a {site.at('g/a')} 1-2"], ["1-2", "3"], False, 0))


@case
def told_to_end() -> None:
    """Who has no room is no fault of a unit that is stopped; what is refused is."""
    site = Site()
    site.come("a", 6)
    site.come("big", 4)
    site.come("flex", 3, annotations={"numarun.least": "1"})
    agent = Open(site)
    agent.until("fewer flex")
    agent.until("done")
    time.sleep(0.5)
    check("told to end with a full machine", agent.end()[0], 0)
    check("and at the end of its rounds", site.run()[0], 1)
    site.come("bad", "90")
    agent = Open(site)
    agent.until("done")
    check("what is refused", agent.end()[0], 1)


@case
def two_folders() -> None:
    """One id in two folders: the one that is told already goes on, and the other one is named."""
    site = Site()
    site.come("db", 2, linux={"cgroupsPath": "/default/db"})
    site.make_group("db", "", "/other/db")
    os.makedirs(site.at("h/db"))
    config = {"ociVersion": "1.0.2", "root": {"path": "r"}, "linux": {"cgroupsPath": "/other/db", "resources": {"cpu": {"quota": QUOTA, "period": QUOTA}}}}
    with open(site.at("h/db/config.json"), "w") as file:
        json.dump(config, file)
    status, lines = site.run("--watch", site.at("h"), rounds="3")
    check("the other one", (status, of(lines, "refused")), (1, [f"refused: its id is told by {site.at('g/db')} too: db {site.at('h/db')}"]))
    check("the first one", (site.file("default/db"), site.file("other/db")), ("1-2", ""))
    agent = Open(site, "--watch", site.at("h"))
    agent.until("adopt db")
    os.rename(site.at("g/db"), site.at("gone"))
    site.put("default/db", "cgroup.events", "populated 0")
    agent.until("create db")
    agent.until("done")
    check("once it has ended", (site.file("other/db"), agent.end()[0]), ("1", 0))


@case
def silent_folders() -> None:
    """A watched folder that is not there, or has no containers, is named once."""
    site = Site()
    os.makedirs(site.at("runtime/moby"))
    agent = Open(site, "--watch", site.at("nowhere"), "--watch", site.at("runtime"))
    site.come("a", 1)
    lines = agent.until("done")
    site.come("b", 1)
    lines += agent.until("create b") + agent.until("done")
    check("not there", of(lines, f"note {site.at('nowhere')}"), [f"note {site.at('nowhere')}: no such folder yet"])
    check("no containers", of(lines, f"note {site.at('runtime')}"), [f"note {site.at('runtime')}: its 1 entry is no container, as moby"])
    check("and it goes on", (site.has("a", "b"), agent.end()[0]), (["1", "2"], 0))


REFUSES = """
if line.startswith(b"update"):
    print(f"error: {site}/work/tree/numarun/{id}/cpuset.cpus: Read-only file system", file=sys.stderr, flush=True)
    print("refused E50 KernelFault", flush=True)
    continue
"""


@case
def long_ids() -> None:
    """An id of 64 digits is shortened, and stands behind the name that a runtime knows."""
    site, ids = Site(), ["9" * 12 + "a" * 52, "8" * 12 + "b" * 52, "7" * 12 + "c" * 52]
    os.makedirs(site.at("docker", ids[0]))
    with open(site.at("docker", ids[0], "config.v2.json"), "w") as file:
        json.dump({"Name": "/web", "ID": ids[0]}, file)
    with open(site.at("podman.json"), "w") as file:
        json.dump([{"id": ids[1], "names": ["db"]}, {"id": ids[2], "names": ["two words"]}, 5, {"names": []}], file)
    names = Names(site.at("docker"), [site.at("podman.json")])
    expected = {ids[0]: "web(999999999999)", ids[1]: "db(888888888888)", ids[2]: "777777777777"}
    check("their names", names.titles(dict.fromkeys([*ids, "short"])), expected)
    for text in ("{", "[]", "5", '{"Name": 5}', "\0", '[{"id": 5}]'):
        for path in (site.at("docker", ids[0], "config.v2.json"), site.at("podman.json")):
            with open(path, "w") as file:
                file.write(text)
        found = Names(site.at("docker"), [site.at("podman.json")]).titles(dict.fromkeys(ids[:1]))
        check(f"names that are none: {text}", found, {ids[0]: "999999999999"})
    site.come(ids[2], 2)
    status, lines = site.run()
    check("in the log", (status, of(lines, "create", "hold")), (0, [f"create 777777777777 {site.at('g', ids[2])} 1-2", "hold 777777777777 1-2"]))
    agent = Open(site, *site.stand_in(REFUSES, site=site.folder, id=ids[1]))
    agent.until("done")
    site.come(ids[1], 6)
    lines = agent.until("short")
    agent.end()
    check("a write that is refused", of(lines, "failed"), ["failed 888888888888/cpuset.cpus: Read-only file system"])
    check("who is short", of(lines, "short"), ["short demand 8 allowed 1-7 member 777777777777 member 888888888888"])


@long_case
def stopped() -> None:
    """One that its runtime calls stopped gives its CPUs back, and gets some anew when it has a process again."""
    site = Site()
    site.come("db", 4)
    site.come("web", 2)
    process = subprocess.Popen(["sleep", "600"])
    with open(site.at("g/db/status"), "w") as file:
        json.dump({"cgroup-path": "/numarun/db", "pid": process.pid}, file)
    site.put("numarun/db", "cgroup.events", "populated 1")
    agent = Open(site)
    agent.until("done")
    check("both", site.has("db", "web"), ["1-4", "5-6"])
    site.come("new", 3)
    agent.until("waits new")
    process.kill()
    process.wait()
    site.put("numarun/db", "cgroup.events", "populated 0")
    lines = agent.until("stopped") + agent.until("update new") + agent.until("done")
    check("the newcomer has room", (len(of(lines, "stopped db")), of(lines, "ended"), len(site.has("new")[0]) > 0, "0" in site.has("db")[0]), (1, [], True, True))
    process = subprocess.Popen(["sleep", "600"])
    site.go("new")
    with open(site.at("status"), "w") as file:
        json.dump({"cgroup-path": "/numarun/db", "pid": process.pid}, file)
    os.rename(site.at("status"), site.at("g/db/status"))
    site.put("numarun/db", "cgroup.events", "populated 1")
    agent.until("update db")
    agent.until("done")
    process.kill()
    process.wait()
    check("once it runs again", (re.fullmatch(r"[\d,-]+", site.has("db")[0]) is not None, "0" in site.has("db")[0].split(","), agent.end()[0]), (True, False, 0))


@case
def no_pause() -> None:
    check("--pause 0", told("numarun-agent", "machine.json", "--pause", "0")[0], 2)


@case
def odd_configs() -> None:
    """Configs that no runtime writes: each is named with its reason, and the others go on."""
    site = Site()
    os.makedirs(site.at("g/folder/config.json"))
    os.makedirs(site.at("g/circle"))
    os.symlink(site.at("g/circle/config.json"), site.at("g/circle/config.json"))
    os.makedirs(site.at("g/pipe"))
    os.mkfifo(site.at("g/pipe/config.json"))
    for name, text in (("surrogate", b'{"ociVersion": "\\ud800", "root": {"path": "r"}}'), ("nul", b"\0" * 100), ("large", b" " * (2 << 20)), ("deep", b"[" * 5000),
                       ("path", json.dumps({"ociVersion": "1.0.2", "root": {"path": "r"}, "linux": {"cgroupsPath": "/a\0b"}}).encode())):
        os.makedirs(site.at("g", name))
        site.make_group(name)
        with open(site.at("g", name, "config.json"), "wb") as file:
            file.write(text)
    site.come("a", 2)
    status, lines = site.run(rounds="3")
    check("the others go on", (status, site.has("a")), (1, ["1-2"]))
    named = {line.split(" ")[1].rstrip(":") for line in of(lines, "absent")} | {line.split(": ")[1].split(" ")[0] for line in of(lines, "refused")}
    check("each is named", {"nul", "large", "deep", "path", "surrogate"} <= named, True)


@case
def pool_floor() -> None:
    """By default newcomers wait rather than bring the pool below two cores, or a tenth; who had CPUs before keeps them."""
    site = Site()
    for k in range(10):
        site.come(f"h{k}", 0.5)
    status, lines = site.run("--defaults")
    check("parts of CPUs are no wish for CPUs of one's own", (status, {has for has in site.has(*(f"h{k}" for k in range(10)))}), (0, {"0-7"}))
    site = Site()
    site.come("a", 5)
    site.run("--defaults")
    site.come("b", 2)
    site.come("c", 1)
    status, lines = site.run("--defaults", rounds="2")
    said = "waits b: it would leave 1 CPU to the pool, and that keeps 2: it runs on the pool until there is room"
    check("who comes waits", (status, said in lines, site.has("a", "b", "c")), (1, True, ["1-5", "0,7", "6"]))
    site.come("d", 3, annotations={"numarun.least": "1"})
    site.go("c")
    status, lines = site.run("--defaults", rounds="2")
    check("who takes fewer", (status, len(of(lines, "fewer d")), site.has("d")[0] in ("6", "7")), (1, 1, True))
    site = Site()
    site.come("a", 7)
    site.run()
    status, lines = site.run("--defaults", rounds="2")
    check("who had its CPUs keeps them", (status, site.has("a"), [line[:19] for line in of(lines, "note the pool")]), (0, ["1-7"], ["note the pool has 1"]))
    site.come("b", 1)
    check("a part that is said", (site.run("--defaults", "--pool-least", "0%", rounds="2")[0], site.has("b")), (1, ["0"]))
    for text in ("x", "-1", "5%%", "101%"):
        check(f"--pool-least {text}", told("numarun-agent", "machine.json", f"--pool-least={text}")[0], 2)


@case
def wishes() -> None:
    """What a container says of itself by its environment, where its runtime has no annotations."""
    site = Site()
    for name, count, more in (("pinned", 2, "NUMARUN_PIN=true"), ("other", 2, "NUMARUN_PIN=false"), ("odd", 2, "NUMARUN_PIN")):
        site.come(name, count, process={"env": ["PATH=/bin", "NUMARUN_PIN=x", 5, more] if name != "odd" else [more, None]})
    status, _ = site.run("--pin", "annotated")
    check("NUMARUN_PIN", (status, site.has("pinned", "other", "odd")), (0, ["1-2", "0,3-7", "0,3-7"]))
    site = Site()
    site.come("a", 5)
    site.come("flex", 4, process={"env": ["NUMARUN_LEAST=2"]})
    status, lines = site.run()
    check("NUMARUN_LEAST", (status, len(of(lines, "fewer flex: 2 of 4")), site.has("flex")), (1, 1, ["6-7"]))


@case
def near_a_device() -> None:
    """The home of one that names a device is the node of that."""
    folder = Site().folder
    for path, text in (("class/net/eth0/device", "1"), ("class/block/nvme0n1/device/device", "2"), ("bus/pci/devices/0000:3b:00.0", "3"), ("class/net/lo0/device", "-1")):
        os.makedirs(os.path.join(folder, path))
        with open(os.path.join(folder, path, "numa_node"), "w") as file:
            file.write(f"{text}\n")
    site = Site({"nodes": ["0-3", "4-7"], "distances": [[10, 21], [21, 10]], "reserved": "0"})
    turn = Turn(Ledger(Settings(Machine(site.at("machine.json"))), frozenset({0, 1})), Look(0.0))
    named_nodes: Config = {"linux": {"resources": {"cpu": {"mems": "0"}}}}
    table: Sequence[Tuple[int, Config, object]] = ((1, {}, {1}), (0, {}, {0}), (7, {}, None), (1, named_nodes, None))
    for node, named, expected in table:
        sighting = Sighting(Told("/g", "/g"), None, named, Group("/x", 1), near=node)
        check(f"a home near node {node}", choose_home(turn, sighting, named, 2), expected)
    found = {name: node_of_device(name, folder) for name in ("eth0", "nvme0n1", "0000:3b:00.0", "lo0", "eth9", "../eth0", "", "a/b")}
    check("nodes of devices", found, {"eth0": 1, "nvme0n1": 2, "0000:3b:00.0": 3, "lo0": None, "eth9": None, "../eth0": None, "": None, "a/b": None})


@case
def words() -> None:
    """Words of a file, a configuration that is looked at, and the version."""
    site = Site()
    with open(site.at("agent.conf"), "w") as file:
        file.write(f"# what the agent is told\n{site.at('machine.json')}  # this machine\n--pool-least 25%\n--watch '{site.at('g')}'\n\n")
    status, out, err = told("numarun-agent", "check-config", f"@{site.at('agent.conf')}", "--program", IN_FOLDERS)
    check("a file of words", (status, out, err), (0, f"{site.at('machine.json')}: 8 CPUs on 1 node, reserved 0, and 2 are left to the pool\n", ""))
    refuses("numarun-agent", "check-config", "no-such-file", "--program", IN_FOLDERS, says="no-such-file: No such file")
    check("a file that is not there", told("numarun-agent", "@no-such-file")[0], 2)
    version = subprocess.run([IN_FOLDERS, "--version"], capture_output=True).stdout.decode()
    check("the version", told("numarun-agent", "--version", "--program", IN_FOLDERS), (0, version, ""))
    check("release without a tree", told("numarun-agent", "release")[0], 2)
    check("release", told("numarun-agent", "release", "--cgroup", site.at("root"), "--work", site.at("work")), (0, f"nothing was kept in {site.at('work')}\n", ""))
