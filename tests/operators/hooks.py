"""Tries numarun-hook: a runtime tells of a container by it, and it waits until the agent has answered."""

from __future__ import annotations

import json
import os
import select
import signal
import socket
import subprocess
import time
from typing import Any, List

from sites import PATIENCE, Open, Site, Wanted
from numarun_host.hooks import MOST, Hooks, near
from trial import TOP, Told, case, check, command, refuses, scratch, told, words_and_help


Hook = subprocess.Popen[bytes]
WAIT = ("--wait", f"{PATIENCE:g}")


def state_of(site: Site, name: str, **more: object) -> str:
    return json.dumps({"ociVersion": "1.0.2", "id": name, "status": "created", "bundle": site.at("bundles", name), **more})


def prepared(site: Site, name: str, cpus: Wanted = 0, **more: Any) -> None:
    """A bundle that nobody was told of."""
    site.come(name, cpus, **more)
    os.makedirs(site.at("bundles"), exist_ok=True)
    os.rename(site.at("g", name), site.at("bundles", name))


def begun(site: Site, name: str, *words: str) -> Hook:
    """The hook, which waits."""
    process = subprocess.Popen(command("numarun-hook", site.at("told"), "--agent", site.at("work/hooks"), *words), cwd=TOP,
                               stdin=subprocess.PIPE, stdout=subprocess.PIPE, stderr=subprocess.PIPE)
    assert process.stdin
    process.stdin.write(state_of(site, name).encode())
    process.stdin.close()
    return process


def ended(process: Hook) -> Told:
    assert process.stdout and process.stderr
    out, err = process.stdout.read().decode(), process.stderr.read().decode()
    return process.wait(), out, err


@case
def hooked() -> None:
    """A runtime's hook tells of a container, in the group that its process is in, and that it is gone."""
    site = Site()
    site.come("a", 2, group=False)
    os.mkdir(site.at("told"))
    os.rename(site.at("g/a"), site.at("bundle"))
    state = {"ociVersion": "1.0.2", "id": "a", "status": "created", "pid": os.getpid(), "bundle": site.at("bundle")}
    check("a container", told("numarun-hook", site.at("told"), text=json.dumps(state)), (0, "", ""))
    group = json.load(open(site.at("told/a/status")))["cgroup-path"] if os.path.exists(site.at("told/a/status")) else "/numarun/a"
    site.make_group("a", group=group.strip("/"))
    status, lines = site.run("--watch", site.at("told"))
    check("it is told", (status, lines[0]), (0, f"create a {site.at('told/a')} 1-2"))
    first = os.stat(site.at("told/a")).st_ino
    check("told again", told("numarun-hook", site.at("told"), text=json.dumps({**state, "status": "creating"})), (0, "", ""))
    check("as another one", os.stat(site.at("told/a")).st_ino != first, True)
    for _ in range(2):
        check("gone", told("numarun-hook", site.at("told"), text=json.dumps({**state, "status": "stopped", "pid": 0})), (0, "", ""))
        check("nothing is left", os.listdir(site.at("told")), [])
    for text, says in [("", "not JSON"), ("[]", "no JSON object"), ("{}", "no id in the"), (json.dumps({**state, "id": "../x"}), "'../x' is no id"),
                       (json.dumps({**state, "bundle": "/no"}), "/no/config.json: no such file"), ("x" * (1 << 20 | 1), "more than 1048576 bytes")]:
        refuses("numarun-hook", site.at("told"), text=text, says=says)
    words_and_help("numarun-hook", "/usr/local/bin/numarun-hook")
    for name in ("a\0b", "\ud800", "a b", "", ".x", "x" * 65, "ä"):
        refuses("numarun-hook", site.at("told"), text=json.dumps({**state, "id": name}), says="is no id")
    for bundle in ("/a\0b", "/\ud800"):
        refuses("numarun-hook", site.at("told"), text=json.dumps({**state, "bundle": bundle}), says="is no bundle")
    check("a wait without time", told("numarun-hook", site.at("told"), "--wait", "0", text=json.dumps(state))[0], 2)


@case
def answered() -> None:
    """A container begins when it has its CPUs, or when it is told that there is no place."""
    site = Site()
    agent = Open(site, "--watch", site.at("told"), "--pause", "600")
    while not os.path.exists(site.at("work/machine.json")):
        time.sleep(0.05)
    prepared(site, "a", 2)
    began = time.monotonic()
    check("its CPUs", ended(begun(site, "a", *WAIT)), (0, "pinned a 1-2\n", ""))
    check("at once, and not at the next look", (time.monotonic() - began < PATIENCE, site.has("a")), (True, ["1-2"]))
    prepared(site, "s")
    check("one that asks for none", ended(begun(site, "s", *WAIT))[1], "shared s 0,3-7\n")
    prepared(site, "big", 7)
    status, out, err = ended(begun(site, "big", *WAIT))
    check("no place", (status, out, err), (0, "no place waits big: short demand 9 allowed 1-7: it runs on the pool until there is room\n", ""))
    check("it is told", os.path.isdir(site.at("told/big")), True)
    prepared(site, "must", 7)
    status, out, err = ended(begun(site, "must", *WAIT, "--need-place"))
    check("no place for one that needs it", (status, out, err.startswith("numarun-hook: no place waits must"), os.path.exists(site.at("told/must"))), (1, "", True, False))
    prepared(site, "bad", linux={"resources": {"cpu": {"mems": "7"}}})
    status, out, err = ended(begun(site, "bad", *WAIT))
    check("refused", (status, out, err), (1, "", f"numarun-hook: refused E65 NoSuchNode 7: bad {site.at('told/bad')}: it runs on the pool\n"))
    check("it ends", agent.end()[0], 1)


@case
def in_time() -> None:
    """Where nobody answers, the container is not told of, and its runtime does not start it; an agent that comes meanwhile answers."""
    site = Site()
    prepared(site, "a", 2)
    status, out, err = ended(begun(site, "a", "--wait", "0.5"))
    says = f"numarun-hook: {site.at('work/hooks')}: the agent has not answered of a in 0.5 s\n"
    check("no agent", (status, out, err, os.listdir(site.at("told"))), (1, "", says, []))
    hook = begun(site, "a", *WAIT)
    time.sleep(0.3)
    agent = Open(site, "--watch", site.at("told"))
    check("one that comes", ended(hook), (0, "pinned a 1-2\n", ""))
    agent.process.kill()
    agent.process.wait()
    prepared(site, "b", 1)
    hook = begun(site, "b", *WAIT)
    time.sleep(0.3)
    agent = Open(site, "--watch", site.at("told"))
    check("and one that comes back", ended(hook), (0, "pinned b 3\n", ""))
    agent.end(signal.SIGTERM)


@case
def far_away() -> None:
    """A folder of the agent's with a longer name than a socket may have."""
    site = Site()
    prepared(site, "a", 2)
    work = site.at("w" * 120)
    agent = Open(site, "--watch", site.at("told"), "--work", work)
    check("a long name", ended(begun(site, "a", "--agent", f"{work}/hooks", *WAIT)), (0, "pinned a 1-2\n", ""))
    agent.end(signal.SIGTERM)


@case
def many() -> None:
    """Nobody else is taken up while as many wait as may, and the agent does not look for one more without a pause; once one of these is gone it
    does."""
    hooks, doors = Hooks(scratch("hooks")), []

    def ready() -> List[int]:
        waiter = select.poll()
        for file in hooks.files():
            waiter.register(file, select.POLLIN)
        return [file for file, _ in waiter.poll(0)]

    for k in range(MOST + 1):
        door = socket.socket(socket.AF_UNIX, socket.SOCK_STREAM)
        with near(scratch("hooks")) as path:
            door.connect(path)
        check(f"hook {k} is heard", (k == MOST or hooks.door.fileno() in ready()), True)
        hooks.take()
        doors.append(door)
    check("no pause is cut short", (len(hooks.waiting), ready()), (MOST, []))
    doors.pop(0).close()
    check("one that goes is", len(ready()), 1)
    hooks.take()
    check("and the one more knocks", (len(hooks.waiting), ready()), (MOST - 1, [hooks.door.fileno()]))
    hooks.take()
    check("and is taken up", (len(hooks.waiting), ready()), (MOST, []))


@case
def status() -> None:
    """What the running agent knows: a table, and JSON."""
    site = Site()
    for name, cpus in (("a", 2), ("s", 0), ("big", 7)):
        site.come(name, cpus)
    agent = Open(site)
    agent.until("done")
    found, until = 1, time.monotonic() + PATIENCE
    while found and time.monotonic() < until:  # an agent that has much to do may not answer in time
        found, out, err = told("numarun-agent", "status", "--agent", site.at("work/hooks"))
    lines = [line.split() for line in out.splitlines()]
    check("a table", (found, err, lines[0], lines[1], lines[3:7]), (0, "", ["pool", "0,3-7,", "reserved", "0,", "offline", "-"], ["plan", "total", "20"], [
        ["container", "state", "CPUs", "nodes", "asks", "why"], ["a", "pinned", "1-2", "0", "2"], ["s", "shared", "0,3-7", "0", "-"],
        "big waiting 0,3-7 0 7 waits big: short demand 9 allowed 1-7: it runs on the pool until there is room".split()]))
    known = json.loads(told("numarun-agent", "status", "--json", "--agent", site.at("work/hooks"))[1])
    check("as JSON", ([(entry["id"], entry["state"], entry["given"]) for entry in known["containers"]], [entry["kind"] for entry in known["undone"]]),
          ([("a", "pinned", 2), ("s", "shared", None), ("big", "waiting", None)], ["waits"]))
    check("it runs", (known["running"], agent.end()[0]), (True, 0))
    os.remove(site.at("work/status.json"))
    refuses("numarun-agent", "status", "--agent", site.at("work/hooks"), says="no agent answers: Connection refused")
