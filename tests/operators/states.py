"""Tries what `numarun-agent status` says where no agent runs: the last state of one that ended, or was killed, said as such."""

from __future__ import annotations

import json
import os
import re
import time
from typing import Callable, Dict, Tuple

from sites import PATIENCE, Open, Site
from numarun_host.status import text_of as table_of
from trial import case, check, refuses, text_of, told


def asked(site: Site, *words: str) -> Tuple[int, str, str]:
    return told("numarun-agent", "status", "--agent", site.at("work/hooks"), *words)


def known(site: Site) -> Dict[str, object]:
    return dict(json.loads(asked(site, "--json")[1]))


def full(site: Site, *words: str) -> Open:
    """An agent that has two containers, of which one waits."""
    site.come("a", 2)
    site.come("big", 7)
    agent = Open(site, *words)
    agent.until("done")
    return agent


def wait_for(site: Site, holds: Callable[[str], bool]) -> None:
    """Waits until the last state that is kept is so: it is written behind the last line of a look."""
    until = time.monotonic() + PATIENCE
    while not holds(text_of(site.at("work/status.json"))) and time.monotonic() < until:
        time.sleep(0.05)


@case
def ended() -> None:
    """What it knew as it ended, in the same table, with a line that says so."""
    site = Site()
    agent = full(site)
    running = asked(site)
    check("while it runs", (running[0], running[2], known(site)["running"]), (0, "", True))
    agent.end()
    status, out, err = asked(site)
    said = rf"numarun-agent: {site.at('work/hooks')}: no agent answers: Connection refused; this is what the last one left, as it ended: 20[0-9-]+T[0-9:]+\+00:00\n"
    check("as it ended", (status, out, bool(re.fullmatch(said, err))), (1, running[1], True))
    state = known(site)
    check("as JSON", (state["running"], state["ended"], bool(state["time"])), (False, True, True))
    os.remove(site.at("work/hooks"))
    check("no socket", (asked(site)[0], "no agent answers: No such file or directory; this is" in asked(site)[2]), (1, True))


@case
def killed() -> None:
    """What it knew when something happened last: who came, what was done about it, and what was settled without a word."""
    site = Site()
    agent = full(site)
    site.come("ghost", 1, group=False)
    agent.until("absent ghost")
    site.go("a")
    agent.until("done")
    wait_for(site, lambda text: '"1-7"' in text)
    agent.process.kill()
    agent.process.wait()
    status, out, err = asked(site)
    check("as it was then", (status, "left, as it was then: 20" in err), (1, True))
    rows = {line.split()[0]: line.split()[1:3] for line in out.splitlines() if line.split()}
    check("who has what", (rows.get("a"), rows.get("big"), "absent ghost" in out), (None, ["pinned", "1-7"], True))
    agent = Open(site)
    os.rename(site.at("g/ghost"), site.at("away"))
    wait_for(site, lambda text: "absent" not in text)
    agent.process.kill()
    agent.process.wait()
    check("nothing that is settled", known(site)["undone"], [])


@case
def quiet() -> None:
    """Where nothing happens nothing is written."""
    site = Site()
    agent = full(site)
    site.come("s")
    agent.until("create s")
    agent.until("done")
    time.sleep(0.5)
    before = os.stat(site.at("work/status.json"))
    time.sleep(1)
    after = os.stat(site.at("work/status.json"))
    check("nothing is written", (before.st_ino, before.st_mtime_ns), (after.st_ino, after.st_mtime_ns))
    agent.end()


@case
def certified() -> None:
    """The certificate of the last plan is named, as long as the certificates are kept."""
    site = Site()
    agent = full(site, "--certificates", site.at("kept"))
    out = asked(site)[1]
    found = re.search(rf"^plan total 20, certificate ({site.at('kept')}/\S+\.certificate)$", out, re.M)
    check("its file", bool(found and os.path.isfile(found[1])), True)
    agent.end()
    check("and in the last state", found and found[1] in asked(site)[1], True)
    plan = known(site)["plan"]
    check("as JSON", isinstance(plan, dict) and (plan["total"], plan["beyond_local"]), (20, 0))
    check("before there is one", table_of({"pool": "-", "reserved": "0", "offline": "-", "plan": None}), "pool -, reserved 0, offline -\nno plan yet")


@case
def why_it_waits() -> None:
    """Of who waits since a shortage the certificate is named that proves it, also before there is a plan, and as long as it waits."""
    site = Site()
    agent = full(site, "--certificates", site.at("kept"))
    site.come("more", 6)
    agent.until("waits more")
    agent.until("done")
    out = asked(site)[1]
    found = re.search(rf"^more +waiting .*, certificate ({site.at('kept')}/\S+\.certificate)$", out, re.M)
    members = [line for line in text_of(found[1]).splitlines() if line.startswith("short ")] if found else []
    check("its file", members, ["short a", "short more"])
    containers = known(site)["containers"]
    check("as JSON", isinstance(containers, list) and [entry["certificate"] for entry in containers if entry["id"] in ("a", "more")], ["", found and found[1]])
    site.go("big")
    site.go("a")
    agent.until("update more")
    agent.until("done")
    wait_for(site, lambda text: "short demand" not in text)
    left = {line.split()[0]: line for line in asked(site)[1].splitlines() if line.split()}
    check("once it has its CPUs", ("certificate" in left["more"], agent.end()[0]), (False, 0))
    site.come("big", 7)
    site.run("--certificates", site.at("kept"))
    site.run("--certificates", site.at("kept"))
    left = {line.split()[0]: line for line in asked(site)[1].splitlines() if line.split()}
    check("that waits since another run", bool(re.search(rf", certificate {site.at('kept')}/\S+\.certificate$", left["big"])), True)


@case
def lifted() -> None:
    """Whose limit is lifted, and which that was."""
    site = Site()
    site.come("a", 2)
    site.put("numarun/a", "cpu.max", "200000 100000")
    site.run("--lift")
    containers = known(site)["containers"]
    check("the limit", isinstance(containers, list) and containers[0]["lifted"], "200000 100000")


@case
def none_left() -> None:
    """No state, or what is none: a line with the reason."""
    site = Site()
    refuses("numarun-agent", "status", "--agent", site.at("work/hooks"), says=f"{site.at('work/hooks')}: no agent answers: No such file or directory")
    os.makedirs(site.at("work"))
    deep = b'{"containers": [{"why": ' + b"[" * 900 + b"]" * 900 + b"}]}"
    for text in (b"", b"{", b"[]", b"\xff", b'{"containers": 5, "undone": {}, "plan": 7}', b"9" * 5000, b'{"containers": [{"why": []}], "undone": []}',
                 b'{"containers": [], "undone": [{"line": {}}]}', b'{"containers": [{"why": "x"}], "undone": [{"line": "x"}, {"line": 7}], "plan": {}}', deep):
        with open(site.at("work/status.json"), "wb") as file:
            file.write(text)
        for words in ((), ("--json",)):
            status, out, err = asked(site, *words)
            check(f"{text[:50]!r} {words}", (status, err.count("\n") in (1, 2), "Traceback" in err), (1, True, False))
    os.remove(site.at("work/status.json"))
    os.mkdir(site.at("work/status.json"))
    refuses("numarun-agent", "status", "--agent", site.at("work/hooks"), says="no agent answers")
    os.makedirs(site.at("work/tree/numarun"))
    site.come("a", 1)
    status, lines = site.run()
    check("one that can't be written", (status, [line for line in lines if "status.json" in line]), (1, [f"failed {site.at('work/status.json')}: Is a directory"]))
