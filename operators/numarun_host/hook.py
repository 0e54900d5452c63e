"""A hook for OCI runtimes, by which the agent hears of the containers of one whose state it can't watch. `numarun-hook FOLDER` reads a
container's state on standard input, as the runtime hands it over (OCI runtime-spec, config.md, "POSIX-platform Hooks"). For one that
is there it makes FOLDER/ID, with a link to its config and with the group of its first process; for one that has stopped it takes this
away. Name it as `createRuntime` and as `poststop`, and give FOLDER to the agent by --watch.

With --wait it waits until the agent has given the container its CPUs, so that its program begins on these, and prints what the agent
answers: `pinned ID LIST`, `shared ID LIST`, or `no place ..` of one that runs on the pool until there is room.

The status is 1 where the container could not be told of, or the agent refused it or has not answered in time, and with --need-place
where there is no place for it; a runtime does not start it then, since it would run on CPUs of others."""

from __future__ import annotations

import argparse
import json
import os
import re
import shutil
import socket
import time
from dataclasses import dataclass
from typing import Optional

from .configs import at, is_number, parse_text
from .hooks import near
from .script import Refused, read_text

STATE_BYTES = 1 << 20
ID = re.compile(r"[A-Za-z0-9_.+-]{1,64}")  # what the agent tells of
LINE = 8192
PAUSE = 0.05  # between two tries to reach the agent
NOT_STARTED = ("refused", "failed")
EXAMPLE = """in a container's config:
  "hooks": {"createRuntime": [{"path": "/usr/local/bin/numarun-hook", "args": ["numarun-hook", "/run/numarun-containers", "--wait", "10"]}],
            "poststop":      [{"path": "/usr/local/bin/numarun-hook", "args": ["numarun-hook", "/run/numarun-containers"]}]}"""


@dataclass(frozen=True)
class OciState:
    """What a runtime hands over of a container."""

    name: str
    bundle: str
    status: str
    pid: Optional[int]


@dataclass(frozen=True)
class AgentAnswer:
    """What the agent answers: `pinned`, `shared`, `no place`, `refused` or `failed`, and the line that says it."""

    kind: str
    text: str


def read_state(text: str) -> OciState:
    state = parse_text(text, "standard input")
    name, bundle, status = (at(state, member) for member in ("id", "bundle", "status"))
    for member, value in (("id", name), ("bundle", bundle), ("status", status)):
        if not isinstance(value, str):
            raise Refused(f"standard input: no {member} in the container's state")
    assert isinstance(name, str) and isinstance(bundle, str) and isinstance(status, str)
    if not ID.fullmatch(name) or name.startswith("."):
        raise Refused(f"standard input: {name[:64]!a} is no id")
    if not bundle.isprintable():
        raise Refused(f"standard input: {bundle[:64]!a} is no bundle")
    pid = state.get("pid")
    return OciState(name, bundle, status, pid if isinstance(pid, int) and is_number(pid) else None)


def group_of(pid: int) -> Optional[str]:
    """The group of a process in the cgroup v2 tree, as /proc has it; or nothing, and then its config or its id says it."""
    try:
        lines = read_text(f"/proc/{pid}/cgroup", STATE_BYTES).splitlines()
    except Refused:
        return None
    return next((line[len("0::"):] for line in lines if line.startswith("0::/") and line != "0::/"), None)


def put(folder: str, state: OciState) -> None:
    """Makes what the agent looks at, in one step for whoever looks."""
    new = os.path.join(folder, f".{state.name}.{os.getpid()}")
    config = os.path.join(state.bundle, "config.json")
    if not os.path.isfile(config):
        raise Refused(f"{config}: no such file")
    os.makedirs(new)
    os.symlink(os.path.abspath(config), os.path.join(new, "config.json"))
    group = group_of(state.pid) if state.pid is not None else None
    if group:
        with open(os.path.join(new, "status"), "w") as file:
            json.dump({"cgroup-path": group}, file)
    take_away(folder, state.name)
    os.rename(new, os.path.join(folder, state.name))


def take_away(folder: str, name: str) -> None:
    path, old = os.path.join(folder, name), os.path.join(folder, f".{name}.{os.getpid()}.old")
    if os.path.isdir(path):
        os.rename(path, old)
        shutil.rmtree(old)


def ask_agent(path: str, name: str, seconds: float) -> Optional[bytes]:
    """What the agent answers of a container, if there is one that answers within this time."""
    try:
        with socket.socket(socket.AF_UNIX, socket.SOCK_STREAM) as door:
            door.settimeout(seconds)
            with near(path) as near_by:
                door.connect(near_by)
            door.sendall(f"{name}\n".encode())
            return door.makefile("rb").readline(LINE)
    except OSError:
        return None


def answer_of(path: str, name: str, seconds: float) -> AgentAnswer:
    """What the agent answers of a container. One that begins meanwhile, or anew, is asked then."""
    until = time.monotonic() + seconds
    while True:
        line = ask_agent(path, name, max(until - time.monotonic(), PAUSE))
        if line and line.endswith(b"\n"):
            answer = parse_text(line.decode(errors="replace"), path)
            kind, text = answer.get("answer"), answer.get("text")
            if isinstance(kind, str) and isinstance(text, str):
                return AgentAnswer(kind, text)
        if time.monotonic() + PAUSE > until:
            raise Refused(f"{path}: the agent has not answered of {name} in {seconds:g} s")
        time.sleep(PAUSE)


def wait(words: argparse.Namespace, name: str) -> None:
    """Prints what the agent answers; one that may not start is taken away again."""
    try:
        answer = answer_of(words.agent, name, words.wait)
        if answer.kind in NOT_STARTED or (words.need_place and answer.kind == "no place"):
            raise Refused(answer.text)
    except Refused:
        take_away(words.folder, name)
        raise
    print(answer.text)


def main() -> int:
    parser = argparse.ArgumentParser(description=__doc__, epilog=EXAMPLE, formatter_class=argparse.RawDescriptionHelpFormatter)
    parser.add_argument("folder", metavar="FOLDER", help="what the agent watches; it is made where it is not there")
    parser.add_argument("--wait", type=float, metavar="SECONDS", help="wait so long for the agent's answer; without it, for none")
    parser.add_argument("--agent", default="/run/numarun/hooks", metavar="PATH", help="where the agent answers: `hooks` in its --work (%(default)s)")
    parser.add_argument("--need-place", action="store_true", help="let nobody start who asks for CPUs of its own and gets none")
    words = parser.parse_args()
    if words.wait is not None and not 0 < words.wait <= 86400:
        parser.error("--wait is above 0, and 86400 at most")
    state = read_state(read_text("-", STATE_BYTES))
    os.makedirs(words.folder, exist_ok=True)
    if state.status == "stopped":
        take_away(words.folder, state.name)
    else:
        put(words.folder, state)
        if words.wait is not None:
            wait(words, state.name)
    return 0
