"""Says what the agent knows: who has which CPUs, who waits and why, and what is left undone. It asks the running agent, at the socket in its
folder. Where none answers it says the last state that one left there, and that this is so on standard error; the status is 1 then."""

from __future__ import annotations

import argparse
import json
import os
import socket
import sys
from datetime import datetime, timezone
from typing import Dict, List, Mapping, Sequence, Tuple

from .configs import at, parse_text
from .hooks import STATUS, near
from .records import LAST_STATE
from .script import Refused, read_kept

SECONDS = 10.0
COLUMNS = ("title", "state", "cpus", "nodes", "asks", "why")  # of an entry, as the table has them
HEADS = ("container", "state", "CPUs", "nodes", "asks", "why")


class NoAnswer(Exception):
    """Why no agent answers."""


def ask_status(path: str) -> Dict[str, object]:
    """What the agent answers at its socket."""
    try:
        with socket.socket(socket.AF_UNIX, socket.SOCK_STREAM) as door:
            door.settimeout(SECONDS)
            with near(path) as near_by:
                door.connect(near_by)
            door.sendall(f"{STATUS}\n".encode())
            line = door.makefile("rb").readline()
    except PermissionError as why:
        raise Refused(f"{path}: no agent answers: {why.strerror}") from None
    except OSError as why:
        raise NoAnswer(f"{path}: no agent answers: {why.strerror or why}") from None
    if not line.endswith(b"\n"):
        raise NoAnswer(f"{path}: no agent answers: it ended meanwhile")
    return parse_text(line.decode(errors="replace"), path)


def last_state(path: str) -> Dict[str, object]:
    """What an agent left in its folder."""
    left = os.path.join(os.path.dirname(path), LAST_STATE)
    return parse_text(read_kept(left), left)


def state_of(path: str) -> Tuple[Dict[str, object], str]:
    """What the running agent knows; or what the last one knew, and the line that says so."""
    try:
        now = datetime.now(timezone.utc).isoformat(timespec="seconds")
        return {"running": True, "time": now, **ask_status(path)}, ""
    except NoAnswer as why:
        try:
            state = last_state(path)
        except Refused:
            raise Refused(str(why)) from None
        left = "as it ended" if state.get("ended") is True else "as it was then"
        return state, f"{why}; this is what the last one left, {left}: {text_at(state, 'time')}"


def table_of(rows: Sequence[Sequence[str]]) -> List[str]:
    widths = [max(len(row[k]) for row in rows) for k in range(len(rows[0]))]
    return ["  ".join(cell.ljust(width) for cell, width in zip(row, widths)).rstrip() for row in rows]


def text_at(entry: object, name: str, otherwise: str = "-") -> str:
    """A member that is a text or a number, as a text."""
    found = at(entry, name)
    return str(found) if isinstance(found, (str, int, float)) else otherwise


def entries_of(found: object) -> List[object]:
    return found if isinstance(found, list) else []


def cell_of(entry: object, name: str) -> str:
    """What the table has of an entry: behind why it waits, or the like, the file that proves it."""
    certificate = text_at(entry, "certificate", "") if name == COLUMNS[-1] else ""
    return text_at(entry, name) + (f", certificate {certificate}" if certificate else "")


def plan_line(plan: object) -> str:
    if not isinstance(plan, dict):
        return "no plan yet"
    certificate = text_at(plan, "certificate", "")
    return f"plan total {text_at(plan, 'total')}" + (f", certificate {certificate}" if certificate else "")


def text_of(status: Mapping[str, object]) -> str:
    sets = ", ".join(f"{name} {text_at(status, name)}" for name in ("pool", "reserved", "offline"))
    lines = [sets, plan_line(status.get("plan"))]
    containers = entries_of(status.get("containers"))
    if containers:
        lines += ["", *table_of([HEADS, *([cell_of(entry, name) for name in COLUMNS] for entry in containers)])]
    whys = {text_at(entry, "why") for entry in containers}
    others = [line for line in (text_at(entry, "line") for entry in entries_of(status.get("undone"))) if line not in whys]
    return "\n".join(lines + (["", "left undone:", *(f"  {line}" for line in others)] if others else []))


def as_json(status: Mapping[str, object], path: str) -> str:
    try:
        return json.dumps(status, indent=2)
    except RecursionError:
        raise Refused(f"{path}: its state is nested too deep") from None


def main(words: Sequence[str]) -> int:
    parser = argparse.ArgumentParser(prog="numarun-agent status", description=__doc__, formatter_class=argparse.RawDescriptionHelpFormatter)
    parser.add_argument("--agent", default="/run/numarun/hooks", metavar="PATH", help="where the agent answers: `hooks` in its --work (%(default)s)")
    parser.add_argument("--json", action="store_true", help="as the agent says it, one JSON object, with whether one runs and of when it is")
    told = parser.parse_args(words)
    status, line = state_of(told.agent)
    if line:
        print(f"numarun-agent: {line}", file=sys.stderr)
    print(as_json(status, told.agent) if told.json else text_of(status))
    return 1 if line else 0
