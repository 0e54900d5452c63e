"""What the agent knows, as one JSON object: what `status` is answered, and what is left for when no agent runs."""

from __future__ import annotations

from typing import Dict, List, Optional

from .cpus import print_list
from .ledger import Container, Ledger, Problem, Topic

PARTS = ("started", "containers", "problems", "reserved", "running", "pool", "counts", "certificate", "titles")  # of a ledger, that it is made of


def status_of(ledger: Ledger) -> Dict[str, object]:
    return {
        "reserved": print_list(ledger.reserved),
        "offline": print_list(ledger.settings.machine.present - ledger.running),
        "pool": print_list(ledger.pool or ()),
        "plan": plan_of(ledger),
        "containers": [entry_of(ledger, container) for container in ledger.containers.values()],
        "undone": [{"kind": problem.kind.word, "of": problem.of, "line": problem.line} for problem in ledger.problems.values()],
    }


def plan_of(ledger: Ledger) -> Optional[Dict[str, object]]:
    """The last plan that was handed over, and the file of the last certificate where these are kept, which is of a shortage where a plan
    could not be."""
    if not ledger.counts["plans_total"]:
        return None
    return {"total": ledger.counts["distance"], "beyond_local": ledger.counts["distance_beyond_local"], "certificate": ledger.certificate}


def entry_of(ledger: Ledger, container: Container) -> Dict[str, object]:
    problems, taken = why_of(ledger, container.name), ledger.taken.get(container.seen.group.path)
    return {
        "id": container.name, "title": ledger.title(container.name), "state": container.state.value, "group": container.seen.group.path,
        "cpus": print_list(container.cpus or ()), "nodes": print_list(container.nodes or ()), "asks": container.demand.count,
        "given": container.given.count, "lifted": " ".join(map(str, taken.limit)) if taken and taken.limit else "",
        "why": problems[0].line if problems else "", "certificate": container.certificate,
    }


def why_of(ledger: Ledger, name: str) -> List[Problem]:
    """Why a container has not what it asks for: first that there is no room, then that it can't be had, or told of."""
    found = [ledger.problems.get((topic, name)) for topic in (Topic.ROOM, Topic.DEMAND, Topic.CONTAINER)]
    return [problem for problem in found if problem]


def is_news(before: Ledger, ledger: Ledger) -> bool:
    """Whether something of this is otherwise than it was."""
    return any(getattr(before, part) != getattr(ledger, part) for part in PARTS)

