"""Threads that may run on CPUs which their group does not request. On Linux 6.12, and not on 6.1, a process that is moved into a group keeps its own
CPUs where that has the same ones in effect as the group from which it comes, and CPUs that are off may be among them. Where such a CPU is switched on,
and the group requests others, the process may run there until its group gets other CPUs. So before a plan gives somebody the CPUs that came, each such
group is given fewer CPUs for a moment, and then its own again."""

from __future__ import annotations

from typing import Optional

from .commands import Gather, Steps
from .cpus import NO_CPUS
from .ledger import Kind, Topic, report
from .seen import Group
from .telling import Turn


def gather_all(turn: Turn) -> Steps[None]:
    """Gathers the threads of each group that was not seen before, or has been seen and does not request all CPUs that came, which at a start are all
    that are there. What fails is tried again at the next look."""
    ledger = turn.ledger
    here = {name: sighting.group for name, sighting in turn.there.items()} if ledger.has_tree else {}
    known = {group.inode for group in here.values() if group.inode in ledger.gathered and not ledger.came - group.cpus}
    ledger.came, ledger.gathered = NO_CPUS, frozenset(group.inode for group in here.values())
    for name, group in here.items():
        gather = None if group.inode in known else gathered(turn, group)
        why = (yield gather).why if gather else None
        if why:
            ledger.gathered -= {group.inode}
            yield from report(ledger, Topic.THREADS, name, Kind.FAILED, why)
        else:
            ledger.settle(Topic.THREADS, name)


def gathered(turn: Turn, group: Group) -> Optional[Gather]:
    """How the threads of a group are gathered: by way of all of its CPUs but the last one. One that requests all that are there has no others. One that
    has a single one there is left alone, since all others had to be off when a process came into it."""
    all_there = turn.ledger.running | turn.ledger.reserved
    there = group.cpus & all_there
    return Gather(group.path, group.inode, group.cpus, there - {max(there)}) if len(there) > 1 and there != all_there else None
