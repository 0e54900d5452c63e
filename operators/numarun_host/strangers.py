"""Strangers: the groups that an agent before told of, and that no container of this run has. numarun is shown them as it begins, and no plan
of its gives the CPUs away that they requested then, until a container has their id or it is told to forget them. Which are shown is decided
here, and which are let go of, so that a group is one only as long as a process of nobody's runs on these CPUs."""

from __future__ import annotations

from typing import Dict, Iterable, List, Optional

from .commands import NAMELESS, Ask, Level, Say, Steps, Unlink
from .cpus import NO_CPUS, Cpus
from .ledger import Ledger, Stranger
from .script import Refused
from .seen import Found, Group
from .slices import id_of, is_id
from .telling import BAD_LINE, NO_STRANGER, Turn, ask

NOBODY = "."  # the name of no group


def ids_of(turn: Turn) -> Dict[str, str]:
    """By its group the id under which a container is told of, or an agent before had it, unless another one is told of under that."""
    found = {name: told.group.path for name, told in turn.look.told.items() if isinstance(told, Found) and is_id(name)}
    before = {name: path for name, (path, _) in turn.ledger.before.items() if path}
    shown = {name: stranger.path for name, stranger in turn.ledger.strangers.items() if is_id(name)}
    return {path: name for name, path in {**shown, **before, **found}.items()}


def left_by_one_before(turn: Turn) -> Dict[str, int]:
    """The groups that an agent before told of, or linked, and those that were shown to a run before, each with which one that is."""
    ledger = turn.ledger
    linked = [path for path, _ in ledger.before.values() if path not in ledger.renewed]
    found = {group.path: group.inode for group in [turn.look.group(path) for path in linked if path] if group}
    found.update((stranger.path, stranger.inode) for stranger in ledger.strangers.values())
    found.update((path, taken.inode) for path, taken in ledger.taken.items())
    return {path: inode for path, inode in found.items() if path not in ledger.taken or not ledger.taken[path].system}


def shown_at_start(turn: Turn) -> Dict[str, Stranger]:
    """Those of them that have a process, and CPUs that a plan may give. One of which the list can't be read would be in numarun's way."""
    ids, found = ids_of(turn), dict[str, Stranger]()
    for path, inode in left_by_one_before(turn).items():
        group = turn.look.group(path)
        if group and group.texts[0] is not None and turn.runs(path, inode) and has_some(turn, path):
            found.setdefault(ids.get(path, f"{NAMELESS}{id_of(path)}"), Stranger(path, inode, group.cpus))
    return found


def ask_whether_withheld(ledger: Ledger) -> Steps[None]:
    """Asks a numarun that has just begun whether it knows of those whom it was shown. If not they are none, and it is said once."""
    if not ledger.strangers:
        return
    withholds = (yield from ask(ledger, Ask(f"forget {NOBODY}"))).fault != BAD_LINE
    if not withholds:
        for name in ledger.strangers:
            yield Unlink(name)
        ledger.strangers = {}
        if ledger.withholds:
            yield Say("note this numarun withholds no CPUs, so there is no plan while a container that runs can't be told of", Level.NOTICE)
    ledger.withholds = withholds


def let_go_of_strangers(turn: Turn) -> Steps[bool]:
    """Forgets those that need not be kept from others any more, each with its reason; whether there was one. Those that the look finds so are
    forgotten before newcomers are told of, so that none of these begins on the reserved CPUs while nobody requests others."""
    ledger = turn.ledger
    if ledger.ending:
        return False
    names = {seen.group.path: name for name, seen in turn.there.items()}
    why_gone = {name: why_forgotten(turn, stranger, names.get(stranger.path)) for name, stranger in ledger.strangers.items()}
    gone = [(name, ledger.strangers[name], why) for name, why in why_gone.items() if why]
    for name, stranger, why in gone:
        line = f"forget {name}"
        reply = yield from ask(ledger, Ask(line))
        if reply.fault not in (None, NO_STRANGER):
            raise Refused(f"numarun: {reply.first!r} to {line!r}")
        del ledger.strangers[name]
        yield Unlink(name)
        yield Say(f"forgotten {stranger.path}: {why}")
    return bool(gone)


def why_forgotten(turn: Turn, stranger: Stranger, name: Optional[str]) -> Optional[str]:
    """Why a group's CPUs count again, if they do: of one that has this name by now."""
    if stranger.path in turn.owners:
        return f"it is that of {turn.ledger.title(turn.owners[stranger.path])}"
    if not turn.runs(stranger.path, stranger.inode):
        return "there is no process in it any more"
    if not has_some(turn, stranger.path):
        return "it requests no CPUs that a plan may give"
    if name is not None and turn.ledger.is_refused(name, turn.there[name]):
        return "its container is refused"
    return None


# Whom it keeps others off.


def has_some(turn: Turn, path: str) -> bool:
    """Whether a group requests CPUs that a plan may give to others, or all."""
    group = turn.look.group(path)
    return group is not None and (not group.cpus or bool(group.cpus - turn.ledger.reserved))


def is_own(ledger: Ledger, stranger: Stranger) -> bool:
    """Whether it had CPUs of its own: one with reserved ones is on the pool, which would be withheld with its CPUs."""
    return not stranger.cpus & (ledger.reserved | ledger.settings.machine.reserved)


def is_withheld(turn: Turn, path: str) -> bool:
    """Whether no plan gives away what this group requests by now, and leaves the pool to the others."""
    group = turn.look.group(path)
    return group is not None and any(keeps(turn.ledger, stranger, group) for stranger in turn.ledger.strangers.values())


def keeps(ledger: Ledger, stranger: Stranger, group: Group) -> bool:
    is_it = (stranger.path, stranger.inode) == (group.path, group.inode)
    return is_it and is_own(ledger, stranger) and bool(group.cpus) and group.cpus <= stranger.cpus


def not_withheld(turn: Turn, paths: Iterable[str]) -> List[str]:
    """Those of these groups of which a plan might give the CPUs to others."""
    return [path for path in paths if not is_withheld(turn, path)]


def withheld(turn: Turn) -> Cpus:
    """The CPUs that run and that no plan gives away: those that strangers had as their own, but for who comes."""
    ledger = turn.ledger
    has = (stranger.cpus for stranger in ledger.strangers.values() if stranger.path not in turn.coming and is_own(ledger, stranger))
    return NO_CPUS.union(*has) & ledger.running
