"""What is decided at a look. `decide` takes what the agent knows and what a look found. It yields what is to be done, is sent what came of
it, and ends with what the agent knows by then. It opens no file, starts nothing, and has no clock but the look's."""

from __future__ import annotations

from typing import Dict, List, Optional, Sequence, Set, Tuple, Union

from .changes import end_those_gone, follow_all, keep_lists, mend_all, undo_late_writes
from .commands import Ask, Command, LeaveFigures, LeaveState, Level, SaveTaken, Say, Start, Steps
from .cpus import Cpus, print_list
from .gathering import gather_all
from .ledger import Kind, Ledger, State, Topic, report, say_unsaid
from .lifting import lift_all
from .machine import Machine
from .newcomers import is_held_up, take_all
from .partitioning import keep_partition, say_loose
from .plans import arrange
from .reports import is_news, status_of
from .script import Refused
from .seen import Folder, Look
from .sightings import see_all
from .slices import let_go
from .strangers import ask_whether_withheld, let_go_of_strangers, shown_at_start
from .telling import Turn, ask

NO_FOLDER = ""  # of no folder's path
FIGURES_PAUSE = 5.0  # seconds


def decide(before: Ledger, look: Look) -> Steps[Ledger]:
    """A look that finds just what the last one found, behind which nothing was to be done, is no work: it would be decided as that was."""
    ledger = before.copy()
    count_seconds(ledger, look.now)
    if look != before.rest:
        did = yield from tell_whether(work_through(ledger, look))
        ledger.rest = None if did or ledger.pauses or not ledger.stands_as(before) else look
    if ledger.settings.figures:
        yield from leave_figures(ledger, look.now)
    if ledger.has_tree and is_news(before, ledger):
        yield from leave_for_others(ledger, LeaveState(status_of(ledger)), "state")
    return ledger


def tell_whether(steps: Steps[None]) -> Steps[bool]:
    """Does these steps, and tells whether there was one."""
    did = False
    try:
        command = next(steps)
        while True:
            did = True
            command = steps.send((yield command))
    except StopIteration:
        return did


def work_through(ledger: Ledger, look: Look) -> Steps[None]:
    """All that is decided of containers, groups and CPUs by what a look found."""
    ledger.titles = look.titles
    turn = Turn(ledger, look)
    yield from say_what_was_told(turn)
    reserved = reserved_of(ledger.settings.machine, look.online.running, ledger.reserved)
    if not ledger.started or ledger.spent or reserved != ledger.reserved:
        happened = yield from start(turn, reserved)
    else:
        happened = yield from tell_events(turn)
    yield from see_all(turn)
    yield from gather_all(turn)
    ended = yield from end_those_gone(turn)
    yield from mend_all(turn)
    followed = yield from follow_all(turn)
    forgotten = yield from let_go_of_strangers(turn)
    taken = yield from take_all(turn)
    yield from undo_late_writes(turn, ended)
    if happened or ended or followed or forgotten or taken:
        ledger.due = True
        ledger.end_pause("plan")
    if not ledger.ending:
        yield from settle_the_rest(turn)
    yield from leave(turn)


def settle_the_rest(turn: Turn) -> Steps[None]:
    """Mends the partition, lets go of the system's groups that are above pinned containers, and of strangers, works out a plan, where one is due, and
    lifts limits."""
    ledger = turn.ledger
    yield from keep_partition(turn, is_planned=False)
    if ledger.has_tree:
        yield from let_go(turn)
    if (yield from let_go_of_strangers(turn)):
        ledger.due = True
        ledger.end_pause("plan")
    if ledger.unmade and ledger.is_over("update", "", turn.now):
        ledger.due, ledger.unmade = True, False
    ledger.due = ledger.due or ledger.untried and ledger.is_over("room", "", turn.now)
    if ledger.due and ledger.is_over("plan", "", turn.now) and not (yield from is_held_up(turn)):
        yield from arrange(turn)
    if ledger.has_tree:
        yield from lift_all(turn)
    yield from keep_partition(turn, is_planned=True)
    yield from say_loose(ledger, turn.look.partition.loose if turn.look.partition else ())


def leave(turn: Turn) -> Steps[None]:
    """Keeps what was taken."""
    ledger = turn.ledger
    keep_lists(turn)
    held = {container.seen.group.path for container in ledger.containers.values()}
    for path, taken in list(ledger.taken.items()):
        group = turn.look.group(path)
        if path not in held and path in turn.look.groups and (group is None or group.inode != taken.inode):
            del ledger.taken[path]
            turn.unsaved = True
    ledger.before = {name: before for name, before in ledger.before.items() if name in turn.there or name in turn.look.told}
    if turn.unsaved:
        yield SaveTaken(ledger.all_taken)


def leave_figures(ledger: Ledger, now: float) -> Steps[None]:
    """Leaves the figures where they are others, and else now and then, since each time the system writes to its disk."""
    figures = figures_of(ledger)
    if ledger.left is None or figures != ledger.left[1] or now - ledger.left[0] >= FIGURES_PAUSE:
        yield from leave_for_others(ledger, LeaveFigures(figures), ledger.settings.figures)
        ledger.left = now, figures


def leave_for_others(ledger: Ledger, command: Union[LeaveFigures, LeaveState], of: str) -> Steps[None]:
    why = (yield command).why
    if why:
        yield from report(ledger, Topic.RECORD, of, Kind.FAILED, why)
    else:
        ledger.settle(Topic.RECORD, of)


def figures_of(ledger: Ledger) -> Dict[str, float]:
    states = [container.state for container in ledger.containers.values()]
    pinned, waiting = sum(state.is_pinned for state in states), states.count(State.WAITING)
    squeezed = squeezed_of(ledger)
    return {**ledger.counts, **ledger.times, "containers_pinned": pinned, "containers_waiting": waiting, "containers_shared": len(states) - pinned - waiting,
            "containers_squeezed": len(squeezed), "undone": len(ledger.problems),
            "partition_valid": 0 if ledger.problem(Topic.PARTITION) else 1, "loose_processes": len(ledger.loose)}


def squeezed_of(ledger: Ledger) -> Set[str]:
    """Pinned containers that have not what they were given."""
    return {of for topic, of in ledger.problems if topic in (Topic.DRIFT, Topic.SQUEEZED) and of in ledger.containers
            and ledger.containers[of].state.is_pinned}


def count_seconds(ledger: Ledger, now: float) -> None:
    """Adds up how long those waited who did, and were squeezed."""
    passed = now - ledger.looked if ledger.looked is not None else 0.0
    ledger.looked = now
    ledger.times["waited_seconds_total"] += passed * sum(container.state is State.WAITING for container in ledger.containers.values())
    ledger.times["squeezed_seconds_total"] += passed * len(squeezed_of(ledger))


# What was told.


def say_what_was_told(turn: Turn) -> Steps[None]:
    """What is wrong with what was told, and with where it is told."""
    ledger, look = turn.ledger, turn.look
    for line in look.wrong:
        yield Say(f"refused: {line}", Level.WARNING)
        ledger.wrong = True
    settle_others(ledger, Topic.LOOK, [unread.path for unread in look.unread])
    for unread in look.unread:
        yield from report(ledger, Topic.LOOK, unread.path, Kind.FAILED, f"{unread.line}; looks again")
    settle_others(ledger, Topic.DOUBLE, [double.folder for double in look.doubles])
    for double in look.doubles:
        text = f": its id is told by {double.other} too: {ledger.title(double.name)} {double.folder}"
        yield from report(ledger, Topic.DOUBLE, double.folder, Kind.REFUSED, text)
    yield from say_silent(ledger, look.folders)
    if look.pool_command:
        yield from say_pool_end(ledger, look.pool_command, look.pool_fault)


def settle_others(ledger: Ledger, topic: Topic, left: Sequence[str]) -> None:
    """Under this topic nothing is left undone but of these."""
    for _, of in [key for key in ledger.problems if key[0] is topic and key[1] not in left]:
        ledger.settle(topic, of)


def say_pool_end(ledger: Ledger, command: str, fault: Optional[str]) -> Steps[None]:
    """How the command of --pool ended."""
    ledger.settle(Topic.POOL)
    if fault:
        yield from report(ledger, Topic.POOL, "", Kind.FAILED, f"{command}: {fault}")


def say_silent(ledger: Ledger, folders: Tuple[Folder, ...]) -> Steps[None]:
    """Says once of a watched folder that it is not there, or that at two looks none of its entries was a container. Runtimes that are not
    there are named together, at the first look."""
    silent: Dict[str, Tuple[int, str]] = {NO_FOLDER: (1, "")} if folders else {}
    lacking = ", ".join(folder.path for folder in folders if folder.by_runtime and not folder.there)
    if lacking and NO_FOLDER not in ledger.silent:
        yield Say(f"note no such folders yet: {lacking}", Level.NOTICE)
    for folder in folders:
        why = "no such folder yet" if not folder.there and not folder.by_runtime else ""
        if folder.entries and not folder.containers:
            several = f"none of its {folder.entries} entries is a container, as {folder.stranger}"
            why = several if folder.entries > 1 else f"its 1 entry is no container, as {folder.stranger}"
        if why:
            kind = "there" if folder.there else "not there"
            count, before = ledger.silent.get(folder.path, (0, ""))
            silent[folder.path] = (count + 1 if before == kind else 1), kind
            if silent[folder.path][0] == (2 if folder.there else 1):
                yield Say(f"note {folder.path}: {why}", Level.NOTICE)
    ledger.silent = silent


def tell_events(turn: Turn) -> Steps[bool]:
    """Tells of CPUs that went or came; whether a plan is to be worked out."""
    ledger, online = turn.ledger, turn.look.online
    there = online.running | ledger.reserved
    events = [*turn.look.events, *(f"offline {cpu}" for cpu in sorted(ledger.shown - there)),
              *(f"online {cpu}" for cpu in sorted(there - ledger.shown))]
    ledger.shown = there
    for event in events:
        yield from tell_event(ledger, event)
    yield from say_notes(turn)
    return bool(events)


def tell_event(ledger: Ledger, event: str) -> Steps[None]:
    kind, _, cpu = event.partition(" ")
    if not cpu:
        return
    reply = yield from ask(ledger, Ask(event))
    yield Say(event if reply.first == "ok" else f"{reply.first}: {event}")
    if reply.first == "ok":
        ledger.switched[int(cpu)] = kind
        ledger.running = ledger.running | {int(cpu)} if kind == "online" else ledger.running - {int(cpu)}
        ledger.came = ledger.came | {int(cpu)} if kind == "online" else ledger.came - {int(cpu)}
    else:
        ledger.wrong = True


def say_notes(turn: Turn) -> Steps[None]:
    """Says what is left alone of the machine, or is otherwise than in its file."""
    ledger, online, machine = turn.ledger, turn.look.online, turn.ledger.settings.machine
    off, notes = machine.reserved - online.running, []
    if online.strange:
        notes.append(f"CPUs {print_list(online.strange)} are left alone: the machine file has none of them")
    if online.apart:
        notes.append(f"CPUs {print_list(online.apart)} are left alone: they are online, and not in effect in {ledger.settings.root}")
    if off:
        others = f", and {print_list(ledger.reserved)} are reserved in place of them" if ledger.reserved != machine.reserved else ""
        notes.append(f"of the reserved CPUs {print_list(off)} are not there{others}")
    for note in notes:
        if note not in ledger.notes:
            yield Say(f"note {note}", Level.NOTICE)
    ledger.notes = tuple(notes)


# The start.


def reserved_of(machine: Machine, running: Cpus, before: Cpus) -> Cpus:
    """The reserved CPUs: the machine file's, or where all of these are off those of the lowest core that is there."""
    cores = sorted(machine.cores_in(running)) or sorted(machine.core_of[cpu] for cpu in running)
    if machine.reserved & running or not cores:
        return machine.reserved
    return before if before & running else machine.cores[cores[0]]


def start(turn: Turn, reserved: Cpus) -> Steps[bool]:
    """Opens a run over the machine as it is now, which takes up all that is there; whether it was asked for a plan besides."""
    ledger, look, machine = turn.ledger, turn.look, turn.ledger.settings.machine
    if not look.online.running:
        where = f", or in effect in {ledger.settings.root}" if ledger.has_tree else ""
        raise Refused(f"{ledger.settings.path}: none of its CPUs is there{where}")
    off = [f"offline {cpu}" for cpu, switch in ledger.switched.items() if look.online.is_fixed and switch == "offline"]
    if ledger.started:
        ledger.before = {name: (container.seen.group.path, container.state.is_pinned) for name, container in ledger.containers.items()}
        ledger.due = True
    ledger.reserved, ledger.running, ledger.shown = reserved, look.online.running, look.online.running | reserved
    ledger.came = ledger.running
    ledger.known = frozenset(ledger.taken)
    ledger.containers, ledger.refused, ledger.blocking, ledger.switched, ledger.pauses = {}, {}, {}, {}, {}
    ledger.pool = ledger.tried = None
    ledger.spent = ledger.unmade = ledger.untried = False
    ledger.started = turn.unsaved = True
    ledger.strangers = shown_at_start(turn)
    groups = {name: stranger.path for name, stranger in ledger.strangers.items()}
    yield Start(reserved, machine.present - ledger.shown, ledger.shown, ledger.memory, groups)
    yield from ask_whether_withheld(ledger)
    yield from say_notes(turn)
    for event in [*off, *look.events]:
        yield from tell_event(ledger, event)
    return bool(look.events)


# The end, and what hooks are answered.


def at_the_end(ledger: Ledger, told_to_end: bool) -> List[Command]:
    due = say_due(ledger) if told_to_end and ledger.due else []
    return [*say_unsaid(ledger), *due, *([LeaveState(status_of(ledger), ended=True)] if ledger.has_tree else [])]


def say_due(ledger: Ledger) -> List[Command]:
    """Says what is left to the next agent."""
    if ledger.tried is not None:
        return [Say("note the hand-over to the last plan has not ended: the next agent takes it up", Level.NOTICE)]
    return [Say("note a plan is due: the next agent begins with it", Level.NOTICE)]


def answer_to_hook(ledger: Ledger, name: str) -> Optional[Dict[str, str]]:
    """What a hook is answered of a container; nothing as long as that is not decided."""
    container = ledger.containers.get(name)
    if container is None or container.state.is_bare:
        problems = [ledger.problems.get((topic, name)) for topic in (Topic.CONTAINER, Topic.DEMAND)]
        problem = next((problem for problem in problems if problem and problem.kind in (Kind.REFUSED, Kind.FAILED)), None)
        return {"answer": problem.kind.value, "text": problem.line} if problem else None
    if container.state is State.WAITING:
        problem = ledger.problems.get((Topic.ROOM, name))
        return {"answer": "no place", "text": f"no place {problem.line}"} if problem else None
    if ledger.due or container.state is State.ASKING or container.cpus is None:
        return None
    answer = "pinned" if container.state.is_pinned else "shared"
    return {"answer": answer, "text": f"{answer} {name} {print_list(container.cpus)}"}
