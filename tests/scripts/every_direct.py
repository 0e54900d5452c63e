"""All direct hand-overs of three containers on five CPUs: `every_direct.py PROGRAM`. CPU 0 is reserved. Containers that ask for CPUs of
their own begin on any of the others, each on its own or on the reserved one alone, and are to have any; those that share begin on any
CPUs that are left, and are to have the pool. The plan is made to be the wanted one: each CPU is a node, and a container's homes are
its targets, so that no other plan is as near; or else it is allowed no other CPU. Who is written by each step, and with what, says
`direct_order`, and what all three request is asked for behind each step. In a last part of them a CPU goes offline behind the plan."""

import itertools
import json
import os
import sys
import tempfile
from collections import Counter
from functools import lru_cache
from typing import Dict, FrozenSet, Iterator, List, NamedTuple, Optional, Tuple

from direct_order import Cpus, HandOver, Host, Live, Write
from second_runtime import print_list
from transcripts import config, place, run

NAMES, RESERVED, FREE = "abc", frozenset({0}), (1, 2, 3, 4)
ALL = RESERVED.union(FREE)
CORES = [frozenset({cpu}) for cpu in sorted(ALL)]
MACHINE = {"nodes": [str(cpu) for cpu in sorted(ALL)], "reserved": "0", "distances": [[10 if i == j else 20 for j in ALL] for i in ALL]}
BATCH = 8_000  # hand-overs in a script
# How often one is squeezed onto the reserved CPU where all ask for CPUs of their own and all are online, as a third program counted
# it, over bit masks: where they are allowed all CPUs, and where they are allowed their targets alone.
SQUEEZED = {"near": 540, "only": 1056}

Sets = Tuple[Cpus, ...]
Counts = Dict[str, int]


class Case(NamedTuple):
    """A hand-over. `own` says who asks for CPUs of its own, and `roomy` whether these are allowed others than their targets."""

    own: Tuple[bool, ...]
    starts: Sets
    targets: Sets
    roomy: bool = True
    gone: Optional[int] = None

    @property
    def online(self) -> Cpus:
        return ALL - {self.gone}

    @property
    def allowed(self) -> Sets:
        return tuple(ALL - RESERVED if self.roomy else target for target in self.targets)

    def homes(self, k: int) -> Cpus:
        return self.targets[k] if self.own[k] and self.roomy else ALL

    def bundle(self, k: int) -> str:
        return f"{'near' if self.roomy else 'only'}-{listed(self.targets[k])}" if self.own[k] else "shared"


def bundles() -> Dict[str, bytes]:
    found = {"shared": config({})}
    for cpus in subsets():
        if cpus:
            found[f"near-{print_list(cpus)}"] = config({"quota": 100_000 * len(cpus), "mems": print_list(cpus)})
            found[f"only-{print_list(cpus)}"] = config({"cpus": print_list(cpus)})
    return found


# The hand-overs.


def subsets() -> Iterator[FrozenSet[int]]:
    for size in range(len(FREE) + 1):
        yield from map(frozenset, itertools.combinations(FREE, size))


def dealt(takers: Tuple[Tuple[int, ...], ...]) -> Iterator[Sets]:
    """All ways to deal the CPUs: each goes to those of one of these groups of containers."""
    for choice in itertools.product(takers, repeat=len(FREE)):
        yield tuple(frozenset(cpu for cpu, group in zip(FREE, choice) if k in group) for k in range(len(NAMES)))


def hand_overs(own: Tuple[bool, ...], roomy: bool = True) -> Iterator[Case]:
    """Those where these ask for CPUs of their own. A CPU may be with one of them, with any of those who share, or with nobody."""
    mine = [(k,) for k in range(3) if own[k]]
    ours = [k for k in range(3) if not own[k]]
    shared = [group for size in range(len(ours) + 1) for group in itertools.combinations(ours, size)]
    plans = [sets for sets in dealt((*mine, ())) if all(sets[k] for k in range(3) if own[k])]
    for starts, plan in itertools.product(dealt((*mine, *shared)), plans):
        pool = ALL.difference(*plan)
        begin = (cpus if is_own and cpus else cpus | RESERVED for is_own, cpus in zip(own, starts))
        yield Case(own, tuple(begin), tuple(cpus if is_own else pool for is_own, cpus in zip(own, plan)), roomy)


def kinds() -> Iterator[Tuple[str, Iterator[Case]]]:
    everyone = (True, True, True)
    yield "near", hand_overs(everyone)
    yield "only", hand_overs(everyone, roomy=False)
    yield "gone", (case._replace(gone=FREE[number % len(FREE)]) for number, case in enumerate(hand_overs(everyone)))
    for own in itertools.product((True, False), repeat=3):
        if True in own and False in own:
            yield "shared", hand_overs(own)


# What is asked and answered.


@lru_cache(maxsize=None)
def listed(cpus: Cpus) -> str:
    return print_list(cpus)


@lru_cache(maxsize=None)
def due(own: Tuple[bool, ...], requests: Sets, targets: Sets, allowed: Sets, online: Cpus) -> Optional[Write]:
    return HandOver([Live(*one) for one in zip(own, requests, targets, allowed)], Host(RESERVED, online, CORES)).due()


@lru_cache(maxsize=None)
def outcome(own: Tuple[bool, ...], targets: Sets) -> str:
    held = {name: cpus for name, is_own, cpus in zip(NAMES, own, targets) if is_own}
    holds = "".join(f"hold {name} {listed(cpus)}\n" for name, cpus in held.items())
    pool = ALL.difference(*held.values())
    return f"plan total {10 * sum(map(len, held.values()))}\n{holds}pool {listed(pool)}\nend"


@lru_cache(maxsize=None)
def shown(requests: Cpus, online: Cpus, homes: Cpus) -> str:
    return "cpus {} effective {} mems {} effective {}".format(*map(listed, (requests, requests & online or online, homes, homes)))


Line = Tuple[str, str]


def steps(case: Case, seen: Counts) -> Iterator[Line]:
    """The steps of a hand-over, and what the containers request behind each."""
    own, requests, targets, allowed, online = case.own, case.starts, case.targets, case.allowed, case.online
    homes = [case.homes(k) for k in range(3)]
    write = due(own, requests, targets, allowed, online)
    while True:
        if write:
            k, cpus = write
            seen["squeezed"] += own[k] and cpus == RESERVED
            requests = (*requests[:k], cpus, *requests[k + 1:])
            write = due(own, requests, targets, allowed, online)
        seen["steps"] += 1
        yield "step", "more" if write else "done"
        for name, cpus, home in zip(NAMES, requests, homes):
            yield f"sets {name}", shown(cpus, online, home)
        if not write:
            break
    assert requests == targets, case


def dialogue(case: Case, pid: int, seen: Counts) -> Iterator[Line]:
    """Each line of a hand-over, from nothing and to nothing, with its answer."""
    for k, name in enumerate(NAMES):
        yield f"adopt {name} {case.bundle(k)} {listed(case.starts[k])}", f"pid {pid + k}"
    yield "begin direct", outcome(case.own, case.targets)
    if case.gone:
        yield f"offline {case.gone}", "ok"
    yield from steps(case, seen)
    if case.gone:
        yield f"online {case.gone}", "ok"
    for name in NAMES:
        yield f"kill {name} KILL", "ok"
        yield f"delete {name}", "ok"


def told_apart(cases: List[Case], found: str) -> str:
    """The hand-over whose answers are others, with its lines up to there."""
    at = 0
    for number, case in enumerate(cases):
        said: List[str] = []
        for line, answer in dialogue(case, 2 + 3 * number, Counter()):
            said.append(line)
            if not found.startswith(f"{answer}\n", at):
                return f"{case}\n{said}\nexpected {answer!r}, found {found[at:][:100]!r}"
            at += len(answer) + 1
    return f"more than was asked for: {found[at:][:1000]!r}"


def compared(program: str, words: List[str], cases: List[Case], seen: Counts) -> None:
    lines = [line for number, case in enumerate(cases) for line in dialogue(case, 2 + 3 * number, seen)]
    done = run(program, words, "".join(f"{line}\n" for line, _ in lines).encode())
    if done.stdout != "".join(f"{answer}\n" for _, answer in lines).encode() or done.returncode or done.stderr:
        sys.exit(f"every_direct: {told_apart(cases, done.stdout.decode())}\nstatus {done.returncode}, {done.stderr[:1000]!r}")


def main(program: str) -> None:
    told: Counts = {}
    program = os.path.abspath(program)
    with tempfile.TemporaryDirectory() as folder:
        os.chdir(folder)
        words = place(json.dumps(MACHINE).encode(), None, bundles())
        for kind, cases in kinds():
            seen: Counts = Counter()
            while batch := list(itertools.islice(cases, BATCH)):
                compared(program, words, batch, seen)
                seen["hand-overs"] += len(batch)
            if seen["squeezed"] != SQUEEZED.get(kind, seen["squeezed"]):
                sys.exit(f"every_direct: {kind}: {seen['squeezed']} were squeezed, not {SQUEEZED[kind]}")
            told = {name: told.get(name, 0) + count for name, count in seen.items()}
        os.chdir("/")
    print("every_direct:", ", ".join(f"{told[name]} {name}" for name in ("hand-overs", "steps", "squeezed")))


if __name__ == "__main__":
    main(*sys.argv[1:])
