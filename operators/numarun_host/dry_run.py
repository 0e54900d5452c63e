"""Says where a container would go, and what it would move, and changes nothing: of BUNDLE, or of what --cpus, --cpuset-cpus and
--cpuset-mems ask for, in podman's words.

One that names no nodes of memory gets a home as the agent gives it, unless --home none says otherwise.

Beside it are the containers that --after tells, the commands for `numarun run` so far, or those that --running names, a folder of
bundles as the agent's --watch has it, which get a plan first. Neither knows what stands in a kernel: of containers whose CPUs
are others than this plan's, others may move. The status is 0 where it has a place, and 1 where it has none; then it says what
would make room, as numarun-explain does."""

from __future__ import annotations

import argparse
import json
import os
import sys
import tempfile
from dataclasses import dataclass
from typing import Dict, List, Optional

from .answers import Answers, Plan
from .configs import NEAR, Config, Pin, asked, cpus_allowed, housed, is_left_out, nodes_named, parse_text, shared, wish_of
from .cpus import NO_CPUS, Cpus, counted, print_list, read_list
from .devices import node_of_device
from .explain import explain, laid_out
from .homes import home_of, why_there
from .machine import Machine
from .memory import free_memory
from .names import Names
from .pool import POOL_LEAST, is_pool_least, pool_least_of
from .program import Run
from .script import BYTES, Refused, check_program, find_program, read_text
from .sources import ROOT, is_word
from .states import kept_in

EXAMPLE = """examples, from the top of the repository:
  operators/numarun-dry-run examples/machines/two-socket.json examples/bundles/real-time --after examples/scripts/a-cpu-goes
  operators/numarun-dry-run host.json --cpus 4 --cpuset-mems 1 --running /run/crun --online /sys/devices/system/cpu/online"""


@dataclass(frozen=True)
class Housed:
    """A bundle as the agent would tell it, the home that it would give it, and why."""

    bundle: str
    home: Optional[Cpus] = None
    why: str = ""


@dataclass
class Rehearsal:
    """An open run, the machine that it is over, the CPUs of it that are there, and a folder for configs."""

    words: argparse.Namespace
    machine: Machine
    numarun: Run
    folder: str
    there: Cpus


def asked_for(words: argparse.Namespace, folder: str) -> str:
    """The bundle that is asked about, which is made where it is told by options."""
    told = {"cpus": words.cpuset_cpus, "mems": words.cpuset_mems}
    section: Dict[str, object] = {name: text for name, text in told.items() if text is not None}
    if words.cpus is not None:
        section.update(quota=max(1, round(words.cpus * 100000)), period=100000)
    if words.bundle is not None:
        if section or words.near is not None:
            raise Refused("a bundle tells what it asks for, so that no option can")
        return str(words.bundle)
    if not section:
        raise Refused("no container: name its bundle, or what it asks for (see --help)")
    config: Dict[str, object] = {"ociVersion": "1.0.2", "root": {"path": "rootfs"}, "linux": {"resources": {"cpu": section}}}
    if words.near is not None:
        config["annotations"] = {NEAR: words.near}
    with open(os.path.join(folder, "config.json"), "w") as file:
        json.dump(config, file)
    return folder


def with_home(rehearsal: Rehearsal, before: Dict[str, Cpus], bundle: str) -> Housed:
    """The bundle as the agent would tell it: with a home, where it would give it one, or as one that is shared by --pin. A shared container has
    reserved CPUs, so that the others are those of pinned ones."""
    machine, words = rehearsal.machine, rehearsal.words
    try:
        config = parse_text(read_text(os.path.join(bundle, "config.json"), BYTES), bundle)
        count, rather = (asked(config, rule, machine) for rule in (Pin(words.pin), Pin.ALL))
        free = (rehearsal.there - machine.reserved).difference(*(cpus for cpus in before.values() if not cpus & machine.reserved))
        free &= cpus_allowed(config, machine.present)
    except Refused:
        return Housed(bundle)  # numarun refuses it
    if count is None and (rather is not None or is_left_out(config)):
        return Housed(written(rehearsal, shared(config).config))
    if words.home == "none" or not count:
        return Housed(bundle)
    device = wish_of(config, NEAR)
    near = node_of_device(device) if device is not None and not nodes_named(config) else None
    home = home_of(machine, config, count, free, free_memory(words.nodes, machine) if words.nodes else {})
    home = frozenset({near}) if near is not None and near < len(machine.nodes) > 1 else home
    if not home or home == frozenset(machine.node_of.values()):
        return Housed(bundle)
    return Housed(written(rehearsal, housed(config, home)), home, why_there(device, near, home))


def written(rehearsal: Rehearsal, config: Config) -> str:
    """A bundle with this config."""
    made = tempfile.mkdtemp(dir=rehearsal.folder)
    with open(os.path.join(made, "config.json"), "w") as file:
        json.dump(config, file)
    return made


def tell_all(numarun: Run, script: str) -> None:
    """Tells the commands of a script, and ends a hand-over that it leaves open."""
    for at, line in enumerate(read_text(script).split("\n"), 1):
        if line.split():
            answer = numarun.ask(line)[0]
            if answer.startswith("refused E"):
                raise Refused(f"{'standard input' if script == '-' else script}: line {at}: {answer}: {line.strip()[:60]!r}")
    while numarun.ask("phase") == ["underway"]:
        numarun.ask("step")


def create_all(rehearsal: Rehearsal) -> None:
    """Makes the containers of a folder of bundles, or of a runtime's state, each with a home if it names none."""
    numarun, running = rehearsal.numarun, rehearsal.words.running
    try:
        names = sorted(os.listdir(running))
    except OSError as why:
        raise Refused(f"{running}: {why.strerror}") from None
    for name in names:
        folder = os.path.join(running, name)
        kept = kept_in(folder, ROOT)
        if kept and is_word(name):
            answer = kept.fault or numarun.ask(f"create {name} {with_home(rehearsal, requested(numarun), kept.bundle).bundle}")[0]
            if kept.fault or answer.startswith("refused"):
                print(f"{os.path.basename(sys.argv[0])}: passed over: {folder}: {answer}", file=sys.stderr)
            elif rehearsal.words.home != "none":
                numarun.ask("rebalance")  # the home of the next one is by what this one has


def set_up(rehearsal: Rehearsal) -> None:
    words, machine, numarun = rehearsal.words, rehearsal.machine, rehearsal.numarun
    if words.online is not None:
        online = read_list(read_text(words.online), words.online)
        rehearsal.there = machine.present & online | machine.reserved
        for cpu in sorted(machine.present - machine.reserved):
            numarun.ask(f"{'online' if cpu in online else 'offline'} {cpu}")
    if words.after is not None:
        tell_all(numarun, words.after)
    if words.running is not None:
        create_all(rehearsal)
        outcome = numarun.ask("rebalance")
        if outcome[0].startswith("short"):
            raise Refused(f"{words.running}: these have no plan themselves: {' '.join(outcome[:-1])}")


def requested(numarun: Run) -> Dict[str, Cpus]:
    """What each live container requests."""
    found = {}
    for line in numarun.ask("list")[:-1]:
        name, status = line.split(" ")
        if status != "stopped":
            found[name] = read_list(numarun.ask(f"sets {name}")[0].split(" ")[1], name)
    return found


def where(name: str, plan: Plan, before: Dict[str, Cpus], told: Housed) -> List[str]:
    """What a plan with the newcomer says of it and of the others."""
    titles = Names().titles(before)
    if name in plan.holds:
        lines = [f"{name} would have {print_list(plan.holds[name])}: {counted(len(plan.holds[name]))}, distance {plan.distance(name)}"]
        lines += [f"  far: {print_list(cpus)} at {distance}" for distance, cpus in sorted(plan.far(name).items())]
        lines += [f"its home would be node{'s' * (len(told.home) > 1)} {print_list(told.home)}{told.why}"] if told.home else []
    else:
        lines = [f"{name} asks for no CPUs of its own, and would run on the pool: {print_list(plan.pool or NO_CPUS)}"]
    moved = 0
    for other, cpus in plan.holds.items():
        if other != name and cpus != before[other]:
            moved += len(cpus - before[other])
            lines.append(f"{titles.get(other, other)} would give {print_list(before[other] - cpus)} and get {print_list(cpus - before[other])}")
    return lines + [f"total distance: {plan.total}; {counted(moved)} of the others would move"]


def try_it(rehearsal: Rehearsal, bundle: str) -> int:
    set_up(rehearsal)
    words, numarun = rehearsal.words, rehearsal.numarun
    before = requested(numarun)
    told = with_home(rehearsal, before, bundle)
    name = words.id or next(name for name in ["new"] + [f"new-{k}" for k in range(2, 9999)] if name not in before)
    answer = numarun.ask(f"create {name} {told.bundle}")[0]
    if answer.startswith("refused"):
        raise Refused(f"{told.bundle if words.bundle else 'what is asked for'}: {answer}")
    outcome = numarun.ask("begin")
    if outcome[0].startswith("refused"):
        raise Refused(f"{numarun.program}: {outcome[0]}")
    answers = Answers(numarun.program, rehearsal.machine, outcome + numarun.ask("certificate"))
    plan = answers.outcomes[0]
    least = pool_least_of(words.pool_least, rehearsal.machine)
    if isinstance(plan, Plan) and name in plan.holds and len(plan.pool or NO_CPUS) < least:
        left = counted(len(plan.pool or NO_CPUS))
        print(laid_out([f"{name} has no place: it would leave {left} to the pool, and that keeps {least} (see --pool-least)"]))
        return 1
    if isinstance(plan, Plan):
        print(laid_out(where(name, plan, before, told)))
        return 0
    print(laid_out([f"{name} has no place", *explain(answers.certificates[0], rehearsal.machine)]))
    return 1


def words_of() -> argparse.Namespace:
    parser = argparse.ArgumentParser(description=__doc__, epilog=EXAMPLE, formatter_class=argparse.RawDescriptionHelpFormatter)
    parser.add_argument("machine", metavar="MACHINE", help="the machine file")
    parser.add_argument("bundle", nargs="?", metavar="BUNDLE", help="a folder with its config.json")
    parser.add_argument("--cpus", type=float, metavar="N", help="how many CPUs it asks for")
    parser.add_argument("--cpuset-cpus", metavar="LIST", help="the CPUs that it may have")
    parser.add_argument("--cpuset-mems", metavar="LIST", help="the nodes of its memory")
    parser.add_argument("--near", metavar="NAME", help="the network interface, block device or PCI address that it wants to be near")
    parser.add_argument("--home", choices=("free", "none"), default="free", help="which nodes one has that names none, as the agent's --home (%(default)s)")
    parser.add_argument("--nodes", metavar="FOLDER", help="where the kernel tells the free memory of each node, as /sys/devices/system/node, "
                        "which it is with --running")
    parser.add_argument("--pin", choices=[rule.value for rule in Pin], default=Pin.WHOLE.value, help="who gets CPUs of its own, as the agent's "
                        "--pin (%(default)s)")
    parser.add_argument("--pool-least", default=POOL_LEAST, metavar="N", help="how many CPUs are left to the pool, as the agent's (%(default)s)")
    parser.add_argument("--id", metavar="ID", help="its id, if not new")
    beside = parser.add_mutually_exclusive_group()
    beside.add_argument("--after", metavar="SCRIPT", help="the commands that were told so far; - is standard input")
    beside.add_argument("--running", metavar="FOLDER", help="the bundles of what runs, by their ids")
    parser.add_argument("--online", metavar="FILE", help="the kernel's list of online CPUs")
    parser.add_argument("--slit", metavar="FILE", help="the distance table, where MACHINE has no distances")
    parser.add_argument("--program", default=find_program(), metavar="PATH", help="numarun, if it is not the one that is built or installed here")
    words = parser.parse_intermixed_args()
    if words.cpus is not None and not 0 < words.cpus <= 4096:
        parser.error("--cpus is above 0, and 4096 at most")
    if not is_pool_least(words.pool_least):
        parser.error("--pool-least is a number of CPUs, or of percents")
    if words.running is not None and words.nodes is None:
        words.nodes = "/sys/devices/system/node"
    return words


def main() -> int:
    words = words_of()
    machine = Machine(words.machine)
    check_program(words.program)
    with tempfile.TemporaryDirectory(prefix="numarun-") as folder:
        bundle = asked_for(words, folder)
        numarun = Run(words.program, words.machine, words.slit)
        try:
            return try_it(Rehearsal(words, machine, numarun, folder, machine.present - machine.offline), bundle)
        finally:
            numarun.close()
