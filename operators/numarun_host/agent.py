"""An agent that keeps one `numarun run MACHINE --cgroup` open, tells it what happens on a machine, and says what came of it.
All writes for containers are numarun's; without --cgroup there are none, and the plans alone are told. Events come from standard
input, a line each:
  created ID BUNDLE [GROUP]  a container runs, of the bundle in this folder, in this group below the tree's root
  ended ID                   it is gone
  offline CPU, online CPU    a CPU went or came
  rebalance                  work the plan out anew
or, with --runtime or --watch, from the folders in which runtimes keep their state, or folders of bundles, each by its id; and from
the kernel's list of online CPUs. Where a container's group is, the runtime's state says, or its config by `linux.cgroupsPath`,
or else it is ROOT/numarun/ID.

All events that are there are told before one plan is worked out. What runs already is adopted with the CPUs that its group
requests. A container whose group is not there is told once it is; what was refused is told again when its config changes;
a write that failed is made again, at growing pauses. A config or a limit that changes is told as it is. Who has no place runs on
the pool until there is room. SIGTERM ends it between two commands, or behind the hand-over that has begun; a second one ends it at
once. What is left is taken up by the next one; --release gives back what was taken. Before all other words may stand `status`, which
says what the running agent knows (see `status --help`), `release` in place of --release, `check-config`, which says whether an agent
with the other words would begin, or `add-service`, which describes a service of systemd's as a container (see `add-service --help`).
`@FILE` stands for the words in a file.

The status is 1 where something is left undone: a line that is no event, a refusal, a shortage, a failed write. Where it is told to
end by a signal, a container that has no room is nothing of that, nor is a plan that the next one makes."""

from __future__ import annotations

import argparse
import dataclasses
import os
import select
import signal
import subprocess
import sys
import tempfile
import time
from typing import Callable, Optional, Sequence, Tuple

from .cgroups import EACH, Groups, read_file, set_in
from .configs import LEAST, NEAR, PIN, STAY, Pin
from .configuration import Parser, words_in, words_told
from .cpus import NO_CPUS, Cpus, counted, print_list, read_list
from .decide import answer_to_hook, at_the_end, decide, say_pool_end
from .doing import POOL_SECONDS, Ending, Hands, PoolCommand, words_of_command
from .hooks import STATUS, Hooks
from .kept_files import allow_files
from .ledger import Ledger, Settings, is_undone
from .links import CPUS_IN_EFFECT, Links, locked
from .log import logger
from .notify import ENDS, READY, WORKS, notify, patience_of_watchdog
from .partition import CPUS_FILE, Layout
from .partition_files import PartitionFiles, layout_of, make
from .pool import POOL_LEAST, is_pool_least, pool_least_of
from .looking import Eyes
from .machine import Machine
from .program import PATIENCE
from .records import KEPT, Certificates
from .release import is_kept, release
from .reports import status_of
from .runtimes import ALL, NAMES, Watch, runtimes_named, watches_of
from .script import Refused, check_program, find_program
from .services import main as add_service
from .sources import ROOT, Folders, Input, Source
from .status import main as say_status
from .taken import Record, read_record, whole_machine

EXAMPLE = f"""what a container says of itself, by an annotation, or a variable of its process's environment:
  {PIN}=true    NUMARUN_PIN=true    with --pin annotated: it gets CPUs of its own
  {PIN}=false   NUMARUN_PIN=false   it runs on the pool, whatever its limit
  {LEAST}=N     NUMARUN_LEAST=N     where there are no more it takes as few as these
  {STAY}=true   NUMARUN_STAY=true   no plan moves it
  {NEAR}=NAME   NUMARUN_NEAR=NAME   its home is the node of this network interface, block device or PCI address

examples, from the top of the repository:
  echo "created database examples/bundles/database" | operators/numarun-agent examples/machines/two-socket.json
  operators/numarun-agent host.json --cgroup /sys/fs/cgroup --runtime all
  operators/numarun-agent release --cgroup /sys/fs/cgroup"""
LEAST_PAUSE, MOST_PAUSE = 0.01, 86400
SUBCOMMANDS = ("status", "release", "check-config", "add-service")


class Agent:
    """What looks, what decides by it, and what does it, in turn."""

    def __init__(self, eyes: Eyes, hands: Hands, ledger: Ledger, hooks: Optional[Hooks], ending: Ending, clock: Callable[[], float]) -> None:
        self.eyes, self.hands, self.ledger, self.hooks, self.ending, self.clock = eyes, hands, ledger, hooks, ending, clock

    def turn(self) -> None:
        """A look, and what comes of it."""
        if self.hooks:
            self.hooks.take()
        look = self.eyes.look(self.ledger, self.clock())
        command, fault = self.hands.pool.take()
        look = dataclasses.replace(look, pool_command=command, pool_fault=fault)
        self.ledger = self.hands.carry_out(decide(self.ledger, look))
        if self.hooks:
            self.hooks.answer(lambda name: status_of(self.ledger) if name == STATUS else answer_to_hook(self.ledger, name))

    def work(self, pause: float, rounds: int) -> None:
        """Looks again and again, at the latest after a pause, until the input ends, or it is told to end."""
        reader, writer = os.pipe()
        os.set_blocking(writer, False)
        signal.set_wakeup_fd(writer)
        for number in (signal.SIGTERM, signal.SIGINT):
            signal.signal(number, self.ending.tell)
        source, turns, pause = self.eyes.source, 0, min(pause, patience_of_watchdog() / 2)
        while not self.ending.is_told:
            turns += 1
            if turns > 1 or isinstance(source, Input):
                self.wait(reader, pause)
            if self.ending.is_told:
                break
            self.turn()
            notify(WORKS if turns > 1 else READY)
            if turns == rounds or source.ended:
                break
        self.finish()

    def wait(self, reader: int, pause: float) -> None:
        """Waits until there is something to look at, or a pause is over."""
        waiter = select.poll()
        for file in [reader, *(self.hooks.files() if self.hooks else []), *([0] if isinstance(self.eyes.source, Input) else [])]:
            waiter.register(file, select.POLLIN)
        if self.eyes.partition:
            self.eyes.partition.watch(waiter)
        waiter.poll(pause * 1000)

    def finish(self) -> None:
        """Waits for the pool's command, and says what was not said yet."""
        notify(ENDS)
        self.hands.pool.finish(5 if self.ending.is_told else POOL_SECONDS)
        command, fault = self.hands.pool.take()
        if command:
            self.hands.carry_out(say_pool_end(self.ledger, command, fault))
        for line in at_the_end(self.ledger, self.ending.is_told):
            self.hands.do(line)

    def close(self) -> None:
        self.hands.close()
        if self.eyes.groups:
            self.eyes.groups.files.close_all()


def parser_of_words() -> Parser:
    parser = Parser(description=__doc__, epilog=EXAMPLE, formatter_class=argparse.RawDescriptionHelpFormatter)
    parser.add_argument("machine", metavar="MACHINE", nargs="?", help="the machine file")
    parser.add_argument("--version", action="store_true", help="say which numarun it works with, and end")
    parser.add_argument("--config", metavar="FILE", help="a file of options in TOML, as pool-least = \"10%%\" and watch = [\"/run/crun\"], of which "
                        "machine is the machine file; what is said beside it counts more, and of what may be said several times all counts")
    add_program(parser)
    add_containers(parser)
    add_rest(parser)
    add_records(parser)
    return parser


def words_of(told: Sequence[str]) -> argparse.Namespace:
    parser = parser_of_words()
    try:
        told = words_told(told)
    except Refused as why:
        parser.error(str(why))
    words = parser.parse_args(told)
    if words.config is not None:
        before, machine = words_in(words.config, parser)
        words = parser.parse_args([*before, *told])
        words.machine = words.machine or machine
    words.groups = [group.strip("/") or EACH for groups in words.rest for group in groups.split(",") if group]
    for option, said in (("--rest", words.groups), ("--release", words.release), ("--partition", words.partition)):
        if said and not words.cgroup:
            parser.error(f"{option} is of a tree: --cgroup names it")
    if words.partition and words.groups:
        parser.error("--rest beside --partition: the kernel keeps the other groups off, and a group beside that requests CPUs of the partition breaks it")
    if words.system and not words.partition:
        parser.error("--system is of a partition: --partition names its group")
    if not words.machine and not words.release and not words.version:
        parser.error("no MACHINE")
    words.watches = watches_of(words.runtime, words.watch)
    if words.watches and not words.online:
        words.online = "/sys/devices/system/cpu/online"
    return words


def seconds(text: str) -> float:
    found = float(text)
    if not LEAST_PAUSE <= found <= MOST_PAUSE:
        raise argparse.ArgumentTypeError(f"{text} is not {LEAST_PAUSE} to {MOST_PAUSE} seconds")
    return found


def count_from(least: int) -> Callable[[str], int]:
    def count(text: str) -> int:
        if int(text) < least:
            raise argparse.ArgumentTypeError(f"{text} is below {least}")
        return int(text)
    return count


def runtimes_text(text: str) -> str:
    try:
        runtimes_named([text])
    except Refused as why:
        raise argparse.ArgumentTypeError(str(why)) from None
    return text


def pool_least_text(text: str) -> str:
    if not is_pool_least(text):
        raise argparse.ArgumentTypeError(f"{text} is no number of CPUs, nor of percents")
    return text


def command_text(text: str) -> str:
    try:
        words_of_command(text)
    except ValueError as why:
        raise argparse.ArgumentTypeError(f"{text!a} is no command: {why}") from None
    return text


def add_program(parser: argparse.ArgumentParser) -> None:
    group = parser.add_argument_group("what it works with")
    group.add_argument("--cgroup", metavar="ROOT", help="write in this cgroup v2 tree, as /sys/fs/cgroup")
    group.add_argument("--program", default=find_program(), metavar="PATH", help="numarun, if it is not the one that is built or installed here")
    group.add_argument("--slit", metavar="FILE", help="the distance table, where MACHINE has no distances")
    group.add_argument("--work", default="/run/numarun", metavar="FOLDER", help="with --cgroup: the agent's own files, which it makes anew, "
                       "and the socket for numarun-hook --wait (%(default)s)")
    group.add_argument("--pause", type=seconds, default=1.0, metavar="SECONDS", help="between two looks, if nothing is told (%(default)s)")
    group.add_argument("--rounds", type=count_from(0), default=0, metavar="N", help="end after N looks")
    group.add_argument("--patience", type=seconds, default=PATIENCE, metavar="SECONDS", help="that numarun has for an answer; then the agent ends "
                       "(%(default)s)")
    group.add_argument("--release", action="store_true", help="give back to each group what it requested before the agent came, and end")


def add_containers(parser: argparse.ArgumentParser) -> None:
    group = parser.add_argument_group("containers")
    group.add_argument("--runtime", type=runtimes_text, metavar="NAMES", action="append", default=[], help="the containers are those of these "
                       f"runtimes, with commas between them: {', '.join(NAMES)}, or {ALL}. The folders in which they keep their state are watched, "
                       "those that are there")
    group.add_argument("--watch", metavar="FOLDER", action="append", default=[], help="the containers are those of this folder, and of others that "
                       "are named so")
    group.add_argument("--group", default="numarun", metavar="NAME", help="the group that has the groups of which nothing else is said (%(default)s)")
    group.add_argument("--online", metavar="FILE", help="the kernel's list of online CPUs; with --watch it is looked at anyway")
    group.add_argument("--pin", choices=[rule.value for rule in Pin], default=Pin.WHOLE.value, help="who gets CPUs of its own: all that ask for "
                       f"some, those whose quota is of whole CPUs, or those that say {PIN}=true (%(default)s)")
    group.add_argument("--home", choices=("free", "none"), default="free", help="which nodes of memory one gets that names none: those where "
                       "there is room for it, or none (%(default)s)")
    group.add_argument("--lift", action="store_true", help="one that has CPUs of its own runs without the limit (cpu.max) of its group, which "
                       "gets that again when it has none of its own")
    group.add_argument("--nodes", default="/sys/devices/system/node", metavar="FOLDER", help="where the kernel tells the free memory of each node "
                       "(%(default)s)")


def add_rest(parser: argparse.ArgumentParser) -> None:
    group = parser.add_argument_group("the rest of the machine")
    group.add_argument("--rest", action="append", default=[], metavar="GROUPS", help="groups of the system itself, with commas between them, as "
                       "system.slice,user.slice,init.scope: they are held on the pool, those that are there; / is each group of the root")
    group.add_argument("--partition", metavar="GROUP", help="make this group, below the tree's root, a cpuset partition with the machine file's CPUs, "
                       "from which the kernel keeps all other groups; the containers are below it")
    group.add_argument("--system", default="", metavar="LIST", help="with --partition: CPUs of the machine file that are left to the system")
    group.add_argument("--pool-least", type=pool_least_text, default=POOL_LEAST, metavar="N", help="newcomers wait rather than bring the pool below "
                       "so many CPUs, or this part of them; of a part two cores are kept at least (%(default)s)")
    group.add_argument("--pool", type=command_text, metavar="COMMAND", help="run this with the pool's list behind it whenever that has changed")


def add_records(parser: argparse.ArgumentParser) -> None:
    group = parser.add_argument_group("what it leaves to read")
    group.add_argument("--textfile", metavar="FILE", help="leave the figures here for node_exporter, as a file of its folder that ends in .prom")
    group.add_argument("--certificates", metavar="FOLDER", help="keep the certificate of each plan and shortage here, by its date")
    group.add_argument("--keep", type=count_from(1), default=KEPT, metavar="N", help="of the certificates the last N (%(default)s)")


def settings_of(words: argparse.Namespace, machine: Machine, root: Optional[str], layout: Optional[Layout], system: Cpus) -> Settings:
    return Settings(machine, words.machine, root, Pin(words.pin), words.home == "free", tuple(words.groups),
                    pool_least_of(words.pool_least, machine), words.pause, words.certificates or "", words.textfile or "", bool(words.pool),
                    layout, system, words.lift)


def system_of(words: argparse.Namespace, machine: Machine) -> Cpus:
    """The CPUs of the machine file that are left to the system."""
    system = read_list(words.system, "--system")
    if system - machine.present:
        raise Refused(f"--system: the machine file has no CPUs {print_list(system - machine.present)}")
    if any(machine.cores[machine.core_of[cpu]] - system for cpu in system):
        raise Refused("--system: a core is left to the system in part")
    if system & machine.reserved:
        raise Refused(f"--system: CPUs {print_list(system & machine.reserved)} are reserved, so they are the containers' to wait on")
    return system


def partition_of(words: argparse.Namespace, machine: Machine, system: Cpus) -> Tuple[Optional[Layout], Sequence[int]]:
    """The partition of the containers, which is there by then, and the locks of the tree and of the agent's folder; what was there before is
    kept in that."""
    if not words.partition:
        return None, ()
    top = os.path.abspath(words.cgroup)
    layout = layout_of(top, words.partition)
    if not os.path.isdir(top):
        raise Refused(f"{words.cgroup}: no folder")
    os.makedirs(words.work, exist_ok=True)
    locks = [locked(folder) for folder in (top, words.work)]
    make(layout, machine.present - system, words.work)
    return layout, locks


def given_up(layout: Optional[Layout], machine: Machine) -> Cpus:
    """The CPUs that a partition of an agent before has, and that the machine file lacks by now. The containers leave them before it gives them up, as
    those that are left to the system."""
    return (set_in(read_file(f"{layout.path}/{CPUS_FILE}")) or NO_CPUS) - machine.present if layout else NO_CPUS


def whole_of_tree(top: str, layout: Optional[Layout]) -> Cpus:
    """The CPUs that a group has which requests none, once there is no partition any more: those of the system too."""
    found = [set_in(read_file(f"{group}/{CPUS_IN_EFFECT}")) for group in ((top, layout.path) if layout else ())]
    return NO_CPUS.union(*(cpus or NO_CPUS for cpus in found))


def memory_of(machine: Machine, groups: Optional[Groups]) -> Cpus:
    """The nodes of the machine file that the tree's root has in effect."""
    nodes = frozenset(range(len(machine.nodes)))
    effective = groups.effective_nodes() if groups else None
    return nodes if effective is None else nodes & effective or nodes


def made(words: argparse.Namespace, machine: Machine, work: str, ending: Ending, clock: Callable[[], float] = time.monotonic) -> Agent:
    """An agent over this machine, with what one before has left."""
    system = system_of(words, machine)
    layout, locks = partition_of(words, machine, system)
    leaving = given_up(layout, machine)
    machine, system = Machine(words.machine, leaving) if leaving else machine, system | leaving
    links = Links(layout.path if layout else words.cgroup, work, locks) if words.cgroup else None
    groups = Groups(links.root, os.path.abspath(words.cgroup)) if links else None
    hooks = Hooks(os.path.join(work, "hooks")) if links else None
    settings = settings_of(words, machine, links.root if links else None, layout, system)
    watches: Sequence[Watch] = words.watches
    top = os.path.abspath(words.cgroup) if links else ROOT
    source: Source = Folders(watches, top) if watches else Input()
    files = PartitionFiles(layout, work) if layout else None
    eyes = Eyes(settings, source, words.online, words.nodes, groups, f"{words.partition.strip('/')}/{words.group}" if layout else words.group,
                partition=files)
    record, memory = read_record(work) if links else Record(""), memory_of(machine, groups)
    record.whole = whole_machine(machine.present | whole_of_tree(top, layout), memory)
    ledger = Ledger(settings, memory, taken=record.groups, renewed=record.renewed, before=links.before if links else {})
    hands = Hands(words.program, words.machine, words.slit, work, links, record, Certificates(words.certificates or "", words.keep),
                  words.textfile or "", PoolCommand(words.pool or ""), logger(), ending, words.patience)
    hands.partition, hands.given_up = files, leaving
    return Agent(eyes, hands, ledger, hooks, ending, clock)


def check_config(words: argparse.Namespace) -> int:
    """Whether an agent with these words would begin: what is wrong with the machine file is refused as it would be then."""
    machine = Machine(words.machine)
    check_program(words.program)
    left = pool_least_of(words.pool_least, machine)
    print(f"{words.machine}: {counted(len(machine.present))} on {counted(len(machine.nodes), 'node')}, reserved {print_list(machine.reserved)}, "
          f"and {left} {'is' if left == 1 else 'are'} left to the pool")
    return 0


def main() -> int:
    subcommand, told = (sys.argv[1], sys.argv[2:]) if sys.argv[1:2] and sys.argv[1] in SUBCOMMANDS else ("", sys.argv[1:])
    if subcommand == "status":
        return say_status(told)
    if subcommand == "add-service":
        return add_service(told)
    words = words_of([*told, "--release"] if subcommand == "release" else told)
    if words.version:
        check_program(words.program)
        return subprocess.run([words.program, "--version"]).returncode
    if subcommand == "check-config":
        return check_config(words)
    if words.release:
        if not is_kept(words.work):
            print(f"nothing was kept in {words.work}")
        return release(words.cgroup, words.work, [group for group in words.groups if group != EACH])
    machine = Machine(words.machine)
    check_program(words.program)
    allow_files()
    ending = Ending()
    with tempfile.TemporaryDirectory(prefix="numarun-") as folder:
        agent = made(words, machine, words.work if words.cgroup else folder, ending)
        try:
            agent.work(words.pause, words.rounds)
        finally:
            agent.close()
    return 1 if is_undone(agent.ledger, ending.is_told) else 0
