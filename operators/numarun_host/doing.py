"""What is done: the agent's lines to numarun, its links, copies, files and writes. Nothing is decided here."""

from __future__ import annotations

import json
import logging
import os
import re
import shlex
import shutil
import subprocess
import sys
import time
from typing import Callable, Dict, List, Optional, Tuple, Type

from .cgroups import CPUS, LIMIT, limit_in, may_run_elsewhere, read_file, set_in
from .commands import (Answer, Ask, CloseTrial, Command, Drop, Gather, KeepCertificate, LeaveFigures, LeaveState, Link, LookAtPartition,
                       MakeGroup, OpenTrial, RunPool, SaveTaken, Say, SetLimit, Start, Steps, T, Tell, Unlink, Verb, Write)
from .cpus import NO_CPUS, Cpus, print_list
from .links import CPUS_IN_EFFECT, NODES_IN_EFFECT, Links
from .log import say
from .machine import add_cpus, parse_machine
from .partition_files import PartitionFiles
from .program import Run
from .records import LAST_STATE, Certificates, leave_figures, leave_state
from .script import Refused
from .taken import Record, inode_of, write_file, write_limit

EFFECTIVE_NOTE = re.compile(r"\S+/cpuset\.cpus\.effective: ")  # the agent compares these itself
POOL_SECONDS = 30  # that --pool's command has
FAREWELL = 10.0    # seconds that numarun has for an answer where the agent is told to end
LAST_STEPS = 8.0   # seconds that a hand-over which has begun has then


class Ending:
    """Whether the agent is told to end, until when an answer is waited for then, and whether it is to end at once: where it is told again, or
    has taken long."""

    def __init__(self) -> None:
        self.is_told, self.is_told_again, self.since = False, False, 0.0

    def tell(self, *_: object) -> None:
        self.is_told, self.is_told_again, self.since = True, self.is_told, self.since or time.monotonic()

    @property
    def is_at_once(self) -> bool:
        return self.is_told_again or self.is_told and time.monotonic() >= self.since + LAST_STEPS

    def until(self) -> Optional[float]:
        return self.since + FAREWELL if self.is_told else None


def words_of_command(text: str) -> List[str]:
    """A command's words, as a shell splits them: a `ValueError` where they can't be split, or where a text has none."""
    words = shlex.split(text)
    if text and not words:
        raise ValueError("it has no words")
    return words


class PoolCommand:
    """The command of --pool, of which one runs at a time; the last list is told once the one before has ended."""

    def __init__(self, words: str) -> None:
        self.words = words_of_command(words)
        self.next: Optional[str] = None
        self.process: Optional[subprocess.Popen[bytes]] = None
        self.command, self.until = "", 0.0
        self.ended: List[Tuple[str, Optional[str]]] = []

    def run(self, pool: str) -> None:
        self.next = pool
        self.look()

    def look(self) -> None:
        """Sees whether it has ended, and begins the next one."""
        if self.process:
            status = self.process.poll()
            if status is None and time.monotonic() < self.until:
                return
            if status is None:
                self.process.kill()
                self.process.wait()
            why = f"no end in {POOL_SECONDS} s" if status is None else f"status {status}" if status else None
            self.process = None
            self.ended.append((self.command, why))
        if self.next is not None:
            self.begin([*self.words, self.next])

    def begin(self, words: List[str]) -> None:
        self.next, self.command, self.until = None, shlex.join(words), time.monotonic() + POOL_SECONDS
        try:
            self.process = subprocess.Popen(words, stdin=subprocess.DEVNULL, stdout=sys.stderr)
        except OSError as why:
            self.ended.append((self.command, why.strerror))

    def take(self) -> Tuple[Optional[str], Optional[str]]:
        """How it ended since this was asked last: the command, and why it failed."""
        self.look()
        ended, self.ended = self.ended[-1:], []
        return ended[0] if ended else (None, None)

    def finish(self, seconds: float) -> None:
        """Waits for its end."""
        until = time.monotonic() + seconds
        while self.process and time.monotonic() < until:
            time.sleep(0.02)
            self.look()


class Hands:
    """What does it, by the kind of the command."""

    def __init__(self, program: str, machine: str, slit: Optional[str], work: str, links: Optional[Links], record: Record,
                 certificates: Certificates, figures: str, pool: PoolCommand, log: logging.Logger, ending: Ending,
                 patience: float) -> None:
        self.program, self.machine, self.slit, self.work, self.links, self.record = program, machine, slit, work, links, record
        self.certificates, self.figures, self.pool, self.log, self.ending, self.patience = certificates, figures, pool, log, ending, patience
        self.run: Optional[Run] = None
        self.trial: Optional[Run] = None
        self.partition: Optional[PartitionFiles] = None
        self.given_up: Cpus = NO_CPUS  # that the machine file lacks
        self.ways: Dict[Type[object], Callable[..., Answer]] = {
            Start: self.start, Ask: self.ask, Tell: self.tell, OpenTrial: self.open_trial, CloseTrial: self.close_trial, Link: self.link,
            Unlink: self.unlink, Drop: self.drop, Write: self.write, Gather: self.gather, SetLimit: self.set_limit,
            SaveTaken: self.save_taken, Say: self.say, KeepCertificate: self.keep_certificate, LeaveFigures: self.leave_figures,
            LeaveState: self.leave_state, RunPool: self.run_pool, LookAtPartition: self.look_at_partition, MakeGroup: self.make_group}

    def do(self, command: Command) -> Answer:
        return self.ways[type(command)](command)

    def carry_out(self, steps: Steps[T]) -> T:
        """Does each step, and sends back what came of it."""
        try:
            command = next(steps)
            while True:
                command = steps.send(self.do(command))
        except StopIteration as end:
            found: T = end.value
            return found

    def close(self) -> None:
        for run in (self.trial, self.run):
            if run:
                run.close()

    # The program.

    def start(self, command: Start) -> Answer:
        if self.run:
            self.run.close()
            self.run = None
        path, more = os.path.join(self.work, "machine.json"), []
        if self.links:
            more = ["--cgroup", self.links.folder, "--adopt"]
            self.links.show(CPUS_IN_EFFECT, command.shown)
            self.links.show(NODES_IN_EFFECT, command.memory)
            self.links.leave(command.strangers)
        machine = add_cpus(parse_machine(self.machine), self.given_up) if self.given_up else parse_machine(self.machine)
        machine.update(reserved=print_list(command.reserved), offline=print_list(command.offline, empty=""))
        with open(path, "w") as file:
            json.dump(machine, file)
        try:
            self.run = Run(self.program, path, self.slit, more, self.links.locks if self.links else (), self.patience, self.ending.until)
        except Refused as why:
            raise Refused(str(why).replace(path, self.machine)) from None
        self.run.said()
        return Answer(ending=self.ending.is_told, at_once=self.ending.is_at_once)

    def ask(self, command: Ask) -> Answer:
        return self.answer_of(command.line, command.trial)

    def tell(self, command: Tell) -> Answer:
        folder = os.path.join(self.work, "bundles", "trial" if command.trial else "told", command.name)
        os.makedirs(folder, exist_ok=True)
        with open(os.path.join(folder, "config.json"), "w") as file:
            json.dump(command.config, file)
        cpus = f" {print_list(command.cpus)}" if command.verb is Verb.ADOPT else ""
        return self.answer_of(f"{command.verb.value} {command.name} {folder}{cpus}", command.trial)

    def answer_of(self, line: str, trial: bool) -> Answer:
        run = self.trial if trial else self.run
        assert run
        lines = tuple(run.ask(line))
        said = () if trial else tuple(self.note_of(note) for note in run.said())
        notes = tuple(note for note in said if not EFFECTIVE_NOTE.match(note))
        return Answer(lines, notes, ending=self.ending.is_told, at_once=self.ending.is_at_once)

    def note_of(self, note: str) -> str:
        note = re.sub("^(error|note): ", "", note)
        return note.replace(f"{self.links.folder}/numarun/", "") if self.links else note

    def open_trial(self, _: OpenTrial) -> Answer:
        self.trial = Run(self.program, os.path.join(self.work, "machine.json"), self.slit, (), (), self.patience, self.ending.until)
        return Answer()

    def close_trial(self, _: CloseTrial) -> Answer:
        if self.trial:
            self.trial.close()
            self.trial = None
        return Answer()

    # Files.

    def link(self, command: Link) -> Answer:
        if self.links:
            self.links.link(command.name, command.path)
        return Answer()

    def unlink(self, command: Unlink) -> Answer:
        if self.links:
            self.links.unlink(command.name)
        return Answer()

    def drop(self, command: Drop) -> Answer:
        for which in ("told", "trial"):
            shutil.rmtree(os.path.join(self.work, "bundles", which, command.name), ignore_errors=True)
        return Answer()

    def write(self, command: Write) -> Answer:
        return Answer(why=write_file(os.path.join(command.path, command.file), command.text))

    def gather(self, command: Gather) -> Answer:
        file = os.path.join(command.path, CPUS)
        if inode_of(command.path) != command.inode or set_in(read_file(file)) != command.cpus or not may_run_elsewhere(command.path, command.cpus):
            return Answer(stale=True)
        return Answer(why=write_file(file, print_list(command.others)) or write_file(file, print_list(command.cpus)))

    def look_at_partition(self, command: LookAtPartition) -> Answer:
        return Answer(partition=self.partition.sight(command.cpus) if self.partition else None)

    def make_group(self, command: MakeGroup) -> Answer:
        return Answer(why=self.partition.make_group(command.path) if self.partition else None)

    def set_limit(self, command: SetLimit) -> Answer:
        try:
            folder = os.open(command.path, os.O_RDONLY | os.O_DIRECTORY | os.O_CLOEXEC)
        except OSError:
            return Answer(stale=True)
        try:
            path = f"/proc/self/fd/{folder}/{LIMIT}"
            found = read_file(path)
            if os.fstat(folder).st_ino != command.inode or found is None or limit_in(found) != command.before:
                return Answer(stale=True)
            why = write_limit(path, command.limit)
            return Answer(why=why and f"{command.path}/{LIMIT}: {why.rpartition(': ')[2]}")
        finally:
            os.close(folder)

    def save_taken(self, command: SaveTaken) -> Answer:
        if self.links:
            self.record.save(command.groups)
        return Answer()

    # What is left for others.

    def say(self, command: Say) -> Answer:
        say(self.log, command.line, command.level)
        return Answer()

    def keep_certificate(self, command: KeepCertificate) -> Answer:
        try:
            path = self.certificates.keep(command.lines)
        except Refused as why:
            return Answer(why=str(why))
        return Answer((path,) if path else ())

    def leave_figures(self, command: LeaveFigures) -> Answer:
        try:
            leave_figures(self.figures, command.figures)
        except Refused as why:
            return Answer(why=str(why))
        return Answer()

    def leave_state(self, command: LeaveState) -> Answer:
        try:
            leave_state(os.path.join(self.work, LAST_STATE), command.state, command.ended)
        except Refused as why:
            return Answer(why=str(why))
        return Answer()

    def run_pool(self, command: RunPool) -> Answer:
        self.pool.run(print_list(command.cpus))
        return Answer()
