#!/usr/bin/env python3
"""Runs the cases of the tests of operators/, several side by side: each function behind `@case` of a file of this folder is one.

run.py                   all of them
run.py NAME[/CASE]..     those of a file, or one of them
run.py --list [NAME..]   their names

Each case is run in a process of its own, with an empty folder that SCRATCH names; the folder and what runs still goes behind it. What a case prints is shown
once it has ended, and behind all cases of a file a line says how many were as expected. The status is 0 if all were, 1 if one was not, and 2 if
the words name no case. PROGRAM names the program that they try, and GROUPS_LIBRARY the library by which it takes plain folders for a tree.
On a machine that has much else to do, SLOWER=N lets everything take N times as long before it counts as hung."""

from __future__ import annotations

import argparse
import ast
import contextlib
import importlib
import os
import pathlib
import shutil
import signal
import sys
import tempfile
import time
import traceback
from dataclasses import dataclass
from typing import Dict, Iterable, Iterator, List, Sequence, Tuple

import sites
import trial
from numarun_host import agent, explain

HERE = pathlib.Path(__file__).resolve().parent
SHARED = (agent, explain, sites, trial)  # what most cases import is read once, before they are begun
LONG = 10.0  # seconds from which on a line says how long a case took
MOST = int(600 * trial.SLOWER)  # seconds in which a case has to end


class Unknown(Exception):
    """Words that name no case."""


@dataclass(frozen=True)
class Case:
    """A case as it stands in the source. The long ones are begun first."""

    file: str
    name: str
    is_long: bool = False

    @property
    def title(self) -> str:
        return f"{self.file}/{self.name}"


@dataclass(frozen=True)
class Ended:
    """How a case ended: its status is 0 if all was as expected."""

    case: Case
    status: int
    seconds: float
    printed: str


def decorators(function: ast.FunctionDef) -> List[str]:
    return [decorator.id for decorator in function.decorator_list if isinstance(decorator, ast.Name)]


def cases_in(file: str, source: str) -> List[Case]:
    """The functions behind `@case` or `@long_case`, in their order."""
    found = [(node.name, decorators(node)) for node in ast.parse(source).body if isinstance(node, ast.FunctionDef)]
    return [Case(file, name, "long_case" in behind) for name, behind in found if {"case", "long_case"} & set(behind)]


def all_cases(folder: pathlib.Path = HERE) -> Dict[str, List[Case]]:
    """The cases of each file that has some."""
    found = {path.stem: cases_in(path.stem, path.read_text(encoding="utf-8")) for path in sorted(folder.glob("*.py"))}
    return {file: cases for file, cases in found.items() if cases}


def chosen(cases: Dict[str, List[Case]], words: Sequence[str]) -> List[Case]:
    """What the words ask for, each once, in the order of the words."""
    found: List[Case] = []
    for word in words or list(cases):
        file, _, name = word.partition("/")
        several = [case for case in cases.get(file, []) if name in ("", case.name)]
        if not several:
            raise Unknown(f"{word}: no such case; --list names them")
        found += [case for case in several if case not in found]
    return found


# Running them.


def run_here(case: Case) -> int:
    """Runs a case in this process; its status."""
    importlib.import_module(case.file)
    trial.CASES[case.title]()
    return 1 if trial.failed else 0


def in_child(case: Case, output: int, folder: str) -> int:
    """What the process of a case does: its output is a file, and its folder its own."""
    os.setpgid(0, 0)
    signal.alarm(MOST)
    os.dup2(output, 1)
    os.dup2(output, 2)
    os.environ["SCRATCH"] = os.path.join(folder, case.title.replace("/", "."))
    os.makedirs(os.environ["SCRATCH"])
    status = 1
    try:
        status = run_here(case)
    except SystemExit as end:
        status = 0 if end.code in (0, None) else 1
        if status:
            print(end.code)
    except BaseException:
        traceback.print_exc(file=sys.stdout)
    sys.stdout.flush()
    sys.stderr.flush()
    return status


@dataclass
class Running:
    case: Case
    output: int
    began: float


def begin(case: Case, folder: str) -> Tuple[int, Running]:
    """Begins a case in a process of its own."""
    output, path = tempfile.mkstemp(dir=folder)
    os.unlink(path)
    sys.stdout.flush()
    process = os.fork()
    if process == 0:
        os._exit(in_child(case, output, folder))
    return process, Running(case, output, time.monotonic())


def end(running: Running, status: int, folder: str) -> Ended:
    """What a case came to, whose process has ended."""
    seconds = time.monotonic() - running.began
    with open(running.output, "rb") as file:
        file.seek(0)
        printed = file.read().decode(errors="replace")
    shutil.rmtree(os.path.join(folder, running.case.title.replace("/", ".")), ignore_errors=True)
    return Ended(running.case, os.waitstatus_to_exitcode(status), seconds, printed)


def run_all(cases: Sequence[Case], jobs: int, folder: str) -> Iterator[Ended]:
    """Runs so many of the cases side by side, the long ones first; each as it ends."""
    left, running = sorted(cases, key=lambda case: not case.is_long), dict[int, Running]()
    try:
        while left or running:
            while left and len(running) < jobs:
                process, begun = begin(left.pop(0), folder)
                running[process] = begun
            process, status = os.waitpid(-1, 0)
            end_all_of(process)
            if process in running:
                yield end(running.pop(process), status, folder)
    finally:
        for process in running:
            end_all_of(process)


def run_in_turn(cases: Sequence[Case], folder: str) -> Iterator[Ended]:
    """Runs the cases in this process, one after another, up to the first that fails."""
    for case in cases:
        os.environ["SCRATCH"] = tempfile.mkdtemp(dir=folder)
        began, status = time.monotonic(), 1
        try:
            status = run_here(case)
        except Exception:
            traceback.print_exc(file=sys.stdout)
        yield Ended(case, status, time.monotonic() - began, "")
        if status:
            return


def end_all_of(process: int) -> None:
    """Ends what a case has left: its process leads a group of its own."""
    with contextlib.suppress(ProcessLookupError):
        os.killpg(process, signal.SIGKILL)


def lines_of(ended: Ended) -> Iterator[str]:
    """What is shown of a case: what it printed, how long it took where that is long, and whether it failed."""
    if ended.printed:
        yield ended.printed.rstrip("\n")
    if ended.status:
        yield f"{ended.case.title}: FAILED in {ended.seconds:.1f} s" + (f", by signal {-ended.status}" if ended.status < 0 else "")
    elif ended.seconds >= LONG:
        yield f"{ended.case.title}: {ended.seconds:.1f} s"


def line_of_file(file: str, ended: Iterable[Ended]) -> str:
    """What is shown behind the last case of a file."""
    several = list(ended)
    wrong = sum(one.status != 0 for one in several)
    cases = f"{len(several)} case{'s' * (len(several) != 1)}"
    return f"{file}: {f'{wrong} of {cases} failed' if wrong else f'{cases} as expected'}"


def run(cases: Sequence[Case], jobs: int) -> int:
    """Runs them, side by side or with no jobs in this process, and shows what came of it; the status."""
    done: Dict[str, List[Ended]] = {}
    count = {file: sum(case.file == file for case in cases) for file in {case.file for case in cases}}
    with tempfile.TemporaryDirectory(prefix="operators-") as folder:
        for ended in run_all(cases, jobs, folder) if jobs else run_in_turn(cases, folder):
            file = ended.case.file
            done.setdefault(file, []).append(ended)
            for line in lines_of(ended):
                print(line, flush=True)
            if len(done[file]) == count[file]:
                print(line_of_file(file, done[file]), flush=True)
    wrong = [ended.case.title for several in done.values() for ended in several if ended.status]
    print(f"operators: {len(cases)} cases, " + (f"{len(wrong)} failed: {' '.join(wrong)}" if wrong else "all as expected"))
    return 1 if wrong else 0


def main(words: Sequence[str]) -> int:
    parser = argparse.ArgumentParser(prog="run.py", description=__doc__, formatter_class=argparse.RawDescriptionHelpFormatter)
    parser.add_argument("names", nargs="*", metavar="NAME[/CASE]", help="what is run (all)")
    parser.add_argument("--list", action="store_true", help="print the names, and run nothing")
    parser.add_argument("--jobs", type=int, default=(os.cpu_count() or 1) + 1, metavar="N", help="how many are run side by side; with 0 all in this process, up to the first that fails (%(default)s)")
    asked = parser.parse_args(words)
    try:
        cases = chosen(all_cases(), asked.names)
    except Unknown as why:
        print(f"run.py: {why}", file=sys.stderr)
        return 2
    if asked.list:
        print("\n".join(case.title for case in cases))
        return 0
    return run(cases, max(asked.jobs, 0))


if __name__ == "__main__":
    sys.exit(main(sys.argv[1:]))
