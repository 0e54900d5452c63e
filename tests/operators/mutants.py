#!/usr/bin/env python3
"""Makes mutants of the modules of the agent that decide: in each one thing of the code is another one. A mutant lives where none of the tests sees it,
and then a test is missing, or the mutant does the same as the code. By hand, since all of them take an hour, and some minutes by Debian's pypy3.

mutants.py [MODULE]..                  all mutants of these modules, or of all that decide
mutants.py --sample N --seed S ..      N of them, by chance
mutants.py --only MODULE:LINE:WHAT     one, as a line of the output names it
mutants.py --cases NAME[/CASE]..       the cases of run.py that try them
mutants.py --list                      them, without trying any

The cases are read once, and run without a mutant first, which gives their order: the quick ones come first. Each mutant is tried in a process that is
forked from there. In it the function gets the mutant's code, and the cases are run in turn until one fails, or takes far longer than without it.

CASES in the environment is how many cases of decisions.py are drawn. A line for each mutant: which case killed it, or that it lives. Those in
equal_mutants.txt do the same as the code, as is said there of each; they are tried too, and one of them that is killed is named."""

from __future__ import annotations

import argparse
import ast
import importlib
import inspect
import os
import pathlib
import random
import resource
import shutil
import signal
import sys
import tempfile
import time
import traceback
import types
from dataclasses import dataclass
from typing import Callable, Dict, Iterable, Iterator, List, Mapping, Sequence, Tuple, Type

import run
import trial

TOP = pathlib.Path(__file__).resolve().parents[2]
PACKAGE = pathlib.Path("operators/numarun_host")
DECIDE = ("beginnings", "changes", "configs", "decide", "gathering", "homes", "ledger", "lifting", "newcomers", "partition", "partitioning", "placing", "plans", "pool", "reports",
          "room", "sightings", "slices", "strangers", "telling")
CASES = ("decided", "parts", "strangers", "gathers", "asked", "kept/at_rest", "kept/wakened", "kept/no_rest", "decisions/long", "decisions/short")
OF_PARTITIONS = "partition_steps", *(f"partitions/{case}" for case in ("said", "resized", "order", "loose", "made", "given_back", "refused", "decided_by_chance"))
OWN = {"lifting": ("decided", "parts", "limits", "lifts/by_chance"), "partition": OF_PARTITIONS, "partitioning": OF_PARTITIONS}  # cases of modules that have others
PATIENCE, TIMES = 10, 20  # a case that has not ended in so many seconds, and so many times those that it takes without a mutant, has seen it
MEMORY = 4 << 30          # bytes that a mutant may take

COMPARED: Dict[Type[ast.cmpop], Type[ast.cmpop]] = {
    ast.Lt: ast.LtE, ast.LtE: ast.Lt, ast.Gt: ast.GtE, ast.GtE: ast.Gt, ast.Eq: ast.NotEq, ast.NotEq: ast.Eq, ast.In: ast.NotIn, ast.NotIn: ast.In,
    ast.Is: ast.IsNot, ast.IsNot: ast.Is}
COMPUTED: Dict[Type[ast.operator], Type[ast.operator]] = {
    ast.Add: ast.Sub, ast.Sub: ast.Add, ast.Mult: ast.FloorDiv, ast.FloorDiv: ast.Mult, ast.BitOr: ast.BitAnd, ast.BitAnd: ast.BitOr}


@dataclass(frozen=True)
class Mutant:
    """A module with one thing that is another one: the so-manieth node of its tree, in one of the ways in which that can be another one."""

    module: str
    line: int
    what: str
    place: int
    way: int

    @property
    def title(self) -> str:
        return f"{self.module}:{self.line}:{self.what}"

    def tree(self) -> ast.Module:
        tree = Replaced(self.place, self.way).visit(ast.parse(text_of(self.module)))
        assert isinstance(tree, ast.Module)
        return ast.fix_missing_locations(tree)


def is_said(node: ast.AST) -> bool:
    """Whether it is the text of a line of the log or a docstring, of which the words are tested elsewhere."""
    return isinstance(node, (ast.JoinedStr, ast.Constant)) and not (isinstance(node, ast.Constant) and isinstance(node.value, (bool, int)))


def others(node: ast.AST) -> Iterator[Tuple[str, ast.AST]]:
    """What can stand in the place of a node, each with its name."""
    if isinstance(node, ast.Compare) and len(node.ops) == 1 and type(node.ops[0]) in COMPARED:
        other = COMPARED[type(node.ops[0])]
        yield other.__name__, ast.Compare(node.left, [other()], node.comparators)
    if isinstance(node, ast.BoolOp):
        for k in range(len(node.values)):
            values = node.values[:k] + node.values[k + 1:]
            yield f"no{k}", values[0] if len(values) == 1 else ast.BoolOp(node.op, values)
    if isinstance(node, ast.BinOp) and type(node.op) in COMPUTED and not is_said(node.left) and not is_said(node.right):
        other_op = COMPUTED[type(node.op)]
        yield other_op.__name__, ast.BinOp(node.left, other_op(), node.right)
    if isinstance(node, ast.UnaryOp) and isinstance(node.op, ast.Not):
        yield "affirmed", node.operand
    if isinstance(node, ast.Constant) and isinstance(node.value, bool):
        yield str(not node.value), ast.Constant(not node.value)
    elif isinstance(node, ast.Constant) and isinstance(node.value, int):
        yield str(node.value + 1), ast.Constant(node.value + 1)
    if isinstance(node, ast.IfExp):
        yield "then", node.body
        yield "else", node.orelse
    if isinstance(node, ast.If):
        yield "always", ast.If(ast.Constant(True), node.body, node.orelse)
        yield "never", ast.If(ast.Constant(False), node.body, node.orelse)
    if isinstance(node, (ast.Assign, ast.AugAssign, ast.Delete, ast.Continue, ast.Break)) or isinstance(node, ast.Expr) and not is_said(node.value):
        yield "gone", ast.Pass()


class Replaced(ast.NodeTransformer):
    """A tree with another node in the place of one, which are counted as they are met."""

    def __init__(self, place: int, way: int) -> None:
        self.place, self.way, self.met = place, way, -1

    def visit(self, node: ast.AST) -> ast.AST:
        self.met += 1
        if self.met == self.place:
            return list(others(node))[self.way][1]
        self.generic_visit(node)
        return node


def of_module(module: str, text: str) -> Iterator[Mutant]:
    """All mutants of a module, but for those of what is said and of types."""
    nodes: List[ast.AST] = []

    class Met(ast.NodeVisitor):
        def visit(self, node: ast.AST) -> None:
            nodes.append(node)
            self.generic_visit(node)

    tree = ast.parse(text)
    Met().visit(tree)
    inside = [(node.lineno, node.end_lineno or 0) for node in ast.walk(tree) if isinstance(node, ast.FunctionDef)]
    count: Dict[str, int] = {}
    for place, node in enumerate(nodes):
        line = getattr(node, "lineno", 0)
        if not any(begin < line <= end for begin, end in inside):
            continue
        for way, (what, _) in enumerate(others(node)):
            key = f"{line}:{type(node).__name__}-{what}"
            count[key] = count.get(key, 0) + 1
            yield Mutant(module, line, f"{type(node).__name__}-{what}" + (f"-{count[key]}" if count[key] > 1 else ""), place, way)


def text_of(module: str) -> str:
    return (TOP / PACKAGE / f"{module}.py").read_text(encoding="utf-8")


# Putting one in.


def path_to(tree: ast.Module, line: int) -> List[str]:
    """The names of the function that has this line, and of its class, if it is one's method."""
    path: List[str] = []
    body: Sequence[ast.stmt] = tree.body
    while True:
        found = [node for node in body if isinstance(node, (ast.ClassDef, ast.FunctionDef)) and node.lineno <= line <= (node.end_lineno or 0)]
        path += [node.name for node in found]
        if not found or isinstance(found[0], ast.FunctionDef):
            return path
        body = found[0].body


def function_at(names: Mapping[str, object], path: Sequence[str]) -> types.FunctionType:
    found: object = names[path[0]]
    for name in path[1:]:
        found = vars(found)[name]
    found = getattr(found, "fget", None) or getattr(found, "__func__", None) or found
    assert callable(found)
    function = inspect.unwrap(found)
    assert isinstance(function, types.FunctionType)
    return function


def put_in(mutant: Mutant) -> None:
    """Gives a function the mutant's code, so that all who have that function have the mutant."""
    name, tree = f"{PACKAGE.name}.{mutant.module}", mutant.tree()
    names: Dict[str, object] = {"__name__": name, "__package__": PACKAGE.name}
    exec(compile(tree, f"{mutant.module}.py", "exec"), names)
    path = path_to(ast.parse(text_of(mutant.module)), mutant.line)
    new, old = function_at(names, path), function_at(vars(importlib.import_module(name)), path)
    old.__code__, old.__defaults__ = new.__code__, new.__defaults__


# Trying it.

@dataclass(frozen=True)
class Timed:
    """A case, and the seconds that it takes without a mutant."""

    title: str
    function: Callable[[], None]
    seconds: float


def timed(names: Sequence[str], folder: str) -> List[Timed]:
    """The cases of these names, the quick ones first; each is run once."""
    found: List[Timed] = []
    os.environ["SCRATCH"] = folder
    for case in run.chosen(run.all_cases(), names):
        importlib.import_module(case.file)
        began = time.monotonic()
        trial.CASES[case.title]()
        if trial.failed:
            raise SystemExit(f"mutants.py: {case.title} fails without a mutant")
        found.append(Timed(case.title, trial.CASES[case.title], time.monotonic() - began))
    return sorted(found, key=lambda case: case.seconds)


def cases_of(modules: Iterable[str], asked: Sequence[str], folder: str) -> Dict[str, List[Timed]]:
    """The cases that try the mutants of each module."""
    names = {module: asked or OWN.get(module, CASES) for module in modules}
    every = timed(list(dict.fromkeys(name for several in names.values() for name in several)), folder)
    return {module: [case for case in every if {case.title, case.title.split("/")[0]} & set(several)] for module, several in names.items()}


def try_here(mutant: Mutant, cases: Sequence[Timed], folder: str, said: int) -> int:
    """What the process of a mutant does: it says each case before it is run; the status is 0 if it lives."""
    silent = os.open(os.devnull, os.O_WRONLY)
    os.dup2(silent, 1)
    os.dup2(silent, 2)
    resource.setrlimit(resource.RLIMIT_AS, (MEMORY, MEMORY))
    os.mkdir(folder)
    os.environ["SCRATCH"] = folder
    put_in(mutant)
    for case in cases:
        os.write(said, f"{case.title}\n".encode())
        signal.alarm(int(PATIENCE + TIMES * case.seconds))
        case.function()
        if trial.failed:
            return 1
    return 0


def begin(mutant: Mutant, cases: Sequence[Timed], folder: str) -> Tuple[int, int]:
    """Begins the process of a mutant, and gives it with what it says."""
    reader, writer = os.pipe()
    process = os.fork()
    if process == 0:
        status = 1
        try:
            status = try_here(mutant, cases, folder, writer)
        except BaseException:
            traceback.print_exc()
        finally:
            os._exit(status)
    os.close(writer)
    return process, reader


def tried(mutants: Sequence[Mutant], cases: Mapping[str, Sequence[Timed]], jobs: int, folder: str) -> Iterator[Tuple[Mutant, str]]:
    """Each mutant as its process ends, so many side by side, with the case that has killed it; none where it lives."""
    left, running = list(mutants), dict[int, Tuple[Mutant, int, str]]()
    while left or running:
        while left and len(running) < jobs:
            own = os.path.join(folder, f"mutant-{len(left)}")
            process, reader = begin(left[0], cases[left[0].module], own)
            running[process] = left.pop(0), reader, own
        process, status = os.wait()
        mutant, reader, own = running.pop(process)
        with open(reader, encoding="utf-8") as said:
            lines = said.read().splitlines()
        shutil.rmtree(own, ignore_errors=True)
        yield mutant, (lines[-1] if lines else "its own code") if status else ""


# What is known of those that live.


Key = Tuple[str, str, str]  # the function, what is another thing in it, and the text of the line


def known_equal() -> Dict[Key, str]:
    """Why a mutant does the same as the code."""
    found: Dict[Key, str] = {}
    for line in (TOP / "tests/operators/equal_mutants.txt").read_text(encoding="utf-8").splitlines():
        if line and not line.startswith("#"):
            function, what, text, why = (part.strip() for part in line.split(" | "))
            found[function, what, text] = why
    return found


def key_of(mutant: Mutant) -> Key:
    text = text_of(mutant.module)
    function = ".".join([mutant.module, *path_to(ast.parse(text), mutant.line)])
    return function, mutant.what, text.splitlines()[mutant.line - 1].strip()


def main(words: Sequence[str]) -> int:
    parser = argparse.ArgumentParser(prog="mutants.py", description=__doc__, formatter_class=argparse.RawDescriptionHelpFormatter)
    parser.add_argument("modules", nargs="*", metavar="MODULE", help="whose mutants are made (all that decide)")
    parser.add_argument("--sample", type=int, default=0, metavar="N", help="so many by chance")
    parser.add_argument("--seed", type=int, default=1, help="of the chance (%(default)s)")
    parser.add_argument("--only", action="append", default=[], metavar="MODULE:LINE:WHAT", help="one of them")
    parser.add_argument("--cases", nargs="+", default=[], metavar="NAME", help=f"what tries them ({' '.join(CASES)}, and of some modules others)")
    parser.add_argument("--list", action="store_true", help="print them, and try none")
    parser.add_argument("--jobs", type=int, default=os.cpu_count() or 1, metavar="N", help="how many are tried side by side (%(default)s)")
    asked = parser.parse_args(words)
    mutants = [mutant for module in asked.modules or DECIDE for mutant in of_module(module, text_of(module))]
    if asked.only:
        mutants = [mutant for mutant in mutants if mutant.title in asked.only]
    if asked.sample:
        mutants = random.Random(asked.seed).sample(mutants, min(asked.sample, len(mutants)))
    if asked.list:
        print("\n".join(mutant.title for mutant in mutants))
        return 0
    with tempfile.TemporaryDirectory(prefix="mutants-") as folder:
        cases = cases_of({mutant.module for mutant in mutants}, asked.cases, folder)
        return say_all(tried(mutants, cases, asked.jobs, folder), len(mutants))


def say_all(found: Iterator[Tuple[Mutant, str]], count: int) -> int:
    """A line for each, and the status: 1 where one lives that is not known to be equal, or one is killed that is."""
    equal, wrong, alive = known_equal(), 0, 0
    for mutant, killer in found:
        why = equal.get(key_of(mutant))
        alive += not killer
        wrong += (not killer) != bool(why)
        said = f"lives, and is equal: {why}" if why else "LIVES"
        print(f"{mutant.title} {f'killed by {killer}' if killer else said}" + (", and is said to be EQUAL" if killer and why else ""), flush=True)
    print(f"{count} mutants, {alive} live, {wrong} otherwise than is known")
    return 1 if wrong else 0


if __name__ == "__main__":
    sys.exit(main(sys.argv[1:]))
