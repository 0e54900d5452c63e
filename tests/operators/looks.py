"""Tries what quick-look.sh refuses, that it runs the program on the machine and the bundles that it is given, and that it
prints each command before its answer."""

from __future__ import annotations

import os
from typing import Dict, Tuple

from trial import PROGRAM, TOP, case, check, piped, refuses, scratch, told, written

folder = scratch("kit")
WORDS = os.path.join(folder, "words")
MACHINE = os.path.join("examples", "machines", "two-socket.json")
SCRIPTS = os.path.join(TOP, "examples", "scripts")
STAND_IN = f"""#!/bin/sh
echo "$PWD" "$@" > "{WORDS}"
cd "{TOP}" && exec "{PROGRAM}" run {MACHINE}
"""
# Ids that are words of the answers, lines without words, and refusals of what else is answered by many lines.
HARD = [("list", "end"), ("certificate", "refused E101 NoAnswer"), ("\t ", None), ("  \tcreate   plan examples/bundles/web", "pid 2"),
        ("create refused examples/bundles/web", "pid 3"), ("list", "plan created\nrefused created\nend"), ("\r", None),
        ("rebalance now", "refused E110 BadLine"), ("no such command", "refused E110 BadLine"), ("begin", "plan total 0\npool 0-31\nend"),
        ("step", "more"), ("begin", "refused E90 Busy"), ("step", "done"), ("phase", "settled")]


def kit() -> Dict[str, str]:
    """An environment in which rt is the stand-in."""
    os.makedirs(folder, exist_ok=True)
    if not os.path.exists(os.path.join(folder, "rt")):
        written(os.path.join(folder, "rt"), STAND_IN, 0o755)
    return {**os.environ, "PATH": f"{folder}:{os.environ['PATH']}"}


def told_of(script: str) -> Tuple[int, str, bool]:
    """What is printed for a script, and whether it says that nothing is proved."""
    status, out, err = told("quick-look.sh", MACHINE, script, env=kit())
    return status, out, "nothing is proved" in err


def together(name: str) -> str:
    """The commands of a script of examples/, each before its answer, from the files that stand there."""
    answers, out = open(os.path.join(SCRIPTS, f"{name}.answers")).read().splitlines(), []
    for line in open(os.path.join(SCRIPTS, name)).read().splitlines():
        out += [f"> {line}", answers.pop(0)]
        while line in ("begin", "rebalance", "certificate", "list") and out[-1] != "end":
            out.append(answers.pop(0))
    return "\n".join(out + [""])


@case
def worked_scripts() -> None:
    check("a quick look", told_of(os.path.join(SCRIPTS, "a-cpu-goes")), (0, together("a-cpu-goes"), True))
    data = "--data examples/bundles/{0}/config.json={1}/examples/bundles/{0}/config.json"
    words = [f"{TOP}/crates/numarun try --data machine.json={TOP}/{MACHINE}"]
    words += [data.format(name, TOP) for name in ("database", "packet-processing")] + ["-- run machine.json\n"]
    check("the words of a quick look", open(WORDS).read(), " ".join(words))
    for name in ("before-and-after", "plans", "two-containers"):
        check(f"a quick look at {name}", told_of(os.path.join(SCRIPTS, name)), (0, together(name), True))


@case
def odd_scripts() -> None:
    """Hard lines, none, and no script that is named."""
    kit()
    hard = os.path.join(folder, "hard")
    with open(hard, "w", newline="") as file:
        file.write("\n".join(line for line, _ in HARD))
    check("a quick look at hard lines", told_of(hard), (0, "".join(f"> {line}\n{answer}\n" for line, answer in HARD if answer), True))
    check("a quick look at nothing", told_of("/dev/null")[0], 1)
    check("a quick look at nothing named", told("quick-look.sh", env=kit())[:2], (0, together("plans")))
    piped("quick-look.sh", env=kit())


@case
def a_picture() -> None:
    drawn = open(os.path.join(TOP, "docs", "two-socket.svg")).read()
    check("a picture of what it prints", told("numarun-draw-plan", "--before", MACHINE, text=together("before-and-after"))[:2], (0, drawn))


@case
def a_program_that_fails() -> None:
    kit()
    with open(os.path.join(folder, "rt"), "w") as file:
        file.write("#!/bin/sh\necho pid 2\nexit 3\n")
    check("a program that fails", told_of(os.path.join(SCRIPTS, "plans"))[:2], (3, "> create database examples/bundles/database\npid 2\n"))


@case
def refusals() -> None:
    status, out, err = told("quick-look.sh", "--help")
    check("quick-look.sh --help", (status, "Example: examples/quick-look.sh" in out, err), (0, True, ""))
    refuses("quick-look.sh", "no-such-machine", says="no-such-machine: no such file", env=kit())
    kit()
    with open(os.path.join(folder, "script"), "w") as file:
        file.write("create a ../bundle\n")
    refuses("quick-look.sh", MACHINE, file.name, says="../bundle: a quick look sees only bundles", env=kit())
    refuses("quick-look.sh", "--no-such-word", says="no such option", status=2, env=kit())
    refuses("quick-look.sh", "a", "b", "c", says="usage", status=2, env=kit())
    bare = scratch("bare")
    os.makedirs(bare)
    for tool in ("bash", "dirname", "realpath", "awk", "sort"):
        os.symlink(next(p for f in os.environ["PATH"].split(":") if os.path.exists(p := os.path.join(f, tool))), os.path.join(bare, tool))
    refuses("quick-look.sh", says="rt: not there", env={"PATH": bare})
