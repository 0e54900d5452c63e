"""Containers that crun makes, in groups of its own, and the agent over crun's state: each process gets the CPUs that a plan gave it,
also when the container is deleted and made anew under its id, and nothing else of its group is changed. By the lines of
operators/runtimes.md an update of a limit or of nodes is followed, and one of a list or of a home undone; pause, exec, kill and delete."""

import os
import subprocess
import sys

sys.path[:0] = [os.path.join(os.path.dirname(os.path.abspath(__file__)), "..")]
import tree
import typed
import watched
from of_crun import STATE, begin, bundle, crun, process
from tree import ROOT, read, say
from watched import requested, runs_on

WORK = "/run/numarun"
OTHERS = ("cpu.max", "cpu.weight", "memory.max", "pids.max")


def look_twice():
    """Two looks of the agent at crun's state; its lines."""
    words = ["/bin/python3", "-SEB", f"{tree.REPOSITORY}/operators/numarun-agent", tree.MACHINE, "--patience", "900", "--pin", "all", "--pool-least", "0", "--program", tree.PROGRAM, "--cgroup", ROOT,
             "--watch", STATE, "--work", WORK, "--rounds", "2", "--pause", "0.1"]
    done = subprocess.run(words, stdin=subprocess.DEVNULL, stdout=subprocess.PIPE, stderr=subprocess.STDOUT, text=True)
    assert not done.returncode, done.stdout
    return [line.split(" ", 1)[1] for line in done.stdout.splitlines()]


LINES = typed.Lines("crun", run=["run", "--no-pivot"], PROGRAM=["/sleeper"])  # a first file system in memory lets nobody pivot


def type_line(line, **instead):
    crun(*LINES.words(line, **instead))


def run(line, name, section):
    """Types a line that runs a container of this section; its first process, and its group below the root."""
    type_line(line, BUNDLE=[bundle(name, section)])
    pid, group = process(name)
    return pid, os.path.relpath(group, ROOT)


def has_own(pid, group, many):
    """Whether a container has so many CPUs of its own, and runs on these."""
    cpus = tree.cpus(requested(group))
    return len(cpus) == many and 0 not in cpus and runs_on(pid, cpus)


def nodes(group):
    return read(f"{ROOT}/{group}/cpuset.mems")


def by_two_looks():
    """Two looks at a time, at containers that come and go between them."""
    there = {name: begin(name, section) for name, section in (("db", {"quota": 200000, "period": 100000, "mems": "1"}), ("web", {"shares": 512}))}
    before = {name: [read(f"{group}/{file}") for file in OTHERS] for name, (_, group) in there.items()}
    assert before["db"][0] == "200000 100000", before
    lines = look_twice()
    assert tree.allowed(there["db"][0]) == {2, 3} and tree.allowed(there["web"][0]) == {0, 1, 4, 5, 6, 7}, lines
    assert read(f"{there['db'][1]}/cpuset.cpus.effective") == "2-3" and read(f"{there['db'][1]}/cpuset.mems") == "1"
    assert before == {name: [read(f"{group}/{file}") for file in OTHERS] for name, (_, group) in there.items()}
    lines = look_twice()
    assert [line.split(" ")[0] for line in lines if line.startswith("adopt")] == ["adopt", "adopt"] and not [line for line in lines if line.startswith("hold")], lines
    crun("delete", "--force", "db")
    there["db"] = begin("db", {"quota": 300000, "period": 100000, "cpus": "4-7", "mems": "3"})
    lines = look_twice()
    assert tree.allowed(there["db"][0]) == {4, 6, 7} or tree.allowed(there["db"][0]) == {5, 6, 7}, lines
    assert not tree.allowed(there["web"][0]) & tree.allowed(there["db"][0]), lines
    for name in there:
        crun("delete", "--force", name)
    look_twice()


def updated(agent, packets, its):
    """crun update: a limit is followed, and the nodes of one that names some. A home is written again, and a list too, as crun's state has none."""
    two, _ = typed.sections()
    db, group = run("crun run --detach --bundle BUNDLE db", "db", two)
    agent.until(lambda: has_own(db, group, 2), "a container with a limit")
    before = tree.allowed(db)
    type_line("crun update --cpu-quota 100000 db")
    agent.until(lambda: has_own(db, group, 1) and tree.allowed(db) < before, "crun update --cpu-quota")
    type_line("crun update --cpuset-mems 3 packets")
    agent.says("update packets ")
    agent.until(lambda: nodes(its) == "3" and runs_on(packets, {6, 7}), "crun update --cpuset-mems")
    assert not [line for line in watched.lines() if line.startswith("drift")], watched.lines()
    home = nodes(group)
    assert home != "0", watched.lines()
    type_line("crun update --cpuset-mems 0 db")
    agent.says(f"drift db has nodes 0 in place of {home}: that is written again")
    agent.until(lambda: nodes(group) == home and has_own(db, group, 1), "the home again")
    type_line("crun update --cpuset-cpus 4-5 packets")
    agent.says("drift packets has 4-5 in place of 6-7: that is written again")
    agent.until(lambda: requested(its) == "6-7" and runs_on(packets, {6, 7}), "crun update --cpuset-cpus is undone")
    return db, group


def lives(agent, db, group):
    """Who is paused keeps its CPU while another one comes, and what runs in it runs there; who is killed gives it back."""
    has = tree.allowed(db)
    type_line("crun pause db")
    late, its = begin("late", {"quota": 100000, "period": 100000})
    agent.until(lambda: has_own(late, os.path.relpath(its, ROOT), 1), "who comes beside a paused one")
    assert runs_on(db, has) and tree.cpus(requested(group)) == has, watched.lines()[-20:]
    type_line("crun resume db")
    type_line("crun exec --detach db PROGRAM")
    agent.until(lambda: len(tree.processes(f"{ROOT}/{group}")) == 2 and all(runs_on(pid, has) for pid in tree.processes(f"{ROOT}/{group}")), "exec")
    type_line("crun kill db KILL")
    agent.says("stopped db: ")
    type_line("crun delete db")
    agent.says("ended db")
    crun("delete", "--force", "late")


def by_the_page():
    """A container with a list, which was there before the agent, and one with a limit."""
    _, listed = typed.sections()
    packets, its = run("crun run --detach --bundle BUNDLE packets", "packets", listed)
    agent = watched.Agent(*typed.option_of("crun"), watch=None)
    agent.says("adopt packets ")
    db, group = updated(agent, packets, its)
    lives(agent, db, group)
    agent.end()
    done = watched.release()
    assert not done.returncode and requested(its) == "6-7" and runs_on(packets, {6, 7}), (done, requested(its))
    crun("delete", "--force", "packets")


tree.clear()
by_two_looks()
watched.begin()
by_the_page()
LINES.are_all_typed()
assert "Traceback" not in read(watched.OUT), read(watched.OUT)[-2000:]
say(f"crun: {crun('--version').splitlines()[0]}: two containers, one of which is made anew under its id, and what else their groups have is untouched; three containers and {len(LINES.typed)} "
    "lines of the page: crun update of a limit and of nodes, a home and a list that are written again, pause, exec, and kill")
tree.clear()
