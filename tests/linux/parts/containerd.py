"""Containers that ctr makes by containerd, by the lines of operators/runtimes.md and others, and the agent over the folders of its namespaces,
found by the runtime's name: limits, a list, pause, exec, kill, start again, and one id in two namespaces. By numarun-runc a container has its CPUs before its first instruction, and is not
started while no agent answers."""

import os
import sys

sys.path[:0] = [os.path.join(os.path.dirname(os.path.abspath(__file__)), "..")]
import of_containerd
import tree
import typed
import watched
from of_containerd import ROOTFS, ctr, process, remove, run, spec_with_list, update
from tree import CPUS, ROOT, read, say
from watched import requested, runs_on, timed

CONTAINERS, WRAPPER, RUNC = "/run/numarun-containers", "/tmp/numarun-runc", "/tmp/runc"
# A first file system in memory lets nobody pivot. `ctr task start` does not pass that on, so a runc that is named for the container says it.
LINES = typed.Lines("ctr", IMAGE=["--rootfs", ROOTFS], PROGRAM=["/sleeper"], run=["run", "--no-pivot"])
BY_RUNC = {"run": ["run", "--runc-binary", RUNC]}
# A BinaryName has no words of its own, so a script says them.
SCRIPT = """#!/bin/python3 -SEB
import os
import sys
program, words = {program!r}, sys.argv[1:]
if "create" in words:
    words.insert(words.index("create") + 1, "--no-pivot")
os.execv(program[0], [*program, *words])
"""


def put(path, *program):
    """A runc at this path, which is this program with these words."""
    with open(path, "w") as file:
        file.write(SCRIPT.format(program=program))
    os.chmod(path, 0o755)


def put_wrapper(seconds):
    put(WRAPPER, f"{tree.REPOSITORY}/operators/numarun-runc", "--numarun-runc=/app/runc", f"--numarun-wait={seconds}")


def type_line(line, **instead):
    ctr(*LINES.words(line, **instead))


def run_line(line, name, **instead):
    """Types a line that runs a container, with the one program that there is; its first process, and its group."""
    type_line(line, **{name: [name, "/sleeper"], **instead})
    return process(name)


def has_own(pid, group, many):
    """Whether a container has so many CPUs of its own, and runs on these."""
    cpus = tree.cpus(requested(group))
    return len(cpus) == many and 0 not in cpus and runs_on(pid, cpus)


def follows(agent):
    """What runs, what changes, and what runs in it; the agent began before containerd had a folder."""
    put(RUNC, "/app/runc")
    db, group = run_line("ctr run -d --cpus 2 IMAGE db", "db", **BY_RUNC)
    web, _ = run_line("ctr run -d IMAGE web", "web")
    kept, its = run("kept", "--cpus", "1", "--annotation", "numarun.stay=true", "--env", "NUMARUN_LEAST=1")
    type_line("ctr run -d --config CONFIG packets", CONFIG=[spec_with_list("packets", "6-7", "3")])
    packets, _ = process("packets")
    agent.until(lambda: has_own(db, group, 2) and has_own(kept, its, 1) and runs_on(packets, {6, 7}), "containers of ctr's")
    agent.until(lambda: not tree.allowed(web) & {6, 7, *tree.allowed(db), *tree.allowed(kept)}, "the others are on the pool")
    assert group == "default/db", group
    update("db", "--cpu-quota", "100000", "--cpu-period", "100000")
    agent.until(lambda: has_own(db, group, 1), "a limit")
    update("packets", "--cpuset-cpus", "4-5")
    agent.until(lambda: runs_on(packets, {4, 5}), "another list")
    type_line("ctr task pause db")
    type_line("ctr task resume db")
    type_line("ctr task exec -d --exec-id more db PROGRAM")
    agent.until(lambda: len(tree.processes(f"{ROOT}/{group}")) == 2 and all(has_own(pid, group, 1) for pid in tree.processes(f"{ROOT}/{group}")), "exec")
    return web, packets


def ends_and_starts(agent):
    """Who is killed gives its CPUs back, and gets some when it is started again, as its config says and no update."""
    type_line("ctr task kill --signal KILL --all db")
    agent.says("stopped db: ")
    type_line("ctr task delete db")
    agent.says("ended db")
    type_line("ctr task start -d db")
    db, group = process("db")
    agent.until(lambda: has_own(db, group, 2), "start again")
    remove("db")
    agent.until(lambda: sum(line == "ended db" for line in watched.lines()) == 2, "its end")


def in_two_namespaces(agent):
    """One id in two namespaces: the one that is told goes on, and the other is said, until the first one ends."""
    first, group = run("twin", "--cpus", "1")
    agent.until(lambda: has_own(first, group, 1), "the first one")
    second, other = run("twin", "--cpus", "1", namespace="other")
    agent.says("refused: its id is told by /run/containerd/runc/default/twin too: twin /run/containerd/runc/other/twin")
    assert has_own(first, group, 1)
    remove("twin")
    agent.until(lambda: has_own(second, other, 1), "the other one")
    remove("twin", namespace="other")


def given_back(agent, web, packets):
    agent.end()
    assert not [line for line in watched.lines() if line.startswith("drift")], watched.lines()
    done = watched.release()
    assert not done.returncode and runs_on(web, CPUS) and runs_on(packets, {4, 5}), (done, tree.allowed(web), tree.allowed(packets))
    for name in ("web", "packets", "kept"):
        remove(name)


def before_its_first_instruction():
    """The agent would look again in an hour; numarun-runc in place of runc has the container wait for its answer."""
    put_wrapper(300)
    agent = watched.Agent("--pause", "3600", "--runtime", "containerd", watch=CONTAINERS)
    agent.until(lambda: os.path.exists(f"{watched.WORK}/hooks"), "the agent")
    type_line(f"ctr run -d --runc-binary {typed.WRAPPER} --cpus 2 IMAGE db", **{typed.WRAPPER: [WRAPPER], "db": ["eager", "/sleeper"], "run": ["run"]})
    pid, group = process("eager")
    assert has_own(pid, group, 2), (requested(group), tree.allowed(pid), watched.lines()[-20:])
    agent.end()
    agent = watched.Agent("--runtime", "containerd", watch=CONTAINERS)
    agent.says("adopt eager ")
    remove("eager")
    agent.says("ended eager")
    agent.end()
    assert not os.listdir(CONTAINERS) and not [line for line in watched.lines() if "eager" in line and line.startswith("refused")], watched.lines()[-20:]


def not_started():
    """No agent answers: the container is not started, and ctr says why."""
    put_wrapper(0.2)
    said = run("none", "--cpus", "1", "--runc-binary", WRAPPER, status=1)
    assert "the agent has not answered of none in 0.2 s" in said, said
    assert not os.listdir(CONTAINERS), os.listdir(CONTAINERS)


watched.begin()
agent = watched.Agent("--runtime", "containerd", watch=None)
agent.says("note no such folders yet: /run/containerd/runc")
daemon = of_containerd.begin()
web, packets = timed(follows, agent)
timed(ends_and_starts, agent)
timed(in_two_namespaces, agent)
timed(given_back, agent, web, packets)
timed(before_its_first_instruction)
timed(not_started)
LINES.are_all_typed()
daemon.terminate()
daemon.wait()
assert "Traceback" not in read(watched.OUT), read(watched.OUT)[-2000:]
say(f"containerd: eight containers of two namespaces, {len(LINES.typed)} lines of the page; limits, a list, pause, exec, kill, start again, one id twice, and numarun-runc")
tree.clear()
