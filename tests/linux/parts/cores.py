"""Whole cores where a core has two threads, on a kernel with SMT: the machine file of `numarun-describe host --cores`, and the agent over it.
A limit of one CPU gives a whole core, a list its core; one whose core loses a thread moves to another one; who finds none waits on the
pool. No container has half a core at any time. The machine has to have two threads to a core: tests/linux.sh makes it so for this part."""

import json
import os
import subprocess
import sys

sys.path[:0] = [os.path.join(os.path.dirname(os.path.abspath(__file__)), "..")]
import tree
import watched
from tree import CPU, ROOT, read, say
from watched import come, requested, runs_on

MACHINE, GROUPS = "/tmp/cores.json", {name: f"numarun/{name}" for name in ("one", "list", "three")}


def siblings():
    """The cores by the kernel's own files: each a set of CPUs."""
    return {frozenset(tree.cpus(read(f"{CPU}/cpu{cpu}/topology/thread_siblings_list"))) for cpu in tree.CPUS}


def described():
    """The machine file has these cores, and reserves the whole core of CPU 0."""
    words = ["/bin/python3", "-SEB", f"{tree.REPOSITORY}/operators/numarun-describe", "host", "--cores", "--output", MACHINE]
    done = subprocess.run(words, stdin=subprocess.DEVNULL, capture_output=True, text=True)
    assert not done.returncode, (done, siblings())
    with open(MACHINE) as file:
        told = json.load(file)
    cores = {frozenset(tree.cpus(text)) for text in told["cores"]}
    assert cores == siblings() and {len(core) for core in cores} == {2}, told
    assert tree.cpus(told["reserved"]) == {0, 1}, told
    return cores


def whole(cores, name, pid):
    """The CPUs that a container has and runs on, of which none is half of a core."""
    cpus = tree.cpus(requested(GROUPS[name]))
    assert all(core <= cpus or not core & cpus for core in cores), (name, cpus)
    return cpus if runs_on(pid, cpus) and cpus and not cpus & {0, 1} else set()


def alone(cores, pids, sizes):
    """Whether these have so many CPUs, and nobody else runs there."""
    have = {name: whole(cores, name, pids[name]) for name in sizes}
    others = [tree.allowed(pid) for name, pid in pids.items() if name not in sizes]
    return all(len(have[name]) == size for name, size in sizes.items()) and len(set().union(*have.values())) == sum(sizes.values()) and \
        not any(cpus & set().union(*have.values()) for cpus in others)


watched.begin()
cores = described()
tree.MACHINE = MACHINE
pids = {"one": come("one", GROUPS["one"], 1, mems="1"), "list": come("list", GROUPS["list"], cpus="4-5")}
agent = watched.Agent()
agent.until(lambda: alone(cores, pids, {"one": 2, "list": 2}), "a core each")
assert tree.cpus(requested(GROUPS["one"])) == {2, 3} and tree.cpus(requested(GROUPS["list"])) == {4, 5}, watched.lines()
tree.turn(3, False)
agent.until(lambda: tree.cpus(requested(GROUPS["one"])) == {6, 7} and alone(cores, pids, {"one": 2, "list": 2}), "a thread that goes")
tree.turn(3, True)
agent.until(lambda: tree.cpus(requested(GROUPS["one"])) == {2, 3} and alone(cores, pids, {"one": 2, "list": 2}), "its core is whole again")
pids["three"] = come("three", GROUPS["three"], 3)
agent.says("waits three")
agent.until(lambda: alone(cores, pids, {"one": 2, "list": 2}), "who waits is on the pool")
agent.end()
done = watched.release()
assert not done.returncode and all(runs_on(pid, tree.CPUS) for pid in pids.values()), (done, pids)
assert "Traceback" not in read(watched.OUT), read(watched.OUT)[-2000:]
say("cores: a limit and a list give whole cores of two threads, also where a thread goes, and who finds no whole core waits")
tree.clear()
