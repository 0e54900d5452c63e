"""What changes under the agent: CPUs that go, limits that change, by a config and by crun update, what others write, a folder that can't
be seen, a partition beside; a container of crun's that has its CPUs before its first instruction; and SIGTERM in the midst of a hand-over."""

import json
import os
import signal
import subprocess
import sys
import time

sys.path[:0] = [os.path.join(os.path.dirname(os.path.abspath(__file__)), "..")]
import tree
import typed
import watched
from of_crun import bundle, crun, process
from tree import ROOT, read, say, write
from watched import come, configure, requested, runs_on

CONTAINERS = "/run/numarun-containers"


def own(path, pid, many):
    """Whether a container has so many CPUs of its own, and runs on these."""
    cpus = tree.cpus(requested(path))
    return len(cpus) == many and 0 not in cpus and runs_on(pid, cpus)


def cpus_that_go():
    """One whose only CPU goes runs on the pool, and not on others' CPUs; a newcomer has its own at once."""
    x, y = come("x", "numarun/x", cpus="5"), come("y", "numarun/y", 2, mems="1")
    agent = watched.Agent()
    agent.until(lambda: own("numarun/x", x, 1) and own("numarun/y", y, 2), "two containers")
    tree.turn(5, False)
    agent.says("waits x: short demand 1")
    agent.until(lambda: not tree.allowed(x) & tree.allowed(y) and own("numarun/y", y, 2), "x is on the pool")
    n = come("n", "numarun/n", 1)
    agent.until(lambda: own("numarun/n", n, 1) and not tree.allowed(n) & tree.allowed(x), "a newcomer")
    tree.turn(5, True)
    agent.until(lambda: requested("numarun/x") == "5" and own("numarun/x", x, 1), "it is back")
    return agent, {"x": x, "y": y, "n": n}


def limits(agent, pids):
    """A limit that is lowered, raised, and raised past what there is; and one that the group alone has."""
    y, before = pids["y"], tree.cpus(requested("numarun/y"))
    configure("y", "numarun/y", 1, mems="1")
    agent.until(lambda: own("numarun/y", y, 1), "lowered")
    assert tree.cpus(requested("numarun/y")) < before, (before, requested("numarun/y"))
    configure("y", "numarun/y", 9, mems="1")
    agent.says("keeps y: ")
    assert own("numarun/y", y, 1), requested("numarun/y")
    configure("y", "numarun/y", 1, mems="1")
    assert not write(f"{ROOT}/numarun/y/cpu.max", "200000 100000")
    agent.until(lambda: own("numarun/y", y, 2), "cpu.max")
    assert not write(f"{ROOT}/numarun/y/cpuset.mems", "3")
    agent.until(lambda: own("numarun/y", y, 2) and tree.cpus(requested("numarun/y")) == {6, 7}, "cpuset.mems")
    said = [line for line in watched.lines() if line.startswith(("ended", "adopt"))]
    assert not said, said


def others_write(agent, pids):
    """What others write is written again; a folder that goes away ends nobody."""
    assert not write(f"{ROOT}/numarun/y/cpuset.cpus", "0-7")
    agent.says("drift y has 0-7 in place of 6-7")
    agent.until(lambda: own("numarun/y", pids["y"], 2), "drift")
    os.rename(watched.FOLDER, "/tmp/away")
    agent.says("stays y: ")
    assert own("numarun/y", pids["y"], 2), requested("numarun/y")
    os.rename("/tmp/away", watched.FOLDER)
    assert not [line for line in watched.lines() if line.startswith("ended")], watched.lines()[-20:]


def partition(agent, pids):
    """CPUs that a partition beside takes are left alone; a new start is no other."""
    watched.go("n", "numarun/n")
    os.mkdir(f"{ROOT}/beside")
    assert not write(f"{ROOT}/beside/cpuset.cpus", "3")
    assert not write(f"{ROOT}/beside/cpuset.cpus.partition", "root")
    agent.says("note CPUs 3 are left alone: ")
    agent.end()
    agent = watched.Agent()
    agent.until(lambda: own("numarun/y", pids["y"], 2) and own("numarun/x", pids["x"], 1), "a start beside a partition")
    assert not write(f"{ROOT}/beside/cpuset.cpus.partition", "member")
    agent.until(lambda: 3 in tree.cpus(read(f"{ROOT}/cpuset.cpus.effective")), "it is back")
    os.rmdir(f"{ROOT}/beside")
    agent.end()
    for name in ("x", "y"):
        watched.go(name, f"numarun/{name}")


def hooks_of_the_help():
    """What a config names by numarun-hook's help, and an emulated machine may need more than its ten seconds."""
    typed.install(typed.HOOK)
    told = subprocess.run([typed.HOOK, "--help"], stdin=subprocess.DEVNULL, capture_output=True, text=True, check=True).stdout
    hooks = json.loads("{" + told.partition("in a container's config:\n")[2] + "}")["hooks"]
    assert hooks["createRuntime"] == [{"path": typed.HOOK, "args": ["numarun-hook", CONTAINERS, "--wait", "10"]}], hooks
    hooks["createRuntime"][0]["args"][-1] = "100"
    return hooks


def before_its_first_instruction():
    """crun creates a container, and its hook waits for the agent, which would look again in an hour; and crun update is followed."""
    hooks = hooks_of_the_help()
    agent = watched.Agent("--pause", "3600", watch=CONTAINERS)
    agent.until(lambda: os.path.exists(f"{watched.WORK}/hooks"), "the agent")
    crun("create", "--no-pivot", "--bundle", bundle("db", {"quota": 200000, "period": 100000, "mems": "1"}, hooks=hooks), "db")
    pid, group = process("db")
    group = os.path.relpath(group, ROOT)
    assert requested(group) == "2-3" and runs_on(pid, {2, 3}), (requested(group), tree.allowed(pid), watched.lines()[-20:])
    crun("start", "db")
    agent.end()
    agent = watched.Agent(watch=CONTAINERS)
    crun("update", "--cpu-quota", "100000", "db")
    agent.until(lambda: own(group, pid, 1), "crun update")
    crun("delete", "--force", "db")
    agent.until(lambda: not os.path.exists(f"{CONTAINERS}/db"), "its end")
    agent.end()


def told_in_a_hand_over():
    """SIGTERM once the first of six containers on the pool has left it a CPU: the newcomer gets it, and the others leave it, before the agent ends with
    status 0. How many had yet to leave it."""
    there = [f"numarun/{name}" for name in "abcdef"]
    for path in there:
        come(os.path.basename(path), path)
    agent = watched.Agent()
    agent.until(lambda: all(requested(path) == "0-7" for path in there), "six on the pool")
    pid = come("x", "numarun/x", 1)
    while all(requested(path) == "0-7" for path in there):
        assert agent.process.poll() is None, watched.lines()[-20:]
    agent.process.send_signal(signal.SIGSTOP)
    left = sum(requested(path) == "0-7" for path in there)
    agent.process.send_signal(signal.SIGTERM)
    agent.process.send_signal(signal.SIGCONT)
    began = time.monotonic()
    status, seconds = agent.process.wait(), time.monotonic() - began
    assert not status, (status, watched.lines()[-20:])
    if not own("numarun/x", pid, 1) or any(tree.cpus(requested(path)) & tree.allowed(pid) for path in there):
        note = "note the hand-over to the last plan has not ended: the next agent takes it up"
        assert seconds > 8 and note in watched.lines(), (seconds, watched.lines()[-20:])  # it has no more than eight
    for name in "abcdefx":
        watched.go(name, f"numarun/{name}")
    return left


watched.begin()
agent, pids = cpus_that_go()
limits(agent, pids)
others_write(agent, pids)
partition(agent, pids)
before_its_first_instruction()
left = told_in_a_hand_over()
assert "Traceback" not in read(watched.OUT), read(watched.OUT)[-2000:]
say(f"updates: {len(watched.lines())} lines of the agent; CPUs that go, limits, others' writes, a partition, a hook that waits, and a stop while "
    f"{left} of six containers had yet to leave a CPU")
tree.clear()
