"""Containers that runc makes, by the lines of operators/runtimes.md and others, and the agent over runc's state, found by the runtime's name: who
names CPUs is adopted where runc put it, limits, lists and nodes that `runc update` gives are followed, also behind an update that has none and over a
restart of the agent; pause, exec, kill and restart; what is given back. numarun-runc makes a container that has its CPUs before its first instruction. A state that
is broken, and an id with a blank, are said and harm nobody else."""

import os
import sys

sys.path[:0] = [os.path.join(os.path.dirname(os.path.abspath(__file__)), "..")]
import tree
import typed
import watched
from of_runc import begin, bundle, delete, kept, process, runc
from tree import CPUS, ROOT, read, say
from watched import requested, runs_on, timed

WRAPPER, CONTAINERS = f"{tree.REPOSITORY}/operators/numarun-runc", "/run/numarun-containers"
PIVOT = {word: [word, "--no-pivot"] for word in ("run", "create")}  # a first file system in memory lets nobody pivot
LINES = typed.Lines("runc", PROGRAM=["/sleeper"], **PIVOT)


def type_line(line, **instead):
    runc(*LINES.words(line, **instead))


def run(line, name, section):
    """Types a line that runs a container of this section; its first process, and its group."""
    type_line(line, BUNDLE=[bundle(name, section)])
    return process(name)


def quota(many, **more):
    return {"quota": many * 100000, "period": 100000, **more}


def has_own(pid, group, many):
    """Whether a container has so many CPUs of its own, and runs on these."""
    cpus = tree.cpus(requested(group))
    return len(cpus) == many and 0 not in cpus and runs_on(pid, cpus)


def nodes(group):
    return read(f"{ROOT}/{group}/cpuset.mems")


def follows():
    """Limits, lists and a restart, and no drift in all of that."""
    agent = watched.Agent("--runtime", "all", watch=None)
    agent.says("note no such folders yet: ")
    two, listed = typed.sections()
    packets, its = run("runc run --detach --bundle BUNDLE packets", "packets", listed)
    db, group = run("runc run --detach --bundle BUNDLE db", "db", {**two, "mems": "1"})
    web, _ = begin("web", {"shares": 512})
    agent.until(lambda: runs_on(packets, {6, 7}) and runs_on(db, {2, 3}) and runs_on(web, {0, 1, 4, 5}), "three containers")
    type_line("runc update --cpu-quota 100000 db")
    agent.until(lambda: has_own(db, group, 1), "a limit")
    runc("update", "--cpu-quota", "200000", "db")
    agent.until(lambda: runs_on(db, {2, 3}), "the limit of before")
    type_line("runc update --cpuset-cpus 4-5 packets")
    agent.until(lambda: runs_on(packets, {4, 5}) and 6 in tree.allowed(web), "another list")
    type_line("runc update --memory 100000000 packets")
    assert kept("packets", "cpuset_cpus") == ""  # as runc 1.1 forgets it
    lines = len(watched.lines())
    begin("late", quota(1))
    agent.until(lambda: any(line.startswith("done") for line in watched.lines()[lines:]), "a look behind that")
    assert runs_on(packets, {4, 5}), watched.lines()[lines:]
    agent.end()
    agent = watched.Agent("--runtime", "runc", watch=None)
    agent.says(f"adopt packets {os.path.dirname(BUNDLE_OF['packets'])}/packets 4-5")
    lines = len(watched.lines())
    delete("late")
    agent.until(lambda: any(line.startswith("done") for line in watched.lines()[lines:]), "a plan of the next agent")
    assert runs_on(packets, {4, 5}) and runs_on(db, {2, 3}), watched.lines()[lines:]
    assert not [line for line in watched.lines() if line.startswith("drift")], watched.lines()
    return agent, {"packets": packets, "db": db, "web": web}, its


BUNDLE_OF = {"packets": "/tmp/of-runc/packets"}


def lives(agent, pids):
    """pause and resume change nothing; what runs in a container runs on its CPUs; one that is killed and kept gives its CPUs back, and one
    that comes back under its id gets some."""
    type_line("runc pause db")
    type_line("runc resume db")
    assert runs_on(pids["db"], {2, 3})
    type_line("runc exec --detach db PROGRAM")
    agent.until(lambda: len(tree.processes(f"{ROOT}/db")) == 2 and all(runs_on(pid, {2, 3}) for pid in tree.processes(f"{ROOT}/db")), "exec")
    type_line("runc kill --all db KILL")
    agent.says("stopped db: ")
    agent.until(lambda: {2, 3} <= tree.allowed(pids["web"]), "its CPUs are given back")
    type_line("runc delete db")
    db, group = begin("db", quota(3, mems="1"))
    agent.until(lambda: has_own(db, group, 3) and not tree.allowed(db) & tree.allowed(pids["packets"]), "back under its id")
    two, its = run("runc create --bundle BUNDLE two", "two", quota(1))
    agent.until(lambda: has_own(two, its, 1), "one that is created")
    type_line("runc start two")
    assert has_own(two, its, 1)
    for name in ("two", "db"):
        delete(name)
    agent.says("ended db")


def nodes_named(agent):
    """Nodes in place of a home that the agent gave: runc's state has them until the next update of something else, and they stay behind that and over a
    restart of the agent."""
    two, group = begin("two", quota(2))
    agent.until(lambda: has_own(two, group, 2) and nodes(group) in ("1", "3"), "a home")
    assert kept("two", "cpuset_mems") == "" == kept("two", "cpuset_cpus")
    type_line("runc update --cpuset-mems 0 two")
    assert kept("two", "cpuset_mems") == "0"
    agent.until(lambda: nodes(group) == "0" and has_own(two, group, 2) and 1 in tree.allowed(two), "nodes in place of a home")
    runc("update", "--cpu-quota", "100000", "two")
    assert kept("two", "cpuset_mems") == ""
    agent.until(lambda: has_own(two, group, 1), "a limit behind that")
    assert nodes(group) == "0" and runs_on(two, {1}), (nodes(group), tree.allowed(two), watched.lines()[-20:])
    agent.end()
    agent = watched.Agent("--runtime", "runc", watch=None)
    agent.says("adopt two ")
    runc("update", "--cpu-quota", "200000", "two")
    agent.until(lambda: has_own(two, group, 2), "a limit that the next agent sees")
    assert nodes(group) == "0" and 1 in tree.allowed(two), (nodes(group), tree.allowed(two), watched.lines()[-20:])
    assert not [line for line in watched.lines() if line.startswith("drift")], watched.lines()
    return agent


def broken(agent, pids):
    """What is no container's is said, with its path; the others go on, and who runs keeps its CPUs."""
    os.makedirs("/run/runc/a b")
    for folder in ("/run/runc/a b", "/run/runc/half"):
        os.makedirs(folder, exist_ok=True)
        with open(f"{folder}/state.json", "w") as file:
            file.write('{"config": {"labels": ["bun')
    agent.says("absent half: /run/runc/half/state.json: not JSON")
    agent.says("absent 'a b': '/run/runc/a b': a name with blanks")
    state = read("/run/runc/packets/state.json")
    with open("/run/runc/packets/new", "w") as file:
        file.write(state[:300])
    os.rename("/run/runc/packets/new", "/run/runc/packets/state.json")
    agent.says("stays packets: /run/runc/packets/state.json: not JSON; there is a process in its group")
    one, group = begin("one", quota(1))
    agent.until(lambda: has_own(one, group, 1), "another one")
    assert runs_on(pids["packets"], {4, 5})
    delete("one")
    with open("/run/runc/packets/new", "w") as file:
        file.write(state)
    os.rename("/run/runc/packets/new", "/run/runc/packets/state.json")
    for folder in ("/run/runc/a b", "/run/runc/half"):
        os.remove(f"{folder}/state.json")
        os.rmdir(folder)


def given_back(agent, pids, group):
    """The last list and the last nodes are what the groups had before, as runc has them."""
    agent.end()
    done = watched.release()
    assert not done.returncode and requested(group) == "4-5" and runs_on(pids["web"], CPUS), (done, requested(group))
    assert nodes("two") == "0" and runs_on(process("two")[0], CPUS), (nodes("two"), requested("two"))
    for name in ("packets", "web", "two"):
        delete(name)


def before_its_first_instruction():
    """The agent would look again in an hour; numarun-runc has the container wait for its answer, and is told of once by both folders."""
    agent = watched.Agent("--pause", "3600", "--runtime", "runc", watch=CONTAINERS)
    agent.until(lambda: os.path.exists(f"{watched.WORK}/hooks"), "the agent")
    runc("--numarun-runc=/app/runc", "--numarun-wait=300", "create", "--no-pivot", "--bundle", bundle("eager", quota(2, mems="1")), "eager", program=WRAPPER)
    pid, group = process("eager")
    assert runs_on(pid, {2, 3}) and requested(group) == "2-3", (requested(group), tree.allowed(pid), watched.lines()[-20:])
    runc("start", "eager")
    agent.end()
    agent = watched.Agent("--runtime", "runc", watch=CONTAINERS)
    agent.says("adopt eager ")
    runc("update", "--cpuset-cpus", "4-5", "eager")
    agent.until(lambda: runs_on(pid, {4, 5}), "a list of one that both folders tell of")
    runc("delete", "--force", "eager")
    agent.says("ended eager")
    agent.end()
    assert not os.listdir(CONTAINERS) and not [line for line in watched.lines() if line.startswith("refused")], watched.lines()[-20:]
    said = runc("--numarun-runc=/app/runc", "--numarun-wait=0.2", "create", "--no-pivot", "--bundle", bundle("none", quota(1)), "none", program=WRAPPER, status=1)
    assert "the agent has not answered of none in 0.2 s" in said, said


watched.begin()
agent, pids, group = timed(follows)
timed(lives, agent, pids)
agent = timed(nodes_named, agent)
timed(broken, agent, pids)
timed(given_back, agent, pids, group)
timed(before_its_first_instruction)
LINES.are_all_typed()
assert "Traceback" not in read(watched.OUT), read(watched.OUT)[-2000:]
say(f"runc: {runc('--version').splitlines()[0]}: ten containers, {len(LINES.typed)} lines of the page; limits, lists and nodes, also those that runc forgets, exec, kill, what is broken, and numarun-runc")
tree.clear()
