"""Containers that docker runs, by the lines of the pages, and the agent over docker's folder, found by the runtime's name: limits, lists of CPUs
and of nodes; update, restart, stop and start, pause, exec, kill, remove; a daemon that ends and begins; what is given back. By
numarun-runc a container has its CPUs before its first instruction, and is not started while no agent answers."""

import os
import re
import shlex
import subprocess
import sys

sys.path[:0] = [os.path.join(os.path.dirname(os.path.abspath(__file__)), "..")]
import of_containerd
import of_docker
import tree
import typed
import watched
from of_docker import IMAGE, docker, kept, process, remove, run
from tree import CPUS, ROOT, read, say
from watched import requested, runs_on, timed

CONTAINERS, WRAPPER = "/run/numarun-containers", typed.WRAPPER
LINES = typed.Lines("docker", run=["run", "--network", "none"], IMAGE=[IMAGE, "/sleeper"], PROGRAM=["/sleeper"])


def type_line(line, **instead):
    docker(*LINES.words(line, **instead))


def run_line(line):
    """Types a line that runs a container; its first process, and its group."""
    type_line(line)
    return process(re.search(r"--name (\S+)", line)[1])


def has_own(pid, group, many):
    """Whether a container has so many CPUs of its own, and runs on these."""
    cpus = tree.cpus(requested(group))
    return len(cpus) == many and 0 not in cpus and runs_on(pid, cpus)


def nodes(group):
    return read(f"{ROOT}/{group}/cpuset.mems")


def begun():
    """Three containers of an agent that began before docker had a folder."""
    agent = watched.Agent(*typed.option_of("docker"), watch=None)
    agent.says("note no such folders yet: /run/docker/runtime-runc/moby")
    daemon = of_docker.begin()
    of_docker.put_image()
    db, group = run_line("docker run -d --cpus 2 --name db IMAGE")
    web, _ = run_line("docker run -d --name web IMAGE")
    packets, its = run_line("docker run -d --cpuset-cpus 6-7 --cpuset-mems 1 --name packets IMAGE")
    assert os.path.dirname(group) == "docker", group
    agent.until(lambda: has_own(db, group, 2) and runs_on(packets, {6, 7}), "containers of docker's")
    agent.until(lambda: not tree.allowed(web) & {6, 7, *tree.allowed(db)}, "the others are on the pool")
    assert nodes(its) == "1"
    assert any(line.startswith("hold db(") for line in watched.lines()), watched.lines()  # docker's own name
    return agent, daemon


def updated(agent):
    """docker update: of a limit, of lists, of both, of something else behind that, which writes no CPUs, and runc forgets the list by it."""
    (db, group), (packets, its), (web, other) = (process(name) for name in ("db", "packets", "web"))
    type_line("docker update --cpus 1 db")
    agent.until(lambda: has_own(db, group, 1), "docker update --cpus")
    docker("update", "--cpus", "2", "db")
    agent.until(lambda: has_own(db, group, 2), "and back")
    type_line("docker update --cpuset-cpus 4-5 packets")
    agent.until(lambda: runs_on(packets, {4, 5}) and not tree.allowed(db) & {4, 5}, "docker update --cpuset-cpus")
    docker("update", "--memory", "100m", "--memory-swap", "200m", "packets")
    lines = len(watched.lines())
    late, where = run("late", "--cpus", "1", "-e", "NUMARUN_LEAST=1")
    agent.until(lambda: has_own(late, where, 1), "a plan behind that")
    assert runs_on(packets, {4, 5}), watched.lines()[lines:]
    remove("late")
    docker("update", "--cpuset-cpus", "6-7", "web")
    agent.until(lambda: runs_on(web, {6, 7}) and requested(other) == "6-7", "a list of one that had none")
    type_line("docker update --cpuset-mems 3 packets")
    agent.until(lambda: nodes(its) == "3" and runs_on(packets, {4, 5}), "docker update --cpuset-mems")
    assert not [line for line in watched.lines() if line.startswith("drift")], watched.lines()


def nodes_named(agent):
    """docker update --cpuset-mems of one that has a home from the agent; runc forgets the nodes by the next update of something else, and they stay."""
    db, group = process("db")
    assert nodes(group) not in ("", "0") and has_own(db, group, 2), (nodes(group), watched.lines()[-20:])
    type_line("docker update --cpuset-mems 0 db")
    assert kept("db", "cpuset_mems") == "0"
    agent.until(lambda: nodes(group) == "0" and has_own(db, group, 2) and 1 in tree.allowed(db), "nodes in place of a home")
    docker("update", "--memory", "100m", "--memory-swap", "200m", "db")
    assert kept("db", "cpuset_mems") == ""
    late, where = run("late", "--cpus", "1", "-e", "NUMARUN_LEAST=1")
    agent.until(lambda: has_own(late, where, 1), "a plan behind that")
    assert nodes(group) == "0" and has_own(db, group, 2) and 1 in tree.allowed(db), (nodes(group), watched.lines()[-20:])
    remove("late")
    assert not [line for line in watched.lines() if line.startswith("drift")], watched.lines()


def lives(agent):
    """pause and exec change nothing; a restart, and a stop with a start, give the CPUs back and get some; kill ends it."""
    db, group = process("db")
    has = tree.allowed(db)
    type_line("docker pause db")
    type_line("docker unpause db")
    type_line("docker exec -d db PROGRAM")
    agent.until(lambda: len(tree.processes(f"{ROOT}/{group}")) == 2 and all(runs_on(pid, has) for pid in tree.processes(f"{ROOT}/{group}")), "exec")
    type_line("docker restart packets")
    packets, its = process("packets")
    agent.until(lambda: runs_on(packets, {4, 5}) and requested(its) == "4-5", "docker restart, on the list of the update")
    type_line("docker stop db")
    agent.says("ended db(")
    type_line("docker start db")
    db, group = process("db")
    agent.until(lambda: has_own(db, group, 2), "docker start")
    type_line("docker kill db")
    agent.until(lambda: sum(line.startswith("ended db(") for line in watched.lines()) == 2, "docker kill")
    docker("start", "db")
    db, group = process("db")
    agent.until(lambda: has_own(db, group, 2), "and start again")


def given_back(agent, daemon):
    """The daemon ends, and its containers with it; another one starts them again; and release lets each have what docker wrote."""
    of_docker.end(daemon)
    agent.until(lambda: not os.path.isdir(f"{ROOT}/docker") or not [name for name in os.listdir(f"{ROOT}/docker") if len(name) == 64], "docker's end")
    daemon = of_docker.begin()
    docker("start", "db", "web", "packets")
    (db, group), (packets, its), (web, _) = (process(name) for name in ("db", "packets", "web"))
    agent.until(lambda: has_own(db, group, 2) and runs_on(packets, {4, 5}) and runs_on(web, {6, 7}), "docker begins again")
    agent.end()
    done = watched.release()
    assert not done.returncode and runs_on(db, CPUS) and runs_on(packets, {4, 5}) and requested(its) == "4-5", (done, requested(group), requested(its))
    type_line("docker rm -f db packets web")
    assert tree.until(lambda: not os.path.exists(f"{ROOT}/{group}") and not os.path.exists(f"{ROOT}/{its}")), (group, its)
    of_docker.end(daemon)


def before_its_first_instruction():
    """The agent would look again in an hour; docker's runtime numarun has the container wait for its answer."""
    agent = watched.Agent("--pause", "3600", "--runtime", "docker", watch=CONTAINERS)
    agent.until(lambda: os.path.exists(f"{watched.WORK}/hooks"), "the agent")
    typed.install(WRAPPER)
    _, page = typed.objects()
    assert page["runtimes"]["numarun"] == {"path": WRAPPER, "runtimeArgs": ["--numarun-wait=10"]}, page
    daemon = of_docker.begin(runtimes={name: {"path": WRAPPER, "runtimeArgs": [f"--numarun-wait={wait}"]} for name, wait in (("numarun", "300"), ("soon", "0.2"))})
    type_line("docker run -d --runtime numarun --cpus 2 --name db IMAGE", db=["eager"])
    pid, group = process("eager")
    assert has_own(pid, group, 2), (requested(group), tree.allowed(pid), watched.lines()[-20:])
    agent.end()
    agent = watched.Agent("--runtime", "docker", watch=CONTAINERS)
    agent.says("adopt eager(")
    docker("update", "--cpuset-cpus", "4-5", "eager")
    agent.until(lambda: runs_on(pid, {4, 5}), "a list of one that both folders tell of")
    remove("eager")
    agent.says("ended eager(")
    agent.end()
    assert not os.listdir(CONTAINERS) and not [line for line in watched.lines() if line.startswith("refused")], watched.lines()[-20:]
    said = docker("run", "-d", "--network", "none", "--runtime", "soon", "--name", "none", "--cpus", "1", of_docker.IMAGE, "/sleeper", status=125)
    assert "the agent has not answered of" in said, said
    docker("rm", "none")
    of_docker.end(daemon)


def of_readme(line):
    """The words of a line, which README has."""
    assert re.search(rf"^{re.escape(line)}( +#.*)?$", read(f"{tree.REPOSITORY}/README.md"), re.M), line
    return shlex.split(line)


def type_readme(line):
    """What is said to it."""
    done = subprocess.run(of_readme(line), cwd=tree.REPOSITORY, stdin=subprocess.DEVNULL, capture_output=True, text=True)
    assert not done.returncode, (line, done.stdout, done.stderr)
    return done.stdout


def by_readme():
    """README's lines, as they stand there, with a container that has a limit: a look that writes nothing, CPUs of its own, and what undoes them."""
    daemon = of_docker.begin()
    pid, group = run("first", "--cpus", "4")
    type_readme("operators/numarun-describe host --cores --output host.json")
    seen = type_readme("operators/numarun-agent host.json --runtime all --rounds 1")
    assert " hold first(" in seen and runs_on(pid, CPUS) and not requested(group), (seen, tree.allowed(pid))
    with open("/tmp/by-readme", "w") as out:
        words = of_readme("operators/numarun-agent host.json --cgroup /sys/fs/cgroup --runtime all")
        agent = subprocess.Popen(words, cwd=tree.REPOSITORY, stdin=subprocess.DEVNULL, stdout=out, stderr=subprocess.STDOUT)
    assert tree.until(lambda: len(tree.allowed(pid)) == 4 and " hold first(" in read("/tmp/by-readme") or agent.poll() is not None, watched.SECONDS)
    assert agent.poll() is None, read("/tmp/by-readme")
    agent.terminate()
    agent.wait()
    type_readme("operators/numarun-agent release --cgroup /sys/fs/cgroup")
    assert runs_on(pid, CPUS), tree.allowed(pid)
    remove("first")
    of_docker.end(daemon)


watched.begin()
containerd = of_containerd.begin()
agent, daemon = timed(begun)
timed(updated, agent)
timed(nodes_named, agent)
timed(lives, agent)
timed(given_back, agent, daemon)
timed(before_its_first_instruction)
timed(by_readme)
LINES.are_all_typed()
containerd.terminate()
containerd.wait()
assert "Traceback" not in read(watched.OUT), read(watched.OUT)[-2000:]
say(f"docker: six containers, {len(LINES.typed)} lines of the page; README's lines; docker update of limits, lists and nodes, restart, stop and start, kill, exec, a daemon that ends, and numarun-runc")
tree.clear()
