"""Containers that podman runs by crun, and the agent over crun's state, by the lines of operators/runtimes.md: who names CPUs is adopted where
podman put it, who names no nodes of memory gets a home; podman update of limits and nodes is followed, of a list undone; pause, restart,
stop and start, kill, and what is given back. podman's hook, as the page has it, waits for the agent; and containers in pods, and in slices
that are held on the pool, have in effect what they request, and nobody else has it."""

import json
import os
import re
import sys

sys.path[:0] = [os.path.join(os.path.dirname(os.path.abspath(__file__)), "..")]
import tree
import typed
import watched
from of_podman import ROOTFS, begin, podman, prepare, process
from tree import CPUS, ROOT, read, say
from watched import requested, runs_on

CONTAINERS, HOOKS = "/run/numarun-containers", "/usr/share/containers/oci/hooks.d"
REST = ("--rest", "system.slice,user.slice,machine.slice")
RUNTIME = typed.option_of("podman")
LINES = typed.Lines("podman", IMAGE=["--rootfs", ROOTFS, "/sleeper"], PROGRAM=["/sleeper"])


def type_line(line):
    podman(*LINES.words(line))


def run(line):
    """Types a line that runs a container; its first process, and its group."""
    type_line(line)
    return process(re.search(r"--name (\S+)", line)[1])


def nodes(group):
    return read(f"{ROOT}/{group}/cpuset.mems")


def at_home(pid, group, many):
    """Whether a container has so many CPUs of one node, where its memory is, and runs on these."""
    cpus = tree.cpus(requested(group))
    return len(cpus) == many and 0 not in cpus and {cpu // 2 for cpu in cpus} == tree.cpus(nodes(group)) and runs_on(pid, cpus)


def said(beginning):
    return [line for line in watched.lines() if line.startswith(beginning)]


def begun():
    """Three containers, of which the one with a list was there before the agent."""
    packets, its = run("podman run -d --cpuset-cpus 6-7 --cpuset-mems 1 --name packets IMAGE")
    agent = watched.Agent(*RUNTIME, watch=None)
    agent.says("adopt packets(")
    web, _ = run("podman run -d --name web IMAGE")
    db, home = run("podman run -d --cpus 2 --name db IMAGE")
    agent.until(lambda: at_home(db, home, 2), "a home")
    assert runs_on(packets, {6, 7}) and requested(its) == "6-7" and nodes(its) == "1", watched.lines()[-20:]
    agent.until(lambda: not tree.allowed(web) & {6, 7, *tree.allowed(db)}, "the others are on the pool")
    return agent


def updated(agent):
    """podman update: a limit and nodes are followed. Nodes of one that has a home are undone, and so is a list, as crun's state has neither."""
    (db, home), (packets, its) = process("db"), process("packets")
    before = tree.allowed(db)
    type_line("podman update --cpus 1 db")
    agent.until(lambda: at_home(db, home, 1) and tree.allowed(db) < before, "podman update --cpus")
    type_line("podman update --cpuset-mems 3 packets")
    agent.until(lambda: nodes(its) == "3" and said("update packets(") and runs_on(packets, {6, 7}), "podman update --cpuset-mems")
    assert not said("drift"), said("drift")
    its_home = nodes(home)
    assert its_home != "0", watched.lines()[-20:]
    type_line("podman update --cpuset-mems 0 db")
    agent.says("drift db(")
    assert said("drift db(")[0].endswith(f" has nodes 0 in place of {its_home}: that is written again"), said("drift")
    agent.until(lambda: nodes(home) == its_home and at_home(db, home, 1), "the home again")
    type_line("podman update --cpuset-cpus 4-5 packets")
    agent.says("drift packets(")
    assert said("drift packets(")[0].endswith(" has 4-5 in place of 6-7: that is written again"), said("drift")
    agent.until(lambda: requested(its) == "6-7" and runs_on(packets, {6, 7}), "podman update --cpuset-cpus is undone")


def lives(agent):
    """Who is paused keeps its CPU while another one comes, and what runs in it runs there; a restart, and a stop with a start, give the CPUs back and
    get some; kill ends it."""
    (db, home), (web, _) = process("db"), process("web")
    has = tree.allowed(db)
    type_line("podman pause db")
    kept, its = run("podman run -d --annotation numarun.stay=true --cpus 1 --name kept IMAGE")
    agent.until(lambda: at_home(kept, its, 1), "who comes beside a paused one")
    assert runs_on(db, has) and tree.cpus(requested(home)) == has, (has, watched.lines()[-20:])
    type_line("podman unpause db")
    type_line("podman exec -d db PROGRAM")
    agent.until(lambda: len(tree.processes(f"{ROOT}/{home}")) == 2 and all(runs_on(pid, has) for pid in tree.processes(f"{ROOT}/{home}")), "podman exec")
    type_line("podman restart db")
    db, home = process("db")
    agent.until(lambda: at_home(db, home, 2), "podman restart")
    left = CPUS - {6, 7} - tree.allowed(kept)
    ends = len(said("ended db("))
    type_line("podman stop db")
    agent.until(lambda: len(said("ended db(")) > ends and runs_on(web, left), "podman stop")
    type_line("podman start db")
    db, home = process("db")
    agent.until(lambda: at_home(db, home, 2) and runs_on(web, left - tree.allowed(db)), "podman start")
    type_line("podman kill db")
    agent.until(lambda: len(said("ended db(")) > ends + 1 and runs_on(web, left), "podman kill")


def given_back(agent):
    (web, _), (packets, _) = process("web"), process("packets")
    agent.end()
    done = watched.release()
    assert not done.returncode and runs_on(web, CPUS) and runs_on(packets, {6, 7}), (done, tree.allowed(web), tree.allowed(packets))
    type_line("podman rm -f db packets web kept")


def put_hook():
    """The page's hook, at the page's place; an emulated machine may need more than its ten seconds."""
    hook, _ = typed.objects()
    assert hook["hook"] == {"path": typed.HOOK, "args": ["numarun-hook", CONTAINERS, "--wait", "10"]} and HOOKS in typed.PAGE, hook
    hook["hook"]["args"][-1] = str(watched.SECONDS)
    typed.install(typed.HOOK)
    os.makedirs(HOOKS, exist_ok=True)
    with open(f"{HOOKS}/numarun.json", "w") as file:
        json.dump(hook, file)


def before_its_first_instruction():
    """The agent would look again in an hour; podman's hook waits until it has answered."""
    put_hook()
    agent = watched.Agent("--pause", "3600", watch=CONTAINERS)
    agent.until(lambda: os.path.exists(f"{watched.WORK}/hooks"), "the agent")
    pid, group = begin("eager", "--cpus", "2")
    assert at_home(pid, group, 2), (requested(group), tree.allowed(pid), watched.lines()[-20:])
    podman("rm", "-f", "-t", "0", "eager")
    assert not os.listdir(CONTAINERS), os.listdir(CONTAINERS)
    os.remove(f"{HOOKS}/numarun.json")
    agent.end()


def in_a_pod():
    """The group of a pod is podman's, and its members' lie below it: one has CPUs of its own, whoever shares its pod."""
    agent = watched.Agent(*RUNTIME, watch=None)
    type_line("podman pod create --name duo --infra=false")
    one, group = run("podman run -d --pod duo --cpus 2 --name one IMAGE")
    other, its = run("podman run -d --pod duo --name other IMAGE")
    assert os.path.dirname(group) == os.path.dirname(its) != "", (group, its)
    agent.until(lambda: at_home(one, group, 2) and not tree.allowed(other) & tree.allowed(one), "a container of a pod")
    type_line("podman pod restart duo")
    (one, group), (other, _) = process("one"), process("other")
    agent.until(lambda: at_home(one, group, 2) and not tree.allowed(other) & tree.allowed(one), "podman pod restart")
    ends = [len(said(f"ended {name}(")) for name in ("one", "other")]
    type_line("podman pod rm -f duo")
    agent.until(lambda: [len(said(f"ended {name}(")) for name in ("one", "other")] == [many + 1 for many in ends], "podman pod rm")
    agent.end()
    done = watched.release()
    assert not done.returncode, done


def everybody():
    """Each group below the root that has processes: what it has in effect, and where each of these may run, by the kernel's files alone."""
    found = {}
    for place, _, _ in os.walk(ROOT):
        pids = tree.processes(place) if place != ROOT else []
        if pids:
            may = [cpus for cpus in map(tree.allowed, pids) if cpus is not None]
            found[os.path.relpath(place, ROOT)] = tree.cpus(read(f"{place}/cpuset.cpus.effective")), may
    return found


def apart(pinned):
    """Whether each of these groups has as many CPUs in effect as it asks for, its processes run there, and nobody else's do."""
    groups, taken = everybody(), set()
    for group, many in pinned.items():
        has, may = groups.get(group, (set(), []))
        if len(has) != many or has & (taken | tree.RESERVED) or has != tree.cpus(requested(group)) or any(cpus != has for cpus in may):
            return False
        taken |= has
    return not any((has | set().union(*may)) & taken for group, (has, may) in groups.items() if group not in pinned)


def slice_of(name):
    return tree.cpus(requested(name)) or CPUS


def in_slices():
    """podman makes groups in slices that the agent holds on the pool: what is on the way to a pinned one is let go, and what is beside is held.
    By its cgroupfs manager the last part of a parent's name is no slice."""
    for name in ("system.slice/sshd.service", "machine.slice/other.service"):
        watched.group(name)
    agent = watched.Agent(*REST, *RUNTIME, watch=None)
    _, web = begin("web", "--cgroup-parent", "machine.slice/pods")
    _, pod = run("podman run -d --cgroup-parent machine.slice/pods --cpus 2 --name deep IMAGE")
    assert (os.path.dirname(pod), os.path.dirname(web)) == ("machine.slice/pods", "machine.slice/pods"), (pod, web)
    agent.until(lambda: apart({pod: 2}) and len(everybody()) >= 4, "a container in a slice")
    _, dock = begin("dock", "--cpus", "1", "--cgroup-parent", "/system.slice/docker")
    agent.until(lambda: apart({pod: 2, dock: 1}), "one in another slice")
    watched.group("machine.slice/pods/new.service")
    agent.until(lambda: apart({pod: 2, dock: 1}) and len(slice_of("machine.slice/pods/new.service")) == 5, "who comes beside it")
    podman("restart", "-t", "0", "deep")
    agent.until(lambda: apart({pod: 2, dock: 1}), "podman restart")
    podman("rm", "-f", "-t", "0", "deep")
    agent.until(lambda: apart({dock: 1}) and slice_of("machine.slice") == CPUS - slice_of(dock), "its end: the slice is on the pool")
    agent.end()
    done = watched.release()
    assert not done.returncode and all(cpus == CPUS for _, may in everybody().values() for cpus in may), (done, everybody())
    podman("rm", "-f", "-t", "0", "web", "dock")
    for name in ("machine.slice", "system.slice"):
        tree.remove(f"{ROOT}/{name}")


watched.begin()
prepare()
agent = watched.timed(begun)
for step in (updated, lives, given_back):
    watched.timed(step, agent)
for step in (before_its_first_instruction, in_a_pod, in_slices):
    watched.timed(step)
LINES.are_all_typed()
assert "Traceback" not in read(watched.OUT), read(watched.OUT)[-2000:]
say(f"podman: {podman('--version')}: ten containers and {len(LINES.typed)} lines of the page; podman update of limits and nodes, nodes of one that has a home and a list that are undone, pause, exec, restart, stop and start, kill, "
    "what is given back, a hook that waits, a pod, and slices")
tree.clear()
