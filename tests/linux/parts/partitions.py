"""A cpuset partition on a real kernel: the program at a root that is one, is none, or stops being one; and the agent, which makes one, is
beside writes of others that break it or don't, heals it, names who may run there all the same, lets it grow and shrink, is killed at moments by
chance, and gives it back. What has to be so at each look is that of the scene."""

import errno
import os
import signal
import subprocess
import sys
import time
from typing import NamedTuple, Tuple

sys.path[:0] = [os.path.join(os.path.dirname(os.path.abspath(__file__)), "..")]
import tree
import watched
from partition_scene import MACHINE, NAME, SLICE, SYSTEM, Scene, is_new, layouts, told, write_machine
from tree import ROOT, read, say, write

PINNED = f"{ROOT}/{NAME}"
FILE = f"{PINNED}/cpuset.cpus.partition"
KILLS = 6


def make(path, text="root", asked="1-7"):
    os.makedirs(path, exist_ok=True)
    assert not write(f"{path}/cpuset.cpus", asked)
    assert not write(f"{path}/cpuset.cpus.partition", text)
    assert tree.until(lambda: read(f"{path}/cpuset.cpus.partition") == text), read(f"{path}/cpuset.cpus.partition")


# The program.


def refuses(*said, root=PINNED, machine=MACHINE):
    command = [tree.PROGRAM, "run", machine, "--cgroup", root, "--partition"]
    done = subprocess.run(command, input="", capture_output=True, text=True)
    assert done.returncode == 1 and all(text in done.stdout + done.stderr for text in said), (root, done)


def of_the_program():
    """Which roots are taken, and what is said of one that breaks; nobody but who made it writes it."""
    refuses("E117 NoPartition", "there is no such file", root=ROOT, machine=tree.MACHINE)
    make(PINNED, "member")
    refuses("E117 NoPartition", "member in place of root")
    make(PINNED, "isolated")
    refuses("E117 NoPartition", "isolated in place of root", "no load is balanced there")
    assert not write(FILE, "member")
    make(PINNED)
    tree.TOP, before = f"{PINNED}/numarun", (tree.TOP, tree.RESERVED)
    tree.RESERVED = {1}
    containers, run = tree.Containers(), tree.Run("--partition", root=PINNED, machine=MACHINE)
    for name, section in (("db", {"quota": 2, "mems": "1"}), ("net", {"quota": 1, "mems": "3"}), ("web", {"mems": "0"})):
        containers.create(run, name, **section)
    plan = run.plan()
    containers.check_plan(plan, "in a partition")
    assert not run.said(), run.said()
    told(SLICE, "0-7")
    assert read(FILE).startswith("root invalid"), read(FILE)
    containers.create(run, "new", quota=1, mems="2")
    notes = [line for line in run.said() if "cpuset.cpus.partition: root invalid" in line and "in place of root" in line]
    assert notes, "a partition that broke goes unsaid"
    containers.check("a broken one")
    told(SLICE, "0")
    for text in ("member", "root"):
        told(FILE, text)
    assert read(FILE) == "root" and read(f"{PINNED}/cpuset.cpus") == "1-7"
    containers.check_plan(run.plan(), "healed")
    assert not [line for line in run.said() if "partition" in line]
    run.close()
    tree.remove(PINNED)
    tree.TOP, tree.RESERVED = before


# Writes of others.


class Kind(NamedTuple):
    """Writes of others, in turn: each a path below the root, a text, and the number by which it is refused, if it is. Those that take it back, behind
    which the groups go that came with it; and whether that breaks a partition right below the root, and one two deep."""

    what: str
    writes: Tuple[Tuple[object, ...], ...]
    back: Tuple[Tuple[str, str], ...] = ()
    breaks: Tuple[bool, bool] = (False, False)


FLAT_ALONE = (True, False)
CPUS_OF, PARTITION_OF, EXCLUSIVE_OF = (f"system.slice/cpuset.cpus{file}" for file in ("", ".partition", ".exclusive"))
SERVICE = "system.slice/s1/cpuset.cpus"
CPUS_BACK = ((CPUS_OF, "0"),)
PARTITION_BACK = ((PARTITION_OF, "member"), *CPUS_BACK)


def kinds_beside():
    """In groups beside it, or beside the group above it."""
    yield Kind("a slice that asks for all", ((CPUS_OF, "0-7"),), CPUS_BACK, FLAT_ALONE)
    yield Kind("a slice that asks for one", ((CPUS_OF, "3"),), CPUS_BACK, FLAT_ALONE)
    yield Kind("a slice that is a partition of one", ((CPUS_OF, "3"), (PARTITION_OF, "root")), PARTITION_BACK, FLAT_ALONE)
    yield Kind("a new group", (("new/cpuset.cpus", "2-3"),), (), FLAT_ALONE)
    yield Kind("a new slice that asks for all", (("user.slice/cpuset.cpus", "0-7"),), (), FLAT_ALONE)
    yield Kind("a service in a slice", ((SERVICE, "3,5"),), ((SERVICE, "0"),))
    yield Kind("a service that asks for just some of them", ((SERVICE, "2-3"),), ((SERVICE, "0"),))
    if is_new():
        yield Kind("a slice that asks for all by exclusive", ((EXCLUSIVE_OF, "0-7", errno.EINVAL),))
        yield Kind("a partition of one by exclusive", ((EXCLUSIVE_OF, "3", errno.EINVAL), (CPUS_OF, "3"), (PARTITION_OF, "root")), PARTITION_BACK, FLAT_ALONE)


def kinds_above_and_below(scene):
    """In the group above it, in those beside it there, and in those below it."""
    above = os.path.dirname(scene.group)
    yield Kind("a group below that asks for a container's", ((f"{scene.group}/new/cpuset.cpus", "2-3"),))
    if scene.is_deep():
        yield Kind("other CPUs of the group above", ((f"{above}/cpuset.cpus", "0-3"),), ((f"{above}/cpuset.cpus", "0-7"),))
        yield Kind("the group above as a partition", ((f"{above}/cpuset.cpus", "0-7"), (f"{above}/cpuset.cpus.partition", "root")),
                   ((f"{above}/cpuset.cpus.partition", "member"),))
        yield Kind("a group beside it in the slice", ((f"{above}/new/cpuset.cpus", "3"),), (), (False, True))


def done(kind):
    """Makes these writes; the groups that were made for that."""
    made = []
    for path, text, *refused in kind.writes:
        group = f"{ROOT}/{os.path.dirname(path)}"
        if not os.path.isdir(group):
            os.mkdir(group)
            made.append(group)
        told(f"{ROOT}/{path}", text, *refused)
    return made


def blamed(kind):
    """How the line ends that names the group which requests CPUs of the partition."""
    path, asks = next((path, text) for path, text, *refused in kind.writes if path.endswith("/cpuset.cpus"))
    return f"; {ROOT}/{os.path.dirname(path)} requests {asks.replace('0-7', '1-7')}"


def taken_back(kind, made):
    for path, text in kind.back:
        told(f"{ROOT}/{path}", text)
    for group in made:
        tree.remove(group)


def beside_others(scene):
    """Each kind of writes, what comes of it, and that all is well once it is taken back; how many."""
    kinds = [*kinds_beside(), *kinds_above_and_below(scene)]
    for kind in kinds:
        said = len(watched.lines())
        made = done(kind)
        scene.look(kind.what)
        if kind.breaks[scene.is_deep()]:
            assert not scene.is_root(), (kind, read(scene.file))
            scene.agent.until(lambda: scene.said(said) and scene.said(said)[-1].endswith(blamed(kind)), kind.what)
            scene.look(kind.what)
            assert not scene.is_root(), (kind, read(scene.file))
        else:
            time.sleep(1)
            assert scene.is_root() and not scene.said(said), (kind, read(scene.file), scene.said(said))
        scene.settles(kind.what)
        taken_back(kind, made)
        is_whole_again(scene, said, kind.what)
    return len(kinds)


def is_whole_again(scene, said, what):
    scene.agent.until(scene.is_root, f"{what}: healed")
    if scene.said(said):
        scene.agent.until(lambda: scene.said(said)[-1].endswith(": root again"), f"{what}: said to be healed")
    scene.settles(f"{what}: healed")


def written_itself(scene):
    """What others write into its own file: the agent makes it a partition again at once; how many texts."""
    texts = ("member", "isolated")
    for text in texts:
        said = len(watched.lines())
        told(scene.file, text)
        scene.look(text)
        scene.agent.until(lambda: scene.said(said), text)
        is_whole_again(scene, said, text)
        assert scene.said(said)[0].startswith(f"partition {scene.path}: {text}"), scene.said(said)
    return len(texts)


def moved_later(scene):
    """A process that is moved into the root group behind the making: Linux 6.1 lets it run on all CPUs, and it is named; 6.12 keeps it off."""
    pid = watched.group("system.slice/s1")
    told(f"{ROOT}/cgroup.procs", str(pid))
    if is_new():
        assert tree.allowed(pid) == SYSTEM, tree.allowed(pid)
    else:
        assert tree.allowed(pid) == tree.CPUS, tree.allowed(pid)
        scene.agent.says(f"loose {pid} sleeper: it may run on 1-7")
    return pid


# The agent.


def of_the_agent(group):
    scene = Scene(group)
    scene.begin()
    scene.containers_come()
    watched.come("out", "machine.slice/out", 2, mems="1")
    scene.settles("what comes")
    scene.agent.says(f"outside out: its group is not below {scene.path}")
    assert [tree.allowed(pid) for pid in scene.outside] == [SYSTEM, SYSTEM], [tree.allowed(pid) for pid in scene.outside]
    later = moved_later(scene)
    tried = beside_others(scene) + written_itself(scene)
    scene.end()
    os.kill(later, signal.SIGKILL)
    assert not is_new() or not [line for line in watched.lines() if line.startswith("loose ")], watched.lines()
    resized(scene)
    resized_by_file(scene)
    hot_plugged(scene)
    killed(scene)
    given_back(scene)
    return tried


def is_shrunk(scene, text, *more):
    """An agent that begins so lets the containers leave CPUs, so that none is squeezed at any time, and then the partition has these."""
    said, had = len(watched.lines()), scene.has()
    scene.begin(*more)
    scene.agent.until(lambda: scene.nobody_is_squeezed(text) and scene.has() == text, text)
    scene.settles(text)
    shrunk = f"partition {scene.path}: {text} in place of {had}"
    scene.agent.says(shrunk)
    lines = watched.lines()[said:]
    assert "done" in lines[:lines.index(shrunk)], lines
    assert not [line for line in lines if line.startswith("squeezed")], lines


def resized(scene):
    """Two CPUs are left to the system: the containers are moved away first. Then they are the partition's again."""
    is_shrunk(scene, "1-5", "--system", "6-7")
    assert not (scene.on("db") | scene.on("net")) & {6, 7}
    assert tree.until(lambda: tree.allowed(scene.outside[0]) == {0, 6, 7}), tree.allowed(scene.outside[0])
    scene.end()
    scene.begin()
    scene.agent.until(lambda: scene.nobody_is_squeezed("grown") and scene.has() == "1-7", "grown")
    scene.agent.until(lambda: scene.on("net") <= {6, 7}, "moved home")
    scene.settles("grown")


def resized_by_file(scene):
    """The same by a machine file that lacks one of the two CPUs of a container, at the next agent too, and then has it again."""
    scene.asks["net"] = 2
    watched.configure("net", scene.group_of("net"), 2, mems="3")
    scene.agent.until(lambda: scene.on("net") == {6, 7}, "two CPUs")
    scene.end()
    write_machine(nodes=("1", "2-3", "4-5", "6"))
    is_shrunk(scene, "1-6")
    assert tree.until(lambda: tree.allowed(scene.outside[0]) == {0, 7}), tree.allowed(scene.outside[0])
    scene.end()
    scene.brought("1-6")
    write_machine()
    scene.begin()
    scene.agent.until(lambda: scene.nobody_is_squeezed("grown") and scene.has() == "1-7" and scene.on("net") == {6, 7}, "the file before")
    scene.asks["net"] = 1
    watched.configure("net", scene.group_of("net"), 1, mems="3")
    scene.settles("one CPU again")


def hot_plugged(scene):
    """A CPU of a container goes and comes back: another one is found for it, and the partition stays one all the while."""
    gone, said = min(scene.on("db")), len(watched.lines())
    told(f"{tree.CPU}/cpu{gone}/online", "0")
    scene.agent.until(lambda: gone not in scene.on("db") and scene.is_settled(), "a CPU is gone")
    told(f"{tree.CPU}/cpu{gone}/online", "1")
    scene.agent.until(lambda: scene.is_root() and scene.is_settled(), "it is back")
    scene.agent.until(lambda: f"online {gone}" in watched.lines()[said:], "it is told")
    scene.look("it is back")
    assert not scene.said(said), scene.said(said)
    scene.end()


def killed(scene):
    """Killed again and again at moments by chance, while somebody breaks the partition: each container keeps the CPUs that it has."""
    scene.brought("1-7")
    chance, before = tree.chance("partitions"), scene.sets()
    for k in range(KILLS):
        scene.agent = watched.Agent("--partition", scene.group)
        end = time.monotonic() + chance.uniform(0, 8)
        while time.monotonic() < end:
            if chance.random() < 0.2:
                write(SLICE, chance.choice(("0-7", "3", "0", "0")))
            scene.look(f"before kill {k}")
        scene.end(signal.SIGKILL)
        scene.look(f"behind kill {k}")
        assert scene.sets() == before, (k, before, scene.sets())
    told(SLICE, "0")
    scene.brought("1-7")


def given_back(scene):
    """The partition has processes, so it gets all CPUs in place of none, and so do the containers; the slice keeps what it was given here."""
    done = watched.release()
    assert done.returncode == 0, (done, watched.lines()[-20:])
    assert f"given back {scene.path}: member, cpus 0-7, since it has processes" in done.stdout, done.stdout
    assert read(scene.file) == "member" and scene.has() == "0-7", (read(scene.file), done.stdout)
    assert all(watched.runs_on(pid, set(range(8))) for pid in (*scene.inside.values(), scene.outside[0])), done.stdout
    assert not os.path.exists(f"{watched.WORK}/partition.json")
    assert "Traceback" not in read(watched.OUT), read(watched.OUT)[-2000:]
    for name in ("machine.slice", scene.group.split("/")[0]):
        tree.remove(f"{ROOT}/{name}")


def is_refused(group, wanted):
    """An agent is refused with this reason, and nothing is left of what it made."""
    agent = watched.Agent("--partition", group)
    assert agent.process.wait() == 1, group
    said, there = watched.lines()[-1], [name for name in os.listdir(ROOT) if name == group.split("/")[0] and os.path.isdir(f"{ROOT}/{name}")]
    assert wanted in said and not there, (group, said)


def refused_by_the_agent():
    """What can't be a partition is refused with the name of who stands against it, and no partition of somebody else's is broken by it."""
    write_machine(("0-1", "2-3", "4-5", "6-7"), "0")
    is_refused(NAME, "none is left to the rest of the host")
    write_machine()
    for group in ("cgroup.procs", "cgroup.procs/x"):
        is_refused(group, f"{ROOT}/cgroup.procs is a file, and no group")
    told(SLICE, "3")
    is_refused(NAME, f"{ROOT}/system.slice requests 3")
    told(SLICE, "0")
    if not is_new():
        is_refused("a.slice/b.slice", "so a partition is right below")
    make(f"{ROOT}/other", asked="5")
    is_refused(NAME, f"{ROOT}/other requests 5")
    assert read(f"{ROOT}/other/cpuset.cpus.partition") == "root"
    tree.remove(f"{ROOT}/other")


watched.begin()
watched.group("system.slice/s1")
write_machine()
of_the_program()
tree.MACHINE = MACHINE
refused_by_the_agent()
tried = sum(watched.timed(of_the_agent, group) for group in layouts())
say(f"partitions: {tried} kinds of writes beside {' and '.join(layouts())}, {KILLS * len(layouts())} kills by chance, grown, shrunk, by the machine file too, "
    f"hot-plugged and given back: {Scene.looks} looks")
tree.remove(f"{ROOT}/system.slice")
tree.clear()
