"""The agent killed behind each of the writes by which it makes a partition from nothing, mends it, lets it grow and shrink, and by which a release
gives it back, one after another: the next agent or release goes on from there, and each container keeps CPUs that it shares with nobody."""

import itertools
import os
import signal
import sys

sys.path[:0] = [os.path.join(os.path.dirname(os.path.abspath(__file__)), "..")]
import forked
import tree
import watched
from partition_scene import MACHINE, SLICE, SYSTEM, Scene, is_new, layouts, programs, told, write_machine
from tree import CPUS, ROOT, read, say

SHRUNK = ("--system", "6-7")
MOMENT = 2  # seconds in which a write returns of which something is seen already


def is_killed(scene, k, holds, *more):
    """Whether an agent that begins with these words is killed behind its write of this number, before this holds; else it is told to end."""
    agent = watched.Agent("--partition", scene.group, *more, killed_behind=k, below=scene.top)
    assert tree.until(lambda: agent.process.poll() is not None or holds(), watched.SECONDS), (k, watched.lines()[-20:])
    tree.until(lambda: agent.process.poll() is not None, MOMENT)
    assert agent.process.poll() in (None, -signal.SIGKILL), (k, agent.process.returncode, watched.lines()[-20:])
    agent.end()
    assert tree.until(lambda: not programs()), programs()
    return agent.process.returncode == -signal.SIGKILL


def says(scene, what):
    """Whether the log has said this from now on."""
    said = len(watched.lines())
    return lambda: f"partition {scene.path}: {what}" in watched.lines()[said:]


def killed_making(scene):
    """From nothing: what is made is taken away by a release at once, or is a partition behind the next agent, and then taken away."""
    def is_made():
        return scene.is_root() and "cpuset" in read(f"{scene.path}/cgroup.subtree_control")
    for k in itertools.count(1):
        for goes_on in (False, True):
            if not is_killed(scene, k, is_made):
                is_taken_away(scene)
                return k - 1
            if goes_on:
                scene.begin()
                assert scene.has() == "1-7" and all(tree.allowed(pid) == SYSTEM for pid in scene.outside), k
                scene.end()
            is_taken_away(scene)


def is_taken_away(scene):
    done = watched.release()
    assert done.returncode == 0 and not os.path.exists(scene.top), (done, os.listdir(ROOT))
    assert tree.until(lambda: tree.allowed(scene.outside[0]) == CPUS), (done, tree.allowed(scene.outside[0]))


def broken_by_a_slice(scene):
    """An invalid one, of which the cause is gone."""
    told(SLICE, "0-7")
    told(SLICE, "0")


def made_a_member(scene):
    """A member with other CPUs."""
    told(scene.file, "member")
    told(f"{scene.path}/cpuset.cpus", "2-7")


def killed_mending(scene):
    """Each container keeps the CPUs that it has, and has them behind the next agent, which may have planned without those that the group lacked."""
    kills, before = 0, scene.sets()
    for act in ([made_a_member] if scene.is_deep() else [broken_by_a_slice, made_a_member]):
        for k in itertools.count(1):
            act(scene)
            if not is_killed(scene, k, says(scene, "root again")):
                break
            kills += 1
            scene.look(f"{act.__name__}, behind write {k}")
            assert scene.sets() == before, (act, k, before, scene.sets())
            scene.brought("1-7", holds=lambda: scene.sets() == before)
        scene.brought("1-7", holds=lambda: scene.sets() == before)
    return kills


def killed_resizing(scene):
    """Where it grows at once, and where it shrinks behind a plan."""
    kills = 0
    for words, before, then, after in ((SHRUNK, "1-5", (), "1-7"), ((), "1-7", SHRUNK, "1-5")):
        for k in itertools.count(1):
            scene.brought(before, *words)
            if not is_killed(scene, k, says(scene, f"{after} in place of {before}"), *then):
                break
            kills += 1
            scene.look(f"{before} to {after}, behind write {k}")
            scene.brought(after, *then)
    scene.brought("1-7")
    return kills


def killed_releasing(scene):
    """The next release gives back what the first one did not, and nobody is without CPUs between."""
    for k in itertools.count(1):
        done = watched.release(killed_behind=k, below=scene.top)
        assert done.returncode in (0, -signal.SIGKILL), done
        is_over = done.returncode == 0
        assert all(tree.allowed(pid) for pid in (*scene.inside.values(), *scene.outside)), (k, done)
        done = done if is_over else watched.release()
        assert done.returncode == 0 and read(scene.file) == "member" and scene.has() == "0-7", (k, done, read(scene.file), scene.has())
        assert all(tree.allowed(pid) == CPUS for pid in (*scene.inside.values(), scene.outside[0])), (k, done)
        assert not os.path.exists(f"{watched.WORK}/partition.json"), (k, done)
        if is_over:
            return k - 1
        scene.brought("1-7")


def of_the_layout(group):
    scene = Scene(group)
    counts = {"making": watched.timed(killed_making, scene)}
    scene.begin()
    scene.containers_come()
    scene.settles("what comes")
    scene.end()
    for what, step in (("mending", killed_mending), ("resizing", killed_resizing), ("releasing", killed_releasing)):
        counts[what] = watched.timed(step, scene)
    assert "Traceback" not in read(watched.OUT), read(watched.OUT)[-2000:]
    for name in scene.inside:
        watched.go(name, scene.group_of(name))
    for pid in scene.outside:
        os.kill(pid, signal.SIGKILL)
    tree.remove(scene.top)
    say(f"partition_kills: {group}: killed {counts}")
    assert all(counts.values()), counts


forked.begin()
watched.begin()
watched.group("system.slice/s1")
write_machine()
tree.MACHINE = MACHINE
told(SLICE, "0")
for group in layouts():
    of_the_layout(group)
say(f"partition_kills: {'two layouts' if is_new() else 'one layout'}, {Scene.looks} looks")
tree.remove(f"{ROOT}/system.slice")
tree.clear()
