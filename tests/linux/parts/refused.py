"""Writes that are refused: each call of the system in turn, by what is loaded before the program; each command in turn, by a tree that is
read-only; and a partition beside, which takes CPUs away that the program has given out."""

import ctypes
import errno
import itertools
import os
import sys

sys.path[:0] = [os.path.join(os.path.dirname(os.path.abspath(__file__)), "..")]
import tree
from scene import SCENE, WRITES, Scene
from tree import ROOT, read, say, write

NUMBERS = [errno.EINVAL, errno.EACCES, errno.ENOSPC]
MS_RDONLY, MS_REMOUNT = 1, 32


def each_call():
    """Each call of the system refused in turn, until the scene makes no more of them; how many were, and how many states were looked at."""
    states, refused = 0, 0
    for call in itertools.count(1):
        if call > 2 and not tree.is_due(call):
            continue
        run = tree.Run(fail=call, number=NUMBERS[call % 3]) if call > 2 else first(call)
        scene = Scene(run, tree.Containers())
        scene.play()
        notes = run.said()
        run.close()
        tree.clear()
        states += scene.states
        if not scene.refused and call > 2:
            assert not notes, notes
            break
        assert call <= 2 or (scene.refused == 1 and len(notes) == 1 and f"os error {NUMBERS[call % 3]}" in notes[0]), (call, scene.refused, notes)
        refused += 1
    assert call - 1 in WRITES, call
    return refused, states


def first(call):
    """The first two calls make the group of all containers: without it there is no run."""
    try:
        tree.Run(fail=call, number=NUMBERS[call % 3]).close()
    except tree.script.Refused as why:
        assert "E50 KernelFault" in str(why), why
        return tree.Run("--adopt")
    raise AssertionError(f"call {call} was refused, and the run began")


def remount(flags):
    libc = ctypes.CDLL(None, use_errno=True)
    failed = libc.mount(None, ROOT.encode(), None, MS_REMOUNT | flags, None)
    assert not failed, os.strerror(ctypes.get_errno())


def read_only():
    """Each command refused in turn, since the tree is read-only; then it is writable again. How often that refused one."""
    due = [at for at in range(len(SCENE)) if tree.is_due(at)]
    for at in due:
        run = tree.Run()
        scene = Scene(run, tree.Containers())
        turns = iter(range(len(SCENE)))

        def before(act):
            if next(turns) == at:
                remount(MS_RDONLY)
                answered = scene.all.check("read-only")
                found = attempt(scene, act)
                assert found == "refused E50 KernelFault", (act, found)
                assert "Read-only file system" in run.said()[-1]
                assert scene.all.check("read-only") == answered
                remount(0)
        scene.play(before)
        run.close()
        tree.clear()
    return len(due)


def attempt(scene, act):
    """The answer to a command of the scene, where nothing can be written."""
    kind, *rest = act
    if kind == "plan":
        scene.run.plan("begin")
        answer = scene.run.one("step")
        while answer == "more":
            answer = scene.run.one("step")
        return answer
    if kind == "end":
        return scene.run.one(f"kill {rest[0]} KILL")
    return scene.run.one(f"{kind} {rest[0]} {scene.all.bundle(rest[0], **rest[1])}")


def partition():
    """A partition beside takes the CPUs of a container: it is said, and all stands as it was once they are back."""
    beside = f"{ROOT}/beside"
    os.mkdir(beside)
    write(f"{beside}/cpuset.cpus", "4-5")
    run, containers = tree.Run(), tree.Containers()
    containers.create(run, "net", quota=2, allowed="4-5", mems="2")
    write(f"{beside}/cpuset.cpus.partition", "root")
    assert read(f"{beside}/cpuset.cpus.partition") == "root", read(f"{beside}/cpuset.cpus.partition")
    plan = run.plan()
    assert plan.holds == {"net": {4, 5}}, plan.lines
    notes = [line for line in run.said() if "net/cpuset.cpus.effective" in line and "in place of 4-5" in line]
    assert len(notes) == 1, notes
    containers.check("a partition beside", effective=False)
    write(f"{beside}/cpuset.cpus.partition", "member")
    tree.until(lambda: read(f"{tree.TOP}/net/cpuset.cpus.effective") == "4-5")
    containers.check_plan(plan, "the partition is gone")
    containers.create(run, "web", mems="0")
    containers.check_plan(run.plan(), "the partition is gone")
    assert not run.said()
    run.close()
    tree.remove(beside)
    tree.clear()


tree.clear()
calls, states = each_call()
commands = read_only()
partition()
say(f"refused: {calls} calls of the system, each by itself, and {commands} commands in a tree that is read-only: {states} states; a partition beside is said")
