"""The program is killed behind each call of the system, and started again with --adopt: each container that runs can be adopted with the
CPUs that it has, which changes nothing; the plan behind it moves as few CPUs as its certificate proves to be least; and in no state
two containers of which one is pinned share a CPU outside the reserved ones."""

import itertools
import os
import re
import subprocess
import sys

sys.path[:0] = [os.path.join(os.path.dirname(os.path.abspath(__file__)), "..")]
import tree
from scene import WRITES, Scene
from tree import PROGRAM, TOP, cpus, read, say

count = {"killed": 0, "adopted": 0, "stayed": 0, "moves": 0, "states": 0}


def killed(call):
    """Plays the scene up to a call; whether it came that far."""
    containers = tree.Containers()
    try:
        run = tree.Run(killed_behind=call)
    except tree.script.Refused as why:
        assert "status -9" in str(why), why
        return Scene(None, containers), True
    scene = Scene(run, containers)
    try:
        scene.play()
    except tree.script.Refused as why:
        assert "status -9" in str(why), why
        return scene, True
    run.close()
    return scene, False


def take_up(scene, last=False):
    """Starts again, and adopts what runs, as it is."""
    scene.run = tree.Run("--adopt")
    for name in os.listdir(TOP):
        if os.path.isdir(f"{TOP}/{name}") and name not in scene.wanted:
            tree.remove(f"{TOP}/{name}")
            scene.all.there.pop(name, None)
            scene.run.ok(f"forget {name}")
    before = requested(scene)
    for name in scene.wanted:
        bundle = f"{scene.all.folder}/{name}"
        if name in before:
            answer = scene.run.one(f"adopt {name} {bundle} {read(f'{TOP}/{name}/cpuset.cpus')}")
            assert answer.startswith("pid"), (name, answer, scene.run.said(), scene.all.states())
            count["adopted"] += 1
        else:
            answer = scene.run.one(f"create {name} {bundle}")
            assert answer.startswith("pid"), (name, answer, scene.run.said())
            scene.all.start(name)
        scene.check("taken up")
        now = requested(scene)
        assert {one: now[one] for one in before} == before, f"{name} was taken up, and {before} became {now}"
    return before


def requested(scene):
    return {name: state[0] for name, state in scene.all.states().items()}


def check_moves(scene, before):
    """The plan that follows: those who keep their CPUs have them at each moment, and no more move than is proved to be least."""
    first = requested(scene)
    plan = scene.run.plan("begin")
    certificate = scene.run.ask("certificate")
    done = subprocess.run([PROGRAM, "check"], input="\n".join(certificate) + "\n", stdout=subprocess.PIPE, text=True)
    least = re.fullmatch(r"plan total ([0-9]+) moves ([0-9]+)", done.stdout.strip())
    assert least and int(least[1]) == plan.total, (done.stdout, certificate)
    moves = sum(len(holds - first[name]) for name, holds in plan.holds.items())
    assert moves == int(least[2]), (moves, done.stdout, first, plan.holds)
    stay = {name: holds for name, holds in plan.holds.items() if before.get(name) == holds}

    def look():
        now = requested(scene)
        assert all(now[name] == holds for name, holds in stay.items()), f"one of {stay} was moved without need: {now}"
    scene.handed_over(look, plan)
    count["stayed"] += len(stay)
    count["moves"] += moves


tree.clear()
for call in itertools.count(1):
    if not tree.is_due(call):
        continue
    scene, was_killed = killed(call)
    if was_killed:
        scene.check(f"killed behind call {call}")
        check_moves(scene, take_up(scene))
        if count["killed"] % 4 == 0:
            scene.run.process.kill()
            scene.run.process.wait()
            before = take_up(scene)
            plan = scene.run.plan()
            assert requested(scene) == before, f"nothing happened, and {before} became {requested(scene)}"
            scene.all.check_plan(plan, "taken up once more")
        assert not [line for line in scene.run.said() if "is there and has to be adopted" not in line]
        scene.run.close()
    count["killed"] += was_killed
    count["states"] += scene.states
    tree.clear()
    if not was_killed:
        break
assert call - 1 in WRITES and 2 * count["stayed"] > count["killed"], (call, count)
say(f"killed: behind {count.pop('killed')} calls of the system, each by itself, and started again: {count}")
