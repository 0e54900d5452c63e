"""The agent over a folder of bundles: containers come, go and come back under their ids, their limits change, CPUs go off and on, and the
program, the agent or both are killed at moments by chance and started again. In no look at the tree two containers of which one is
pinned share a CPU outside the reserved ones; those that asked for CPUs had them; none that had its own is squeezed onto the reserved
one, but where it has lost its place or moves in a ring of containers that wait for each other; and in the end each process runs where the last plan put it."""

import contextlib
import os
import re
import shutil
import signal
import subprocess
import sys
import threading
import time

sys.path[:0] = [os.path.join(os.path.dirname(os.path.abspath(__file__)), "..")]
import tree
from tree import CPU, RESERVED, ROOT, TOP, read, say, write

FOLDER, WORK, OUT = "/tmp/g", "/run/numarun", "/tmp/agent-out"
LEAST = 8       # how often it is killed at least
ENOUGH = 1200   # seconds after which it is killed no more, though less was seen than is wanted
WANTED = {"adopt": 3, "plan": 5}
PATIENCE = 30  # seconds that a container stays at least, unless it has had its CPUs before
NEAR = 3      # seconds in which a line of the agent is of the same matter as a look
PINNED, SHARED = ["p0", "p1", "p2"], ["s0", "s1"]


class World:
    def __init__(self, random):
        self.random, self.all, self.lock = random, tree.Containers("/tmp/new"), threading.Lock()
        self.ended, self.looks, self.came, self.had, self.since = False, 0, {}, set(), {}
        self.changed, self.own, self.squeezed, self.before = 0, {}, [], {}
        self.count = self.shared = 0
        write(f"{ROOT}/cgroup.subtree_control", "+cpuset")
        os.makedirs(TOP)
        os.makedirs(FOLDER)
        write(f"{TOP}/cgroup.subtree_control", "+cpuset")

    def come(self, name):
        """Its group with a process first, and then its bundle, at once."""
        section = {"quota": self.random.choice([1, 2]), "mems": str(self.random.randrange(4))} if name in PINNED else {}
        self.count += 1
        self.came[name], self.since[name] = self.count, time.monotonic()
        os.mkdir(f"{TOP}/{name}")
        self.all.start(name)
        os.rename(self.all.bundle(name, **section), f"{FOLDER}/{name}")

    def go(self, name):
        self.all.there.pop(name)
        self.own.pop(name, None)
        tree.remove(f"{TOP}/{name}")
        os.rename(f"{FOLDER}/{name}", "/tmp/gone")
        shutil.rmtree("/tmp/gone")

    def is_settled(self, name):
        """Whether it had its CPUs, or had time for it."""
        return name not in PINNED or self.came[name] in self.had or time.monotonic() > self.since[name] + PATIENCE

    def limit(self, name):
        """Another limit of one that runs, in its config, of which nobody sees a part."""
        asked = 3 - self.all.asks[name]
        bundle = self.all.bundle(name, quota=asked, mems=str(self.random.randrange(4)))
        os.rename(f"{bundle}/config.json", f"{FOLDER}/{name}/config.json")
        os.rmdir(bundle)
        self.changed += 1

    def change(self):
        while not self.ended:
            with self.lock:
                name = self.random.choice(PINNED + SHARED)
                was = name in self.all.there
                if was and name in PINNED and self.random.random() < 0.3:
                    self.limit(name)
                elif was and self.is_settled(name):
                    self.go(name)
                if name not in self.all.there and (not was or self.random.random() < 0.6):
                    self.come(name)
            time.sleep(self.random.uniform(0.2, 1.5))

    def reading(self):
        return {name: read(f"{TOP}/{name}/cpuset.cpus") for name in self.all.there}

    def look(self):
        """A look counts where two readings, one behind the other, are the same. Who was never written runs on all CPUs till then."""
        with self.lock:
            first = self.reading()
            if first != self.reading():
                return
            sets = {name: tree.cpus(text) for name, text in first.items()}
            self.looks += 1
            names = sorted(sets)
            for k, one in enumerate(names):
                self.shared += sum(bool(sets[one] & sets[other] - RESERVED) for other in names[k + 1:] if one in PINNED)
            for name in set(PINNED) & set(sets):
                if len(sets[name] - RESERVED) == self.all.asks[name]:
                    self.had.add(self.came[name])
                    self.own[name] = sets[name]
                elif sets[name] == RESERVED and self.own.pop(name, None):
                    self.squeezed.append((time.time(), name, self.before))
            self.before = sets

    def watch(self):
        while not self.ended:
            self.look()
            time.sleep(0.01)


def agent(*more):
    words = ["/bin/python3", "-SEB", f"{tree.REPOSITORY}/operators/numarun-agent", tree.MACHINE, "--patience", "900", "--pin", "all", "--pool-least", "0", "--program", tree.PROGRAM, "--cgroup", ROOT,
             "--watch", FOLDER, "--work", WORK, "--pause", "0.05", *more]
    return subprocess.Popen(words, stdin=subprocess.DEVNULL, stdout=open(OUT, "a"), stderr=subprocess.STDOUT)


def lines():
    return [line.split(" ", 1)[-1] for line in read(OUT).splitlines()]


def targets_of(told, has):
    """What a plan gives to each container, by the lines of what it changes."""
    holds = {words[1] if words[0] == "hold" else "": tree.cpus(words[-1]) for words in told if words[0] in ("hold", "pool")}
    return {name: holds.get(name if name in PINNED else "", cpus) - RESERVED for name, cpus in has.items()}


def is_in_ring(name, has, targets):
    """Whether one waits for another that waits for another, and so on, that waits for it, since each has some of the target of the one before."""
    reached, last = set(), {name}
    while last:
        last = {other for one in last for other in has
                if other != one and {one, other} & set(PINNED) and (targets[one] - has[one]) & has[other]} - reached
        reached |= last
    return name in reached


def plans_near(told, when):
    """What the agent said then, from one plan to the next."""
    plans = [[]]
    for at, words in told:
        if abs(at - when) < NEAR:
            plans += [[]] if words[0] == "plan" else []
            plans[-1].append(words)
    return plans


def causes(world):
    """How often one was squeezed, by what the agent said of it then. A move is one outside a ring."""
    found = dict.fromkeys(("a ring", "a move", "a place that was lost", "no cause"), 0)
    told = [(line[:19], line.split(" ")[1:]) for line in read(OUT).splitlines() if re.match(r"\d{4}-\d\d-\d\dT", line)]
    told = [(time.mktime(time.strptime(stamp, "%Y-%m-%dT%H:%M:%S")), words) for stamp, words in told]
    for when, name, before in world.squeezed:
        plans = plans_near(told, when)
        kinds = {words[0] for plan in plans for words in plan if words[1:] and words[1].rstrip(":") == name}
        has = {one: cpus - RESERVED for one, cpus in before.items()}
        in_ring = any(is_in_ring(name, has, targets_of(plan, has)) for plan in plans)
        moved = "a ring" if in_ring else "a move"
        found["a place that was lost" if "waits" in kinds else moved if "hold" in kinds else "no cause"] += 1
    return found


def children(pid):
    """The program that an agent runs."""
    try:
        return [int(child) for child in read(f"/proc/{pid}/task/{pid}/children").split()]
    except OSError:
        return []


def flap(world):
    """A CPU goes and comes back, for all that the agent is in the middle of."""
    cpu = world.random.choice(range(1, 8))
    write(f"{CPU}/cpu{cpu}/online", "0")
    time.sleep(world.random.uniform(0, 0.3))
    write(f"{CPU}/cpu{cpu}/online", "1")


def counts():
    """How many lines of these kinds the agent has written."""
    return {kind: sum(line.split(" ")[0] == kind for line in lines()) for kind in ("adopt", "create", "ended", "plan", "offline")}


def is_enough(world):
    said = counts()
    return all(said[kind] >= least for kind, least in WANTED.items()) and 4 * len(world.had) > world.count and world.changed > 0


def pace_of(world):
    """The seconds that an agent takes here for a start, a look and its plan."""
    began = time.monotonic()
    assert agent("--rounds", "1").wait() in (0, 1), lines()[-20:]
    return time.monotonic() - began


def killed_by_chance(world):
    """How often it was killed. On a slow machine there is more time between two kills, and more kills, for it sees as much as a fast one."""
    threads = [threading.Thread(target=way) for way in (world.change, world.watch)]
    for thread in threads:
        thread.start()
    killed, pace, until = 0, max(1.5, pace_of(world)), time.monotonic() + ENOUGH
    while killed < LEAST or not is_enough(world) and time.monotonic() < until:
        killed += 1
        before, run, end = os.path.getsize(OUT), agent(), time.monotonic() + 30
        while os.path.getsize(OUT) == before and time.monotonic() < end:
            time.sleep(0.01)
        time.sleep(world.random.uniform(0, pace))
        if world.random.random() < 0.5:
            flap(world)
            time.sleep(world.random.uniform(0, 0.5))
        program, which = children(run.pid), world.random.choice(["program", "agent", "both"])
        for pid in ([] if which == "program" and program else [run.pid]) + ([] if which == "agent" else program):
            with contextlib.suppress(ProcessLookupError):
                os.kill(pid, signal.SIGKILL)
        assert run.wait() in (-9, 1), lines()[-20:]
    world.ended = True
    for thread in threads:
        thread.join()
    return killed


def agrees(world, where):
    """Each process runs where its group says, and has as many CPUs as it asks for."""
    world.all.check(where)
    for name, (requested, effective, _) in world.all.states().items():
        assert requested == effective, (where, name, requested, effective)
        if world.all.asks[name]:
            assert len(effective) == world.all.asks[name], (where, name, effective, lines()[-30:])


tree.clear()
open(OUT, "w").close()
world = World(tree.chance("agent"))
killed = killed_by_chance(world)
for name in PINNED + SHARED:
    if name not in world.all.there:
        world.come(name)
assert agent("--rounds", "2").wait() == 0, lines()[-30:]
agrees(world, "the last run")
tree.turn(3, False)
tree.turn(6, False)
said = len(lines())
assert agent("--rounds", "1").wait() in (0, 1)
asks = dict(world.all.asks)
world.all.asks.update((line.split(" ")[1].rstrip(":"), 0) for line in lines()[said:] if line.startswith("waits"))  # they are on the pool
world.all.check("two CPUs are off")
world.all.asks.update(asks)
tree.turn(3, True)
tree.turn(6, True)
assert agent("--rounds", "2").wait() == 0, lines()[-30:]
agrees(world, "they are back")
squeezed = causes(world)
assert not world.shared and not squeezed["no cause"] and not squeezed["a move"], (world.shared, squeezed, world.squeezed, lines()[-30:])
assert "Traceback" not in read(OUT), read(OUT)[-2000:]
told = counts()
assert is_enough(world) and world.looks > 50, (told, world.looks, len(world.had), world.count, world.changed)
say(f"agent: killed {killed} times and started again: {world.looks} looks, {len(world.had)} of {world.count} containers had CPUs of their own, "
    f"{world.changed} limits changed, squeezed by {squeezed}, {told}")
tree.clear()
