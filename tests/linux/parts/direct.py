"""Processes that look at the CPUs on which they may run in a loop, while containers move directly. All of them move home at once, each onto
the CPU of the one before it, whose CPUs become free one after another, and back again, until there were sixty moves at least, and once more
by one call: each sees its own CPUs and never the reserved one. They are six on a machine of 8 CPUs, and sixty on one of 62 or more. On 8 CPUs
two that wait for each other move by way of a CPU that they may have, and where there is none the first of them, and nobody else, is on the
reserved CPU. Between two steps each has looked."""

import json
import os
import subprocess
import sys
import time

sys.path[:0] = [os.path.join(os.path.dirname(os.path.abspath(__file__)), "..")]
import tree
from tree import RESERVED, ROOT, TOP, read, say, write

SEEN, LOOKS, LARGE = "/tmp/seen", "/tmp/looks", "/tmp/large.json"
CPUS, MOVES = os.sysconf("SC_NPROCESSORS_CONF"), 60
AT_ONCE = min(CPUS - 2, 60)
ROUNDS = -(-MOVES // AT_ONCE)
# Microseconds between two looks of one: each look of sixty takes from the few processors of the host on which sixty emulated ones run.
PAUSE = 2000 if AT_ONCE < MOVES else 100000


class Watched:
    """Containers whose processes look at themselves, and a run that moves them."""

    def __init__(self, machine):
        self.run, self.all, self.lookers = tree.Run(machine=machine), tree.Containers("/tmp/direct"), {}
        os.makedirs(SEEN)

    def adopt(self, name, cpus, **section):
        bundle = self.all.bundle(name, **section)
        assert self.run.one(f"adopt {name} {bundle} {cpus}").startswith("pid")
        with open(LOOKS, "ab") as file:
            file.truncate(8 * (len(self.lookers) + 1))
        words = ["looker", f"{TOP}/{name}", f"{SEEN}/{name}", LOOKS, str(len(self.lookers)), str(PAUSE)]
        self.lookers[name] = subprocess.Popen(words, stdin=subprocess.DEVNULL)
        assert tree.until(lambda: self.looks()[-1] > 1), f"{name} does not look"

    def update(self, name, **section):
        self.run.ok(f"update {name} {self.all.bundle(name, **section)}")

    def looks(self):
        """How often each has looked."""
        with open(LOOKS, "rb") as file:
            return memoryview(file.read()).cast("Q")

    def seen(self, name):
        """Which sets it saw, one after another."""
        with open(f"{SEEN}/{name}") as file:
            return file.read().split()

    def look(self):
        """Each looks, from its beginning to its end."""
        due = [count + 2 for count in self.looks()]
        assert tree.until(lambda: all(count >= least for count, least in zip(self.looks(), due))), \
            [name for name, count, least in zip(self.lookers, self.looks(), due) if count < least]

    def move(self, begin="begin direct"):
        plan = self.run.plan(begin)
        assert plan.total is not None, plan.lines
        answer, writes = "more", 0
        while answer == "more":
            answer, writes = self.run.one("step"), writes + 1
            self.look()
        assert answer == "done", answer
        return writes

    def move_at_once(self):
        plan = self.run.plan("rebalance direct")
        assert plan.total is not None, plan.lines
        self.look()

    def end(self):
        for name, looker in self.lookers.items():
            self.run.ok(f"kill {name} KILL")
            looker.wait()
            self.run.ok(f"delete {name}")
            os.remove(f"{SEEN}/{name}")
        os.remove(LOOKS)
        self.lookers.clear()


def homewards(watched):
    """Those on CPUs 1, 2 and so on move one up, where the next one is free, and then one down again, in the order in which they can't at once."""
    names = [f"c{k}" for k in range(1, AT_ONCE + 1)]
    for k, name in enumerate(names, 1):
        watched.adopt(name, k, allowed=str(k))
    for turn in range(1, ROUNDS + 1):
        for k, name in enumerate(names, 1):
            watched.update(name, allowed=str(k + turn % 2))
        assert watched.move() == len(names), "one write for each that moves"
    for k, name in enumerate(names, 1):
        watched.update(name, allowed=str(k + (ROUNDS + 1) % 2))
    watched.move_at_once()
    for k, name in enumerate(names, 1):
        expected = [str(k + turn % 2) for turn in range(ROUNDS + 2)]
        assert watched.seen(name) == expected, (name, watched.seen(name), expected)
        assert tree.allowed(watched.lookers[name].pid) == tree.cpus(expected[-1]), name
    moves, looks = sum(len(watched.seen(name)) - 1 for name in names), sum(watched.looks())
    assert moves >= MOVES, moves
    watched.end()
    return moves, looks


def in_a_ring(watched, room):
    """Two that wait for each other, alone on nodes 1 and 2 but for two that stay; CPU 7 is free or not, and 1 and 6 are taken."""
    stay = {"c": "3", "d": "5", "e": "1", "f": "6", **({} if room else {"g": "7"})}
    for name, cpu in stay.items():
        watched.adopt(name, cpu, allowed=cpu)
    watched.adopt("a", "2", quota=1, mems="1")
    watched.adopt("b", "4", quota=1, mems="2")
    watched.update("a", quota=1, mems="2")
    watched.update("b", quota=1, mems="1")
    assert watched.move() == 3, "one write more than moves"
    found = {name: watched.seen(name) for name in ("a", "b", *stay)}
    aside = "7" if room else "0"
    assert found == {"a": ["2", aside, "4"], "b": ["4", "2"], **{name: [cpu] for name, cpu in stay.items()}}, found
    watched.end()


def machine_file():
    """That of the tests, or one of so many CPUs on four nodes."""
    if CPUS == len(tree.CPUS):
        return tree.MACHINE
    described, each = json.loads(read(tree.MACHINE)), CPUS // 4
    described["nodes"] = [f"{each * node}-{each * (node + 1) - 1}" for node in range(4)]
    with open(LARGE, "w") as file:
        json.dump(described, file)
    return LARGE


tree.clear()
write(f"{ROOT}/cgroup.subtree_control", "+cpuset")
assert RESERVED == {0}
watched = Watched(machine_file())
began = time.monotonic()
moves, looks = homewards(watched)
say(f"direct: {moves} moves of {AT_ONCE} at once, in {time.monotonic() - began:.0f} s: nobody was on the reserved CPU in {looks} looks")
if CPUS == len(tree.CPUS):
    in_a_ring(watched, room=True)
    in_a_ring(watched, room=False)
    say("direct: two in a ring by way of CPU 7, and of the reserved one where that is taken")
watched.run.close()
tree.clear()
