"""How long a pinned container waits for its own CPUs beside busy processes in the root group and in a slice: with nothing done, with --rest,
and in a partition. In a partition it is below a hundredth of its time, and with nothing done above a twentieth; the third is said alone. All
of them are there before the agent and are moved by it, but they are busy only while it is measured, since else they leave an emulated
machine little for the agent: in a partition the system's one CPU."""

import json
import os
import signal
import sys
import time

sys.path[:0] = [os.path.join(os.path.dirname(os.path.abspath(__file__)), "..")]
import tree
import watched
from tree import ROOT, read, say

SECONDS, MOST, LEAST = 20, 0.01, 0.05
MANY = 5  # busy ones in the root group, and as many in the slice
SLICE, PARTITION, MACHINE = "system.slice", "pinned", "/tmp/partition.json"


def send(pids, number):
    for pid in pids:
        os.kill(pid, number)


def worked(pids):
    """The ticks of a processor that each of these has had."""
    return [sum(map(int, read(f"/proc/{pid}/stat").rpartition(")")[2].split()[11:13])) for pid in pids]


def waited(pids):
    """The seconds that these waited for a CPU: the second figure of schedstat, in nanoseconds."""
    return sum(int(read(f"/proc/{pid}/schedstat").split()[1]) for pid in pids) / 1e9


def share_waited(own, outside):
    """The share of time that the ones wait for a CPU while all work."""
    send([*own, *outside], signal.SIGUSR1)
    time.sleep(1)
    first, work, began = waited(own), worked([*own, *outside]), time.monotonic()
    time.sleep(SECONDS)
    share = (waited(own) - first) / (len(own) * (time.monotonic() - began))
    more = [after - before for before, after in zip(work, worked([*own, *outside]))]
    send([*own, *outside], signal.SIGSTOP)
    assert all(more), f"not all of them worked: {more}"
    return share


def measure(what, group, *more):
    """The share of time that the processes of a container of two CPUs wait, which are two."""
    watched.begin()
    outside = [tree.spawn(ROOT) for _ in range(MANY)] + [watched.group(f"{SLICE}/s1") for _ in range(MANY)]
    agent = watched.Agent(*more)
    own = [watched.come("db", group, 2, mems="1"), watched.group(group)]

    def has_its_own():
        cpus = tree.cpus(watched.requested(group))
        return len(cpus) == 2 and all(watched.runs_on(pid, cpus) for pid in own)
    agent.until(has_its_own, what)
    share = share_waited(own, outside)
    assert has_its_own(), (what, watched.lines()[-20:])
    agent.end()
    done = watched.release()
    assert done.returncode == 0, done
    assert "Traceback" not in read(watched.OUT), read(watched.OUT)[-2000:]
    send(outside, signal.SIGKILL)
    for name in (SLICE, group.split("/")[0]):
        tree.remove(f"{ROOT}/{name}")
    say(f"waits: of its time a pinned container waited for its own CPUs {share:.1%} with {what}")
    return share


def partition_machine():
    """The machine file without the system's CPU."""
    described = json.loads(read(tree.MACHINE))
    described.update(nodes=["1", "2-3", "4-5", "6-7"], reserved="1")
    with open(MACHINE, "w") as file:
        json.dump(described, file)
    return MACHINE


alone = watched.timed(measure, "nothing done", "numarun/db")
watched.timed(measure, "--rest", "numarun/db", "--rest", SLICE)
tree.MACHINE = partition_machine()
apart = watched.timed(measure, "--partition", f"{PARTITION}/numarun/db", "--partition", PARTITION)
assert apart < MOST and alone > LEAST, (apart, alone)
tree.clear()
