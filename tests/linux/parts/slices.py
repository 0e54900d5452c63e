"""The agent beside the groups of the system itself, in which systemd puts containers: each pinned container has in effect what it
requests, everybody else is on the pool, and what was taken is given back."""

import os
import sys

sys.path[:0] = [os.path.join(os.path.dirname(os.path.abspath(__file__)), "..")]
import tree
import watched
from tree import CPUS, ROOT, read, say, write

REST = ("--rest", "system.slice,user.slice,init.scope,machine.slice")
SERVICES = ("system.slice/sshd.service", "system.slice/cron.service", "user.slice/user-0.slice/session-1.scope")
POD, DOCK, FREE = "machine.slice/libpod-pod.scope", "system.slice/docker-dock.scope", "numarun/free"


def all_hold(pinned, others):
    """Each pinned one runs on what it requests and nobody else does, and the others run on the rest."""
    taken = set()
    for path, pid in pinned.items():
        cpus = tree.cpus(watched.requested(path))
        if not watched.runs_on(pid, cpus) or cpus & taken or 0 in cpus:
            return False
        taken |= cpus
    return all(watched.runs_on(pid, CPUS - taken) for pid in others)


watched.begin()
others = [watched.group(path) for path in SERVICES]
pinned = {POD: watched.come("pod", POD, 2, mems="1"), FREE: watched.come("free", FREE, 1, mems="3")}
agent = watched.Agent(*REST)
agent.until(lambda: all_hold(pinned, others) and len(tree.cpus(watched.requested(POD))) == 2, "what runs at the start")
assert tree.cpus(watched.requested("system.slice")) == tree.allowed(others[0])
pinned[DOCK] = watched.come("dock", DOCK, 1, mems="2")
agent.until(lambda: all_hold(pinned, others) and len(tree.cpus(watched.requested(DOCK))) == 1, "a container in a slice that is on the pool")
others.append(watched.group("system.slice/new.service"))
agent.until(lambda: all_hold(pinned, others), "a service that comes beside it")
tree.turn(7, False)
tree.turn(7, True)
agent.until(lambda: all_hold(pinned, others), "a CPU that flaps")
failed = write(f"{ROOT}/machine.slice/cpuset.cpus", "0-1")
assert not failed
agent.says(f"all CPUs for {ROOT}/machine.slice: pod is below it")
agent.until(lambda: all_hold(pinned, others), "a slice that somebody narrowed")
failed = write(f"{ROOT}/numarun/cpuset.cpus", "0-1")  # no group that the agent may write
assert not failed
agent.says("squeezed free: 0-1 in effect")
agent.end()
write(f"{ROOT}/numarun/cpuset.cpus", "0-7")
agent = watched.Agent(*REST)
agent.until(lambda: all_hold(pinned, others), "a new start")
agent.end()
done = watched.release()
assert done.returncode == 0, (done, watched.lines()[-20:])
for pid in [*pinned.values(), *others]:
    assert watched.runs_on(pid, CPUS), (tree.allowed(pid), done.stdout)
assert "Traceback" not in read(watched.OUT), read(watched.OUT)[-2000:]
say(f"slices: {len(pinned)} pinned containers and {len(others)} services: each on its own, and all given back: {done.stdout.count('given back')}")
for name in ("machine.slice", "system.slice", "user.slice", "numarun"):
    tree.remove(f"{ROOT}/{name}")
tree.clear()
