"""A CPU that was off while containers came, and that one of them gets alone: no thread of another one may run there by then, with an agent that saw
it come, and with one that starts behind that. On Linux 6.12, and not on 6.1, a process keeps the CPUs that are off where it is moved into a group that
has all others, and so it may run on them once they are there."""

import os
import sys

sys.path[:0] = [os.path.join(os.path.dirname(os.path.abspath(__file__)), "..")]
import tree
import watched
from tree import CPUS, ROOT, read, say, write

LATE = 5
OTHERS = CPUS - {LATE}
SHARED, OWN = "app/web", "app/db"


def turn(on):
    assert not write(f"{tree.CPU}/cpu{LATE}/online", "1" if on else "0")


def requests(path, cpus):
    return tree.cpus(watched.requested(path)) == cpus


def is_alone(shared, own):
    if not requests(OWN, {LATE}):
        return False
    assert watched.runs_on(shared, OTHERS), (tree.allowed(shared), watched.lines()[-20:])
    return watched.runs_on(own, {LATE})


for restarts in (False, True):
    watched.begin()
    turn(False)
    agent = watched.Agent()
    shared = watched.come("web", SHARED)
    agent.until(lambda: requests(SHARED, OTHERS), "a container on the pool")
    own = watched.come("db", OWN, 1, cpus=str(LATE))
    agent.until(lambda: requests(OWN, OTHERS), "one that waits for the CPU")
    say(f"came: {SHARED} may run on {tree.print_list(frozenset(tree.allowed(shared)))}, and has {read(f'{ROOT}/{SHARED}/cpuset.cpus.effective')}")
    if restarts:
        agent.end()
    turn(True)
    if restarts:
        agent = watched.Agent()
    agent.until(lambda: is_alone(shared, own), "one that has the CPU alone")
    agent.end()
done = watched.release()
assert done.returncode == 0, (done, watched.lines()[-20:])
