"""The agent with --lift and --rest /: who has CPUs of its own has no limit in the kernel's own file, and has it again when it has none of its own, behind
a kill too; each group of the root is held on the pool, but for what is on the way and a partition."""

import os
import sys

sys.path[:0] = [os.path.join(os.path.dirname(os.path.abspath(__file__)), "..")]
import tree
import watched
from tree import CPUS, ROOT, read, say, write

WORDS = ("--rest", "/", "--lift")
POD, FREE, APART = "machine.slice/libpod-pod.scope", "numarun/free", "apart"
OTHERS = ("system.slice/sshd.service", "odd.mount", "init.scope")
LEFT = CPUS - {7}  # 7 is the partition's
GOING = (4, 5, 6)  # with these off somebody has to wait


def limit(path):
    return read(f"{ROOT}/{path}/cpu.max")


def own(path):
    return tree.cpus(watched.requested(path))


def all_hold(pinned, others):
    """Each pinned one has no limit, and its CPUs for itself; the others have the rest, and the partition is as it was."""
    taken = set()
    for path, (pid, count) in pinned.items():
        if len(own(path)) != count or own(path) & (taken | {0, 7}) or not watched.runs_on(pid, own(path)) or not limit(path).startswith("max "):
            return False
        taken |= own(path)
    partition = (watched.requested(APART), read(f"{ROOT}/{APART}/cpuset.cpus.partition"))
    return partition == ("7", "root") and all(watched.runs_on(pid, LEFT - taken) for pid in others)


watched.begin()
watched.group(APART)
for file, text in (("cpuset.cpus", "7"), ("cpuset.cpus.partition", "root")):
    assert not write(f"{ROOT}/{APART}/{file}", text), file
others = [watched.group(path) for path in OTHERS]
pinned = {POD: (watched.come("pod", POD, 2, mems="1"), 2), FREE: (watched.come("free", FREE, 1, mems="2"), 1)}
for path, text in ((POD, "200000 100000"), (FREE, "100000 100000")):
    assert not write(f"{ROOT}/{path}/cpu.max", text), path
agent = watched.Agent(*WORDS)
agent.until(lambda: all_hold(pinned, others), "limits that are lifted")
others.append(watched.group("late.slice/x.service"))
agent.until(lambda: all_hold(pinned, others), "a group of the root that comes later")
assert not write(f"{ROOT}/{POD}/cpu.max", "300000 100000")
pinned[POD] = pinned[POD][0], 3
agent.until(lambda: all_hold(pinned, others), "a limit that changes while it is lifted")
agent.process.kill()
agent.process.wait()
assert limit(POD) == "max 100000", limit(POD)
agent = watched.Agent("--rest", "/")
agent.until(lambda: (limit(POD), limit(FREE)) == ("300000 100000", "100000 100000"), "an agent that does not lift")
assert len(own(POD)) == 3, own(POD)
agent.end()
agent = watched.Agent(*WORDS)
agent.until(lambda: all_hold(pinned, others), "and one that does")
for cpu in GOING:
    assert not write(f"{tree.CPU}/cpu{cpu}/online", "0")
agent.until(lambda: limit(POD) == "300000 100000" or limit(FREE) == "100000 100000", "one that waits, since CPUs went")
for cpu in GOING:
    assert not write(f"{tree.CPU}/cpu{cpu}/online", "1")
agent.until(lambda: all_hold(pinned, others), "and has room again")
agent.end()
done = watched.release()
assert done.returncode == 0, (done, watched.lines()[-20:])
assert limit(POD) == "300000 100000", (limit(POD), done.stdout)
assert read(f"{ROOT}/{APART}/cpuset.cpus.partition") == "root", (read(f"{ROOT}/{APART}/cpuset.cpus.partition"), done.stdout)
for pid in [*(pid for pid, _ in pinned.values()), *others]:
    assert watched.runs_on(pid, LEFT), (tree.allowed(pid), done.stdout)
assert "Traceback" not in read(watched.OUT), read(watched.OUT)[-2000:]
say(f"limits: {len(pinned)} limits lifted and given back, {len(others)} groups of the root held, a partition left alone")
for name in ("machine.slice", "system.slice", "odd.mount", "init.scope", "late.slice", "numarun", APART):
    tree.remove(f"{ROOT}/{name}")
tree.clear()
