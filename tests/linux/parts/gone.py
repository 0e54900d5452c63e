"""Groups that go away: the folder of a container whose process ended, and the whole tree in the middle of a run."""

import os
import sys

sys.path[:0] = [os.path.join(os.path.dirname(os.path.abspath(__file__)), "..")]
import tree
from tree import ROOT, TOP, say, write


def a_container():
    """One whose group is removed by somebody else. Nobody waits for it, and it is killed and deleted like any other."""
    run, containers = tree.Run(), tree.Containers()
    for name, section in (("db", {"quota": 2, "mems": "1"}), ("net", {"quota": 2, "mems": "2"}), ("web", {})):
        containers.create(run, name, **section)
    assert run.plan().total == 40
    for gone in ("web", "net"):
        tree.remove(f"{TOP}/{gone}")
        del containers.there[gone]
        bundle = containers.bundle("db", quota=2, mems="3" if gone == "web" else "0")
        run.ok(f"update db {bundle}")
        plan = run.plan()
        containers.check_plan(plan, f"{gone} is gone")
        containers.check(f"{gone} is gone")
        run.ok(f"kill {gone} KILL")
        run.ok(f"delete {gone}")
        notes = run.said()
        assert len(notes) > 1 and all(f"{TOP}/{gone}" in line and "No such file or directory" in line for line in notes), notes
    answer = containers.create(run, "web", quota=1, mems="3")
    assert answer.startswith("pid"), answer
    containers.check_plan(run.plan(), "one has come back under its id")
    run.close()
    tree.clear()


def the_tree():
    """A root that goes away with all that is in it: what can't be made is refused, and the run goes on."""
    write(f"{ROOT}/cgroup.subtree_control", "+cpuset")
    root = f"{ROOT}/slice"
    os.mkdir(root)
    write(f"{root}/cpuset.cpus", "0-7")
    run, containers = tree.Run(root=root), tree.Containers()
    bundle = containers.bundle("one", quota=1, mems="1")
    run.ok(f"create one {bundle}", "pid 2")
    tree.remove(root)
    assert run.plan().total == 10 and "No such file or directory" in run.said()[-1]
    run.ok(f"create two {bundle}", "refused E50 KernelFault")
    assert "No such file or directory" in run.said()[-1]
    assert run.ask("list") == ["one created", "end"]
    run.ok("kill one KILL")
    run.ok("delete one")
    run.close()
    assert run.process.returncode == 0


tree.clear()
a_container()
the_tree()
say("gone: a container's group, and the whole tree: the run goes on, and says which")
