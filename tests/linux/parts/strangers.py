"""Trees that are not taken, and groups that are there before the program: strangers whose processes are adopted, on the CPUs that they
have, ids that are the kernel's own files, and lists that are refused; a root of fewer nodes, and a CPU that goes untold."""

import contextlib
import os
import sys

sys.path[:0] = [os.path.join(os.path.dirname(os.path.abspath(__file__)), "..")]
import tree
from tree import MACHINE, ROOT, TOP, read, say, write

counted = 0


def refuses(refused, *more, root=ROOT, note=None, machine=MACHINE):
    """The program ends before its script, with this answer and a note."""
    global counted
    counted += 1
    try:
        tree.Run(*more, root=root, machine=machine).close()
    except tree.script.Refused as why:
        assert refused in str(why) and (note or "") in str(why), (root, str(why))
        return
    raise AssertionError(f"{root}: {refused} is not said")


@contextlib.contextmanager
def group(path, **files):
    """A group that is there for a while, with these texts written into it."""
    os.mkdir(path)
    for file, text in files.items():
        failed = write(f"{path}/{file.replace('_', '.')}", text)
        assert not failed, (path, file, os.strerror(failed))
    try:
        yield path
    finally:
        tree.remove(path)


def roots():
    """Roots that are not taken."""
    refuses("E113", root=f"{ROOT}/nowhere")
    refuses("E113", root="/proc/version")
    write(f"{ROOT}/cgroup.subtree_control", "-cpuset")
    with group(f"{ROOT}/bare"):
        refuses("E115 NoCpuset", root=f"{ROOT}/bare")
    write(f"{ROOT}/cgroup.subtree_control", "+cpuset")
    with group(f"{ROOT}/part", cpuset_cpus="4-5", cpuset_cpus_partition="root"):
        refuses("E116 OtherMachine", note="cpuset.cpus.effective: lacks 4-5")
    with group(f"{ROOT}/small", cpuset_cpus="0-3"):
        refuses("E116 OtherMachine", root=f"{ROOT}/small")
    other = "/tmp/other.json"
    with open(other, "w") as file:
        file.write(read(MACHINE).replace('"6-7"', '"6"'))
    refuses("E116 OtherMachine", machine=other)
    with open(other, "w") as file:
        file.write(read(MACHINE).replace('"reserved"', '"offline": "3", "reserved"'))
    refuses("E116 OtherMachine", machine=other)
    with group(f"{ROOT}/full", cgroup_max_descendants="0"):
        refuses("E50 KernelFault", root=f"{ROOT}/full", note="Resource temporarily unavailable")
    with group(TOP):
        refuses("E50 KernelFault", note=f"{TOP}: File exists")


def a_process():
    """A root with a process in it: Linux gives no controller to the group of the containers, which is threaded, so none is created."""
    with group(f"{ROOT}/busy") as busy:
        tree.spawn(busy)
        bundle, run = tree.Containers().bundle("one", quota=1), tree.Run(root=busy)
        run.ok(f"create one {bundle}", "refused E50 KernelFault")
        assert "numarun/cgroup.subtree_control: +cpuset: Operation not supported" in run.said()[-1]
        run.close()


def full():
    """A tree that takes one group, and no other."""
    with group(f"{ROOT}/full", cgroup_max_descendants="2") as root:
        containers = tree.Containers()
        one, run = containers.bundle("one", quota=1), tree.Run(root=root)
        run.ok(f"create one {one}", "pid 2")
        run.ok(f"create two {one}", "refused E50 KernelFault")
        assert "Resource temporarily unavailable" in run.said()[-1]
        write(f"{root}/cgroup.max.descendants", "max")
        run.ok(f"create two {one}", "pid 3")
        assert run.plan().total == 20
        run.close()


def strangers():
    """Three that run before the program, which knows of none until they are adopted."""
    containers = tree.Containers()
    write(f"{ROOT}/cgroup.subtree_control", "+cpuset")
    os.mkdir(TOP)
    write(f"{TOP}/cgroup.subtree_control", "+cpuset")
    for name, cpus in (("db", "4-5"), ("net", "6"), ("web", "0-3,7")):
        os.mkdir(f"{TOP}/{name}")
        write(f"{TOP}/{name}/cpuset.cpus", cpus)
        containers.start(name)
    bundles = {"db": containers.bundle("db", quota=2, mems="2"), "net": containers.bundle("net", allowed="6", mems="3"),
               "web": containers.bundle("web"), "new": containers.bundle("new", quota=1, mems="0")}
    run = tree.Run("--adopt")
    said = run.said()
    assert all(any(f"{TOP}/{name} is there and has to be adopted" in line for line in said) for name in ("db", "net", "web")), said
    run.ok(f"adopt db {bundles['db']} 4,x", "refused E102 BadSet E10 2")
    run.ok(f"adopt db {bundles['db']} ,", "refused E103 NoCpus")
    run.ok(f"adopt db {bundles['db']} 4-5,9", "refused E104 NotFree 9")
    run.ok(f"adopt db {bundles['db']} 4-5", "pid 2")
    run.ok(f"adopt net {bundles['net']} 5-6", "refused E104 NotFree 5")
    run.ok(f"adopt net {bundles['net']} 6", "pid 3")
    run.ok(f"adopt web {bundles['web']} 0-4,7", "refused E104 NotFree 4")
    run.ok(f"adopt web {bundles['web']} 0-3,7", "pid 4")
    containers.check("adopted")
    before = containers.states()
    plan = run.plan()
    assert plan.total == 30 and containers.states() == before, (plan.lines, before, containers.states())
    answer = containers.create(run, "new", quota=1, mems="0")
    assert answer == "pid 5", answer
    plan = run.plan()
    containers.check_plan(plan, "one that is new")
    containers.check("one that is new")
    assert {name: state[:2] for name, state in containers.states().items() if name in ("db", "net")} == \
        {name: state[:2] for name, state in before.items() if name in ("db", "net")}
    containers.check_answers(run, "one that is new")
    assert not run.said()
    for name in ("db", "net", "web", "new"):
        containers.end(run, name)
    run.close()
    tree.clear()


def another():
    """A second program is not let in as long as the first one lives, and is once that was killed."""
    first = tree.Run()
    for more in ((), ("--adopt",)):
        refuses("E50 KernelFault", *more, note=f"{ROOT}: another program has it")
    first.process.kill()
    first.close()
    tree.Run("--adopt").close()
    tree.clear()


def half():
    """A root with two of the four nodes in effect: of those that a config names the groups are written these, or both."""
    with group(f"{ROOT}/half", cpuset_mems="1,3") as root:
        containers, run = tree.Containers(), tree.Run(root=root)
        for name, mems, wanted in (("some", "2-3", "3"), ("none", "0,2", "1,3"), ("all", None, "1,3")):
            run.one(f"create {name} {containers.bundle(name, quota=1, mems=mems)}")
            assert read(f"{root}/numarun/{name}/cpuset.mems") == wanted, (name, read(f"{root}/numarun/{name}/cpuset.mems"))
        assert run.plan().total == 30 and not run.said()
        run.close()


def untold():
    """A CPU goes, and the program is not told: what is in effect behind its next write is named as it is."""
    containers, run = tree.Containers(), tree.Run()
    run.ok(f"create one {containers.bundle('one', allowed='4-6')}", "pid 2")
    tree.turn(5, False)
    assert run.plan().holds == {"one": {4, 5, 6}}
    assert f"error: {TOP}/one/cpuset.cpus.effective: 4,6 in place of 4-6" in run.said()
    tree.turn(5, True)
    run.close()
    tree.clear()


def names():
    """Ids that are the kernel's own files."""
    containers = tree.Containers()
    bundle, run = containers.bundle("one", quota=1), tree.Run()
    for name in ("cgroup.procs", "cpuset.cpus", "cgroup.subtree_control"):
        run.ok(f"create {name} {bundle}", "refused E50 KernelFault")
        assert "File exists" in run.said()[-1]
    run.ok(f"create one {bundle}", "pid 2")
    assert run.plan().total == 10
    run.close()
    tree.clear()


tree.clear()
roots()
a_process()
full()
strangers()
another()
half()
untold()
names()
say(f"strangers: {counted} trees that are not taken; three containers are adopted where they are, and none of them moves")
