"""Makes a container in a folder that stands for a cgroup v2 tree, with each allocation refused in turn, where its group's folder is
there already and where it is not: a folder that was there stays, and one that was made for nothing goes. Then a plan of three: no
hand-over breaks off when memory runs out.

PROGRAM FOLDERS REFUSE MACHINE, from the top of the repository: the two libraries are loaded before the program."""

import os
import pathlib
import shutil
import sys
import tempfile

sys.path.insert(0, str(pathlib.Path(__file__).resolve().parent.parent))
from program import run

program, folders, refuse, machine = sys.argv[1:]
SCRIPT = b"create web examples/bundles/web\n"
FILES = ("cpuset.cpus", "cpuset.mems", "cpuset.cpus.effective", "cgroup.kill", "cgroup.subtree_control")
refusals = open(tempfile.mktemp(), "ab")
os.dup2(refusals.fileno(), 3)


def ran(found, number, script=SCRIPT):
    """What a run answers with this allocation refused, whether one was, its calls, and whether the folder is there at the end."""
    folder = tempfile.mkdtemp()
    root, log = folder + "/root", folder + "/log"
    for group in ("", "/numarun", "/numarun/web") if found else ("", "/numarun"):
        os.mkdir(root + group)
        for name in FILES if group.endswith("/web") else FILES[-1:]:
            pathlib.Path(f"{root}{group}/{name}").write_text("")
    open(log, "w").close()
    refusals.truncate(0)
    environment = dict(os.environ, LD_PRELOAD=f"{folders} {refuse}", FOLDERS_ROOT=root, FOLDERS_LOG=log, REFUSE=str(number))
    done = run([program, "run", machine, "--cgroup", root, "--adopt"], script, env=environment, pass_fds=[3])
    calls, there = open(log).read().splitlines(), os.path.isdir(root + "/numarun/web")
    shutil.rmtree(folder)
    return done, os.fstat(refusals.fileno()).st_size > 0, calls, there


for found in (False, True):
    number, undone = 0, 0
    while True:
        number += 1
        done, refused, calls, there = ran(found, number)
        if not refused:
            assert done.stdout == b"pid 2\n" and there, done
            break
        made = "mkdir /numarun/web" in calls or "mkdir /numarun/web !File exists" in calls
        if found:
            assert there and not any(line.startswith("rmdir") for line in calls), (number, calls)
        elif made and done.stdout == b"refused E1 Memory\n" and not any("cpuset.cpus " in line for line in calls):
            assert not there and "rmdir /numarun/web" in calls, (number, calls)
            undone += 1
    assert found or undone, "no allocation behind a folder was refused"
    print(f"cgroup: {number - 1} allocations, each refused in turn, where the folder is {'there' if found else 'not there'}")

PLAN = b"""create database examples/bundles/database
create packets examples/bundles/packet-processing
create web examples/bundles/web
rebalance
phase
"""
number, planned = 0, 0
while True:
    number += 1
    done, refused, calls, there = ran(False, number, PLAN)
    answers = done.stdout.decode().splitlines()
    if answers[:3] == ["pid 2", "pid 3", "pid 4"]:
        assert answers[3].startswith("plan ") or answers[3] == "refused E1 Memory", (number, answers, done.stderr)
        assert answers[-1] == "settled", (number, answers)
        planned += answers[3].startswith("plan ")
    if not refused:
        break
assert planned > 1, "no allocation behind the plan was refused"
print(f"cgroup: {number - 1} allocations of a plan, each refused in turn: none breaks a hand-over off")
