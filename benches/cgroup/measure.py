"""Prints what the writes of a `rebalance` take that are made in a cgroup tree: `measure.py PROGRAM`.

The tree is plain folders that are there before, with a group's files; `cpuset.cpus.effective` is a link to `cpuset.cpus`, so that
what is written is in effect. `seconds` is the least time of a script from its start to its end, behind which that of the script
without the `rebalance` is taken off; `instructions` are those of the program, by callgrind, in thousands, where it is there. A
write's part is what the tree takes more than the model, by the count of writes; the system's own work is in the seconds alone."""

import os
import random
import re
import shutil
import subprocess
import sys
import tempfile
import time

sys.path.insert(0, os.path.join(os.path.dirname(os.path.abspath(__file__)), "..", "rebalance"))
from places import Job, place

NODES, CPUS, CONTAINERS, RUNS = 128, 4096, 1023, 5
FILES = ("cpuset.cpus", "cpuset.mems", "cgroup.kill", "cgroup.subtree_control")


def make_tree():
    """A root with a folder for each container, of which nothing was written yet."""
    shutil.rmtree("root", ignore_errors=True)
    for folder in ["root", "root/numarun"] + [f"root/numarun/c{k}" for k in range(CONTAINERS)]:
        os.mkdir(folder)
        for file in FILES:
            open(f"{folder}/{file}", "w").close()
        if folder.startswith("root/numarun/"):
            os.symlink("cpuset.cpus", f"{folder}/cpuset.cpus.effective")


def ran(words, script, before=()):
    """The seconds that a script takes, and what is said on standard error."""
    make_tree()
    start = time.perf_counter()
    done = subprocess.run([*before, *words], stdin=open(script), capture_output=True, check=True)
    seconds = time.perf_counter() - start
    if b"refused" in done.stdout or b"in place of" in done.stderr:
        sys.exit(f"cgroup: {done.stdout[-300:]} {done.stderr[-300:]}")
    return seconds, done.stderr.decode()


def seconds(words):
    without, whole = (min(ran(words, script)[0] for _ in range(RUNS)) for script in ("without", "whole"))
    return whole - without


def instructions(words):
    valgrind = ["valgrind", "--tool=callgrind", "--callgrind-out-file=/dev/null"]
    without, whole = (int(re.search(r"Collected : (\d+)", ran(words, script, valgrind)[1])[1]) for script in ("without", "whole"))
    return whole - without


def calls(words):
    """How often each call of the system comes in the rebalance."""
    counts = []
    for script in ("without", "whole"):
        told = ran(words, script, ["strace", "-f", "-c", "-o", "calls"]) and open("calls").read()
        counts.append({row.split()[-1]: int(row.split()[3]) for row in told.splitlines() if re.match(r"\s*\d+\.\d+ ", row)})
    more = {name: count - counts[0].get(name, 0) for name, count in counts[1].items()}
    return {name: count for name, count in more.items() if count > CONTAINERS // 2 and name != "total"}


def main(program):
    random.seed(1)
    program = os.path.abspath(program)
    with tempfile.TemporaryDirectory() as folder:
        os.chdir(folder)
        place(Job(NODES, CPUS, CONTAINERS))
        lines = [f"create c{k} b{k}" for k in range(CONTAINERS)]
        open("without", "w").write("\n".join(lines) + "\n")
        open("whole", "w").write("\n".join(lines + ["rebalance"]) + "\n")
        model = [program, "run", "machine.json"]
        tree = model + ["--cgroup", "root", "--adopt"]
        ran(tree, "whole")
        writes = sum(open(f"root/numarun/c{k}/cpuset.cpus").read() != "0\n" for k in range(CONTAINERS))
        print(f"{CPUS} CPUs, {CONTAINERS} containers, {writes} writes of CPUs at the least")
        print(f"{'':20} {'seconds':>10} {'instructions':>14}")
        counted = shutil.which("valgrind")
        took = [(seconds(words), instructions(words) if counted else 0) for words in (model, tree)]
        for name, (time_of, count) in zip(("over the model", "over the tree"), took):
            print(f"{name:20} {time_of:10.4f} {count / 1000 if counted else '':14}")
        (first, few), (then, many) = took
        print(f"{'a write':20} {(then - first) / writes:10.6f} {(many - few) / writes / 1000 if counted else '':14}")
        if shutil.which("strace"):
            print("a write:", ", ".join(f"{count / writes:.2f} {name}" for name, count in sorted(calls(tree).items())))
        os.chdir("/")


main(*sys.argv[1:])
