"""What is written of sets in a tree over a machine of 16 nodes, of which some have no memory; what is compared with the CPUs in effect
behind each write; and that nothing outside of the root is made, removed or written.

PROGRAM FOLDERS, from the top of the repository: the library is loaded before the program. Which nodes and which CPUs these are is
worked out here from the machine's layout and docs/formats.md."""

import json
import os
import pathlib
import re
import shutil
import sys
import tempfile

sys.path.insert(0, str(pathlib.Path(__file__).resolve().parent.parent))
from program import run

program, folders = sys.argv[1:]
NODES = 16
work = tempfile.mkdtemp()
machine = work + "/machine.json"
pathlib.Path(machine).write_text(json.dumps({
    "nodes": [f"{2 * node}-{2 * node + 1}" for node in range(NODES)],
    "distances": [[10 if a == b else 20 for b in range(NODES)] for a in range(NODES)],
    "reserved": "0",
}))


def bundle(name, **cpu):
    """A folder with a config that has this of CPUs."""
    os.mkdir(f"{work}/{name}")
    config = {"ociVersion": "1.0.2", "root": {"path": "rootfs"}, "linux": {"resources": {"cpu": cpu}}}
    pathlib.Path(f"{work}/{name}/config.json").write_text(json.dumps(config))
    return f"{work}/{name}"


def ran(script, words=(), root=(), other=None):
    """The answers, the notes with ROOT for the root's path, what was called, and the files of each group at the end."""
    folder = tempfile.mkdtemp()
    path, log = folder + "/root", folder + "/log"
    os.mkdir(path)
    for name, text in (("cgroup.subtree_control", ""), *root):
        pathlib.Path(path, name).write_text(text)
    open(log, "w").close()
    environment = dict(os.environ, LD_PRELOAD=folders, FOLDERS_ROOT=path, FOLDERS_LOG=log, **({"FOLDERS_OTHER": other} if other else {}))
    done = run([program, "run", machine, "--cgroup", path, *words], script.encode(), env=environment)
    calls = open(log).read().splitlines()
    groups = {name: {file: pathlib.Path(path, "numarun", name, file).read_text() for file in ("cpuset.cpus", "cpuset.mems")}
              for name in os.listdir(path + "/numarun") if os.path.isdir(f"{path}/numarun/{name}")}
    shutil.rmtree(folder)
    assert done.returncode == 0 and "refused" not in done.stdout.decode(), (script, done)
    assert not [line for line in calls if line.startswith("outside ")], calls
    return done.stdout.decode(), done.stderr.decode().replace(path, "ROOT"), calls, groups


def check(what, got, wanted):
    assert got == wanted, f"{what}: {got}, not {wanted}"


# Of the nodes that a config names those that have memory, or all that have where it names none that has, or none at all.
ASKS = [("far", "9,11-12", "9,12"), ("bare", "11,15", "0-1,9-10,12"), ("high", "15,10", "10"), ("all", None, "0-1,9-10,12")]
for name, mems, _ in ASKS:
    bundle(name, quota=200000, period=100000, **({"mems": mems} if mems else {}))
script = "".join(f"create {name} {work}/{name}\n" for name, _, _ in ASKS) + "rebalance\n"
out, err, calls, groups = ran(script, root=[("cpuset.mems.effective", "0-1,9-10,12\n")])
held = dict(re.findall(r"^hold (\S+) (\S+)$", out, re.M))
for name, _, wanted in ASKS:
    check(f"{name}: nodes with memory", groups[name]["cpuset.mems"], wanted + "\n")
    check(f"{name}: CPUs of the plan", groups[name]["cpuset.cpus"], held[name] + "\n")
check("each CPU is near a home", out.split("\n")[len(ASKS)], f"plan total {10 * 2 * len(ASKS)}")
check("no note", err, "")
_, err, _, groups = ran(script)
for name, mems, _ in ASKS:
    check(f"{name}: nodes where ROOT tells none", groups[name]["cpuset.mems"], {"high": "10,15", None: ""}.get(name, mems or "0-15") + "\n")
check("no note without a list of nodes", err, "")

# What is compared is what the model has in effect: of what was written the CPUs that are online as far as the run was told.
bundle("taken", quota=300000, period=100000)
ADOPT = f"adopt taken {work}/taken 4-6\n"
NOTE = "error: ROOT/numarun/taken/cpuset.cpus.effective: {} in place of {}\n"
TABLE = [
    ("as it was written", ADOPT, None, ""),
    ("a CPU that was told and is in effect", "offline 5\n" + ADOPT, None, NOTE.format("4-6", "4,6")),
    ("a CPU that was told and is not", "offline 5\n" + ADOPT, "4,6\n", ""),
    ("a CPU that went untold", ADOPT, "4,6\n", NOTE.format("4,6", "4-6")),
    ("a CPU too many", ADOPT, "4-7\n", NOTE.format("4-7", "4-6")),
    ("other CPUs", ADOPT, "7-9\n", NOTE.format("7-9", "4-6")),
    ("no CPU", ADOPT, "\n", NOTE.format("nothing", "4-6")),
    ("told, gone, and back", "offline 5\nonline 5\n" + ADOPT, "4-6\n", ""),
    ("all of them gone", "offline 4\noffline 5\noffline 6\n" + ADOPT, "0-3,7-31\n", ""),
]
for what, script, other, wanted in TABLE:
    _, err, calls, groups = ran(script, other=other)
    check(what, (err, groups["taken"]["cpuset.cpus"]), (wanted, "4-6\n"))
    at = calls.index("write /numarun/taken/cpuset.cpus 4-6")
    check(f"{what}: read behind the write", calls[at + 1], "read /numarun/taken/cpuset.cpus.effective")
shutil.rmtree(work)
print(f"cgroup: nodes of {2 * len(ASKS)} groups on 16 nodes, {len(TABLE)} comparisons with what is in effect, nothing written elsewhere")
