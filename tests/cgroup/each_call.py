"""Runs a script in a folder that stands for a cgroup v2 tree, with each call of the system refused in turn, and then with the
program killed behind each. After each single call that was done the sets that the files request keep the containers apart;
each refusal is one E50 and a note with the path; and what the files have at the end is what was written last.

PROGRAM PRELOAD MACHINE SCRIPT, from the top of the repository. What ought to be asked for, and when sets are apart, is worked
out here from the lines of the preload alone."""

import errno
import json
import os
import pathlib
import re
import shutil
import sys
import tempfile

sys.path.insert(0, str(pathlib.Path(__file__).resolve().parent.parent))
from program import run

program, preload, machine, script = sys.argv[1:]


def cpus(text):
    """The set of a list of CPUs."""
    found = set()
    for piece in filter(None, text.split(",")):
        first, _, last = piece.partition("-")
        found |= set(range(int(first), int(last or first) + 1))
    return found


RESERVED = cpus(json.load(open(machine))["reserved"])


def pinned(bundle):
    """Whether a bundle's container asks for CPUs of its own."""
    resources = json.load(open(os.path.join(bundle, "config.json"))).get("linux", {}).get("resources", {})
    cpu = resources.get("cpu", {})
    return bool(cpu.get("cpus")) or cpu.get("quota", 0) > 0


PINNED = {}
for line in open(script):
    words = line.split()
    if words and words[0] == "create":
        PINNED[words[1]] = pinned(words[2])


class Run:
    """A run of the script, behind these lines, in a new folder."""

    def __init__(self, words=(), folder=None, first="", **preloaded):
        self.folder = folder or tempfile.mkdtemp()
        root, log = self.folder + "/root", self.folder + "/log"
        if not folder:
            os.mkdir(root)
            open(root + "/cgroup.subtree_control", "w").close()
        open(log, "w").close()
        settings = {"FOLDERS_" + name.upper(): str(value) for name, value in preloaded.items()}
        environment = dict(os.environ, LD_PRELOAD=preload, FOLDERS_ROOT=root, FOLDERS_LOG=log, **settings)
        self.done = run([program, "run", machine, "--cgroup", root, *words], first.encode() + open(script, "rb").read(), env=environment)
        self.out, self.err = self.done.stdout.decode(), self.done.stderr.decode()
        self.calls = open(log).read().splitlines()
        self.files = {}
        for place, _, names in os.walk(root):
            if "cpuset.cpus" in names and place.count("/") > root.count("/") + 1:
                self.files[place.rsplit("/", 1)[1]] = open(place + "/cpuset.cpus").read().strip()

    def remove(self):
        shutil.rmtree(self.folder)


def check_apart(calls, what, stands=None, alive=None):
    """How many states there are, each one with pinned containers that share nothing outside the reserved CPUs. A container
    counts from its memory nodes on, which are written before its process comes, until its processes are ended."""
    stands, alive = stands or {}, set(alive or ())
    states = 0
    for line in calls:
        call, path, *rest = line.split(" ")
        if "!" in line or call in ("open", "read", "lock", "absent"):
            continue
        name = path.split("/")[2] if path.count("/") > 1 else None
        if call == "rmdir":
            stands.pop(name, None)
        if call == "write" and path.endswith("/cgroup.kill"):
            alive.discard(name)
        if call == "write" and path.endswith("/cpuset.mems"):
            alive.add(name)
        if call == "write" and path.endswith("/cpuset.cpus"):
            stands[name] = rest[0]
        states += 1
        live = sorted(alive)
        for i, a in enumerate(live):
            for b in live[i + 1 :]:
                if PINNED[a] or PINNED[b]:
                    both = (cpus(stands[a]) & cpus(stands[b])) - RESERVED
                    assert not both, (what, line, a, b, stands)
    return states


def check_files(ran, what):
    """The files have what was written into them last."""
    last = {}
    for line in ran.calls:
        call, path, *rest = line.split(" ")
        if "!" not in line and call == "write" and path.endswith("/cpuset.cpus"):
            last[path.split("/")[2]] = rest[0]
        if "!" not in line and call == "mkdir" and path.count("/") > 1:
            last[path.split("/")[2]] = ""
    for name, text in ran.files.items():
        assert text == last.get(name, ""), (what, name, text, last)


whole = Run()
assert not [line for line in whole.calls if line.startswith("outside ")], whole.calls
assert whole.done.returncode == 0, whole.err
plain = run([program, "run", machine], open(script, "rb").read())
assert whole.out == plain.stdout.decode(), "the answers are those of a run without the tree"
ASKED = [line for line in whole.calls if line.split(" ")[0] in ("mkdir", "rmdir", "write")]
for line in ASKED:
    assert re.fullmatch(r"write (/numarun)?/cgroup.subtree_control \+cpuset|mkdir /numarun(/\S+)?|rmdir /numarun/\S+"
                        r"|write /numarun/\S+/(cpuset.cpus \S+|cpuset.mems \S+|cgroup.kill 1)", line), line
# A write is one open and one write, behind which what is in effect is read once where it was one of CPUs.
for at, line in enumerate(whole.calls):
    call, path, *rest = line.split(" ")
    if call == "write":
        assert whole.calls[at - 1] == f"open {path}", whole.calls[at - 1 : at + 1]
        if path.endswith("/cpuset.cpus"):
            assert whole.calls[at + 1] == f"read {path}.effective", whole.calls[at : at + 2]
assert sum(line.startswith("read /") for line in whole.calls) == sum("/cpuset.cpus " in line for line in ASKED), whole.calls
assert [line.split(" ")[:2] for line in whole.calls[:5]] == [
    ["read", ""], ["lock", ""],
    ["absent", "/cgroup.controllers"], ["absent", "/cpuset.cpus.effective"], ["absent", "/cpuset.mems.effective"]], whole.calls[:5]
states, runs = check_apart(whole.calls, "whole"), 1
check_files(whole, "whole")
whole.remove()
REFUSALS = (errno.EBUSY, errno.EINVAL, errno.EACCES, errno.ENOENT, errno.ENOSPC, errno.EAGAIN, errno.EOPNOTSUPP)


def told(number):
    """What the system says of an error, as notes have it."""
    return f"{os.strerror(number)} (os error {number})"


def refused_at(n, number, what):
    """The run in which this call is refused, by this error."""
    ran = Run(fail=n, errno=number)
    refused = [line for line in ran.calls if " !" in line]
    assert len(refused) == 1 and ran.done.returncode in (0, 1), (what, refused)
    call, path = refused[0].split(" ")[:2]
    notes = [line for line in ran.err.splitlines() if line.startswith(f"error: {ran.folder}/root{path}: ") and "os error" in line]
    if call == "lock" and number == errno.EAGAIN:
        assert (ran.done.returncode, ran.out) == (1, "refused E50 KernelFault\n"), (what, ran.out)
        assert ran.err == f"error: {ran.folder}/root: another program has it\n", (what, ran.err)
    elif path == "":
        assert (ran.done.returncode, ran.out) == (1, "refused E50 KernelFault\n"), (what, ran.out)
        assert ran.err == f"error: {ran.folder}/root: {told(number)}\nerror: {ran.folder}/root: can't be locked\n", (what, ran.err)
    elif call == "read" and path.startswith("/numarun/"):
        assert ran.out == whole.out and len(notes) == 1, (what, ran.out, ran.err)
    elif call == "read" and number == errno.ENOENT:
        assert ran.out == whole.out and not ran.err, (what, ran.out, ran.err)
    elif call == "read":
        assert (ran.done.returncode, ran.out) == (1, "refused E113 ReadFault\n"), (what, ran.out)
        assert ran.err == f"error: {ran.folder}/root{path}: {told(number)}\nerror: {ran.folder}/root: can't be read\n", (what, ran.err)
    elif call == "rmdir" and number == errno.EBUSY:
        assert ran.out == whole.out and not ran.err, (what, ran.out, ran.err)
    elif call == "rmdir" and number == errno.ENOENT:
        assert "E50" not in ran.out and len(notes) == 1, (what, ran.out, ran.err)
    else:
        assert ran.out.count("refused E50 KernelFault\n") >= 1 and len(notes) == 1, (what, ran.out, ran.err)
        if call == "write":
            assert notes == [f"error: {ran.folder}/root{path}: {refused[0].split(' ')[2]}: {told(number)}"], (what, notes)
        lacks = "note: " in ran.err
        assert lacks == (call == "open" and number == errno.ENOENT and path.endswith("/cgroup.subtree_control")), (what, ran.err)
    apart = check_apart(ran.calls, what)
    check_files(ran, what)
    ran.remove()
    return apart


for number in REFUSALS:
    for n in range(1, len(whole.calls) + 1):
        states += refused_at(n, number, f"call {n} refused by {errno.errorcode[number]}")
        runs += 1
for n in (at for at, line in enumerate(whole.calls, 1) if line.startswith("write ")):
    ran = Run(fail=n, errno=errno.EINTR)
    assert ran.out == whole.out and not ran.err and ran.done.returncode == 0, (n, ran.out, ran.err)
    check_files(ran, f"call {n} behind a signal")
    ran.remove()
    runs += 1
print(f"cgroup: {len(whole.calls)} calls, {runs} runs with each refused in turn, {states} states that are apart")

for n in range(1, len(whole.calls) + 1):
    ran = Run(kill=n)
    assert ran.done.returncode == -9 and len(ran.calls) == n, (n, ran.done)
    states += check_apart(ran.calls, f"killed behind call {n}")
    left = sorted(name for name in os.listdir(ran.folder + "/root/numarun")
                  if os.path.isdir(ran.folder + "/root/numarun/" + name)) if os.path.isdir(ran.folder + "/root/numarun") else []
    if os.path.isdir(ran.folder + "/root/numarun"):
        refused = Run(folder=ran.folder)
        assert (refused.done.returncode, refused.out) == (1, "refused E50 KernelFault\n"), refused.out
        assert f"error: {ran.folder}/root/numarun: File exists" in refused.err, refused.err
    again = Run(("--adopt",), folder=ran.folder, first="".join(f"forget {name}\n" for name in left))
    assert again.done.returncode == 0 and again.out == "ok\n" * len(left) + whole.out, (n, again.out, again.err)
    named = sorted(line.split("/")[-1].split(" ")[0] for line in again.err.splitlines() if line.startswith("note: "))
    assert named == left, (n, named, left)
    ran.remove()
print(f"cgroup: {len(whole.calls)} runs that were killed, and started again with what was left")

other = Run(other="0\n")
wrong = [line for line in other.err.splitlines() if line.endswith("cpuset.cpus.effective: 0 in place of " + line.rsplit(" ", 1)[1])]
assert other.out == whole.out and wrong, other.err
other.remove()
print(f"cgroup: {len(wrong)} notes of CPUs in effect that are others than the model's")

busy = Run(busy=1)
tries = [line for line in busy.calls if line.startswith("rmdir ")]
notes = [line for line in busy.err.splitlines() if line.endswith("/numarun/database: Device or resource busy (os error 16)")]
assert busy.out.count("refused E50 KernelFault\n") == len(notes) == 1 and busy.done.returncode == 0, (busy.out, busy.err)
assert 2 <= len(tries) <= 1001, f"{len(tries)} tries in a second, with a millisecond between two"
busy.remove()
print("cgroup: a folder that stays busy")

shorts = [at for at, line in enumerate(whole.calls, 1) if line.startswith("write ")]
for n in shorts:
    ran = Run(short=n)
    path = ran.calls[n - 1].split(" ")[1]
    notes = [line for line in ran.err.splitlines() if line.startswith(f"error: {ran.folder}/root{path}: ")]
    assert ran.out.count("refused E50 KernelFault\n") >= 1 and notes and ran.done.returncode in (0, 1), (n, ran.out, ran.err)
    ran.remove()
print(f"cgroup: {len(shorts)} runs in which a write is short")
