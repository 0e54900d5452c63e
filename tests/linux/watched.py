"""What the parts of the agent share: bundles in a folder that it watches, groups with a process each, and an agent that runs."""

import json
import os
import shutil
import signal
import subprocess
import time

import tree
from tree import ROOT, read, write

FOLDER, WORK, OUT, RELEASE_OUT = "/tmp/watched", "/run/numarun", "/tmp/watched-out", "/tmp/release-out"
PYTHON = ("/bin/python3", "-SEB")
SECONDS = 600  # that the agent has for what it is waited for; an emulated machine may have little of a processor


def begin():
    """An empty tree, and nothing watched."""
    tree.clear()
    write(f"{ROOT}/cgroup.subtree_control", "+cpuset +cpu")
    shutil.rmtree(FOLDER, ignore_errors=True)
    shutil.rmtree(WORK, ignore_errors=True)
    os.makedirs(FOLDER)
    open(OUT, "w").close()


def group(path):
    """Makes a group below the root, with the controllers of its parents, and a process in it; its process."""
    at = ROOT
    for name in path.split("/"):
        write(f"{at}/cgroup.subtree_control", "+cpuset +cpu")
        at = f"{at}/{name}"
        os.makedirs(at, exist_ok=True)
    return tree.spawn(at)


def config(path, quota=None, **section):
    told = {**({"quota": quota * 100000, "period": 100000} if quota else {}), **section}
    return {"ociVersion": "1.0.2", "process": {"cwd": "/", "args": ["sh"]}, "root": {"path": "rootfs"},
            "linux": {"cgroupsPath": f"/{path}", "resources": {"cpu": told}}}


def come(name, path, quota=None, **section):
    """A container with a process, in this group; its process."""
    pid = group(path)
    configure(name, path, quota, **section)
    return pid


def configure(name, path, quota=None, **section):
    """Its config, of which nobody sees a part."""
    os.makedirs(f"{FOLDER}/{name}", exist_ok=True)
    with open(f"{FOLDER}/.config", "w") as file:
        json.dump(config(path, quota, **section), file)
    os.rename(f"{FOLDER}/.config", f"{FOLDER}/{name}/config.json")


def go(name, path):
    shutil.rmtree(f"{FOLDER}/{name}")
    tree.remove(f"{ROOT}/{path}")


def words(*more):
    return [*PYTHON, f"{tree.REPOSITORY}/operators/numarun-agent", tree.MACHINE, "--patience", "900", "--pin", "all", "--pool-least", "0", "--program", tree.PROGRAM, "--cgroup", ROOT,
            "--work", WORK, *more]


def stopped(killed_behind, below):
    """The environment of a program that is killed behind its write of this number below a group, if there is one."""
    return {**os.environ, **({"LD_PRELOAD": tree.STOP, "STOP_ROOT": below, "STOP_KILL": str(killed_behind)} if killed_behind else {})}


def start(told, out, environment):
    """A process with these words, which writes into this file."""
    return subprocess.Popen(told, stdin=subprocess.DEVNULL, stdout=open(out, "a"), stderr=subprocess.STDOUT, env=environment)


class Agent:
    """An agent that runs; what it says is in a file. It may be killed behind a write of its own: the one of this number below a group."""

    def __init__(self, *more, watch=FOLDER, killed_behind=None, below=ROOT):
        watching = ["--watch", watch] if watch else []
        self.process = start(words(*watching, "--pause", "0.1", *more), OUT, stopped(killed_behind, below))

    def until(self, holds, what):
        """Waits until this holds."""
        end = time.monotonic() + SECONDS
        while not holds():
            assert self.process.poll() is None and time.monotonic() < end, (what, lines()[-30:])
            time.sleep(0.05)

    def says(self, beginning):
        self.until(lambda: any(line.startswith(beginning) for line in lines()), beginning)

    def end(self):
        self.process.send_signal(signal.SIGTERM)
        self.process.wait()


def release(killed_behind=None, below=ROOT):
    """Gives back all that was taken, unless it is killed behind a write of its own."""
    command = [*words()[:3], "--release", "--cgroup", ROOT, "--work", WORK]
    open(RELEASE_OUT, "w").close()
    status = start(command, RELEASE_OUT, stopped(killed_behind, below)).wait()
    return subprocess.CompletedProcess(command, status, read(RELEASE_OUT))


def lines():
    return [line.split(" ", 1)[-1] for line in read(OUT).splitlines()]


def requested(path):
    return read(f"{ROOT}/{path}/cpuset.cpus")


def timed(step, *words):
    """A step of a part, which may take minutes, so that its seconds are said."""
    began = time.monotonic()
    found = step(*words)
    tree.say(f"{step.__name__} in {time.monotonic() - began:.0f} s")
    return found


def runs_on(pid, cpus):
    return tree.allowed(pid) == cpus
