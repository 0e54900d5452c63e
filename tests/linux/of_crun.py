"""Containers that crun makes, in groups of its own."""

import json
import os
import shutil
import subprocess

from tree import ROOT, read

STATE, BUNDLES, OUT = "/run/crun", "/tmp/of-crun", "/tmp/of-crun-out"


def bundle(name, section, **more):
    """A bundle as `crun spec` has it, with what is asked for, and with more members."""
    folder = f"{BUNDLES}/{name}"
    for place in ("dev", "proc"):
        os.makedirs(f"{folder}/rootfs/{place}", exist_ok=True)
    shutil.copy("/app/sleeper", f"{folder}/rootfs/sleeper")
    if os.path.exists(f"{folder}/config.json"):
        os.remove(f"{folder}/config.json")
    subprocess.run(["/app/crun", "spec"], cwd=folder, check=True)
    config = json.load(open(f"{folder}/config.json"))
    config["process"].update(terminal=False, args=["/sleeper"])
    config["mounts"] = [mount for mount in config["mounts"] if mount["destination"] == "/proc"]
    config["linux"]["resources"]["cpu"] = section
    config["linux"]["namespaces"] = [one for one in config["linux"]["namespaces"] if one["type"] in ("pid", "ipc", "uts", "mount")]
    json.dump({**config, **more}, open(f"{folder}/config.json", "w"))
    return folder


def crun(*words):
    """What crun says. It goes through a file, since a container that runs on keeps a pipe open."""
    with open(OUT, "w") as out:
        done = subprocess.run(["/app/crun", "--cgroup-manager=cgroupfs", *words], stdin=subprocess.DEVNULL, stdout=out, stderr=subprocess.STDOUT)
    assert not done.returncode, (words, done.returncode, read(OUT))
    return read(OUT)


def begin(name, section):
    """Starts a container; its first process, and its group."""
    crun("run", "--no-pivot", "--detach", "--bundle", bundle(name, section), name)
    return process(name)


def process(name):
    pid = json.loads(crun("state", name))["pid"]
    return pid, ROOT + read(f"/proc/{pid}/cgroup").split("::")[1]
