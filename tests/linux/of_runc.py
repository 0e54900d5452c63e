"""Containers that runc makes, in groups of its own."""

import json
import os
import shutil
import subprocess

from tree import ROOT, read

SECONDS = 600  # that each command has; an emulated machine may have little of a processor
BUNDLES, OUT = "/tmp/of-runc", "/tmp/of-runc-out"


def bundle(name, section, folder=BUNDLES, **more):
    """A bundle as `runc spec` has it, with what is asked for, and with more members."""
    place = f"{folder}/{name}"
    for inside in ("dev", "proc"):
        os.makedirs(f"{place}/rootfs/{inside}", exist_ok=True)
    shutil.copy("/app/sleeper", f"{place}/rootfs/sleeper")
    if os.path.exists(f"{place}/config.json"):
        os.remove(f"{place}/config.json")
    subprocess.run(["/app/runc", "spec"], cwd=place, check=True)
    config = json.load(open(f"{place}/config.json"))
    config["process"].update(terminal=False, args=["/sleeper"])
    config["mounts"] = [mount for mount in config["mounts"] if mount["destination"] == "/proc"]
    config["linux"]["resources"]["cpu"] = section
    config["linux"]["namespaces"] = [one for one in config["linux"]["namespaces"] if one["type"] in ("pid", "ipc", "uts", "mount")]
    with open(f"{place}/config.json", "w") as file:
        json.dump({**config, **more}, file)
    return place


def runc(*words, program="/app/runc", status=0):
    """What runc says. It goes through a file, since a container that runs on keeps a pipe open."""
    with open(OUT, "w") as out:
        done = subprocess.run([program, *words], stdin=subprocess.DEVNULL, stdout=out, stderr=subprocess.STDOUT, timeout=SECONDS)
    assert done.returncode == status, (words, done.returncode, read(OUT))
    return read(OUT)


def begin(name, section, program="/app/runc", **more):
    """Starts a container; its first process, and its group below the root."""
    runc("run", "--no-pivot", "--detach", "--bundle", bundle(name, section, **more), name, program=program)
    return process(name)


def process(name):
    pid = json.loads(runc("state", name))["pid"]
    return pid, read(f"/proc/{pid}/cgroup").split("::")[1].strip("/")


def kept(name, member):
    """What runc's state has of what the group is to request."""
    return json.load(open(f"/run/runc/{name}/state.json"))["config"]["cgroups"][member]


def delete(name):
    runc("delete", "--force", name)
    assert not os.path.exists(f"{ROOT}/{name}")
