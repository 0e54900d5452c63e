"""Containers that podman runs by crun, in groups of its own, by its cgroupfs manager."""

import os
import shutil
import subprocess

from tree import read

ROOTFS, OUT = "/tmp/rootfs", "/tmp/podman-out"
CONFIG = {"containers.conf": """[containers]
netns = "none"
log_driver = "k8s-file"
seccomp_profile = "unconfined"
[engine]
cgroup_manager = "cgroupfs"
events_logger = "file"
no_pivot_root = true
runtime = "crun"
conmon_path = ["/app/conmon"]
[engine.runtimes]
crun = ["/app/crun"]
""", "storage.conf": """[storage]
driver = "vfs"
runroot = "/run/containers/storage"
graphroot = "/var/lib/containers/storage"
"""}


def prepare():
    """What podman needs besides: its configuration, and a root for containers with one program."""
    for place in ("/etc/containers", "/var/tmp", "/dev/shm", f"{ROOTFS}/etc"):
        os.makedirs(place, exist_ok=True)
    for name, text in CONFIG.items():
        with open(f"/etc/containers/{name}", "w") as file:
            file.write(text)
    shutil.copy("/app/sleeper", f"{ROOTFS}/sleeper")


def podman(*words):
    """What podman says. It goes through a file, since a container that runs on keeps a pipe open."""
    with open(OUT, "w") as out:
        done = subprocess.run(["/app/podman", *words], stdin=subprocess.DEVNULL, stdout=out, stderr=subprocess.STDOUT)
    assert not done.returncode, (words, done.returncode, read(OUT))
    return read(OUT)


def begin(name, *words, more=()):
    podman(*more, "run", "-d", "--name", name, *words, "--rootfs", ROOTFS, "/sleeper")
    return process(name)


def process(name):
    """A container's first process, and its group."""
    pid = int(podman("inspect", "-f", "{{.State.Pid}}", name).splitlines()[-1])
    return pid, read(f"/proc/{pid}/cgroup").split("::")[1].strip("/")
