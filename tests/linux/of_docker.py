"""docker: its daemon, started by hand with its cgroupfs driver over a containerd that runs, and containers of an image with one program."""

import io
import json
import os
import subprocess
import tarfile

import tree
from tree import ROOT, read

SECONDS = 600  # that each command has; an emulated machine may have little of a processor
IMAGE, OUT, LOG = "box", "/tmp/docker-out", "/tmp/dockerd-log"
DAEMON = ["/app/dockerd", "--bridge", "none", "--iptables=false", "--storage-driver", "vfs", "--exec-opt", "native.cgroupdriver=cgroupfs",
          "--containerd", "/run/containerd/containerd.sock",
          "--shutdown-timeout", str(SECONDS)]  # in place of 15: a daemon that runs out of them leaves containers behind
HERE = {"PATH": "/bin:/usr/bin:/app", "HOME": "/root", "DOCKER_RAMDISK": "1"}  # a first file system in memory lets nobody pivot


def begin(**config):
    """A daemon that answers, with this in its daemon.json; its process. It starts a runtime that has words of its own by a script of sh's."""
    os.makedirs("/etc/docker", exist_ok=True)
    if not os.path.lexists("/bin/sh"):
        os.symlink("/app/dash", "/bin/sh")
    if not os.path.exists("/var/run"):
        os.symlink("/run", "/var/run")
    with open("/etc/docker/daemon.json", "w") as file:
        json.dump(config, file)
    process = subprocess.Popen(DAEMON, stdin=subprocess.DEVNULL, stdout=open(LOG, "a"), stderr=subprocess.STDOUT, env=HERE)
    assert tree.until(lambda: answers() or process.poll() is not None, 600) and process.poll() is None, read(LOG)[-3000:]
    return process


def end(process):
    """Its end, and that of its containers, as it has it by default."""
    process.terminate()
    process.wait()


def answers():
    return subprocess.run(["/app/docker", "version"], stdin=subprocess.DEVNULL, capture_output=True, env=HERE).returncode == 0


def docker(*words, status=0):
    """What docker says. It goes through a file, since a container that runs on keeps a pipe open."""
    with open(OUT, "w") as out:
        done = subprocess.run(["/app/docker", *words], stdin=subprocess.DEVNULL, stdout=out, stderr=subprocess.STDOUT, env=HERE, timeout=SECONDS)
    assert done.returncode == status, (words, done.returncode, read(OUT), read(LOG)[-2000:])
    return read(OUT)


def put_image():
    """An image of one layer with one program."""
    with tarfile.open("/tmp/box.tar", "w") as image:
        for name in ("dev", "proc", "sys", "etc"):
            folder = tarfile.TarInfo(name)
            folder.type, folder.mode = tarfile.DIRTYPE, 0o755
            image.addfile(folder)
        with open("/app/sleeper", "rb") as file:
            program = tarfile.TarInfo("sleeper")
            program.size, program.mode = os.path.getsize("/app/sleeper"), 0o755
            image.addfile(program, io.BytesIO(file.read()))
    docker("import", "/tmp/box.tar", IMAGE)


def run(name, *words):
    """Starts a container; its first process, and its group below the root."""
    docker("run", "-d", "--network", "none", "--name", name, *words, IMAGE, "/sleeper")
    return process(name)


def process(name):
    pid = int(docker("inspect", "-f", "{{.State.Pid}}", name).splitlines()[-1])
    return pid, read(f"/proc/{pid}/cgroup").split("::")[1].strip("/")


def kept(name, member):
    """What runc's state has of what the group is to request."""
    state = f"/run/docker/runtime-runc/moby/{docker('inspect', '-f', '{{.Id}}', name).split()[-1]}/state.json"
    return json.loads(read(state))["config"]["cgroups"][member]


def remove(*names):
    groups = [process(name)[1] for name in names]
    docker("rm", "-f", *names)
    assert tree.until(lambda: not any(os.path.exists(f"{ROOT}/{group}") for group in groups)), groups
