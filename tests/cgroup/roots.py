"""A script over a root that stands for a cgroup v2 tree, and a root in which groups are there."""

import os
import pathlib
import shutil
import subprocess
import tempfile

FILES = ("cpuset.cpus", "cpuset.mems", "cpuset.cpus.effective", "cgroup.kill", "cgroup.subtree_control")


def lived(program, machine, script, make, words=()):
    """The answers and notes of a script over a root that this makes, and its lines that are functions are called with the root.

    The first of them is called when the program has answered a `list`, because it has opened the root by then.
    """
    folder = tempfile.mkdtemp()
    root = folder + "/root"
    make(root)
    started = subprocess.Popen([program, "run", machine, "--cgroup", root, *words], stdin=subprocess.PIPE, stdout=subprocess.PIPE,
                               stderr=subprocess.PIPE)
    started.stdin.write(b"list\n")
    started.stdin.flush()
    assert started.stdout.readline() == b"end\n"
    answers = []
    for line in script:
        if callable(line):
            line(root)
            continue
        started.stdin.write(line.encode() + b"\n")
        started.stdin.flush()
        answers.append(started.stdout.readline().decode())
        while answers[-1].startswith("plan "):
            while not answers[-1].endswith("end\n"):
                answers[-1] += started.stdout.readline().decode()
            break
    out, err = started.communicate()
    shutil.rmtree(folder)
    assert started.returncode == 0 and not out, (script, started.returncode, out)
    return answers, err.decode().replace(root, "ROOT")


def grouped(*names):
    """A root in which these groups are there, with their files."""

    def make(root):
        for group in ("", "/numarun", *(f"/numarun/{name}" for name in names)):
            os.mkdir(root + group)
            for name in FILES if group.count("/") == 2 else ("cgroup.subtree_control",):
                pathlib.Path(f"{root}{group}/{name}").write_text("")

    return make
