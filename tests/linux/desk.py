"""What a user types at a desk: lines of the pages, by a shell of the emulated machine, as they stand there."""

import os
import re
import subprocess
import time

import tree
from tree import read

OUT, OUT_OF_AGENT = "/tmp/typed", "/tmp/agent"
HERE = {"PATH": "/usr/local/bin:/usr/bin:/bin:/app", "HOME": "/root", "TERM": "dumb"}
done = set()


def prepare():
    if not os.path.lexists("/dev/fd"):
        os.symlink("/proc/self/fd", "/dev/fd")  # as udev makes it


def typed(line, status=0, folder=tree.REPOSITORY):
    """What is said to a line of a shell."""
    done.add(line)
    with open(OUT, "w") as out:
        ran = subprocess.run(["bash", "-c", line], stdin=subprocess.DEVNULL, stdout=out, stderr=subprocess.STDOUT, cwd=folder, env=HERE)
    assert ran.returncode == status, (line, ran.returncode, read(OUT)[-2000:])
    return read(OUT)


def lines_of(page):
    """The commands in the blocks of a page's text, without their comments, and what is shown behind those of a transcript."""
    for kind, block in re.findall(r"^```(\w*)\n(.*?)^```", page, re.M | re.S):
        if kind == "sh" and not block.startswith("#!"):
            yield from ((re.sub(r"\s+#.*", "", line), None) for line in block.splitlines())
        elif kind == "" and block.startswith("$ "):
            line, shown = block.split("\n", 1)
            yield line[2:], shown.strip()


def begun(line, out=OUT_OF_AGENT):
    """A line of a shell that runs on, as an agent."""
    done.add(line)
    return subprocess.Popen(["bash", "-c", f"exec {line}"], cwd=tree.REPOSITORY, env=HERE, stdin=subprocess.DEVNULL, stdout=open(out, "a"), stderr=subprocess.STDOUT)


def until(agent, holds, what):
    end = time.monotonic() + 600
    while not holds():
        assert agent.poll() is None and time.monotonic() < end, (what, read(OUT_OF_AGENT)[-3000:])
        time.sleep(0.1)


def ended(agent):
    agent.terminate()
    agent.wait()
