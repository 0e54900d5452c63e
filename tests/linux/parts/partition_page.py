"""README's lines with a partition, and those of the page operators/partitions.md, typed as they stand there but for the lists of CPUs, since the
machine has others, and the image: what the reader sees is what the page shows, and all is given back."""

import os
import re
import sys

sys.path[:0] = [os.path.join(os.path.dirname(os.path.abspath(__file__)), "..")]
import of_podman
import tree
import watched
from desk import OUT_OF_AGENT, begun, ended, lines_of, prepare, typed, until
from tree import CPUS, ROOT, read, say

README, PAGE = "README.md", "operators/partitions.md"
TEXTS = {name: read(f"{tree.REPOSITORY}/{name}") for name in (README, PAGE)}
OTHERS = (("0,16", "0"), ("1,17", "1"), ("docker.io/library/redis", f"--rootfs {of_podman.ROOTFS} /sleeper"))
SYSTEM, PINNED = {0}, f"{ROOT}/pinned"
RUNS = "podman --cgroup-manager cgroupfs run --cgroup-parent /pinned --cpus 4"


def here(line):
    """A line of a page with what is this machine's."""
    for there, own in OTHERS:
        line = line.replace(there, own)
    return line


def command(page, beginning):
    """The line of a page's blocks, or in its sentences, that begins so."""
    lines = {line for line, _ in lines_of(TEXTS[page]) if line.startswith(beginning)}
    found = lines or set(re.findall(rf"`({re.escape(beginning)}[^`]*)`", " ".join(TEXTS[page].split())))
    assert len(found) == 1, (page, beginning, found)
    return here(found.pop())


def container(agent, line):
    """A container by a line of a page, whose runtime stays in the foreground; its first process, once it has four CPUs of its own."""
    before = set(of_podman.podman("ps", "-q").split())
    runs = begun(line, out="/tmp/podman-run")

    def names():
        assert runs.poll() is None, read("/tmp/podman-run")
        return set(of_podman.podman("ps", "-q").split()) - before
    until(agent, names, line)
    name = names().pop()
    pid, group = of_podman.process(name)
    assert group.startswith("pinned/"), group
    until(agent, lambda: len(tree.allowed(pid)) == 4 and not tree.allowed(pid) & {0, 1}, f"four CPUs of {name}")
    return name, pid


def is_partition():
    return os.path.exists(f"{PINNED}/cpuset.cpus.partition") and read(f"{PINNED}/cpuset.cpus.partition") == "root"


def given_back(line, pids):
    said = typed(line)
    assert f"given back {PINNED}: member, cpus 0-7, since it has processes" in said, said
    assert all(tree.allowed(pid) == CPUS for pid in pids), (said, [tree.allowed(pid) for pid in pids])


def by_readme(outside):
    """Its agent in a partition, in place of the one without, over a machine file that leaves out the system's CPUs."""
    typed(f"{command(README, 'operators/numarun-describe host')} {command(README, '--system ')}")
    agent = begun(command(README, "operators/numarun-agent host.json --cgroup /sys/fs/cgroup --runtime all --partition pinned"))
    until(agent, is_partition, "README's partition")
    name, pid = container(agent, command(README, RUNS))
    assert [tree.allowed(other) for other in outside] == [SYSTEM, SYSTEM], [tree.allowed(other) for other in outside]
    ended(agent)
    given_back(command(README, "operators/numarun-agent release"), [pid, *outside])
    of_podman.podman("rm", "-f", "-t", "0", name)
    tree.remove(PINNED)


def by_the_page(outside):
    """Its first ten minutes; a container elsewhere is said to be outside, and runs on the system's CPUs."""
    typed(command(PAGE, "mkdir"))
    typed(command(PAGE, "numarun-describe host"))
    agent = begun(command(PAGE, "numarun-agent /etc/numarun/machine.json --cgroup /sys/fs/cgroup --partition"))
    until(agent, is_partition, "the page's partition")
    assert typed(command(PAGE, "cat ")) == "root"
    assert [tree.allowed(other) for other in outside] == [SYSTEM, SYSTEM], [tree.allowed(other) for other in outside]
    name, pid = container(agent, command(PAGE, RUNS))
    elsewhere, _ = of_podman.begin("elsewhere", "--cpus", "1")
    until(agent, lambda: "outside elsewhere" in read(OUT_OF_AGENT), "who is outside")
    assert tree.allowed(elsewhere) == SYSTEM and len(tree.allowed(pid)) == 4, (tree.allowed(elsewhere), tree.allowed(pid))
    ended(agent)
    assert is_partition(), "the end of the agent changes nothing"
    given_back(command(PAGE, "numarun-agent release"), [pid, elsewhere, *outside])
    of_podman.podman("rm", "-f", "-t", "0", name, "elsewhere")
    tree.remove(PINNED)


prepare()
of_podman.prepare()
watched.begin()
outside = [tree.spawn(ROOT), watched.group("system.slice/s1")]
typed("operators/install.sh /usr/local")
for step in (by_readme, by_the_page):
    watched.timed(step, outside)
assert "Traceback" not in read(OUT_OF_AGENT), read(OUT_OF_AGENT)[-2000:]
say("partition_page: README's lines and the page's, typed")
tree.remove(f"{ROOT}/system.slice")
tree.clear()
