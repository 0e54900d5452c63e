"""Makes lists of calls on the kernel, and compares its answers with those of the modelled kernel, which stand in /calls."""

import errno
import os
import sys

sys.path[:0] = [os.path.join(os.path.dirname(os.path.abspath(__file__)), "..")]
import tree
from tree import ROOT, read, say, write

NARROW = f"{ROOT}/narrow"
REFUSED = {errno.EEXIST: "Exists", errno.EBUSY: "HasChildren or HasProcesses"}


class Kernel:
    def __init__(self):
        self.groups, self.pids, self.made, self.next = {0: ROOT}, {}, 0, 2

    def answer(self, line):
        word, *rest = line.split(" ")
        if word.split(".")[0] in ("cpus", "mems") and len(rest) == 1:
            return f"ids {read(f'{self.groups[int(rest[0])]}/cpuset.{word}') or '-'}"
        number = getattr(self, word)(*rest)
        if isinstance(number, str):
            return number
        return f"refused {REFUSED.get(number, os.strerror(number))}" if number else "ok"

    def make(self, serial, name):
        path = f"{self.groups[int(serial)]}/{name}"
        failed = write(f"{self.groups[int(serial)]}/cgroup.subtree_control", "+cpuset")
        try:
            os.mkdir(path)
        except OSError as why:
            return why.errno
        self.made += 1
        self.groups[self.made] = path
        return failed or f"group {self.made}"

    def remove(self, serial):
        try:
            os.rmdir(self.groups[int(serial)])
        except OSError as why:
            return why.errno
        del self.groups[int(serial)]
        return 0

    def cpus(self, serial, text):
        return write(f"{self.groups[int(serial)]}/cpuset.cpus", "\n" if text == "-" else text)

    def mems(self, serial, text):
        return write(f"{self.groups[int(serial)]}/cpuset.mems", "\n" if text == "-" else text)

    def spawn(self, serial):
        """A process, by way of a group of one CPU: on Linux 6.12 one that comes from a group with the same CPUs keeps those that are off."""
        os.makedirs(NARROW, exist_ok=True)
        assert not write(f"{NARROW}/cpuset.cpus", "0")
        pid = tree.spawn(NARROW)
        assert not write(f"{self.groups[int(serial)]}/cgroup.procs", str(pid))
        self.pids[self.next] = pid, int(serial)
        self.next += 1
        return f"pid {self.next - 1}"

    def end(self, serial):
        failed = write(f"{self.groups[int(serial)]}/cgroup.kill", "1")
        tree.until(lambda: not tree.processes(self.groups[int(serial)]))
        for pid in [pid for pid, (_, group) in self.pids.items() if group == int(serial)]:
            self.gone(pid)
        return failed

    def exit(self, pid):
        os.kill(self.pids[int(pid)][0], 9)
        return self.gone(int(pid))

    def gone(self, pid):
        """A process is gone once the first process has waited for it."""
        real, _ = self.pids.pop(pid)
        assert tree.until(lambda: not os.path.exists(f"/proc/{real}")), f"process {pid} does not end"
        return 0

    def offline(self, cpu):
        return tree.turn(int(cpu), False) or 0

    def online(self, cpu):
        return tree.turn(int(cpu), True) or 0

    def check_processes(self):
        for real, group in self.pids.values():
            has = tree.cpus(read(f"{self.groups[group]}/cpuset.cpus.effective"))
            assert tree.allowed(real) == has, (group, tree.allowed(real), has)

    def end_list(self):
        for path in [path for path in self.groups.values() if os.path.dirname(path) == ROOT]:
            tree.remove(path)
        for cpu in range(1, 8):
            tree.turn(cpu, True)


def same(found, expected):
    if found == "refused HasChildren or HasProcesses":
        return expected in ("refused HasChildren", "refused HasProcesses")
    return found == expected


def play(lines):
    """How many answers of a list are those of the model; the call of the first that is another is named."""
    kernel, count, last = Kernel(), 0, ""
    for call, expected in zip(lines[::2], lines[1::2]):
        call = call[2:]
        asks = call.split(" ")[0].split(".")[0] in ("cpus", "mems") and call.count(" ") == 1
        last = last if asks else call
        found = kernel.answer(call)
        if not same(found, expected) and asks and last.startswith("o"):
            tree.until(lambda: same(kernel.answer(call), expected))
            found = kernel.answer(call)
        assert same(found, expected), f"{call} behind {last}: {found} in place of {expected}"
        if not asks:
            kernel.check_processes()
        count += 1
    kernel.end_list()
    return count


def machine_is_told():
    """The machine file says what the kernel says of its nodes."""
    machine = tree.machines.Machine(tree.MACHINE)
    for node, members in enumerate(machine.nodes):
        folder = f"/sys/devices/system/node/node{node}"
        assert tree.cpus(read(f"{folder}/cpulist")) == members, read(f"{folder}/cpulist")
        assert [int(word) for word in read(f"{folder}/distance").split()] == machine.distances[node], read(f"{folder}/distance")


machine_is_told()
lists, seen = open("/calls").read().split("list\n")[1:], {}
for text in lists:
    for line in text.splitlines()[::2]:
        seen[line.split(" ")[1]] = seen.get(line.split(" ")[1], 0) + 1
count = sum(play(text.splitlines()) for text in lists)
refused = sum("refused" in text for text in lists)
least = min(seen[word] for word in "make remove spawn end exit offline online".split())
assert least >= 10 // tree.share() and count >= 8000 // tree.share(), (seen, count)
say(f"calls: {count} answers to {len(lists)} lists of calls are the modelled kernel's: {seen}")
