"""Compares what `tools mirror` asks of files and answers with a second kernel that asks, too: `mirror.py TOOLS`. Calls by chance are
made whole, and then with each call of the files refused in turn. Each refusal is told behind it, with its path. After each call
the files that do what they answer have what each group requests."""

import os
import random
import sys

HERE = os.path.dirname(os.path.abspath(__file__))
sys.path[:0] = [os.path.join(HERE, "..")]
from program import run
from second_kernel import Kernel, Refused, numbers, spelled

LISTS, CALLS = 12, 30


def line_of(members):
    return "" if not members else spelled(members)


class Mirrored(Kernel):
    """A kernel whose writes are asked of files first, of which the call of this number is refused."""

    def __init__(self, fail, machine, memory):
        super().__init__(0, machine)
        self.refused, self.asked, self.memory = fail, 0, numbers(memory)
        self.files, self.told = {}, []

    def path(self, serial):
        group = self.groups[int(serial)]
        return "ROOT" if group["parent"] is None else self.path(group["parent"]) + "/" + group["name"]

    def ask(self, what, path, text=""):
        self.asked += 1
        end = " refused" if self.asked == self.refused else ""
        self.told.append(f'asked {what} {path} "{text}"{end}')
        if end:
            self.told.append(f"told {path}")
            raise Refused("Failed")
        if what == "make":
            self.files = {file: has for file, has in self.files.items() if not file.startswith(path + "/")}
        if what == "write":
            self.files[path] = text

    def answer(self, line):
        self.told.append(super().answer(line))
        self.check(line)

    def granted(self, mems):
        return mems & self.memory or self.memory

    def check(self, line):
        for serial, group in self.groups.items():
            if group["parent"] is not None:
                cpus, mems = [self.files.get(f"{self.path(serial)}/cpuset.{what}") for what in ("cpus", "mems")]
                assert cpus == (f"{line_of(group['cpus'])}\\n" if cpus is not None else None), (line, serial, cpus, group)
                assert mems == (f"{line_of(self.granted(group['mems']))}\\n" if mems is not None else None), (line, serial, mems, group)
                assert (cpus is not None or not group["cpus"]) and (mems is not None or not group["mems"]), (line, serial, group)

    def call_make(self, parent, name):
        self.group(parent)
        if self.child(parent, name) is not None:
            raise Refused("Exists")
        if name in (".", "..") or "/" in name:
            self.told.append(f"told {name}")
            raise Refused("Failed")
        self.ask("write", self.path(parent) + "/cgroup.subtree_control", "+cpuset\\n")
        self.ask("make", f"{self.path(parent)}/{name}")
        return super().call_make(parent, name)

    def call_remove(self, serial):
        group = self.group(serial)
        left = any(g["parent"] == int(serial) for g in self.groups.values()) or any(of == int(serial) for of, _ in self.processes.values())
        if group["parent"] is not None and not left:
            self.ask("remove", self.path(serial))
        super().call_remove(serial)

    def requested(self, what, serial, written=None):
        if written is None or self.group(serial)["parent"] is None:
            return super().requested(what, serial, written)
        members = numbers(written) if what == "cpus" else self.granted(numbers(written))
        self.ask("write", f"{self.path(serial)}/cpuset.{what}", line_of(members) + "\\n")
        super().requested(what, serial, written)
        if what == "cpus":
            self.told.append(f'looked {self.path(serial)}/cpuset.cpus.effective "{line_of(self.effective("cpus", serial))}\\n"')

    def call_end(self, serial):
        if self.group(serial)["parent"] is None:
            self.told.append("told ROOT")
            raise Refused("Failed")
        self.ask("write", self.path(serial) + "/cgroup.kill", "1\\n")
        super().call_end(serial)


def some(members):
    chosen = random.sample(members, random.randint(0, len(members)))
    return ",".join(map(str, chosen)) or "-"


def chosen_call(kernel):
    """A call that may be refused; the group is one that was answered."""
    group, pid = random.randrange(kernel.next_serial), random.randrange(2, kernel.next_pid + 2)
    return random.choice([
        f"make {group} {random.choice('ab')}", f"make {group} {random.choice('ab')}", f"make {group} {random.choice(('.', '..', 'a/b', '...'))}",
        f"cpus {group} {some(range(8))}", f"cpus {group} {some(range(8))}", f"cpus {group} {some(range(8))}", f"mems {group} {some(range(3))}",
        f"mems {group} {some(range(3))}", f"remove {group}", f"spawn {group}", f"end {group}", f"fork {pid}", f"exit {pid}",
        f"offline {random.randrange(9)}", f"online {random.randrange(9)}"])


def compare(tools, seed, fail):
    """How many calls of the files a list of calls takes, and the kernel's answers."""
    random.seed(seed)
    machine, memory = f"0-7 0 {'0,' + some(range(1, 8)).replace('-', '1')} 0-2 2", some(range(3))
    kernel, calls = Mirrored(fail, machine, memory), []
    for _ in range(CALLS):
        calls.append(chosen_call(kernel))
        kernel.answer(calls[-1])
        for call in [f"{what}{effective} {serial}" for serial in kernel.groups for what in ("cpus", "mems") for effective in ("", ".effective")]:
            calls.append(call)
            kernel.answer(call)
    done = run([tools, "mirror", str(fail), memory], "".join(line + "\n" for line in [machine] + calls).encode())
    found = done.stdout.decode().splitlines()
    if done.returncode or done.stderr or found != kernel.told:
        at = next((k for k, pair in enumerate(zip(found, kernel.told)) if pair[0] != pair[1]), min(len(found), len(kernel.told)))
        sys.exit(f"mirror: {seed} {fail} {machine} {memory}: expected {kernel.told[at:][:1]}, found {found[at:][:1]} {done.stderr[:300]}")
    return kernel.asked, kernel.told


def main(tools):
    tools, runs, told = os.path.abspath(tools), 0, []
    for seed in range(LISTS):
        asked, _ = compare(tools, seed, 0)
        for fail in range(asked + 1):
            told += compare(tools, seed, fail)[1]
            runs += 1
    for refusal in "NoGroup Exists HasChildren HasProcesses IsRoot NoProcess Failed Reserved NoCpu".split():
        if told.count(f"refused {refusal}") < 5:
            sys.exit(f"mirror: {refusal} is hardly seen")
    asked = sum(line.startswith("asked ") for line in told)
    print(f"mirror: {runs} lists of calls with each call of the files refused in turn, {asked} such calls, beside a second kernel")


if __name__ == "__main__":
    main(*sys.argv[1:])
