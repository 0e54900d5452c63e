"""Prints random lists of calls with what the modelled kernel answers: `lists.py TOOLS SEED [SHARE]`, of 32 lists or that
share of them. A list is a line `list`, and then each call behind `> ` with the answer behind it. Behind each call all groups are asked for what they request and have in
effect. The calls are those that the runtime may make: no process is put into a group that has groups below, no group is made in one
with a process, no set that some process lives by is written empty, and nothing is asked of the root that it has no file for."""

import os
import random
import subprocess
import sys

sys.path[:0] = [os.path.join(os.path.dirname(os.path.abspath(__file__)), "..", "kernel")]
from second_kernel import Kernel

LISTS, CALLS = 32, 34
MACHINE = "0-7 0 0-7 0-3 2"  # CPUs, the reserved ones, the online ones, nodes, and the first pid


def some(count, least=0):
    return ",".join(map(str, sorted(random.sample(range(count), random.randint(least, count))))) or "-"


class Shape:
    """What the second kernel has of a group, for the choice of calls."""

    def __init__(self, kernel):
        self.kernel = kernel

    def children(self, serial):
        return [k for k, group in self.kernel.groups.items() if group["parent"] == serial]

    def processes(self, serial):
        return [pid for pid, (group, _) in self.kernel.processes.items() if group == serial]

    def populated(self, serial):
        return self.processes(serial) or any(self.populated(child) for child in self.children(serial))


def chosen(kernel):
    shape = Shape(kernel)
    groups, below = list(kernel.groups), [k for k in kernel.groups if k]
    calls = [f"make {k} {random.choice('abc')}" for k in groups if not k or not shape.processes(k)]
    for k in below:
        least = 1 if shape.populated(k) else 0
        calls += [f"cpus {k} {some(8, least)}" for _ in range(2)] + [f"mems {k} {some(4, least)}"]
        calls += [f"spawn {k}"] * (not shape.children(k)) + [f"remove {k}"]
        calls += [f"end {k}"] * (not any(shape.populated(child) for child in shape.children(k)))
    calls += [f"exit {pid}" for pid in kernel.processes]
    calls += [f"{event} {random.randrange(1, 8)}" for event in ("offline", "online")]
    return random.choice(calls)


def asked(kernel):
    return [f"{what}{part} {k}" for k in kernel.groups for what in ("cpus", "mems") for part in ("", ".effective") if k or part]


def main(tools, seed, share=""):
    random.seed(f"lists {seed}")
    for _ in range(-(-LISTS // int(share or 1))):
        kernel, calls = Kernel(0, MACHINE), []
        for _ in range(CALLS):
            calls.append(chosen(kernel))
            kernel.answer(calls[-1])
            calls += asked(kernel)
        text = "".join(line + "\n" for line in [MACHINE, *calls])
        done = subprocess.run([os.path.abspath(tools), "kernel", "0"], input=text, stdout=subprocess.PIPE, text=True, check=True)
        answers = done.stdout.splitlines()
        assert len(answers) == len(calls), (len(answers), len(calls))
        print("list")
        for call, answer in zip(calls, answers):
            print(f"> {call}\n{answer}")


main(*sys.argv[1:])
