"""Puts each event between any two steps of a worked hand-over: `interleaved.py PROGRAM`. `a` gives 4-6 back, then has 1-3, and
then `b` has 4-7. After each event and each step both request what is written here, and share no CPU but the reserved one."""

import json
import os
import sys
import tempfile

from second_runtime import read_list
from transcripts import config, place, run

MACHINE = {"nodes": ["0-3", "4-7"], "distances": [[10, 21], [21, 10]], "reserved": "0"}
BUNDLES = {"ba": config({"quota": 300000, "mems": "1"}), "bb": config({"quota": 400000, "cpus": "4-7", "mems": "1"})}
BEFORE = ["create a ba", "rebalance", "create b bb", "begin"]
# What both request before the first step, and after each.
REQUESTED = [("4-6", "0"), ("0", "0"), ("1-3", "0"), ("1-3", "4-7")]
# What is asked after each line.
SHOWN = ["sets a", "sets b", "list", "phase"]


class Case:
    """An event before the step of this number, from 0, or after the last one; a CPU that comes back goes first."""

    def __init__(self, event, at, gone=None):
        self.event, self.at = event, at
        self.online = set(range(8))
        before = [f"offline {gone}"] if gone else []
        self.happening = before + ["step"] * at + [event] + ["step"] * (3 - at)
        self.lines = BEFORE + [line for told in self.happening for line in [told] + SHOWN]
        self.ended = set()
        self.requested = list(REQUESTED[0])
        self.over = False

    def step(self):
        """The next write that is due among those that live, and the answer."""
        if self.over:
            return "refused E100 NoHandover"
        a, b = self.requested
        due = []
        if "a" not in self.ended:
            due += [(0, cpus) for cpus in {"4-6": ["0", "1-3"], "0": ["1-3"], "1-3": []}[a]]
        if "b" not in self.ended and b != "4-7":
            due += [(1, "4-7")]
        if due:
            container, cpus = due[0]
            self.requested[container] = cpus
        self.over = len(due) < 2
        return "done" if self.over else "more"

    def happens(self, line):
        """The answer to a line."""
        command, *words = line.split(" ")
        if command == "step":
            return self.step()
        if command in ("offline", "online"):
            self.online = self.online - {int(words[0])} if command == "offline" else self.online | {int(words[0])}
        if command in ("exit", "kill"):
            self.ended.add({"2": "a", "3": "b"}.get(words[0], words[0]))
        return "pid 4" if command == "fork" else "ok"

    def sets(self, container):
        cpus = self.requested[container]
        effective = read_list(cpus.encode(), 8) & self.online or self.online
        return f"cpus {cpus} effective {ranges(effective)} mems 1 effective 1"

    def answers(self):
        """The answers from the hand-over's begin on."""
        for line in self.happening:
            yield self.happens(line)
            yield self.sets(0)
            yield self.sets(1)
            for name in "ab":
                yield f"{name} {'stopped' if name in self.ended else 'created'}"
            yield "end"
            yield "settled" if self.over else "underway"


def ranges(cpus):
    """A set as a list, by the runs of its neighbours."""
    runs = [(a, b) for a in cpus for b in cpus if a <= b and set(range(a, b + 1)) <= cpus and not {a - 1, b + 1} & cpus]
    return ",".join(f"{a}-{b}" if a < b else f"{a}" for a, b in sorted(runs))


def cases():
    events = ["fork 2", "exit 2", "exit 3", "kill a TERM", "kill b 9"] + [f"offline {cpu}" for cpu in range(1, 8)]
    for at in range(4):
        for event in events:
            yield Case(event, at)
        for cpu in range(1, 8):
            yield Case(f"online {cpu}", at, cpu)


def safe(answers):
    """Whether of what two live containers request only CPU 0 is in both."""
    for k, line in enumerate(answers):
        if line.startswith("cpus") and answers[k + 1].startswith("cpus"):
            a, b = (read_list(told.split(" ")[1].encode(), 8) for told in answers[k : k + 2])
            if a & b - {0} and "a created" in answers[k + 2] and "b created" in answers[k + 3]:
                return False
    return True


BEGUN = ["pid 2", "plan total 30", "hold a 4-6", "pool 0-3,7", "end", "pid 3",
         "plan total 103", "hold a 1-3", "hold b 4-7", "pool 0", "end"]


def main(program):
    program, count = os.path.abspath(program), 0
    with tempfile.TemporaryDirectory() as folder:
        os.chdir(folder)
        words = place(json.dumps(MACHINE).encode(), None, BUNDLES)
        for case in cases():
            count += 1
            done = run(program, words, "\n".join(case.lines).encode())
            found, expected = done.stdout.decode().splitlines(), BEGUN + list(case.answers())
            if found != expected or done.returncode or done.stderr or not safe(found):
                wrong = next((pair for pair in zip(found, expected) if pair[0] != pair[1]), done)
                sys.exit(f"interleaved: {case.event} before step {case.at}: found and expected: {wrong}")
        os.chdir("/")
    print(f"interleaved: {count} scripts")


main(*sys.argv[1:])
