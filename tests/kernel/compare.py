"""Compares what `tools kernel` answers to calls with what is written, and with a second kernel: `compare.py TOOLS`. The worked calls
are answered by both. Then come random calls, after each of which what each group has in effect is asked; as many groups and
processes as a full machine has, and more; and 20,000 groups, each below the one before."""

import os
import random
import re
import resource
import sys

HERE = os.path.dirname(os.path.abspath(__file__))
sys.path[:0] = [os.path.join(HERE, "..")]
from program import run
from second_kernel import Kernel

SCRIPTS = 100
DEPTH = 20_000


def usual_stack():
    """A stack of 8 MiB."""
    resource.setrlimit(resource.RLIMIT_STACK, (8 << 20, resource.getrlimit(resource.RLIMIT_STACK)[1]))


class Case:
    def __init__(self, fail, machine):
        self.fail, self.machine, self.calls, self.expected = int(fail), machine, [], []

    def by_second(self):
        kernel = Kernel(self.fail, self.machine)
        return [kernel.answer(call) for call in self.calls]

    def found(self, tools):
        text = "".join(line + "\n" for line in [self.machine] + self.calls)
        done = run([tools, "kernel", str(self.fail)], text.encode(), preexec_fn=usual_stack)
        return [str(done)[:1000]] if done.returncode or done.stderr else done.stdout.decode().splitlines()


def worked():
    cases = []
    for line in open(os.path.join(HERE, "worked"), encoding="utf-8"):
        word, _, rest = line.rstrip("\n").partition(" ")
        if word == "kernel":
            cases.append(Case(*rest.split(" ", 1)))
        elif word == "$":
            cases[-1].calls.append(re.sub(r"\[(\d+) bytes\]", lambda found: "n" * int(found[1]), rest))
        elif word == "|":
            cases[-1].expected.append(rest)
    return cases


def compare(what, case, tools, expected):
    found = case.found(tools)
    if found != expected:
        at = next((k for k, pair in enumerate(zip(found, expected)) if pair[0] != pair[1]), min(len(found), len(expected)))
        calls = [call[:80] for call in case.calls[: at + 1]]
        sys.exit(f"kernel: {what}: {case.fail} {case.machine}: {calls}: expected {expected[at:][:1]}, found {found[at:][:1]}")


def some(members):
    chosen = random.sample(members, random.randint(0, len(members)))
    return ",".join(map(str, chosen)) or "-"


def chosen_call(kernel):
    """A call that may be refused; the group is one that was answered."""
    group, pid = random.randrange(kernel.next_serial), random.randrange(2, kernel.next_pid + 2)
    return random.choice([
        f"make {group} {random.choice('ab')}", f"make {group} {random.choice('ab')}", f"make {group} {random.choice('ab')}",
        f"cpus {group} {some(range(8))}", f"cpus {group} {some(range(8))}", f"cpus {group} {some(range(8))}",
        f"mems {group} {some(range(3))}", f"remove {group}", f"spawn {group}", f"end {group}", f"fork {pid}", f"exit {pid}",
        f"offline {random.randrange(9)}", f"online {random.randrange(9)}", f"find {group} a", f"alive {pid}", f"cpus {group}"])


def by_chance():
    """Calls by chance, with all effective sets after each."""
    case = Case(random.choice((0, 0, random.randint(1, 20))), f"0-7 0 {'0,' + some(range(1, 8)).replace('-', '1')} 0-2 2")
    kernel = Kernel(case.fail, case.machine)
    for _ in range(40):
        call = chosen_call(kernel)
        case.calls.append(call)
        kernel.answer(call)
        case.calls += [f"{what}.effective {serial}" for serial in range(kernel.next_serial) for what in ("cpus", "mems")]
    return case


def largest():
    """4,096 CPUs and 128 nodes: 1,024 groups below one, 128 each below the one before, and 10,000 processes, forked in one list of
    calls."""
    case = Case(0, "0-4095 0 0-4095 0-127 2")
    case.calls = ["make 0 top"] + [f"make 1 g{k}" for k in range(1024)] + [f"cpus {k + 2} {4 * k}-{4 * k + 3}" for k in range(1024)]
    case.calls += ["make 1 deep"] + [f"make {1026 + k} deep" for k in range(127)] + ["cpus 1026 1-4095", "cpus 1100 2048-4095"]
    case.calls += [f"mems {k + 2} {k % 128}" for k in range(1024)] + [f"offline {k}" for k in range(2400, 2500)]
    case.calls += ["cpus 1 1-3200", "mems 1 1-99"]
    case.calls += [f"{what}.effective {serial}" for serial in range(1154) for what in ("cpus", "mems")]
    case.calls += ["spawn 2"] + ["fork 2"] * 10_000 + ["remove 2", "exit 5000", "alive 5000", "exit 2", "alive 10001", "remove 2", "find 1 g0"]
    return case


def nested():
    """Groups, each below the one before, and what the deepest has in effect while groups above it and CPUs change."""
    case = Case(0, "0-63 0 0-63 0-1 2")
    # Names of many lengths: a new one is looked for among all groups.
    names = ["d" * (k % 100 + 1) for k in range(DEPTH)]
    answered = [(f"make {k} {names[k]}", f"group {k + 1}") for k in range(DEPTH)]
    last, half = DEPTH, DEPTH // 2
    answered += [(f"cpus.effective {last}", "ids 0-63"), (f"mems.effective {last}", "ids 0-1")]
    answered += [(f"cpus {half} 8-15", "ok"), (f"cpus.effective {last}", "ids 8-15"), (f"cpus.effective {half - 1}", "ids 0-63")]
    answered += [(f"cpus {last - 1} 12-20", "ok"), (f"cpus.effective {last}", "ids 12-15"), (f"cpus {last}", "ids -")]
    answered += [("offline 13", "ok"), (f"cpus.effective {last}", "ids 12,14-15"), (f"cpus {last - 1}", "ids 12-20")]
    answered += [("mems 5 1", "ok"), (f"mems.effective {last}", "ids 1"), (f"mems.effective {last - 1}", "ids 1")]
    answered += [("online 13", "ok"), (f"cpus.effective {last}", "ids 12-15"), (f"find {last - 1} {names[-1]}", f"group {last}")]
    case.calls, case.expected = map(list, zip(*answered))
    return case


def main(tools):
    random.seed(1)
    tools, cases = os.path.abspath(tools), worked()
    for case in cases:
        if case.by_second() != case.expected:
            wrong = next(it for it in zip(case.calls, case.by_second(), case.expected) if it[1] != it[2])
            sys.exit(f"kernel: the second kernel, {case.machine}: call, answer and what is written: {wrong}")
        compare("worked", case, tools, case.expected)
    case = nested()
    compare("nested", case, tools, case.expected)
    answers = []
    for case in [by_chance() for _ in range(SCRIPTS)] + [largest()]:
        expected = case.by_second()
        compare("by chance", case, tools, expected)
        answers += expected
    for refusal in "NoGroup Exists HasChildren HasProcesses IsRoot NoProcess Failed Reserved NoCpu".split():
        if answers.count(f"refused {refusal}") < 5:
            sys.exit(f"kernel: {refusal} is hardly seen")
    calls = sum(len(case.calls) for case in cases)
    print(f"kernel: {calls} worked calls, {DEPTH} nested groups, and {len(answers)} calls beside a second kernel")


main(*sys.argv[1:])
