"""Random scripts over the tree, with containers that have a process each: after each outcome the answers, the kernel's files and the
CPUs on which the processes may run agree, while CPUs go off and come on."""

import os
import sys

sys.path[:0] = [os.path.join(os.path.dirname(os.path.abspath(__file__)), "..")]
import tree
from tree import CPUS, RESERVED, print_list, say

SCRIPTS, LINES = 6, 30
NAMES = [f"c{k}" for k in range(6)]


class Script:
    def __init__(self, random):
        self.random, self.run, self.all = random, tree.Run(), tree.Containers()
        self.offline, self.planned, self.plan = set(), False, None
        self.count = {"states": 0, "answers": 0, "plans": 0, "shortages": 0, "steps": 0, "lines": 0}

    def section(self):
        """What one asks for: some CPUs, or those of a list, or none."""
        mems = str(self.random.randrange(4))
        kind = self.random.choice(["quota", "quota", "both", "list", "shared"])
        listed = print_list(set(self.random.sample(range(1, 8), self.random.randint(1, 3))))
        return {"quota": {"quota": self.random.randint(1, 3), "mems": mems}, "both": {"quota": 1, "allowed": listed, "mems": mems},
                "list": {"allowed": listed, "mems": mems}, "shared": {"mems": mems}}[kind]

    def turn(self, cpu):
        on = cpu in self.offline
        tree.turn(cpu, on)
        self.run.ok(f"{'online' if on else 'offline'} {cpu}")
        self.offline ^= {cpu}
        self.planned = False

    def create(self):
        left = [name for name in NAMES if name not in self.all.there]
        if left:
            answer = self.all.create(self.run, self.random.choice(left), **self.section())
            assert answer.startswith(("pid", "refused E6", "refused E99")), answer
            self.planned = False

    def end(self):
        if self.all.there:
            self.all.end(self.run, self.random.choice(sorted(self.all.there)))

    def update(self):
        if self.all.there:
            name = self.random.choice(sorted(self.all.there))
            before = self.all.asks[name], open(f"{self.all.folder}/{name}/config.json").read()
            answer = self.run.one(f"update {name} {self.all.bundle(name, **self.section())}")
            if answer != "ok":
                assert answer.startswith("refused E6"), answer
                self.all.asks[name] = before[0]
                open(f"{self.all.folder}/{name}/config.json", "w").write(before[1])
            self.planned = False

    def rebalance(self):
        self.outcome(self.run.plan())

    def step_by_step(self):
        """A hand-over in single writes, between which a CPU may go."""
        plan, turned = self.run.plan("begin"), False
        if plan.total is None:
            return self.outcome(plan)
        while True:
            answer = self.run.one("step")
            self.count["steps"] += 1
            if answer != "more":
                break
            self.check("between two writes")
            if self.random.random() < 0.2:
                self.turn(self.random.choice(sorted(CPUS - RESERVED)))
                turned = True
        assert answer == "done" or turned and answer.startswith("refused E100"), (answer, self.run.said())
        return None if turned else self.outcome(plan)

    def outcome(self, plan):
        assert not plan.refused, (plan.lines, self.run.said())
        self.count["shortages" if plan.short else "plans"] += 1
        if not plan.short:
            self.all.check_plan(plan, "behind a plan")

    def check(self, where):
        self.count["states"] += self.all.check(where) > 0
        self.count["answers"] += self.all.check_answers(self.run, where)

    def play(self):
        ways = [self.create] * 4 + [self.end, self.update] + [self.rebalance] * 2 + [self.step_by_step] * 2
        ways += [lambda: self.turn(self.random.choice(sorted(CPUS - RESERVED)))] * 2
        for _ in range(LINES):
            way = self.random.choice(ways)
            way()
            self.count["lines"] += 1
            self.check(getattr(way, "__name__", "a CPU that goes or comes"))
        notes = self.run.said()
        assert not notes, notes
        self.run.close()
        tree.clear()
        return self.count


random, counts = tree.chance("chance"), {}
tree.clear()
for _ in range(SCRIPTS):
    for what, number in Script(random).play().items():
        counts[what] = counts.get(what, 0) + number
assert min(counts[what] for what in ("plans", "shortages", "steps")) >= 3, counts
say(f"chance: {counts}")
