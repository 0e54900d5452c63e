"""Random hand-overs in the direct order: `direct.py PROGRAM`. Containers are adopted on CPUs by chance, of single CPUs or of whole
cores, and get homes, lists and CPUs by chance; then plans are handed over step by step, with events between the steps. The second
order of writes, `direct_order`, says for each step who is written and with what; after each step all containers are asked for their
sets, or one where there are many, and after each hand-over all are. Plans are taken as the program makes them. What the containers request is safe
after each step, nobody loses a CPU that it keeps, and of the steps by which somebody was squeezed onto the reserved CPUs each is one
of a ring that has no other way."""

import json
import os
import random
import sys
import tempfile
from collections import Counter

from compare import list_text
from second_runtime import Machine, Runtime, config_of, print_list
from transcripts import config, difference, place, run, unwanted

SMALL, MIDDLE, LARGE = 1_700, 12, 1
FEW, MANY = 10, 100  # up to so many are asked for their sets after each step; of more than so many a part of the steps is made
# What has to be seen at least: steps, those that are not the last of a hand-over, containers that come from the reserved CPUs alone,
# that step aside, that are squeezed, and shared ones that yield, on machines with cores of one CPU and of more.
LEAST = {"steps": 5000, "more": 4000, "new": 300, "aside": 100, "squeezed": 30, "yields": 100, "cores": 1000, "events": 300}


class Direct(Runtime):
    """The second runtime, which trusts the program's plans, and counts by which cause it writes."""

    known = write = None

    def judge(self, rows, held, plan):
        pass

    def rebalance(self, direct):
        """What it leaves is known without its steps."""
        answer = self.begin(direct)
        for container, target in self.underway or []:
            container.cpus = target if self.live(container) else container.cpus
        self.underway = None
        return answer

    def due_directly(self):
        """It is asked for twice of the same state, behind a step and before the next one."""
        state = self.underway, [(c.cpus, self.live(c)) for c, _ in self.underway], self.running_cpus
        if state != self.known:
            self.known, self.write = state, super().due_directly()
        return self.write

    def do_step(self):
        if self.underway is None:
            return super().do_step()
        self.count()
        before = {id(c): c.cpus for c, _ in self.underway}
        answer = super().do_step()
        self.check_safety(before)
        return answer

    def count(self):
        """By which cause the next write is made."""
        write = self.due()
        self.seen["steps"] += 1
        self.seen["more"] += write is not None
        if write is None:
            return
        container, cpus = write
        target = next(target for c, target in self.underway if c is container)
        own, reserved = container.demand.count is not None, self.machine.reserved
        self.seen["cores"] += self.machine.threads > 1
        self.seen["new"] += own and container.cpus <= reserved
        if cpus == target:
            return
        self.seen["squeezed" if own and cpus <= reserved else "aside" if own else "yields"] += 1

    def check_safety(self, before):
        """Outside the reserved CPUs no CPU is requested twice, if one of the two asks for CPUs of its own; and what was requested of a
        target still is."""
        live = [(c, target) for c, target in (self.underway or [])]
        taken = set()
        for c in (c for c in self.containers.values() if self.live(c) and c.demand.count is not None):
            assert not c.cpus & taken - self.machine.reserved, (c.bundle, c.cpus)
            taken |= c.cpus
        for c in (c for c in self.containers.values() if self.live(c) and c.demand.count is None):
            assert not c.cpus & taken - self.machine.reserved, (c.bundle, c.cpus)
        for c, target in live:
            assert before[id(c)] & target <= c.cpus, (c.bundle, before[id(c)], target, c.cpus)


def nodes_of(cores, count):
    each = -(-len(cores) // count)
    return [frozenset().union(*cores[n * each : (n + 1) * each]) for n in range(count)]


def made(random, containers, cpus, threads):
    """A machine text, bundles, and a script in which so many containers are moved again and again."""
    count = random.choice([1, 2, 4])
    cores = [frozenset(range(k * threads, (k + 1) * threads)) for k in range(cpus // threads)]
    nodes = nodes_of(cores, count)
    rows = [[10 if i == j else random.choice([11, 20, 21, 31]) for j in range(count)] for i in range(count)]
    told = {"nodes": [list_text(node) for node in nodes], "distances": rows, "reserved": print_list(cores[0])}
    if threads > 1:
        told["cores"] = [print_list(core) for core in cores]
    free, bundles, script = random.sample(cores[1:], -(-3 * (len(cores) - 1) // 4)), {}, []
    names = [f"c{k}" for k in range(containers)]
    most = random.choice([1, 2, 3])
    for name in names:
        size = 0 if random.random() < 0.1 else min(random.randint(1, most), len(free))
        mine, free = frozenset().union(*free[:size]), free[size:]
        other = size and max(size + random.choice([-1, 0, 0, 0, 0, 1]), 1)
        bundles[f"b-{name}"] = config(section(random, size * threads, cores, count, mine))
        bundles[f"n-{name}"] = config(section(random, other * threads, cores, count, mine))
        begins = mine if random.random() < 0.8 else frozenset()
        script.append(f"adopt {name} b-{name} {print_list(begins or cores[0])}")
    if containers > MANY:
        script.append("rebalance")
    for _ in range(random.choice([2, 4, 6]) if containers <= MANY else 1):
        script += moved(random, names, cpus)
    return json.dumps(told).encode(), bundles, [line.encode() for line in script]


def section(random, size, cores, count, mine):
    """What a container asks for: as many CPUs as it has, in a list that has its own, or a home."""
    if not size:
        return {}
    told = {"quota": size * 100_000, "mems": str(random.randrange(count))}
    if random.random() < 0.4:
        more = random.sample(cores[1:], min(len(cores) - 1, random.choice([1, 2, 4, 8])))
        told["cpus"] = print_list(mine.union(*more))
    return told


def moved(random, names, cpus):
    """Some configs change, some CPUs go and come, and a hand-over is stepped, with events between the steps."""
    script = [f"online {cpu}" for cpu in range(1, cpus) if random.random() < 0.7 and cpus <= MANY]
    script += [f"update {name} {random.choice('nb')}-{name}" for name in names if random.random() < 0.7]
    script += [f"{random.choice(['offline', 'online'])} {random.randrange(1, cpus)}" for _ in range(random.choice([0, 0, 1, 3]))]
    script.append(random.choice(["begin direct"] * 4 + (["rebalance direct"] if len(names) <= MANY else [])))
    for _ in range(2 * len(names) if len(names) < 20 else min(len(names) // 2, 200)):
        script.append("step")
        script += [f"sets {name}" for name in (names if len(names) < FEW else [random.choice(names)])]
        if random.random() < 0.03:
            event = random.choice(["offline", "online", "kill"])
            script.append(f"kill {random.choice(names)} 9" if event == "kill" else f"{event} {random.randrange(1, cpus)}")
    rest = ["step"] * (2 * len(names)) if len(names) <= MANY else []
    return script + rest + [f"sets {name}" for name in names]


def compared(program, runtime_seen, machine, bundles, script):
    words = place(machine, None, bundles)
    done = run(program, words, b"\n".join(script))
    runtime = Direct(Machine(machine, None), config_of)
    wrong = difference(runtime, script, done.stdout)
    runtime_seen.update(runtime.seen)
    runtime_seen["events"] += sum(line.split(b" ")[0] in (b"offline", b"online", b"kill") for line in script)
    if wrong or done.returncode or unwanted(done):
        sys.exit(f"direct: {machine!r}\n{bundles}\n{script}\n{wrong}\nstatus {done.returncode}, {done.stderr!r}")


def main(program):
    chance, program, seen = random.Random(1), os.path.abspath(program), Counter()
    cases = [(chance.randint(2, 9), chance.choice([8, 12, 16, 24])) for _ in range(SMALL)]
    cases += [(chance.choice([20, 40, 60]), 128) for _ in range(MIDDLE)] + [(1_024, 4_096)] * LARGE
    for containers, cpus in cases:
        case = made(chance, containers, cpus, chance.choice([1, 1, 2, 4]))
        with tempfile.TemporaryDirectory() as folder:
            os.chdir(folder)
            compared(program, seen, *case)
            os.chdir("/")
    few = [f"{seen[name]} {name}" for name in LEAST if seen[name] < LEAST[name]]
    if few:
        sys.exit(f"direct: of these too few were seen: {', '.join(few)}")
    print(f"direct: {len(cases)} scripts,", ", ".join(f"{seen[name]} {name}" for name in LEAST))


if __name__ == "__main__":
    main(*sys.argv[1:])
