"""Plans of whole cores (SMT siblings together): `whole_cores.py PROGRAM`. Small random machines with cores of 1, 2, 3, 4 and 8 CPUs,
whose scripts adopt, update, take CPUs offline and step to plans; each outcome is compared with every plan of whole cores, tried CPU
by CPU from what the machine file and the config say. A machine that lists each CPU as a core answers as one without `cores`, to the
letter. Then machines at the limits: 4,096 CPUs in 2,048 cores, in 512, in two and in one; and lists of 100,000 cores."""

import itertools
import json
import os
import random
import resource
import sys
import tempfile
from collections import Counter

from compare import list_text, some
from second_runtime import Machine, Runtime, Wrong, config_of, numbers, print_list
from transcripts import config, difference, doubted, place, run, unwanted

SCRIPTS = 500
THREADS = [1, 2, 2, 2, 3, 4, 8]
# What has to be seen: plans of two rows or more and shortages that were compared with every plan, plans that move some cores and
# leave others, plans while a core is online in part, sets that were adopted and are not whole, and steps that were not the last.
LEAST = {"plans": 120, "shortages": 200, "several": 80, "partly": 150, "halves": 80, "more": 200}
CPUS, MOST_TEXT = 4096, 1_048_576
# Seconds of the processor for a list of cores of the greatest length: many times what reading it takes.
READING = 5


class Told:
    """A small machine: its nodes' CPUs, its cores, and what its file says."""

    def __init__(self):
        self.threads, count = random.choice(THREADS), random.randint(1, 3)
        cores = random.randint(3, 7)
        self.cores = self.numbered(cores)
        self.nodes = [set() for _ in range(count)]
        for core in self.cores:
            random.choice(self.nodes).update(core)
        entries = [10, 11, 20, 21, 31, 254, 255]
        self.distances = [[10 if i == j else random.choice(entries) for j in range(count)] for i in range(count)]
        self.reserved = set().union(*random.sample(self.cores, random.choice([1, 1, 2])))
        self.present = set().union(*self.cores)
        self.offline = some(self.present - self.reserved) if random.random() < 0.2 else set()
        self.sections = {f"b{k}": self.section() for k in range(8)}

    def numbered(self, cores):
        """Siblings one behind the other, a round apart as Linux mostly numbers them, or anyhow."""
        cpus = list(range(cores * self.threads))
        way = random.randint(0, 2)
        if way == 0:
            return [frozenset(cpus[k * self.threads :][: self.threads]) for k in range(cores)]
        if way == 2:
            cpus = random.sample(range(CPUS), len(cpus))
        return [frozenset(cpus[k::cores]) for k in range(cores)]

    def file(self, **members):
        told = {"nodes": [list_text(node) for node in self.nodes], "distances": self.distances}
        told.update({"reserved": list_text(self.reserved), "offline": list_text(self.offline)})
        return json.dumps({**told, **members}).encode()

    def listed(self):
        return [",".join(str(cpu) for cpu in random.sample(sorted(core), len(core))) for core in random.sample(self.cores, len(self.cores))]

    def section(self):
        section = {"mems": list_text(some(range(len(self.nodes))))}
        if random.random() < 0.75:
            section["quota"] = random.randint(1, 2 * self.threads) * 100_000 - random.choice([0, 0, 1, 50_000])
        if random.random() < 0.5:
            named = set().union(*some(self.cores, least=1))
            section["cpus"] = list_text(named - set(random.sample(sorted(named), random.choice([0, 0, 1]))))
        return section

    def script(self):
        """Containers that come and go, CPUs that go and come, and hand-overs with events between their steps."""
        names = [f"c{k}" for k in range(random.randint(1, 4))]
        script = [self.comes(name) for name in names]
        for _ in range(random.randint(2, 5)):
            script += [random.choice(["rebalance", "begin"]), "certificate"]
            for _ in range(random.randint(0, 2 * len(names))):
                script += ["step"] + [self.event()] * (random.random() < 0.3) + [f"sets {random.choice(names)}"]
            script += ["step"] * (2 * len(names) + 1) + [f"sets {name}" for name in names]
            script += [self.event() for _ in range(random.randint(0, 3))]
            gone = random.choice(names)
            if random.random() < 0.7:
                script += [f"kill {gone} 9", f"delete {gone}", self.comes(gone)]
            if random.random() < 0.5:
                script.append(f"update {random.choice(names)} b{random.randint(0, 7)}")
        return [line.encode() for line in script]

    def comes(self, name):
        cpus = some(self.present, least=1) if random.random() < 0.5 else set().union(*some(self.cores, least=1))
        return random.choice([f"create {name} b{random.randint(0, 7)}", f"adopt {name} b{random.randint(0, 7)} {print_list(cpus)}"])

    def event(self):
        return f"{random.choice(['offline', 'online', 'online'])} {random.choice(sorted(self.present))}"


class Tried(Runtime):
    """A second runtime whose outcomes are compared with all plans of whole cores, and whose containers stay apart."""

    def __init__(self, told):
        super().__init__(Machine(told.file(cores=told.listed()), None), config_of)
        self.told = told

    def distance(self, cpu, homes):
        node = next(n for n, cpus in enumerate(self.told.nodes) if cpu in cpus)
        return min(self.told.distances[node][home] for home in homes)

    def asked(self, section):
        """How many CPUs a section asks for, nothing where it is shared, and of which cores, with what each costs."""
        told = self.told
        homes = numbers(section.get("mems", "")) or set(range(len(told.nodes)))
        named = numbers(section.get("cpus", ""))
        may = {cpu for cpu in (named or told.present) - told.reserved if self.distance(cpu, homes) < 255}
        cores = [(core, sum(self.distance(cpu, homes) for cpu in core)) for core in told.cores if core <= may]
        if "quota" in section:
            return next(n for n in itertools.count(told.threads, told.threads) if n * 100_000 >= section["quota"]), cores
        return sum(len(core) for core, _ in cores) if named else None, cores

    def best(self, asking):
        """The least distance of a plan of whole cores, and the fewest cores that a plan of that distance moves; by trying all."""
        if not asking:
            return 0, 0
        (count, cores, holds), found = asking[0], []
        for chosen in itertools.combinations(cores, count // self.told.threads):
            taken = set().union(*(core for core, _ in chosen))
            left = [(n, [(core, cost) for core, cost in others if not core & taken], has) for n, others, has in asking[1:]]
            rest = self.best(left)
            if rest:
                found.append((sum(cost for _, cost in chosen) + rest[0], sum(not core <= holds for core, _ in chosen) + rest[1]))
        return min(found, default=None)

    def do_begin(self):
        self.settled()
        asking = {}
        for name, container in self.containers.items():
            count, cores = self.asked(self.told.sections[container.bundle])
            if self.live(container) and count is not None:
                asking[name] = count, [(core, cost) for core, cost in cores if core <= self.running_cpus], container.cpus
        best, answer = self.best(list(asking.values())), super().do_begin()
        words = [line.split(" ") for line in answer]
        if words[0][0] == "plan":
            self.judge_plan(asking, best, int(words[0][2]), {word[1]: numbers(word[2]) for word in words if word[0] == "hold"})
        else:
            self.judge_shortage(asking, best, words)
        self.seen["partly"] += any(core & self.running_cpus not in (set(), core) for core in self.told.cores)
        return answer

    def judge_plan(self, asking, best, total, holds):
        moves = cost = 0
        for name, (count, cores, has) in asking.items():
            own = [(core, price) for core, price in cores if core <= holds[name]]
            if len(holds[name]) != count or set().union(*(core for core, _ in own)) != holds[name]:
                raise Wrong(f"{name} has {holds[name]}, and asks for {count} of {cores}")
            moves, cost = moves + sum(not core <= has for core, _ in own), cost + sum(price for _, price in own)
        if len(set().union(*holds.values())) != sum(map(len, holds.values())) or holds.keys() != asking.keys():
            raise Wrong(f"CPUs are held twice, or somebody is left out: {holds}")
        if best != (cost, moves) or total != cost:
            raise Wrong(f"{asking}: the best plan is {best}, and {holds} is {cost, moves}, told as {total}")
        self.seen["plans"] += len(asking) > 1
        self.seen["several"] += 0 < moves < sum(map(len, holds.values())) // self.told.threads

    def judge_shortage(self, asking, best, words):
        members = [asking[word[1]] for word in words if word[0] == "member"]
        allowed = set().union(*(core for _, cores, _ in members for core, _ in cores))
        asked = sum(count for count, _, _ in members)
        if best is not None or asked <= len(allowed) or words[0] != ["short", "demand", str(asked), "allowed", print_list(allowed)]:
            raise Wrong(f"{words[0]} of {asking}, whose best plan is {best}")
        if any(self.best(members[:k] + members[k + 1 :]) is None for k in range(len(members))):
            raise Wrong(f"a member of {words} can be left out: {asking}")
        self.seen["shortages"] += 1

    def do_adopt(self, name, bundle, listed):
        answer = super().do_adopt(name, bundle, listed)
        self.seen["halves"] += any(core & self.containers[name].cpus not in (set(), core) for core in self.told.cores)
        return answer

    def do_step(self):
        answer = super().do_step()
        live = [container for container in self.containers.values() if self.live(container)]
        for one, other in itertools.combinations(live, 2):
            pinned = one.demand.count is not None or other.demand.count is not None
            if pinned and one.cpus & other.cpus - self.told.reserved:
                raise Wrong(f"{one.bundle} and {other.bundle} share {one.cpus & other.cpus}")
        self.seen["more"] += answer == ["more"]
        return answer


def in_folder(work, *arguments):
    with tempfile.TemporaryDirectory() as folder:
        os.chdir(folder)
        found = work(*arguments)
        os.chdir("/")
    return found


def tried(program, seen):
    """Compares a script's outcomes with all plans; of cores of one CPU each, with the answers without `cores`."""
    told = Told()
    runtime, script = Tried(told), told.script()
    bundles = {name: config(section) for name, section in told.sections.items()}
    done = run(program, place(told.file(cores=told.listed()), None, bundles), b"\n".join(script))
    wrong = difference(runtime, script, done.stdout) or doubted(program, done.stdout, told.threads)
    if told.threads == 1 and not wrong:
        alone = run(program, place(told.file(), None, bundles), b"\n".join(script))
        wrong = None if alone.stdout == done.stdout else f"without cores: {alone}"
    if wrong or done.returncode or unwanted(done):
        sys.exit(f"whole cores: {told.file(cores=told.listed())!r}\n{told.sections}\n{script}\n{wrong}\nstatus {done.returncode}, {done.stderr!r}")
    seen.update(runtime.seen)


def expect(what, found, expected):
    if found != expected:
        sys.exit(f"whole cores: {what}: expected {expected}, found {found}")


def large(threads, nodes, **members):
    """The file of a machine of 4,096 CPUs whose siblings are a round apart, and its cores."""
    count = CPUS // threads
    cores = [set(range(k, CPUS, count)) for k in range(count)]
    sets = [set().union(*cores[n * count // nodes : (n + 1) * count // nodes]) for n in range(nodes)]
    distances = [[10 if i == j else 12 + abs(i - j) % 9 for j in range(nodes)] for i in range(nodes)]
    told = {"nodes": [print_list(cpus) for cpus in sets], "distances": distances, "reserved": print_list(cores[0])}
    return json.dumps({**told, "cores": [print_list(core) for core in cores], **members}).encode(), cores


def answers(program, threads, machine, bundles, script):
    """The answers to the lines of a script, which the second runtime finds right."""
    found = []
    done = run(program, place(machine, None, bundles), b"\n".join(script))
    wrong = difference(Runtime(Machine(machine, None), config_of), script, done.stdout, lambda line, answer: found.append(answer))
    wrong = wrong or doubted(program, done.stdout, threads)
    if wrong or done.returncode or unwanted(done):
        sys.exit(f"whole cores: {threads} CPUs a core: {str(wrong)[:3000]}, status {done.returncode}, {done.stderr[:300]!r}")
    return found


def at_the_limit(program, threads, nodes, containers, each):
    """As many containers, each of so many cores, have a plan of whole cores; two CPUs go, and two cores are missing."""
    machine, cores = large(threads, nodes)
    bundles = {f"b{n}": config({"quota": (threads * each - threads + 1) * 100_000, "mems": str(n)}) for n in range(nodes)}
    script = [b"create c%d b%d" % (k, k % nodes) for k in range(containers)] + [b"begin"]
    stepped = script + [b"step"] * containers + [b"phase", b"certificate"]
    gone = [min(cores[-1]), max(cores[-2])]
    script = stepped + [b"offline %d" % cpu for cpu in gone] + [b"rebalance", b"certificate", b"online %d" % gone[0], b"rebalance"]
    found = answers(program, threads, machine, bundles, script)
    plan, short, again = found[containers], found[-4], found[-1]
    holds = [numbers(line.split(" ")[2]) for line in plan if line.startswith("hold ")]
    expect("plans", (len(holds), found[len(stepped) - 2]), (containers, ["settled"]))
    whole = {min(core): core for core in cores}
    for cpus in holds:
        expect("a whole set", set().union(*(whole[cpu] for cpu in cpus if cpu in whole)), cpus)
        expect("its size", len(cpus), threads * each)
    expect("CPUs held once", len(set().union(*holds)), threads * each * containers)
    demand, left = int(short[0].split(" ")[2]), len(numbers(short[0].split(" ")[4]))
    if not left < demand <= threads * each * containers or left % threads or demand % threads:
        sys.exit(f"whole cores: a shortage of cores that are online in part: {short[:3]}")
    expect("a plan with one core more", again[0].split(" ")[:2], ["plan", "total"])


def two_cores(program):
    """A core of 2,048 CPUs, and one of all CPUs, which are reserved as a whole."""
    machine, _ = large(2048, 1)
    bundles = {"b0": config({"quota": 1}), "b1": config({"quota": 204_800_001}), "b2": config({"quota": 409_600_001})}
    script = [b"create a b0", b"rebalance", b"certificate", b"create b b1", b"create c b2", b"rebalance", b"offline 1", b"kill b 9", b"rebalance"]
    odd = print_list(set(range(1, CPUS, 2)))
    found = answers(program, 2048, machine, bundles, script)
    expect("a core of 2,048", found[1][:2], ["plan total 20480", f"hold a {odd}"])
    expect("its certificate", found[2][1:], ["row a 1 655361:1", "hold a 1 655361", "total 10 moves 1", "end"])
    expect("past all CPUs", found[4], ["refused E66 QuotaTooLarge"])
    expect("two cores more than there are", found[5][0] in (f"short demand {asked} allowed {odd}" for asked in (4096, 6144)), True)
    expect("a core without its first CPU", found[8][0], "short demand 2048 allowed -")
    machine = json.dumps({"nodes": ["0-4095"], "distances": [[10]], "reserved": "0-4095", "cores": ["0-4095"]}).encode()
    expect("a core of all CPUs", answers(program, CPUS, machine, bundles, [b"create a b0", b"rebalance"]),
           [["refused E67 NothingAllowed"], ["plan total 0", "pool 0-4095", "end"]])


def rounded(program):
    """A count that is rounded up past 4,096 CPUs, and the greatest that is not."""
    cores = [print_list({k, k + 1, k + 2}) for k in range(0, 4095, 3)]
    machine = json.dumps({"nodes": ["0-4094"], "distances": [[10]], "reserved": "0-2", "cores": cores}).encode()
    bundles = {"b0": config({"quota": 409_500_001}), "b1": config({"quota": 409_500_000}), "b2": config({"quota": 409_200_000})}
    found = answers(program, 3, machine, bundles, [b"create a b0", b"create b b1", b"rebalance", b"kill b 9", b"create c b2", b"rebalance"])
    expect("4,096 CPUs in cores of three", found[0], ["refused E66 QuotaTooLarge"])
    expect("more cores than are free", found[2], ["short demand 4095 allowed 3-4094", "member b", "end"])
    expect("all that are free", found[5], ["plan total 40920", "hold c 3-4094", "pool 0-2", "end"])


def long_lists(program):
    """Lists of cores as long as a machine file may have are read in a moment, whatever is wrong with them, and wherever."""
    each = [str(cpu) for cpu in range(CPUS)]
    cases = {
        "refused E35 BadCore 1": ["0"] * 100_000,
        "refused E35 BadCore 4096": each + ["1"] * 96_000,
        "refused E35 BadCore 4095": each[:-1] + [""] * 96_000,
        "refused E35 BadCore 0": [""] * 300_000,
        "refused E26 BadField cores": each + ["1"] * 96_000 + ["x"],
        "refused E35 BadCore 2048": [f"{cpu},{cpu + 1}" for cpu in range(0, CPUS, 2)] + ["0-4095"] * 80_000,
    }
    for expected, cores in cases.items():
        reserved = cores[0] or "0"
        told = json.dumps({"nodes": ["0-4095"], "distances": [[10]], "reserved": reserved, "cores": cores}, separators=(",", ":")).encode()
        assert len(told) <= MOST_TEXT, len(told)
        before = resource.getrusage(resource.RUSAGE_CHILDREN).ru_utime
        done = run(program, place(told, None, {}), b"")
        took = resource.getrusage(resource.RUSAGE_CHILDREN).ru_utime - before
        expect(f"{len(cores)} cores", (done.returncode, done.stdout.decode(), done.stderr), (1, expected + "\n", b""))
        if took > READING:
            sys.exit(f"whole cores: {len(cores)} cores took {took} seconds: {expected}")


def main(program):
    random.seed(3)
    program, seen = os.path.abspath(program), Counter()
    for _ in range(SCRIPTS):
        in_folder(tried, program, seen)
    few = [f"{seen[name]} {name}" for name in LEAST if seen[name] < LEAST[name]]
    if few:
        sys.exit(f"whole cores: of these too few were seen: {', '.join(few)}")
    in_folder(at_the_limit, program, 2, 128, 1023, 2)
    in_folder(at_the_limit, program, 8, 16, 255, 2)
    for work in (two_cores, rounded, long_lists):
        in_folder(work, program)
    print(f"whole cores: {SCRIPTS} scripts,", ", ".join(f"{seen[name]} {name}" for name in LEAST), "and machines at the limits")


if __name__ == "__main__":
    main(*sys.argv[1:])
