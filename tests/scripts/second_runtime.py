"""A second runtime: `second_runtime.py MACHINE [--slit FILE] < SCRIPT` answers a script as `numarun run` does. It is written
from docs/formats.md alone and by other means: it keeps its state in dictionaries, works sets out anew each time that they
are asked for, and finds plans by `plain_plan`.

A rebalance may choose among plans of least distance that move the fewest CPUs, or among shortages. Where it is told what the
program is about to answer (`coming`), it goes on from the program's choice if that is allowed, and else raises `Wrong`; else
it takes its own. In `seen` it counts what the plans were that it judged."""

import itertools
import json
import os
import re
import sys
from collections import Counter

sys.path.insert(0, os.path.join(os.path.dirname(__file__), "..", "certificates"))
import plain_plan
from direct_order import HandOver, Host, Live
from reference import check

CPUS, NODES, CONTAINERS, MOST_TEXT, MOST_LINE = 4096, 128, 1024, 1_048_576, 8192
FIRST_PID, LAST_PID = 2, 4_194_303
# Problems of so many rows and CPUs at most are solved beside the program's answer.
SOLVED, SOLVED_CPUS = 4, 200
SIGNALS = ["KILL", "SIGKILL", "9", "TERM", "SIGTERM", "15"]


class Wrong(Exception):
    """The program's answer is none that may be."""


class Refused(Exception):
    def __str__(self):
        return " ".join(["refused"] + [str(word) for word in self.args])


# Lists.


def read_list(text, limit):
    """The set of a list; or raises `Refused` with the number, the name and the place of the first faulty item."""
    named, at = set(), 0
    for item in text.split(b","):
        word = item.strip(b" \t\n")
        place = at + len(item) - len(item.lstrip(b" \t\n"))
        at += len(item) + 1
        if not word:
            continue
        found = re.fullmatch(rb"([0-9]+)(?:-([0-9]+))?", word)
        if not found:
            raise Refused("E10", "BadItem", place)
        first, last = as_number(found[1]), as_number(found[2] or found[1])
        if first >= limit or last >= limit:
            raise Refused("E11", "TooLarge", place)
        if first > last:
            raise Refused("E12", "Descending", place)
        named.update(range(first, last + 1))
    return named


def as_number(digits):
    digits = digits.lstrip(b"0") or b"0"
    return int(digits) if len(digits) < 20 else 10**20


def print_list(cpus):
    ranges = []
    for cpu in sorted(cpus):
        if ranges and ranges[-1][1] == cpu - 1:
            ranges[-1][1] = cpu
        else:
            ranges.append([cpu, cpu])
    return ",".join(str(a) if a == b else f"{a}-{b}" for a, b in ranges) or "-"


# JSON. A number that is not written as a whole number of 64 bits is a float.


class NotJson(Exception):
    pass


def whole(text):
    number = int(text)
    return number if text != "-0" and -(2**63) <= number < 2**64 else float(text)


def fraction(text):
    if float(text) in (float("inf"), float("-inf")):
        raise NotJson
    return float(text)


def no_constant(text):
    raise NotJson


def read_json(data):
    try:
        text = data.decode("utf-8")
        outside_texts = re.sub(r'"(?:[^"\\]|\\.)*"', "", text, flags=re.S)
        depth = 0
        for mark in re.findall(r"[\[{\]}]", outside_texts):
            depth += 1 if mark in "[{" else -1
            if depth > 127:
                raise NotJson
        value = json.loads(text, parse_int=whole, parse_float=fraction, parse_constant=no_constant)
        json.dumps(value, ensure_ascii=False).encode("utf-8")
        return value
    except (ValueError, RecursionError):
        raise NotJson from None


def is_whole(value, low, high):
    return type(value) is int and low <= value < high


def as_set(value, limit, *place):
    """The set of a list in a machine file."""
    if type(value) is not str:
        raise Refused("E26", "BadField", *place)
    try:
        return read_list(value.encode(), limit)
    except Refused:
        raise Refused("E26", "BadField", *place) from None


# Distance tables and machines.


def read_slit(data):
    """The rows of a distance table."""
    if len(data) < 44:
        raise Refused("E15", "TooShort")
    if data[:4] != b"SLIT":
        raise Refused("E16", "BadSignature")
    count, length = int.from_bytes(data[36:44], "little"), int.from_bytes(data[4:8], "little")
    if not 1 <= count <= NODES:
        raise Refused("E18", "BadCount")
    if length != 44 + count * count or length > len(data):
        raise Refused("E17", "BadLength")
    if sum(data[:length]) % 256:
        raise Refused("E19", "BadSum")
    rows = [list(data[44 + i * count :][:count]) for i in range(count)]
    for i, row in enumerate(rows):
        for j, entry in enumerate(row):
            if entry < 10:
                raise Refused("E20", "ReservedValue", i, j)
            if i == j and entry > 10:
                raise Refused("E21", "BadDiagonal", i)
    return rows


def read_distances(value, count):
    if type(value) is not list or any(type(row) is not list for row in value):
        raise Refused("E26", "BadField", "distances")
    if len(value) != count or any(len(row) != count for row in value):
        raise Refused("E31", "WrongSize")
    for i, row in enumerate(value):
        for j, entry in enumerate(row):
            if not is_whole(entry, 0, 2**64):
                raise Refused("E26", "BadField", "distances")
            if not 10 <= entry <= 255 or (i == j and entry != 10):
                raise Refused("E32", "BadDistance", i, j)
    return value


class Machine:
    def __init__(self, data, slit):
        try:
            told = read_json(data) if len(data) <= MOST_TEXT else None
        except NotJson:
            told = None
        if type(told) is not dict:
            raise Refused("E25", "NotJson")
        self.nodes = self.read_nodes(told.get("nodes"))
        self.node_of = {cpu: n for n, cpus in enumerate(self.nodes) for cpu in cpus}
        self.present, self.weighed = set(self.node_of), {}
        given = told.get("distances")
        if given is not None and slit is not None:
            raise Refused("E29", "BothDistances")
        if given is None and slit is None:
            raise Refused("E30", "NoDistances")
        if slit is not None and len(slit) != len(self.nodes):
            raise Refused("E31", "WrongSize")
        self.distance = slit if slit is not None else read_distances(given, len(self.nodes))
        self.reserved = as_set(told.get("reserved"), CPUS, "reserved")
        if not self.reserved or not self.reserved <= self.present:
            raise Refused("E33", "BadReserved")
        offline = set() if told.get("offline") is None else as_set(told["offline"], CPUS, "offline")
        if not offline <= self.present - self.reserved:
            raise Refused("E34", "BadOffline")
        self.online = self.present - offline
        cores = [{cpu} for cpu in self.present] if told.get("cores") is None else self.read_cores(told["cores"])
        self.threads = len(cores[0])
        self.cores = {min(core): core for core in cores}

    def read_cores(self, value):
        if type(value) is not list:
            raise Refused("E26", "BadField", "cores")
        cores, left = [as_set(core, CPUS, "cores") for core in value], set(self.present)
        for i, core in enumerate(cores):
            nodes, reserved = {self.node_of.get(cpu) for cpu in core}, core & self.reserved
            if not core or not core <= left or len(nodes) > 1 or len(core) != len(cores[0]) or reserved not in (set(), core):
                raise Refused("E35", "BadCore", i)
            left -= core
        if left:
            raise Refused("E36", "NoCore", min(left))
        return cores

    def cores_in(self, cpus):
        """The cores of which all CPUs are among these, each by its lowest CPU."""
        return cpus if self.threads == 1 else {core for core in self.cores.keys() & cpus if self.cores[core] <= cpus}

    def cpus_of(self, cores):
        """The CPUs of the cores with these lowest CPUs."""
        return cores if self.threads == 1 else set().union(*(self.cores[core] for core in cores))

    @staticmethod
    def read_nodes(value):
        if type(value) is not list:
            raise Refused("E26", "BadField", "nodes")
        if not 1 <= len(value) <= NODES:
            raise Refused("E27", "NodeCount")
        nodes = []
        for item in value:
            cpus = as_set(item, CPUS, "nodes")
            twice = cpus & set().union(*nodes)
            if twice:
                raise Refused("E28", "CpuTwice", min(twice))
            nodes.append(cpus)
        return nodes

    def weights(self, homes):
        """What each present CPU weighs for these homes, worked out once for each set of them."""
        homes = frozenset(homes)
        if homes not in self.weighed:
            of_node = [min(row[home] for home in homes) for row in self.distance]
            self.weighed[homes] = {cpu: of_node[node] for cpu, node in self.node_of.items()}
        return self.weighed[homes]


# Configs and demands.


VERSION = re.compile(
    r"(0|[1-9][0-9]*)\.(0|[1-9][0-9]*)\.(0|[1-9][0-9]*)"
    r"(?:-(?:0|[1-9][0-9]*|[0-9]*[A-Za-z-][0-9A-Za-z-]*)(?:\.(?:0|[1-9][0-9]*|[0-9]*[A-Za-z-][0-9A-Za-z-]*))*)?"
    r"(?:\+[0-9A-Za-z-]+(?:\.[0-9A-Za-z-]+)*)?"
)


def member(value, path, fits, required=False):
    """A member that is looked at, by its dotted path."""
    found = value.get(path.split(".")[-1])
    if found is None and required:
        raise Refused("E58", "Missing", path)
    if found is not None and not fits(found):
        raise Refused("E60", "BadField", path)
    return found


def is_text(value):
    return type(value) is str


def is_object(value):
    return type(value) is dict


class Config:
    """What is looked at in a `config.json`."""

    def __init__(self, data):
        if len(data) > MOST_TEXT:
            raise Refused("E55", "TooLong")
        try:
            told = read_json(data)
        except NotJson:
            raise Refused("E56", "NotJson") from None
        if not is_object(told):
            raise Refused("E57", "NotObject")
        found = VERSION.fullmatch(member(told, "ociVersion", is_text, required=True))
        if not found or found[1] != "1" or any(int(number) >= 2**64 for number in found.groups()):
            raise Refused("E59", "BadVersion")
        member(member(told, "root", is_object, required=True), "root.path", is_text, required=True)
        process = told.get("process")
        args = process.get("args") if is_object(process) else None
        self.runnable = type(args) is list and args != [] and all(is_text(arg) for arg in args)
        cpu = told
        for path in ["linux", "linux.resources", "linux.resources.cpu"]:
            cpu = member(cpu, path, is_object) or {}
        at = "linux.resources.cpu."
        self.quota = member(cpu, at + "quota", lambda v: is_whole(v, -(2**63), 2**63))
        self.period = member(cpu, at + "period", lambda v: is_whole(v, 0, 2**64))
        self.cpus = member(cpu, at + "cpus", is_text)
        self.mems = member(cpu, at + "mems", is_text)


class Demand:
    """How many CPUs a container asks for, `None` where it is shared, which it may have, and where its homes are."""

    def __init__(self, config, machine):
        cpus = self.named(config.cpus, CPUS, ("E62", "BadCpus"), machine.present, ("E63", "NoSuchCpu"))
        every = set(range(len(machine.nodes)))
        self.homes = self.named(config.mems, NODES, ("E64", "BadMems"), every, ("E65", "NoSuchNode")) or every
        quota, period = config.quota or 0, config.period or 100_000
        cores = -(-quota // (period * machine.threads)) if quota > 0 else None
        asked = None if cores is None else cores * machine.threads
        if asked is not None and asked > CPUS:
            raise Refused("E66", "QuotaTooLarge")
        if asked is None and not cpus:
            self.count, self.allowed = None, set()
            return
        free = (cpus or machine.present) - machine.reserved
        weights = machine.weights(self.homes)
        self.allowed = machine.cpus_of(machine.cores_in({cpu for cpu in free if weights[cpu] < 255}))
        if not self.allowed:
            raise Refused("E67", "NothingAllowed")
        self.count = len(self.allowed) if asked is None else asked

    @staticmethod
    def named(text, limit, no_list, there, not_there):
        try:
            numbers = read_list((text or "").encode(), limit)
        except Refused as why:
            raise Refused(*no_list, why.args[0], why.args[2]) from None
        if numbers - there:
            raise Refused(*not_there, min(numbers - there))
        return numbers


# The runtime.


class Container:
    def __init__(self, bundle, config, demand, pid, cpus):
        self.bundle, self.runnable, self.demand, self.pid, self.cpus = bundle, config.runnable, demand, pid, cpus
        self.started = False


def digits(word):
    if not re.fullmatch(rb"[0-9]+", word) or as_number(word) >= 2**32:
        raise Refused("E110", "BadLine")
    return as_number(word)


def text(word):
    try:
        return word.decode("utf-8")
    except UnicodeDecodeError:
        raise Refused("E110", "BadLine") from None


class Runtime:
    COMMANDS = {
        b"create": (text, text), b"adopt": (text, text, text), b"update": (text, text), b"start": (text,), b"kill": (text, text), b"delete": (text,), b"state": (text,),
        b"forget": (text,),
        b"list": (), b"sets": (text,), b"rebalance": (), b"begin": (), b"step": (), b"phase": (), b"certificate": (),
        b"fork": (digits,), b"exit": (digits,), b"offline": (digits,), b"online": (digits,),
    }
    # Those that take a word that says how.
    WORDS = {(b"rebalance", b"direct"): "do_rebalance_directly", (b"begin", b"direct"): "do_begin_directly"}

    # Those for which the CPUs of strangers are not there.
    AROUND = (b"rebalance", b"begin", b"step")

    def __init__(self, machine, config_of, strangers=()):
        """`config_of` gives the bytes of a bundle's config, or nothing. `strangers` are the folders of a run before, with their CPUs."""
        self.machine, self.config_of, self.strangers = machine, config_of, dict(strangers)
        self.running_cpus = machine.online
        self.containers = {}
        self.processes = {}
        self.next_pid = FIRST_PID
        self.pool = machine.reserved
        self.underway = None
        self.direct = False
        self.outcome = None
        self.coming = None
        self.seen = Counter()

    def answer(self, line):
        """The lines that answer a line."""
        try:
            if len(line) > MOST_LINE:
                raise Refused("E112", "LineTooLong")
            words = [word for word in re.split(rb"[ \t\r]", line) if word]
            if not words:
                return []
            return self.answer_without(words) if words[0] in self.AROUND else self.answer_words(words)
        except Refused as why:
            return [str(why)]

    def answer_without(self, words):
        """The same while the CPUs of strangers are not there."""
        away = frozenset().union(*self.strangers.values()) & self.running_cpus - self.machine.reserved
        self.running_cpus -= away
        try:
            return self.answer_words(words)
        finally:
            self.running_cpus |= away

    def answer_words(self, words):
        """The same of words."""
        try:
            if tuple(words) in self.WORDS:
                return getattr(self, self.WORDS[tuple(words)])()
            kinds = self.COMMANDS.get(words[0])
            if kinds is None or len(kinds) != len(words) - 1:
                raise Refused("E110", "BadLine")
            arguments = [kind(word) for kind, word in zip(kinds, words[1:])]
            return getattr(self, "do_" + words[0].decode())(*arguments)
        except Refused as why:
            return [str(why)]
        finally:
            self.strangers = {name: cpus for name, cpus in self.strangers.items() if name not in self.containers}

    def do_forget(self, name):
        if name not in self.strangers:
            raise Refused("E105", "NoStranger")
        del self.strangers[name]
        return ["ok"]

    # Containers.

    def live(self, container):
        return container.pid in self.processes

    def status(self, container):
        if not self.live(container):
            return "stopped"
        return "running" if container.started else "created"

    def of(self, name):
        if name not in self.containers:
            raise Refused("E94", "NoContainer")
        return self.containers[name]

    def settled(self):
        if self.underway is not None:
            raise Refused("E90", "Busy")

    def spawn(self, first, group):
        if self.next_pid > LAST_PID:
            raise Refused("E45", "NoPids")
        self.processes[self.next_pid] = (first or self.next_pid, group)
        self.next_pid += 1
        return self.next_pid - 1

    def bundle(self, name):
        data = self.config_of(name)
        if data is None:
            raise Refused("E111", "NoBundle")
        return data

    def make(self, name, bundle, data, cpus):
        """A container that requests these CPUs at first."""
        self.settled()
        if not re.fullmatch(r"[A-Za-z0-9_\-.+]{1,64}", name) or name in (".", ".."):
            raise Refused("E91", "BadId")
        if name in self.containers:
            raise Refused("E92", "IdInUse")
        if len(self.containers) == CONTAINERS:
            raise Refused("E93", "TooManyContainers")
        config = Config(data)
        demand = Demand(config, self.machine)
        taken = {cpu for cpu in cpus if not self.is_free(cpu, demand)}
        if taken:
            raise Refused("E104", "NotFree", min(taken))
        pid = self.spawn(None, name)
        self.containers[name] = Container(bundle, config, demand, pid, cpus)
        return [f"pid {pid}"]

    def is_free(self, cpu, demand):
        """Whether a new container that asks for this may request the CPU."""
        one_is_pinned = lambda other: demand.count is not None or other.demand.count is not None
        beside = [other for other in self.containers.values() if self.live(other) and one_is_pinned(other) and cpu in other.cpus]
        return cpu in self.machine.reserved or (cpu in self.machine.present and not beside)

    def do_create(self, name, bundle):
        return self.make(name, bundle, self.bundle(bundle), self.machine.reserved)

    def do_adopt(self, name, bundle, listed):
        data = self.bundle(bundle)
        try:
            cpus = read_list(listed.encode(), CPUS)
        except Refused as why:
            raise Refused("E102", "BadSet", why.args[0], why.args[2]) from None
        if not cpus:
            raise Refused("E103", "NoCpus")
        return self.make(name, bundle, data, cpus)

    def do_update(self, name, bundle):
        data = self.bundle(bundle)
        self.settled()
        container = self.of(name)
        if not self.live(container):
            raise Refused("E98", "NotLive")
        demand = Demand(Config(data), self.machine)
        if container.demand.count is None and demand.count is not None:
            container.cpus = self.machine.reserved
        container.bundle, container.demand = bundle, demand
        return ["ok"]

    def do_start(self, name):
        container = self.of(name)
        if self.status(container) != "created":
            raise Refused("E95", "NotCreated")
        if not container.runnable:
            raise Refused("E96", "NotRunnable")
        container.started = True
        return ["ok"]

    def do_kill(self, name, signal):
        if signal not in SIGNALS:
            raise Refused("E97", "BadSignal")
        if not self.live(self.of(name)):
            raise Refused("E98", "NotLive")
        self.processes = {pid: (first, group) for pid, (first, group) in self.processes.items() if group != name}
        return ["ok"]

    def do_delete(self, name):
        self.settled()
        if self.live(self.of(name)):
            raise Refused("E99", "NotStopped")
        del self.containers[name]
        return ["ok"]

    def do_state(self, name):
        container = self.of(name)
        shown = {"bundle": container.bundle, "id": name, "ociVersion": "1.0.2"}
        if self.live(container):
            shown["pid"] = container.pid
        shown["status"] = self.status(container)
        return [json.dumps(shown, ensure_ascii=False, separators=(",", ":"))]

    def do_list(self):
        return [f"{name} {self.status(container)}" for name, container in self.containers.items()] + ["end"]

    def do_sets(self, name):
        container = self.of(name)
        nodes = set(range(len(self.machine.nodes)))
        cpus, mems = container.cpus, container.demand.homes
        shown = [cpus, cpus & self.running_cpus or self.running_cpus, mems, mems & nodes or nodes]
        return ["cpus {} effective {} mems {} effective {}".format(*map(print_list, shown))]

    # Events.

    def do_fork(self, pid):
        if pid not in self.processes:
            raise Refused("E46", "NoProcess")
        return [f"pid {self.spawn(*self.processes[pid])}"]

    def do_exit(self, pid):
        if pid not in self.processes:
            raise Refused("E46", "NoProcess")
        self.processes = {p: of for p, of in self.processes.items() if pid not in (p, of[0])}
        return ["ok"]

    def do_offline(self, cpu):
        if cpu not in self.machine.present:
            raise Refused("E52", "NoCpu")
        if cpu in self.machine.reserved:
            raise Refused("E51", "Reserved")
        self.running_cpus = self.running_cpus - {cpu}
        return ["ok"]

    def do_online(self, cpu):
        if cpu not in self.machine.present:
            raise Refused("E52", "NoCpu")
        self.running_cpus = self.running_cpus | {cpu}
        return ["ok"]

    # Plans.

    def rows(self):
        """The ids of the containers that are to be pinned, for how many cores each asks with the distance of each core, and the
        cores that it holds. A core stands by its lowest CPU."""
        found, machine = {}, self.machine
        for name, container in self.containers.items():
            demand = container.demand
            if self.live(container) and demand.count is not None:
                distances = machine.weights(demand.homes)
                allowed = {core: distances[core] for core in machine.cores_in(demand.allowed & self.running_cpus)}
                found[name] = ((demand.count // machine.threads, allowed), machine.cores_in(container.cpus))
        return list(found), [row for row, _ in found.values()], [held for _, held in found.values()]

    def block(self):
        """What the program is about to answer, up to its `end`."""
        return self.coming[: self.coming.index("end") + 1] if "end" in self.coming else []

    def work_out(self, names, rows, held):
        """A plan of least distance that moves the fewest cores, or the members of a shortage."""
        if self.coming is None:
            return plain_plan.work_out(plain_plan.with_moves(rows, held))
        words = [line.split(" ") for line in self.block()]
        ids = [word[1] for word in words if word[0] == "member" and len(word) == 2]
        if ids:
            members = [k for k, name in enumerate(names) if name in ids]
            if not plain_plan.is_short(rows, members):
                raise Wrong(f"no shortage of {rows}: {ids}")
            few = len(members) <= SOLVED and sum(rows[k][0] for k in members) <= SOLVED_CPUS
            if few and plain_plan.can_be_left_out(rows, members):
                raise Wrong(f"a member of the shortage {ids} of {rows} can be left out")
            self.seen["blamed"] += few and len(members) > 1
            return None, members
        holds = {word[1]: numbers(word[2]) for word in words if word[0] == "hold" and len(word) == 3}
        sets = [holds.get(name, set()) & self.machine.present for name in names]
        plan = [self.machine.cores_in(cpus) for cpus in sets]
        if [self.machine.cpus_of(cores) for cores in plan] != sets:
            raise Wrong(f"no whole cores: {sets}")
        self.judge(rows, held, plan)
        return plan, None

    def judge(self, rows, held, plan):
        """Raises `Wrong` where a plan is none, not dealt, not of least distance, or moves more cores than another of that distance.
        Where problems are small, other ways to find that out are gone, too."""
        weighed = plain_plan.with_moves(rows, held)
        if not plain_plan.is_least(weighed, plan):
            raise Wrong(f"no dealt plan of least distance and fewest moves for {rows}, of those who hold {held}: {plan}")
        found = plain_plan.cost_of(rows, plan), plain_plan.moved(plan, held)
        if plain_plan.is_small(rows):
            self.seen["tried"] += 1
            if plain_plan.by_trying(rows, held) != found:
                raise Wrong(f"{plan} is {found}, and the best plan of {rows}, {held} is {plain_plan.by_trying(rows, held)}")
        if len(rows) <= SOLVED and sum(demand for demand, _ in rows) <= SOLVED_CPUS:
            own, _ = plain_plan.work_out(weighed)
            if own is None or plain_plan.cost_of(weighed, own) != plain_plan.cost_of(weighed, plan):
                raise Wrong(f"the plan of {rows}, {held} is {own}, not {plan}")
            self.seen["spared"] += plain_plan.moved(plain_plan.work_out(rows)[0], held) > found[1]
        self.seen["still"] += len(rows) > 1 and found[1] == 0
        self.seen["several"] += 1 < found[1] < sum(demand for demand, _ in rows)

    def do_begin(self):
        return self.begin(False)

    def do_begin_directly(self):
        return self.begin(True)

    def begin(self, direct):
        self.settled()
        names, rows, held = self.rows()
        plan, members = self.work_out(names, rows, held)
        self.outcome = (names, rows, held, plan, members)
        threads = self.machine.threads
        if plan is None:
            asked = threads * sum(rows[k][0] for k in members)
            allowed = print_list(self.machine.cpus_of(set().union(*(rows[k][1] for k in members))))
            return [f"short demand {asked} allowed {allowed}"] + [f"member {names[k]}" for k in members] + ["end"]
        planned = {name: self.machine.cpus_of(cores) for name, cores in zip(names, plan)}
        self.pool = self.running_cpus - set().union(*planned.values())
        self.underway = [(c, planned.get(name, self.pool)) for name, c in self.containers.items() if self.live(c)]
        self.direct = direct
        holds = [f"hold {name} {print_list(cpus)}" for name, cpus in planned.items()]
        total = threads * plain_plan.cost_of(rows, plan)
        return [f"plan total {total}"] + holds + [f"pool {print_list(self.pool)}", "end"]

    def due(self):
        """The write of the hand-over that comes next. In turn it is of those that give CPUs back the first, else the first."""
        if self.direct:
            return self.due_directly()
        live = [(c, target) for c, target in self.underway if c.cpus != target and self.live(c)]
        keeps = ((c, c.cpus & (target | self.machine.reserved) or self.machine.reserved) for c, target in live)
        return next(((c, cpus) for c, cpus in itertools.chain(keeps, live) if cpus != c.cpus), None)

    def due_directly(self):
        live = [(c, target) for c, target in self.underway if self.live(c)]
        entries = [Live(c.demand.count is not None, frozenset(c.cpus), frozenset(target), frozenset(c.demand.allowed)) for c, target in live]
        cores = [frozenset(core) for core in self.machine.cores.values()]
        write = HandOver(entries, Host(frozenset(self.machine.reserved), frozenset(self.running_cpus), cores)).due()
        return None if write is None else (live[write[0]][0], set(write[1]))

    def do_step(self):
        if self.underway is None:
            raise Refused("E100", "NoHandover")
        write = self.due()
        if write:
            write[0].cpus = write[1]
        if self.due():
            return ["more"]
        self.underway = None
        return ["done"]

    def do_rebalance(self):
        return self.rebalance(False)

    def do_rebalance_directly(self):
        return self.rebalance(True)

    def rebalance(self, direct):
        answer = self.begin(direct)
        while self.underway is not None:
            self.do_step()
        return answer

    def do_phase(self):
        return ["settled" if self.underway is None else "underway"]

    def do_certificate(self):
        if self.outcome is None:
            raise Refused("E101", "NoAnswer")
        names, rows, held, plan, members = self.outcome
        weighed = plain_plan.with_moves(rows, held)
        head = ["numarun-certificate 2"]
        for name, (demand, weights) in zip(names, weighed):
            offers = [(weight, [cpu for cpu in weights if weights[cpu] == weight]) for weight in sorted(set(weights.values()))]
            head.append(" ".join([f"row {name} {demand}"] + [f"{weight}:{print_list(cpus)}" for weight, cpus in offers]))
        if plan is None:
            return head + [f"short {names[k]}" for k in members] + ["end"]
        total = f"total {plain_plan.cost_of(rows, plan)} moves {plain_plan.moved(plan, held)}"
        if self.coming is not None:
            if not self.proves(self.block(), head, names, plan, total):
                raise Wrong(f"no certificate of {head}, {plan} and {total}: {self.block()}")
            return self.block()
        values, price = plain_plan.proof(weighed, plan)
        holds = [f"hold {name} {print_list(cpus)} {value}" for name, cpus, value in zip(names, plan, values)]
        prices = [f"price {amount} {cpu}" for cpu, amount in sorted(price.items()) if amount]
        return head + holds + prices + [total, "end"]

    @staticmethod
    def proves(told, head, names, plan, total):
        """Whether what the program tells is a certificate of these rows, this plan and this total."""
        holds = [f"hold {name} {print_list(cpus)}" for name, cpus in zip(names, plan)]
        lines = [line.rsplit(" ", 1)[0] for line in told[len(head) :][: len(plan)]]
        return told[: len(head)] == head and lines == holds and check("\n".join(told + [""]).encode()) == f"plan {total}"


def numbers(word):
    try:
        return read_list(word.encode(), CPUS)
    except Refused:
        return set()


def config_of(bundle):
    """The bytes of the config in a bundle's folder."""
    try:
        with open(bundle + "/config.json", "rb") as file:
            return file.read()
    except (OSError, ValueError):
        return None


def open_machine(machine, slit):
    """The machine of a file, and of a distance table beside it."""
    try:
        with open(machine, "rb") as machine, open(slit or "/dev/null", "rb") as table:
            data, distances = machine.read(), table.read() if slit else None
    except (OSError, ValueError):
        raise Refused("E113", "ReadFault") from None
    return Machine(data, None if slit is None else read_slit(distances))


def main(words, script, out):
    try:
        runtime = Runtime(open_machine(words[0], words[2] if words[1:2] == ["--slit"] else None), config_of)
    except Refused as why:
        print(why, file=out)
        return 1
    for line in script:
        for answer in runtime.answer(line.removesuffix(b"\n")):
            print(answer, file=out, flush=True)
    return 0


if __name__ == "__main__":
    sys.exit(main(sys.argv[1:], sys.stdin.buffer, sys.stdout))
