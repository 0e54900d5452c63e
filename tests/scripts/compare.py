"""Compares what the program answers to random scripts with what the second runtime answers: `compare.py PROGRAM`.
Machines, bundles and lines are made at random: one half is small, with faulty ones among them, the other plans many
containers and steps to the plans, with events between the steps. Each kind of answer has to be seen, and plans, steps and
long answers in number. Each certificate is given to the program's own check, which has to answer the outcome that it is of."""

import json
import os
import random
import sys
import tempfile
from collections import Counter

from second_runtime import Machine, Runtime, config_of, print_list, read_slit
from transcripts import config, difference, doubted, place, run, unwanted

SCRIPTS = 700
PLANNED = 250
# What has to be seen: plans of two rows or more, answers `more`, rows of one plan, bytes of one answer; of the plans those that
# move no CPU, those that move several while others stay, those for which plans of their distance were found that move more,
# and those that were compared with every plan; shortages of several, of which none can be left out.
LEAST = {"plans": 200, "more": 300, "rows": 100, "bytes": 8193, "still": 20, "several": 100, "spared": 40, "tried": 300, "blamed": 10}
IDS = ["a", "b", "c", "d", "e", "web-1", "db.2", "x" * 64]
NO_IDS = [".", "..", "x" * 65, "a/b", "é", "a:b"]
NO_SETS = ["x", "5-3", "4096", ",", "1,,2", "1-", "0,4095", "4095", "2-1,x"]
SIGNALS = ["KILL", "SIGKILL", "9", "TERM", "SIGTERM", "15", "HUP", "kill", "0", "09"]
NUMBERS = ["0", "007", "+5", "-1", "1.0", "4294967295", "4294967296", "99999999999999999999", "0x2", "", "1e1"]
NO_LINES = [b"foo", b"LIST", b"list a", b"create a", b"create a ba bb", b"fork", b"fork 2 3", b"kill a", b"\xff", b"list \xff",
            b"start \xc3", b"adopt a b0", b"adopt a b0 1 2", b"adopt a b0 \xff", b"forget", b"forget a b0", b"forget \xff", b"update a", b"update a b0 b1", b"create a \xff", b"phase\0", b"rebalance now", b"rebalance direct direct", b"begin direct direct", b"Begin direct", b"begin Direct", b"step direct", b"rebalance dir", b"x" * 8192, b"x" * 8193, b"list " + b"x" * 8200]
BLANKS = [b"", b" ", b"\t", b"\r", b" \t \r"]
NAMES = ["no", "../no", "./b0", "b0/", "b0/../b1", "/no/b0", ".", "..", "y" * 8000, "é", "-"]
ANSWERS = ["pid", "ok", "{", "end", "cpus", "settled"] + ["refused E%d" % number for number in [
    46, 51, 52, 55, 56, 57, 58, 59, 60, 62, 63, 64, 65, 66, 67, 91, 92, 93, 94, 95, 96, 97, 98, 99, 102, 103, 104, 105, 110, 111, 112]]
PLAN_ANSWERS = ["plan", "short", "underway", "more", "done", "numarun-certificate", "refused E90", "refused E100", "refused E101"]
NO_CONFIGS = [b"", b"[]", b"7", b"{", b"{}x", b'{"ociVersion":"1.0.2"}', b'{"ociVersion":"1.0.2","root":{}}', b"\xff",
              b'{"ociVersion":7}', b'{"ociVersion":"v1.0.0","root":{"path":"r"}}', b'{"root":{"path":"r"}}',
              b'{"ociVersion":"1.0.2","root":{"path":"r"},"linux":7}', b" " * 1_048_577,
              b'{"ociVersion":"1.0.2","root":{"path":"r"},"linux":' + b"[" * 130 + b"]" * 130 + b"}",
              b'{"ociVersion":"1.0.2","root":{"path":"r"},"x":' + b"[" * 100 + b"]" * 100 + b"}"]


def some(items, least=0):
    items = list(items)
    return set(random.sample(items, random.randint(min(least, len(items)), len(items))))


def list_text(cpus):
    return print_list(cpus) if cpus else ""


def made_machine():
    """A machine text, the bytes of a table beside it, the CPUs and the number of nodes."""
    count = random.randint(1, 4)
    cpus = random.sample(range(4096), random.randint(2, 10)) if random.random() < 0.3 else range(random.randint(2, 10))
    nodes = [set() for _ in range(count)]
    for cpu in cpus:
        random.choice(nodes).add(cpu)
    entries = [10, 11, 12, 20, 21, 30, 40, 254, 255]
    rows = [[10 if i == j else random.choice(entries) for j in range(count)] for i in range(count)]
    reserved = set(random.sample(list(cpus), random.choice([1, 1, 2])))
    told = {"nodes": [list_text(node) for node in nodes], "reserved": list_text(reserved)}
    if random.random() < 0.4:
        told["offline"] = list_text(some(set(cpus) - reserved))
    table = None
    if random.random() < 0.3:
        table = bytearray(b"SLIT" + (44 + count * count).to_bytes(4, "little") + bytes(28) + count.to_bytes(8, "little"))
        table += bytes(entry for row in rows for entry in row)
        table[9] = -sum(table) % 256
    else:
        told["distances"] = rows
    return json.dumps(told).encode(), table, sorted(cpus), count


def made_section(cpus, count):
    """What a config asks for, most often something that can be had."""
    section = {}
    if random.random() < 0.6:
        section["quota"] = random.choice([100000, 200000, 300000, 150000, 50000, 400000, -1, 0])
    if random.random() < 0.2:
        section["period"] = random.choice([100000, 50000, 1000000, 0, 1])
    if random.random() < 0.5:
        section["cpus"] = list_text(some(cpus))
    if random.random() < 0.6:
        section["mems"] = list_text(some(range(count + (random.random() < 0.1))))
    if random.random() < 0.15:
        name = random.choice(["quota", "period", "cpus", "mems"])
        section[name] = random.choice([None, 1.5, -1, "x", "5-3", "1,4096", "128", "4095", 9223372036854775807, 2**63, 2**64, True, []])
    return section


def made_bundles(cpus, count):
    bundles = {f"b{k}": config(made_section(cpus, count)) for k in range(8)}
    bundles["b6"] = bundles["b6"].replace(b'["run"]', random.choice([b"[]", b'["run", 1]', b"null"]))
    bundles["b7"] = random.choice(NO_CONFIGS)
    return bundles


def made_line(cpus, commands):
    if random.random() < 0.08:
        return random.choice(random.choice([NO_LINES, BLANKS]))
    command = random.choice(commands)
    name = random.choice(NO_IDS if random.random() < 0.05 else IDS[: random.choice([3, 8])])
    number = random.choice(NUMBERS) if random.random() < 0.08 else None
    words = command.split(" ")
    if command == "create":
        words += [name, random.choice(NAMES) if random.random() < 0.1 else f"b{random.randint(0, 7)}"]
    elif command == "update":
        words += [name, random.choice(NAMES) if random.random() < 0.1 else f"b{random.randint(0, 7)}"]
    elif command == "adopt":
        words += [name, f"b{random.randint(0, 7)}", random.choice(NO_SETS) if random.random() < 0.2 else print_list(some(cpus, least=1))]
    elif command == "kill":
        words += [name, random.choice(SIGNALS)]
    elif command in ("start", "delete", "forget", "state", "sets"):
        words += [name]
    elif command in ("fork", "exit"):
        words += [number or str(random.randint(1, 25))]
    elif command in ("offline", "online"):
        words += [number or str(random.choice(cpus + [max(cpus) + 1]))]
    blanks = [random.choice([" ", " ", " ", "  ", "\t", " \r"]) for _ in words]
    return (random.choice(["", "", " "]) + "".join(w + b for w, b in zip(words, blanks)).rstrip(" ")).encode()


def made_script(cpus):
    often = ["create"] * 5 + ["adopt"] * 4 + ["update"] * 3 + ["start", "kill", "delete", "fork", "fork", "exit", "offline", "online"] * 2
    asked = ["state", "list", "sets", "sets", "phase", "forget"]
    planned = ["rebalance"] * 3 + ["begin"] * 3 + ["rebalance direct"] * 3 + ["begin direct"] * 3 + ["step"] * 8 + ["certificate"] * 2
    return [made_line(cpus, often + asked + planned) for _ in range(random.randint(1, 90))]


def full_node():
    """As many containers as there may be, and one more; some of them stop, and there is a plan for some that live."""
    machine = json.dumps({"nodes": ["0-63", "64-127"], "distances": [[10, 20], [21, 10]], "reserved": "0"}).encode()
    bundles = {"b0": config({}), "b1": config({"quota": 100000, "mems": "1"})}
    script = [b"create c%d b%d" % (number, number % 10 == 0) for number in range(1025)]
    script += [b"kill c%d 9" % number for number in range(0, 1024, 7)]
    script += [b"list", b"create d b1", b"rebalance", b"certificate", b"sets c10", b"sets c11", b"delete c7", b"create d b1"]
    return machine, None, bundles, script + [b"begin"] + [b"step"] * 900 + [b"sets d", b"list"]


def hundred_rows():
    """A hundred containers that are planned, with lists of their own on nodes whose CPUs alternate."""
    nodes = [set(range(n, 128, 4)) for n in range(4)]
    distances = [[10 + 7 * abs(i - j) for j in range(4)] for i in range(4)]
    told = {"nodes": [print_list(node) for node in nodes], "distances": distances, "reserved": "0"}
    bundles, script = {}, []
    for k in range(100):
        cpus = {k + 1} | set(random.sample(range(1, 128), 20))
        bundles[f"b{k}"] = config({"quota": 100000, "cpus": list_text(cpus), "mems": str(k % 4)})
        script.append(b"create c%d b%d" % (k, k))
    script += [b"rebalance", b"certificate", b"kill c0 9", b"offline 5", b"begin"] + [b"step"] * 250 + [b"certificate"]
    return json.dumps(told).encode(), None, bundles, script


def large_machine():
    """A machine text and the nodes of a machine on which many containers have a plan."""
    count, cpus = random.randint(1, 8), random.choice([16, 24, 33, 48, 64, 96, 128])
    numbers_of_cpus = random.sample(range(4096), cpus) if random.random() < 0.2 else list(range(cpus))
    nodes = [set(numbers_of_cpus[n::count]) for n in range(count)]
    if random.random() < 0.5:
        each = -(-cpus // count)
        nodes = [set(numbers_of_cpus[n * each : (n + 1) * each]) for n in range(count)]
    rows = [[10 if i == j else random.choice([11, 16, 20, 21, 31, 255]) for j in range(count)] for i in range(count)]
    reserved = set(random.sample(numbers_of_cpus, random.choice([1, 2])))
    told = {"nodes": [list_text(node) for node in nodes], "distances": rows, "reserved": list_text(reserved)}
    return json.dumps(told).encode(), sorted(set(numbers_of_cpus) - reserved), count


def good_section(cpus, count):
    section = {"mems": list_text(some(range(count), least=1))}
    if random.random() < 0.9:
        section["quota"] = random.choice([1, 1, 1, 2, 2, 3]) * 100000
    if random.random() < 0.4:
        section["cpus"] = list_text(set(random.sample(cpus, max(4, len(cpus) // 3))))
    return section


def event(cpus, names):
    """A line that may come between two steps."""
    return random.choice([
        f"offline {random.choice(cpus)}", f"online {random.choice(cpus)}", f"offline {random.choice(cpus)}",
        f"online {random.choice(cpus)}", f"fork {random.randint(2, len(names) + 1)}", f"sets {random.choice(names)}",
        f"exit {random.randint(2, 2 * len(names))}", "phase", f"kill {random.choice(names)} TERM",
    ]).encode()


def planning_script(cpus, names):
    """Many containers, and hand-overs with their steps and what comes between them."""
    script = [f"create {name} b{random.randint(0, 7)}".encode() for name in names]
    for _ in range(random.randint(2, 4)):
        script += [random.choice([b"rebalance", b"begin", b"rebalance direct", b"begin direct", b"begin direct"])]
        for _ in range(random.randint(1, len(names) + 4)):
            script += [b"step"] * random.randint(1, 4)
            if random.random() < 0.25:
                script += [event(cpus, names), f"sets {random.choice(names)}".encode()]
        script += [b"certificate"] + [b"step"] * (2 * len(names)) + [f"sets {name}".encode() for name in names]
        gone = random.choice(names)
        again = random.choice([f"create {gone} b{random.randint(0, 7)}", f"adopt {gone} b{random.randint(0, 7)} {print_list(some(cpus, least=1))}"])
        script += [f"kill {gone} 9".encode(), f"delete {gone}".encode(), again.encode()]
        script += [f"update {random.choice(names)} b{random.randint(0, 7)}".encode() for _ in range(random.randint(0, 3))]
        script += [event(cpus, names) for _ in range(random.randint(0, 3))]
    return script + [b"list"]


def made_planned():
    machine, cpus, count = large_machine()
    most = min(40, len(cpus) // 2)
    names = [f"c{k}" for k in range(random.choice([random.randint(3, most), random.randint(3, min(12, most))]))]
    bundles = {f"b{k}": config(good_section(cpus, count)) for k in range(8)}
    return machine, None, bundles, planning_script(cpus, names)


def made(number):
    if number < 2:
        return (full_node, hundred_rows)[number]()
    if number < 2 + PLANNED:
        return made_planned()
    machine, slit, cpus, count = made_machine()
    return machine, slit, made_bundles(cpus, count), made_script(cpus)


class Seen:
    """How often lines were answered by which words, and how large plans and answers were."""

    def __init__(self):
        self.words, self.numbers, self.lines = Counter(), Counter(), 0

    def note(self, line, answer):
        self.lines += 1
        for told in answer:
            self.words[" ".join(told.split(" ")[: 2 if told.startswith("refused") else 1]) if told[:1] != "{" else "{"] += 1
        rows = sum(told.startswith("hold ") for told in answer) if answer and answer[0].startswith("plan total") else 0
        self.numbers["plans"] += rows > 1
        self.numbers["more"] += answer == ["more"]
        self.numbers["rows"] = max(self.numbers["rows"], rows)
        self.numbers["bytes"] = max(self.numbers["bytes"], sum(len(told) + 1 for told in answer))

    def missing(self):
        few = [f"{self.numbers[name]} {name}" for name in LEAST if self.numbers[name] < LEAST[name]]
        return few + [answer for answer in ANSWERS + PLAN_ANSWERS if not self.words[answer]]


def compared(program, seen, machine, slit, bundles, script):
    words = place(machine, slit, bundles)
    end = random.choice([b"", b"\n"])
    done = run(program, words, b"\n".join(script) + end)
    runtime = Runtime(Machine(machine, None if slit is None else read_slit(slit)), config_of)
    wrong = difference(runtime, script, done.stdout, seen.note) or doubted(program, done.stdout)
    seen.numbers.update(runtime.seen)
    if wrong or done.returncode or unwanted(done):
        sys.exit(f"compare: {machine!r}\n{bundles}\n{script}\n{wrong}\nstatus {done.returncode}, {done.stderr!r}")


def main(program):
    random.seed(1)
    program = os.path.abspath(program)
    seen = Seen()
    for number in range(SCRIPTS):
        case = made(number)
        with tempfile.TemporaryDirectory() as folder:
            os.chdir(folder)
            compared(program, seen, *case)
            os.chdir("/")
    if seen.missing():
        sys.exit(f"compare: of these too few were seen, or none: {', '.join(seen.missing())}")
    print(f"compare: {SCRIPTS} scripts, {seen.lines} lines,", ", ".join(f"{seen.numbers[name]} {name}" for name in LEAST))


if __name__ == "__main__":
    main(*sys.argv[1:])
