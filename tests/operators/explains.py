"""Tries numarun-explain: texts by hand, and what it claims of random plans and shortages, tried out by the program: a CPU more that is
like another brings the total down by no more than it says, a container that asks for one more adds no less, what is named as
enough makes room, and one CPU less of it does not."""

from __future__ import annotations

import copy
import json
import os
import random
import re
import shutil
from random import Random
from typing import Any, Dict, Iterable, Optional, Tuple

from trial import EXAMPLES, PROGRAM, bad_files, bad_output, case, check, long_case, piped, refuses, scratch, told, words_and_help
from numarun_host import answers, cpus as lists, explain
from numarun_host.answers import Answers
from numarun_host.machine import Machine
from numarun_host.program import Run

MACHINE = os.path.join(EXAMPLES, "machines", "two-socket.json")
ANSWERS = os.path.join(EXAMPLES, "scripts", "before-and-after.answers")
SMALL = scratch("small.json")
TINY = {"nodes": ["0-3", "4-7"], "distances": [[10, 21], [21, 10]], "reserved": "0"}

# By hand. The machine is TINY; a holds 1-2, both near, b one near and one far, and c, which may have no others, the last
# near one. A price of 11 for node 0's CPUs: b would give as much for another one there.
FAR = """numarun-certificate 1
row a 1 10:1-3 21:4-7
row b 2 10:1-3 21:4-5
row c 1 10:2
hold a 3 21
hold b 1,4 21
hold c 2 21
price 11 1-3
total 51
end
"""
FAR_TOLD = """plan: total distance 51; far from home: CPUs of 1 container
a: 1 CPU, distance 10: 3: all near; one more CPU for it would add 21 or more
b: 2 CPUs, distance 31: 1,4
  far: 4 at 21
  at 10 it may have 1-3
    1: its own
    3: held by a, which may have 1-2 at 10 and 4-7 at 21
    2: held by c, which may have no others
  not for it: 0 (reserved)
  another CPU like 1-3 would bring the total down by up to 11
  one more CPU for it would add 21 or more
c: 1 CPU, distance 10: 2: all near; one more CPU for it would add 21 or more
"""
# Of scaled weights: the distances alone are told, and what moves count is no distance.
MOVED = """numarun-certificate 2
row a 2 655360:1 655361:2 1376257:4
hold a 1-2 655361
price 1 1
total 20 moves 1
end
"""
MOVED_TOLD = """plan: total distance 20, 1 CPU moved; none is far from home
a: 2 CPUs, distance 20: 1-2: all near; one more CPU for it would add 10 or more
"""
# No nearer ones may be had at all, and 5 is not for it.
BOUND = "numarun-certificate 1\nrow a 2 21:4,6-7\nhold a 4,6 21\ntotal 42\nend\n"
BOUND_TOLD = """plan: total distance 42; far from home: CPUs of 1 container
a: 2 CPUs, distance 42: 4,6
  far: 4,6 at 21
  it may have none that are nearer
  one more CPU for it would add 21 or more
"""
# The shortage of docs/formats.md. c has two CPUs to spare, and a or b would do with one less.
SHORT = """numarun-certificate 1
row a 2 10:1-2
row b 1 10:1-2
row c 1 10:4-5
short a
short b
end
"""
SHORT_TOLD = """short: a and b together ask for 3 CPUs and may have 2: 1-2
missing: 1 CPU
each of these makes room by itself:
  end b
  end a, or shrink it from 2 to 1 CPU
  allow b 1 CPU more, as 4
  allow a 1 CPU more, as 4
for nobody: 3,6-7: offline, or on nobody's list
"""
# A second shortage elsewhere, so that no container alone makes room.
TWICE = SHORT.replace("row c 1 10:4-5", "row c 1 10:4\nrow d 1 10:4")
TWICE_TOLD = """short: a and b together ask for 3 CPUs and may have 2: 1-2
missing: 1 CPU for these, and 2 in all
no single container makes room by itself
all of these together make room, the oldest being served first: shrink b from 1
    to 0 (end it) and d from 1 to 0 (end it)
so do all of these: allow b 1 CPU more, as 3, if those of them that are for
    nobody now are online and d 1 CPU more, as 5, if those of them that are for
    nobody now are online
for nobody: 3,5-7: offline, or on nobody's list
"""
NOT_SURE = "numarun-certificate 1\nrow a 4 10:1-2\nshort a\nend\n"
NOT_SURE_TOLD = """short: a asks for 4 CPUs and may have 2: 1-2
missing: 2 CPUs
each of these makes room by itself:
  end a, or shrink it from 4 to 2 CPUs
  allow a 2 CPUs more, as 3-4, if those of them that are for nobody now are
      online
for nobody: 3-7: offline, or on nobody's list
"""
# The same certificates on a machine whose cores have two CPUs: their numbers are those of cores.
CORES = scratch("cores.json")
PAIRS = {"nodes": ["0-3,8-11", "4-7,12-15"], "distances": [[10, 21], [21, 10]], "reserved": "0,8", "cores": [f"{k},{k + 8}" for k in range(8)], "offline": "11"}
FAR_OF_CORES = """plan: total distance 102; far from home: CPUs of 1 container
a: 2 CPUs, distance 20: 3,11: all near; one more core for it would add 42 or
    more
b: 4 CPUs, distance 62: 1,4,9,12
  far: 4,12 at 21
  at 10 it may have 1-3,9-11
    1,9: its own
    3,11: held by a, which may have 1-2,9-10 at 10 and 4-7,12-15 at 21
    2,10: held by c, which may have no others
  not for it: 0,8 (reserved)
  another core like 1-3,9-11 would bring the total down by up to 22
  one more core for it would add 42 or more
c: 2 CPUs, distance 20: 2,10: all near; one more core for it would add 42 or
    more
"""
MOVED_OF_CORES = """plan: total distance 40, 1 core moved; none is far from home
a: 4 CPUs, distance 40: 1-2,9-10: all near; one more core for it would add 20 or
    more
"""
SHORT_OF_CORES = """short: a and b together ask for 6 CPUs and may have 4: 1-2,9-10
missing: 2 CPUs
each of these makes room by itself:
  end b
  end a, or shrink it from 4 to 2 CPUs
  allow b 2 CPUs more, as 4,12
  allow a 2 CPUs more, as 4,12
for nobody: 3,6-7,11,14-15: offline, or on nobody's list
"""
# Core 3 has a CPU that is offline from the start.
NOT_SURE_OF_CORES = """short: a asks for 8 CPUs and may have 4: 1-2,9-10
missing: 4 CPUs
each of these makes room by itself:
  end a, or shrink it from 8 to 4 CPUs
  allow a 4 CPUs more, as 4-5,12-13, if those of them that are for nobody now
      are online
for nobody: 3-7,11-15: offline, or on nobody's list
"""
EMPTY, EMPTY_TOLD = "numarun-certificate 2\ntotal 0 moves 0\nend\n", "plan: total distance 0, 0 CPUs moved; none is far from home\n"
NO_PLAN, OTHER = "what b holds is no plan", "its values and prices do not come to its total"
WRONG = [
    (NO_PLAN, FAR, "hold b 1,4", "hold b 1,3"), (NO_PLAN, FAR, "hold b 1,4", "hold b 1,6"), (NO_PLAN, FAR, "hold b 1,4", "hold b 4"),
    (NO_PLAN, FAR, "hold b 1,4 21\n", ""), (NO_PLAN, FAR.replace("row b 2", "row b 0"), "hold b 1,4 21\n", ""),
    ("the value of c is too high", FAR, "hold c 2 21", "hold c 2 22"), (OTHER, FAR, "total 51", "total 50"), (OTHER, FAR, "total 51\n", ""),
    (OTHER, FAR, "hold a 3 21", "hold a 3 20"), ("those that are short are not", SHORT, "row b 1", "row b 0"),
]


@case
def by_hand() -> None:
    json.dump(TINY, open(SMALL, "w"))
    for name, text, expected in [("far", FAR, FAR_TOLD), ("moved", MOVED, MOVED_TOLD), ("bound", BOUND, BOUND_TOLD), ("short", SHORT, SHORT_TOLD),
                                 ("short twice", TWICE, TWICE_TOLD), ("not sure", NOT_SURE, NOT_SURE_TOLD)]:
        check(name, told("numarun-explain", SMALL, text=text), (0, expected, ""))
    json.dump(PAIRS, open(CORES, "w"))
    for name, text, expected in [("far", FAR, FAR_OF_CORES), ("moved", MOVED, MOVED_OF_CORES), ("short", SHORT, SHORT_OF_CORES), ("not sure", NOT_SURE, NOT_SURE_OF_CORES)]:
        check(f"{name}, of cores", told("numarun-explain", CORES, text=text), (0, expected, ""))
    check("one alone", told("numarun-explain", SMALL, "--only", "a", text=FAR), (0, "\n".join(FAR_TOLD.splitlines()[:2]) + "\n", ""))
    check("the last of several", told("numarun-explain", SMALL, text=SHORT + FAR), (0, FAR_TOLD, ""))
    check("an empty plan", told("numarun-explain", SMALL, text=EMPTY), (0, EMPTY_TOLD, ""))
    for why, text, old, new in WRONG:
        says = f"standard input: line 1: the certificate proves nothing, as {why} (see numarun check)"
        refuses("numarun-explain", SMALL, text=text.replace(old, new), says=says)


# What is claimed, tried out.

Members = Dict[str, Any]                # of a machine file
Containers = Dict[str, Dict[str, Any]]  # by its id a container's CPU section
Planned = Tuple[Any, Any]               # a machine and its answers, or nothing twice


def run_of(machine: Members, containers: Containers) -> Planned:
    """The answers where these containers are made and planned: pairs of a name and a CPU section."""
    path, lines = scratch("m.json"), []
    json.dump(machine, open(path, "w"))
    for name, section in containers.items():
        bundle = scratch("made", name)
        os.makedirs(bundle, exist_ok=True)
        config = {"ociVersion": "1.0.2", "root": {"path": "r"}, "linux": {"resources": {"cpu": section}}}
        json.dump(config, open(os.path.join(bundle, "config.json"), "w"))
        lines.append(f"create {name} {bundle}")
    one = Run(PROGRAM, path)
    try:
        for line in lines:
            if one.ask(line)[0].startswith("refused"):
                return None, None
        found = one.ask("rebalance") + one.ask("certificate")
    finally:
        one.close()
    planned = Machine(path)
    return planned, answers.Answers("-", planned, found)


def random_case(random: Random, threads: int) -> Tuple[Members, Containers]:
    """A machine of which each core has so many CPUs, and containers."""
    nodes, each = random.choice([(1, 6), (2, 5), (3, 4)])
    rows = [[10 if a == b else random.choice([12, 16, 21, 32]) for b in range(nodes)] for a in range(nodes)]
    containers, count = {}, nodes * each

    def cpus_of(cores: Iterable[int]) -> str:
        return lists.print_list({core + count * k for core in cores for k in range(threads)})

    machine = {"nodes": [cpus_of(range(each * k, each * k + each)) for k in range(nodes)], "distances": rows, "reserved": cpus_of([0])}
    if threads > 1:
        machine["cores"] = [cpus_of([core]) for core in range(count)]
    for k in range(random.randint(2, 5)):
        section = {"quota": 100000 * threads * random.randint(1, max(1, count // 3)), "mems": str(random.randrange(nodes))}
        if random.random() < 0.7:
            section["cpus"] = cpus_of(random.sample(range(1, count), random.randint(1, count // 3)))
        containers[f"c{k}"] = section
    return machine, containers


def plan_holds(machine: Members, containers: Containers, found: Answers, random: Random) -> Optional[str]:
    """What is said of a plan: one more for a container, and one more CPU, or core, like another."""
    told, total = found.certificates[0], found.plans[0].total
    of = Machine(scratch("m.json"))
    plan, threads = explain.Explained(told, of), of.threads
    for name in containers:
        least = int(plan.one_more(name).partition("would add ")[2].split()[0])
        more = copy.deepcopy(containers)
        more[name]["quota"] += 100000 * threads
        after = run_of(machine, more)[1]
        if after.outcomes and after.plans and after.plans[0].total < total + least:
            return f"{name} asks for one more: {after.plans[0].total} < {total} + {least}"
    text = "\n".join(line for name in told.demand for line in plan.lines(name))
    for cpus, worth in re.findall(r"another (?:CPU|core) like (\S+) would bring the total down by up to ([0-9]+)", text):
        like = random.choice(sorted(lists.read_list(cpus, "")))
        count, bigger, wider = len(lists.read_list(",".join(machine["nodes"]), "")), copy.deepcopy(machine), copy.deepcopy(containers)
        new = lists.print_list(range(count, count + threads))
        node = next(k for k, one in enumerate(machine["nodes"]) if like in lists.read_list(one, ""))
        bigger["nodes"][node] += f",{new}"
        if threads > 1:
            bigger["cores"].append(new)
        for section in wider.values():
            if "cpus" in section and like in lists.read_list(section["cpus"], ""):
                section["cpus"] += f",{new}"
        after = run_of(bigger, wider)[1].plans[0]
        if after.total < total - int(worth):
            return f"a CPU like {like}: {after.total} < {total} - {worth}"
    return None


def is_planned(machine: Members, containers: Containers) -> bool:
    return bool(run_of(machine, containers)[1].plans)


def smaller(containers: Containers, name: str, count: int) -> Containers:
    """The containers with this count for one, which is gone where it is none."""
    fewer = copy.deepcopy(containers)
    if count:
        fewer[name]["quota"] = 100000 * count
    else:
        del fewer[name]
    return fewer


def shortage_heals(machine: Members, containers: Containers, text: str, threads: int) -> Optional[str]:
    """What is said to make room makes room, and one CPU, or core, less of it does not."""
    found = re.search(r"missing: ([0-9]+) CPUs?(?: for these, and ([0-9]+) in all)?", text)
    assert found
    missing = int(found[2] or found[1])
    for name, before, after in re.findall(r"^  end (\S+), or shrink it from ([0-9]+) to ([0-9]+)", text, re.M):
        if int(before) - int(after) != missing or not is_planned(machine, smaller(containers, name, int(after))):
            return f"{name} from {before} to {after} of {missing}"
        if is_planned(machine, smaller(containers, name, int(after) + threads)):
            return f"{name} from {before} to {int(after) + threads} is enough"
    for name in re.findall(r"^  end (\S+?)(?:,|$)", text, re.M):
        if not is_planned(machine, smaller(containers, name, 0)):
            return f"{name} ends"
    more = re.search(r"so do all of these: allow (.*)", text)
    wider = copy.deepcopy(containers)
    for name, count, cpus in re.findall(r"(\S+) ([0-9]+) CPUs? more, as (\S+?),?(?= |$)", more[1]) if more else []:
        wider[name]["cpus"] += f",{cpus}"
    if more and not is_planned(machine, wider):
        return more[1]
    for name, count, cpus in re.findall(r"^  allow (\S+) ([0-9]+) CPUs? more, as (\S+?)(?:,$|, if.*)?$", text, re.M):
        wider = copy.deepcopy(containers)
        wider[name]["cpus"] += f",{cpus}"
        if int(count) != missing or len(lists.read_list(cpus, "")) != missing or not is_planned(machine, wider):
            return f"{name} is allowed {count}: {cpus}"
    together = re.search(r"being served first: shrink (.*)", text)
    fewer, taken = copy.deepcopy(containers), 0
    for name, before, after in re.findall(r"(\S+) from ([0-9]+) to ([0-9]+)", together[1]) if together else []:
        fewer, taken = smaller(fewer, name, int(after)), taken + int(before) - int(after)
    if together and (taken != missing or not is_planned(machine, fewer)):
        return f"together {together[1]}"
    return None if together or "makes room" in text else "nothing is said"


def tried_out(count: int, seed: int, threads: int = 1) -> None:
    """Random cases; how many were plans with far CPUs and shortages, so that enough are seen."""
    chance, seen = random.Random(seed), {"far": 0, "short": 0, "alone": 0, "allow": 0, "together": 0, "more": 0}
    for at in range(count):
        machine, containers = random_case(chance, threads)
        shutil.rmtree(scratch("made"), ignore_errors=True)
        of, found = run_of(machine, containers)
        if found is None:
            continue
        text = "\n".join(explain.explain(found.certificates[0], of))
        if found.plans:
            seen["far"] += "  another " in text
            wrong = explain.check_plan(found.certificates[0]) or plan_holds(machine, containers, found, chance)
        else:
            for word, said in [("short", "missing"), ("alone", "  end "), ("allow", "  allow "), ("together", "together make room"),
                               ("more", "so do all of these")]:
                seen[word] += said in text
            wrong = explain.check_shortage(found.certificates[0]) or shortage_heals(machine, containers, text, threads)
        if wrong:
            check(f"case {at} of seed {seed}: {wrong}", (machine, containers, text), None)
            return
    check(f"enough was seen: {seen}", min(seen.values()) >= 3, True)


@case
def large() -> None:
    """1,024 containers in a row, each with a CPU that the next one may have too, which are short of two CPUs. The first and the
    last can be ended: of one between, the two that are missing are not near enough to both its sides."""
    machine, rows = {"nodes": [f"{2048 * k}-{2048 * k + 2047}" for k in range(2)], "distances": [[10, 21], [21, 10]], "reserved": "0"}, []
    path = scratch("large.json")
    json.dump(machine, open(path, "w"))
    rows = [f"row c{k} 4 10:{max(1, 4 * k)}-{4 * k + 3},{4 * (k + 1) % 4096 or 1}" for k in range(1023)] + ["row c1023 5 10:4092-4095,1"]
    text = "\n".join(["numarun-certificate 1", *rows, *(f"short c{k}" for k in range(1024)), "end", ""])
    status, out, err = told("numarun-explain", path, text=text)
    said = ["missing: 2 CPUs", "  end c1023, or shrink it from 5 to 3 CPUs", "  end c0, or shrink it from 4 to 2 CPUs", "  (not tried of 976 others)"]
    check("a large shortage", (status, [line for line in said if line in out.splitlines()], err), (0, said, ""))


@long_case
def tried_out_by_chance() -> None:
    tried_out(60, 1)


@case
def tried_out_with_cores() -> None:
    tried_out(30, 7, threads=2)


@case
def refusals() -> None:
    for path, machine in ((SMALL, TINY), (CORES, PAIRS)):
        json.dump(machine, open(path, "w"))
    words_and_help("numarun-explain", "operators/numarun-explain examples/machines/two-socket.json")
    bad_files("numarun-explain", [], [ANSWERS])
    bad_files("numarun-explain", [MACHINE])
    bad_output("numarun-explain", MACHINE, ANSWERS)
    piped("numarun-explain", MACHINE, ANSWERS)
    refuses("numarun-explain", MACHINE, text="", says="standard input: line 1: the answers have no certificate: put the command `certificate`")
    refuses("numarun-explain", MACHINE, text=FAR + "plan total 10\nhold a 1\npool 0\nend\n", says="line 11: no certificate stands behind this outcome")
    refuses("numarun-explain", MACHINE, text=FAR.replace("end\n", ""), says="line 10: the certificate has no end")
    refuses("numarun-explain", SMALL, text=FAR.replace("4-7", "4-8"), says="line 2: the machine has no CPU 8")
    refuses("numarun-explain", CORES, text=FAR.replace("4-7", "4-8"), says="line 2: CPU 8 is the lowest of no core")
    refuses("numarun-explain", SMALL, text=FAR.replace("10:2", "10-2"), says="line 4: '10-2' is no offer")
    refuses("numarun-explain", SMALL, text=FAR.replace("row c", "row b"), says="line 4: 'row b 1 10:2' is no line of a certificate")
    for old, new, says in [("21:4-5", "21:3-5", "line 3: CPU 3 stands twice"), ("price 11 1-3", "price 11 1-3\nprice 0 3", "line 9: CPU 3 stands twice"),
                           ("hold b", "hold a", "line 6: 'hold a 1,4 21' is no line"), ("total 51", "total 51 moves 0", "line 9: 'total 51 moves 0' is no line")]:
        refuses("numarun-explain", SMALL, text=FAR.replace(old, new), says=says)
    refuses("numarun-explain", SMALL, text=SHORT.replace("short b", "short a"), says="line 6: 'short a' is no line of a certificate")
    refuses("numarun-explain", SMALL, text=FAR.replace("price 11", "price x"), says="line 8: 'x' is no number")
    refuses("numarun-explain", SMALL, "--only", "d", text=FAR, says="line 1: the certificate has no row 'd'")
