"""Tries by hand, without a process, what the parts of the agent decide: what a config asks for, which home a container gets, which groups of the
system are held, what is counted and kept, and what is said. Expected values are worked out by hand from the pages of operators/."""

from __future__ import annotations

import ast
import contextlib
import dataclasses
import json
import os
import re
from typing import Any, Dict, List, Mapping, Optional, Sequence, Tuple, Type

import mutants
from trial import OPERATORS, case, check, scratch, text_of, written
from numarun_host import cgroups, configs, homes, log, memory, placing, plans, pool, reports, sightings, slices, states, telling
from numarun_host.commands import Answer, Ask, Command, LeaveFigures, LeaveState, Level, LookAtPartition, RunPool, SaveTaken, Say, SetLimit, Start, Steps, T, Taken, Tell, Write
from numarun_host.configs import Demand, Pin
from numarun_host.cpus import Cpus, counted, print_list, read_list
from numarun_host.decide import answer_to_hook, at_the_end, decide, figures_of, reserved_of, squeezed_of
from numarun_host.ledger import Container, Kind, Ledger, Pause, Problem, Settings, Sighting, State, Topic, is_undone, report, say_unsaid
from numarun_host.machine import Machine
from numarun_host.partition import Layout, Loose, Partition
from numarun_host.script import Refused
from numarun_host.seen import Double, Folder, Found, Group, Look, Missing, NoGroup, Online, Told, Unread
from numarun_host.telling import Reply, Turn

# Four nodes of two cores with two CPUs each; 0 is at 15 from 1, and 2 from 3.
FOUR: Mapping[str, object] = {
    "nodes": ["0-3", "4-7", "8-11", "12-15"], "distances": [[10, 15, 30, 30], [15, 10, 30, 30], [30, 30, 10, 15], [30, 30, 15, 10]],
    "reserved": "0-1", "cores": [f"{cpu}-{cpu + 1}" for cpu in range(0, 16, 2)]}
EIGHT: Mapping[str, object] = {"nodes": ["0-7"], "distances": [[10]], "reserved": "0"}
QUOTA = 100000


ANSWERS = {"create": ["pid 2"], "adopt": ["pid 2"], "begin": ["plan total 0", "pool 0-7", "end"], "step": ["done"]}
Config = Mapping[str, object]


def machine_of(members: Mapping[str, object]) -> Machine:
    return Machine(written(scratch("machine.json"), json.dumps(members)))


def config_of(annotations: Optional[Mapping[str, object]] = None, env: object = None, **cpu: Any) -> Dict[str, object]:
    more = {**({"annotations": annotations} if annotations else {}), **({"process": {"env": env}} if env is not None else {})}
    return {"linux": {"resources": {"cpu": cpu}}, **more}


def asks(count: int, **cpu: Any) -> Dict[str, object]:
    return config_of(quota=count * QUOTA, period=QUOTA, **cpu)


def cpus(text: str) -> Cpus:
    return read_list(text, "")


def said(commands: Sequence[Command]) -> List[str]:
    return [command.line for command in commands if isinstance(command, Say)]


def done(steps: Steps[T], answers: Mapping[str, Sequence[str]] = {}, faults: Mapping[Type[object], str] = {}) -> Tuple[List[Command], T]:
    """What is yielded, and what it ends with; a line for numarun is answered as told here by itself, with the CPUs that are asked for behind it or
    without them, or by its first word, or by `ok`, and the commands of which a fault is named fail."""
    commands: List[Command] = []
    try:
        command = next(steps)
        while True:
            commands.append(command)
            line = command.line if isinstance(command, Ask) else f"{command.verb.value} {command.name}" if isinstance(command, Tell) else ""
            known: Dict[str, Sequence[str]] = {**ANSWERS, **answers}
            keys = (f"{line} {count_in(command)}", line, line.split(" ")[0])
            answer = next((known[key] for key in keys if key in known), ["ok"])
            command = steps.send(Answer(tuple(answer), why=faults.get(type(command))))
    except StopIteration as end:
        found: T = end.value
        return commands, found


def count_in(command: Command) -> int:
    """The CPUs that the quota of what is told asks for, or none."""
    config: Any = command.config if isinstance(command, Tell) else {}
    section = config.get("linux", {}).get("resources", {}).get("cpu", {})
    return int(section.get("quota", 0)) // int(section.get("period", QUOTA))


def sighting(path: str = "/t/a", config: Optional[Mapping[str, object]] = None, **group: object) -> Sighting:
    return Sighting(Told("/b", "/f"), ("s",), config or {}, Group(path, 1, **group))  # type: ignore[arg-type]


def container(name: str, state: State, given: Optional[int] = None, **more: object) -> Container:
    demand = Demand(asks(given) if given else {}, given)
    parts: Dict[str, object] = {"name": name, "seen": sighting(f"/t/{name}"), "state": state, "demand": demand, "given": demand, **more}
    return Container(**parts)  # type: ignore[arg-type]


def ledger_of(*containers: Container, members: Mapping[str, object] = EIGHT, **settings: object) -> Ledger:
    machine = machine_of(members)
    found = Ledger(Settings(machine, "m", **{"root": "/t", **settings}), frozenset(range(len(machine.nodes))))  # type: ignore[arg-type]
    found.reserved, found.running, found.started = machine.reserved, machine.present, True
    found.shown = found.running
    for one in containers:
        found.put(one)
    return found


# What decides.


@case
def opens_nothing() -> None:
    """What decides imports nothing by which a file is opened, a program begun or a clock read, and opens none itself."""
    package, pure = os.path.join(OPERATORS, "numarun_host"), {"__future__", "collections", "copy", "dataclasses", "enum", "functools", "json", "re", "typing", "zlib"}
    for module in (*mutants.DECIDE, "commands", "seen"):
        tree = ast.parse(text_of(os.path.join(package, f"{module}.py")))
        imported = [node for node in ast.walk(tree) if isinstance(node, ast.ImportFrom)]
        whole = {alias.name for node in ast.walk(tree) if isinstance(node, ast.Import) for alias in node.names} | {str(node.module) for node in imported if not node.level}
        parts = {f"{node.module}.{alias.name}" for node in imported if node.level for alias in node.names}
        names = {node.id for node in ast.walk(tree) if isinstance(node, ast.Name)}
        reads = {part for part in parts if part.startswith("script.") and part != "script.Refused"} | parts & {"cgroups.read_file", "taken.write_file"}
        check(f"what {module} needs", (whole - pure, reads, names & {"open", "print", "input", "exec"}), (set(), set(), set()))


# What a config asks for.


@case
def who_asks() -> None:
    """How many CPUs a config asks for, by the rule; in whole cores of two where the machine has such."""
    single, pairs = machine_of(EIGHT), machine_of(FOUR)
    pin = {"numarun.pin": "true"}
    table: Sequence[Tuple[Config, Machine, object]] = (
        (config_of(), single, (None, None, None)), ({}, single, (None, None, None)), (asks(2), single, (2, 2, None)),
        (config_of(quota=150000, period=QUOTA), single, (2, None, None)), (config_of(pin, quota=150000, period=QUOTA), single, (2, None, 2)),
        (config_of(pin, quota=QUOTA), single, (1, 1, 1)), (config_of(quota=1, period=QUOTA), single, (1, None, None)),
        (asks(3), pairs, (4, 4, None)), (asks(4), pairs, (4, 4, None)), (config_of(cpus="3-5"), single, (3, 3, None)),
        (config_of(cpus="0-2"), single, (2, 2, None)), (config_of(cpus="0"), single, (1, 1, None)), (config_of(cpus=" ,\t\n"), single, (None, None, None)),
        (config_of(cpus="2-5"), pairs, (4, 4, None)), (config_of(cpus="3-6"), pairs, (2, 2, None)), (config_of(pin, cpus="3-4"), single, (2, 2, 2)),
        (config_of(cpus=7), single, (None, None, None)), (config_of(quota=-1, period=QUOTA), single, (None, None, None)),
        (config_of(quota=0, period=QUOTA), single, (None, None, None)), (config_of(quota=True, period=QUOTA), single, (None, None, None)),
        (config_of(quota="2", period=QUOTA), single, (None, None, None)), (config_of(quota=QUOTA, period=-5), single, (None, None, None)),
        (config_of(quota=QUOTA, period=True), single, (None, None, None)), (config_of(quota=QUOTA, period=0), single, (1, 1, None)),
        (config_of(env=["NUMARUN_PIN=true"], quota=2 * QUOTA, period=QUOTA), single, (2, 2, 2)),
        (config_of(env=["NUMARUN_PIN=false"], quota=2 * QUOTA, period=QUOTA), single, (None, None, None)),
        (config_of({"numarun.pin": "false"}, cpus="3-5"), single, (None, None, None)), (config_of({"numarun.pin": "no"}, quota=QUOTA), single, (1, 1, None)),
    )
    for config, machine, expected in table:
        check(f"who asks: {config}", tuple(configs.asked(config, rule, machine) for rule in (Pin.ALL, Pin.WHOLE, Pin.ANNOTATED)), expected)
    try:
        configs.asked(config_of(cpus="x"), Pin.ALL, single)
        check("a list that is none", "taken", "refused")
    except Refused:
        pass


@case
def wishes() -> None:
    """What one says of itself: an annotation comes before the environment, and of that the last counts."""
    table: Sequence[Tuple[Config, object]] = (
        (config_of({"numarun.least": "3"}), "3"), (config_of({"numarun.least": 3}), None), (config_of(env=["NUMARUN_LEAST=1", "NUMARUN_LEAST=2"]), "2"),
        (config_of({"numarun.least": "3"}, env=["NUMARUN_LEAST=2"]), "3"), (config_of(env="NUMARUN_LEAST=2"), None), (config_of(env=[5, None]), None),
        (config_of(env=["XNUMARUN_LEAST=2", "NUMARUN_LEAST"]), None), (config_of(env=["NUMARUN_LEAST="]), ""), ({"annotations": []}, None),
    )
    for config, expected in table:
        check(f"least of {config}", configs.wish_of(config, configs.LEAST), expected)
    for text, least in (("2", 2), ("0", 1), ("x", 4), ("99999", 99999), ("100000", 4), ("", 4), ("\u0662", 4), ("-1", 4)):
        check(f"least {text!r}", configs.least_of(Demand(config_of({"numarun.least": text}), 4)), least)
    check("no wish", (configs.least_of(Demand({}, 4)), configs.least_of(Demand({}, None))), (4, 1))
    check("stays", [configs.stays(config_of({"numarun.stay": text})) for text in ("true", "false", "yes")], [True, False, False])


@case
def other_sections() -> None:
    """The configs that are told in place of one's own."""
    own = {"a": 1, "linux": {"b": 2, "resources": {"c": 3, "cpu": {"cpus": "1-2", "quota": 5, "mems": "0", "shares": 9}}}}
    section = {"quota": 2 * QUOTA, "period": QUOTA}

    def with_cpu(cpu: Mapping[str, object]) -> Dict[str, object]:
        return {"a": 1, "linux": {"b": 2, "resources": {"c": 3, "cpu": cpu}}}

    check("shared", configs.shared(own), Demand(with_cpu({"mems": "0", "shares": 9}), None))
    check("fewer", configs.fewer(Demand(own, 5), 2), Demand(with_cpu({"cpus": "1-2", "mems": "0", "shares": 9, **section}), 2))
    check("staying", configs.staying(Demand(own, 2), cpus("4-5")), Demand(with_cpu({"cpus": "4-5", "quota": 5, "mems": "0", "shares": 9}), 2))
    check("housed", configs.housed(own, cpus("1")), with_cpu({"cpus": "1-2", "quota": 5, "mems": "1", "shares": 9}))
    odd_ones: Sequence[Config] = ({"linux": 5}, {"linux": {"resources": 5}}, {"linux": {"resources": {"cpu": 5}}}, {"linux": [1]})
    for odd in odd_ones:
        check(f"no section: {odd}", configs.shared(odd), Demand(odd, None))
    check("none yet", configs.housed({"linux": None}, cpus("1")), {"linux": {"resources": {"cpu": {"mems": "1"}}}})
    check("bare", [configs.bare(cpus(a), cpus(b)).count for a, b in (("1-2", ""), ("", "0"), ("", ""))], [2, None, None])
    check("bare configs", [configs.bare(cpus(a), cpus(b)).config["linux"] for a, b in (("1-2", ""), ("", "0"))],
          [{"resources": {"cpu": {"cpus": "1-2"}}}, {"resources": {"cpu": {"mems": "0"}}}])
    check("bare ones are pinned by any rule", configs.asked(configs.bare(cpus("1-2"), cpus("")).config, Pin.ANNOTATED, machine_of(EIGHT)), 2)
    check("limited", configs.limited(own, (2 * QUOTA, QUOTA), None), with_cpu({"cpus": "1-2", "mems": "0", "shares": 9, **section}))
    check("limited in nodes", configs.limited(own, None, cpus("1")), with_cpu({"cpus": "1-2", "quota": 5, "mems": "1", "shares": 9}))
    check("not limited", configs.limited(own, None, cpus("")) is own, True)


@case
def limits() -> None:
    """Another limit of the group than the config's is followed, whatever the period; nodes and memory that are named."""
    table: Sequence[Tuple[Config, Optional[Tuple[int, int]], object]] = (
        (asks(2), (2 * QUOTA, QUOTA), None), (asks(2), (4 * QUOTA, 2 * QUOTA), None), (asks(2), (QUOTA, QUOTA), (QUOTA, QUOTA)), (asks(2), None, None),
        ({}, (QUOTA, QUOTA), (QUOTA, QUOTA)), (config_of(quota=QUOTA), (QUOTA, QUOTA), None), (config_of(quota="x"), (QUOTA, QUOTA), (QUOTA, QUOTA)),
        (config_of(quota=QUOTA, period="x"), (QUOTA, QUOTA), (QUOTA, QUOTA)),
    )
    for config, limit, expected in table:
        check(f"the limit of {config} with {limit}", configs.other_limit(config, limit), expected)
    check("nodes", [configs.nodes_named(config_of(mems=text)) for text in ("0-1", "x", 5, "")], [cpus("0-1"), cpus(""), cpus(""), cpus("")])
    present = cpus("0-7")
    check("CPUs", [configs.cpus_allowed(config_of(cpus=text), present) for text in ("1-2", " \n", 5)], [cpus("1-2"), present, present])
    memory: Sequence[Config] = [*({"linux": {"resources": {"memory": {"limit": limit}}}} for limit in (5, 0, -1, True, "5")), {}]
    check("memory", [configs.memory_asked(config) for config in memory], [5, 0, 0, 0, 0, 0])
    for text in ("[]", "5", "{", "[" * 100000, '"x"', "\0"):
        try:
            configs.parse_text(text, "p")
            check(f"no object: {text[:5]}", "taken", "refused")
        except Refused as why:
            check(f"named: {text[:5]}", str(why).startswith("p: "), True)


# Homes.


@case
def near_nodes() -> None:
    """The fewest nodes, the near ones of these, and those with the least to spare; memory counts where it is known of all."""
    machine, gib = machine_of(FOUR), 1 << 30
    free = machine.present - machine.reserved
    nine = {node: 9 * gib for node in range(4)}

    def home(count: int, taken: str = "", memory: Optional[Mapping[int, Optional[int]]] = None, limit: int = 0, **named: object) -> Optional[Cpus]:
        config = {"linux": {"resources": {"memory": {"limit": limit * gib}, "cpu": named}}}
        return homes.home_of(machine, config, count, free - cpus(taken), nine if memory is None else memory)

    check("homes", [home(count) for count in (1, 2, 3, 4, 5, 6, 7, 8, 10, 14, 15)],
          [cpus(text) for text in ("0", "0", "1", "1", "0-1", "0-1", "2-3", "2-3", "0-2", "0-3")] + [None])
    check("named ones", (home(2, mems="0"), home(2, mems="x")), (None, None))
    check("most memory of those that are alike", home(4, memory={0: gib, 1: gib, 2: 3 * gib, 3: 2 * gib}), cpus("2"))
    check("enough memory", (home(2, limit=9), home(2, limit=10), home(2, limit=37)), (cpus("0"), cpus("0-1"), None))
    check("not known of one", home(2, memory={0: None, 1: gib, 2: gib, 3: gib}, limit=5), cpus("0"))
    check("no longer free", (home(4, "4-5"), home(4, "4-5,8-9,12-13"), home(2, "2-15")), (cpus("2"), cpus("0-1"), None))
    far = machine_of({**FOUR, "distances": [[10 if a == b else 30 if {a, b} == {1, 2} else 20 for b in range(4)] for a in range(4)]})
    check("the nearer one of two", homes.home_of(far, {}, 7, cpus("4-7,8-11,12-15"), nine), cpus("1,3"))
    flat = machine_of({name: member for name, member in FOUR.items() if name != "distances"})
    check("no distances", homes.home_of(flat, {}, 8, cpus("4-15"), nine), cpus("1-2"))
    check("one node", homes.home_of(machine_of(EIGHT), {}, 2, cpus("1-7"), {}), None)
    row = machine_of({"nodes": ["0-1", "2-3", "4-5", "6-7"], "distances": [[10 + 5 * abs(a - b) for b in range(4)] for a in range(4)], "reserved": "0"})
    check("two that are whole, and not three in the order of distance", homes.home_of(row, {}, 4, cpus("1,2-3,4-5,7"), nine), cpus("1-2"))
    no_cpus = machine_of({"nodes": ["0-3", "", "4-7"], "reserved": "0"})
    check("a node without CPUs", homes.home_of(no_cpus, {}, 5, cpus("1-7"), {}), cpus("0,2"))


@case
def free_bytes() -> None:
    machine = machine_of({"nodes": ["0-3", "", "4-7"], "reserved": "0"})
    for node, text in ((0, "Node 0 MemTotal: 9 kB\nNode 0 MemFree:  5 kB\n"), (1, "Node 1 MemFree: 7 kB\n")):
        os.makedirs(scratch("nodes", f"node{node}"))
        written(scratch("nodes", f"node{node}", "meminfo"), text)
    check("free memory", memory.free_memory(scratch("nodes"), machine), {0: 5120, 2: None})
    for line, kib in (("Active(file): 10 kB", 15), ("Inactive(file): 20 kB", 35), ("SReclaimable: 40 kB", 75), ("KReclaimable: 80 kB", 115), ("FilePages: 999 kB", 115),
                      ("Active(anon): 999 kB", 115), ("Active: 999 kB", 115), ("Slab: 999 kB", 115)):
        with open(scratch("nodes", "node0", "meminfo"), "a") as file:
            file.write(f"Node 0 {line}\n")
        check(f"and what the kernel can free: {line}", memory.free_of(scratch("nodes"), 0), kib * 1024)
    written(scratch("nodes", "node0", "meminfo"), "Node 0 Active(file): 5 kB\n")
    check("none told", memory.free_of(scratch("nodes"), 0), None)
    check("beside its own", homes.beside({0: 5, 1: None, 2: 7}, {0: 3, 1: 4, 3: 9}), {0: 8, 1: None, 2: 7})
    check("room", [homes.has_room({0: 5, 1: 7, 2: None}, nodes, 12) for nodes in ((0, 1), (0,), (1, 2))], [True, False, True])
    os.makedirs(scratch("group"))
    check("no file", cgroups.memory_by_node(scratch("group")), {})
    written(scratch("group", "memory.numa_stat"), "anon N0=1 N1=2\nfile N0=4 N1=8\ninactive_anon N0=16 N1=32\nactive_anon N0=64 N1=128\nactive_file N0=256\nunevictable N1=512\n")
    check("what a group has", cgroups.memory_by_node(scratch("group")), {0: 80, 1: 672})


@case
def chosen_homes() -> None:
    """A device's node, the nodes of the CPUs that one has already, or those where there is room that is promised to nobody."""
    ledger = ledger_of(members=FOUR)
    turn = Turn(ledger, Look(0.0, free_memory={node: 1 << 30 for node in range(4)}))

    def home(config: Mapping[str, object], count: int = 2, near: Optional[int] = None, has: str = "") -> Optional[Cpus]:
        turn.spare = None
        seen = dataclasses.replace(sighting(config=config, cpus=cpus(has)), near=near)
        return placing.choose_home(turn, seen, config, count)

    check("a device", [home({}, near=node) for node in (3, 7)], [cpus("3"), cpus("0")])
    check("one that names nodes", home(config_of(mems="2"), near=3), None)
    check("its own CPUs", [home({}, has=text) for text in ("12-13", "12,8", "0,12", "12-14")], [cpus("3"), cpus("2-3"), cpus("0"), cpus("0")])
    check("CPUs that it may have", home(config_of(cpus="12-15")), cpus("3"))
    check("nowhere in particular", home({}, count=14), None)
    ledger.put(container("p", State.PINNED, 2, cpus=cpus("2-3")))
    check("one has them", home({}), cpus("1"))
    ledger.put(dataclasses.replace(container("q", State.ASKING, 4, cpus=cpus("0-1")), given=Demand(asks(4, mems="1"), 4)))
    check("and one is promised them", home({}), cpus("2"))
    ledger.put(container("s", State.SHARED, cpus=cpus("8-11")))
    check("who is on the pool keeps nobody off", home({}), cpus("2"))
    turn.ledger = ledger_of(members=FOUR, homes=False)
    check("--home none", home({}), None)
    turn.ledger = ledger_of(members={"nodes": ["0-3", "4-7"], "distances": [[10, 21], [21, 10]], "reserved": "0"})
    check("of two nodes", [home({}, count) for count in (3, 4, 5)], [cpus("0"), cpus("1"), None])
    turn.ledger = ledger_of()
    check("of one", (home({}), home({}, near=0)), (None, None))


@case
def homes_by_memory() -> None:
    """A home has room for the memory limit, beside what the container has there already; where it has none for want of memory that is said once."""
    gib, ledger = 1 << 30, ledger_of(members=FOUR)
    turn = Turn(ledger, Look(0.0, free_memory={node: gib for node in range(4)}))

    def demand(limit: int, has: str = "", own: Mapping[int, int] = {}, **named: object) -> Tuple[str, bool]:
        turn.spare = None
        section: Dict[str, object] = {"quota": 2 * QUOTA, "period": QUOTA, **named}
        config = {"linux": {"resources": {"cpu": section, "memory": {"limit": limit * gib}}}}
        found = placing.demand_of(turn, dataclasses.replace(sighting(config=config, cpus=cpus(has)), memory=own))
        return print_list(configs.nodes_named(found.config)), found.lacks_memory

    check("by its limit", [demand(limit) for limit in (1, 2, 3, 4, 5)], [("0", False), ("0-1", False), ("0-2", False), ("-", True), ("-", True)])
    check("beside its own", [demand(9, own={3: 8 * gib}), demand(9, own={3: 7 * gib}), demand(9, own={3: 4 * gib})], [("3", False), ("2-3", False), ("-", True)])
    check("where its CPUs are", [demand(1, "12-13"), demand(2, "12-13"), demand(2, "12-13", {3: gib}), demand(0, "12-13")], [("3", False), ("-", True), ("3", False), ("3", False)])
    check("nodes that it names", demand(9, mems="1"), ("1", False))
    turn.look = Look(0.0, free_memory={0: gib, 1: gib, 2: gib, 3: None})
    check("not known of one", demand(9), ("3", False))
    config = {"linux": {"resources": {"memory": {"limit": 3 * gib // 2}}}}
    ledger.put(container("a", State.ASKING, 2, demand=Demand(config, 2, lacks_memory=True)))
    lines = [said(done(placing.say_home(ledger, "a"))[0]) for _ in range(2)]
    check("said once", lines, [["note no home for a: no node where it could be has the 1.5 GiB of its memory limit"], []])


@case
def demands() -> None:
    """What is told of a container: its home with it; of one that is stopped, or not pinned by the rule, no CPUs."""
    turn = Turn(ledger_of(members=FOUR, pin=Pin.WHOLE), Look(0.0))
    seen = sighting(config=asks(2))
    check("with a home", placing.demand_of(turn, seen), Demand(asks(2, mems="0"), 2))
    check("with its own", placing.demand_of(turn, seen, cpus("3")), Demand(asks(2, mems="3"), 2))
    check("stopped", placing.demand_of(turn, dataclasses.replace(seen, stopped=True)), Demand(config_of(), None))
    half = config_of(quota=50000, period=QUOTA)
    check("not by the rule", placing.demand_of(turn, sighting(config=half)), Demand(config_of(), None))
    check("left out", [placing.demand_of(turn, sighting(config={**asks(2, cpus="2-3"), **left})) for left in ({"annotations": {"numarun.pin": "false"}},)],
          [Demand({**config_of(), "annotations": {"numarun.pin": "false"}}, None)])
    check("asks for none", placing.demand_of(turn, sighting(config=config_of(mems="1"))), Demand(config_of(mems="1"), None))
    check("refused by numarun", placing.demand_of(turn, sighting(config=config_of(cpus="x"))), Demand(config_of(cpus="x"), None))
    check("by its group", placing.demand_of(turn, dataclasses.replace(seen, limit=(4 * QUOTA, QUOTA), nodes=cpus("2"))), Demand(asks(4, mems="2"), 4))
    ledger = ledger_of(container("p", State.PINNED, 2, cpus=cpus("2-3")), container("w", State.WAITING, None, cpus=cpus("0")))
    turn = Turn(ledger, Look(0.0))
    check("free CPUs", placing.free_cpus(turn), cpus("0-1,4-7"))
    ledger.running = cpus("1-5")
    check("of those that run, and the reserved ones", placing.free_cpus(turn), cpus("0-1,4-5"))


@case
def homes_said() -> None:
    """A home is said once, and that of a device with its name; a list of nodes that one has itself is no home."""
    near = config_of({"numarun.near": "eth0"}, quota=QUOTA)
    table: Sequence[Tuple[Config, Config, Optional[Cpus], Optional[int], object]] = (
        ({}, asks(1, mems="1"), None, None, (["home a 1"], cpus("1"))), ({}, asks(1, mems="1"), cpus("1"), None, ([], cpus("1"))),
        ({}, asks(1, mems="1"), cpus("2"), None, (["home a 1"], cpus("1"))), ({}, asks(1), cpus("1"), None, ([], None)),
        (config_of(mems="1"), asks(1, mems="1"), None, None, ([], None)), (near, asks(1, mems="2"), None, 2, (["home a 2: eth0 is there"], cpus("2"))),
        (near, asks(1, mems="2"), None, 3, (["home a 2: eth0 is at node 3, whose memory it may not have"], cpus("2"))),
        (near, asks(1, mems="2"), None, None, (["home a 2: eth0 is at no node of this machine"], cpus("2"))),
    )
    for config, demand, had, near_node, expected in table:
        one = container("a", State.PINNED, 1, home=had, demand=Demand(demand, 1), seen=dataclasses.replace(sighting(config=config), near=near_node))
        ledger = ledger_of(one)
        commands, _ = done(placing.say_home(ledger, "a"))
        check(f"the home of {config} {demand} {had}", (said(commands), ledger.containers["a"].home), expected)


# What is said.


@case
def lines_of_the_log() -> None:
    """A line has its time before it, or its priority where standard output is journald's stream; what is no printable sign is escaped."""
    before = os.environ.pop("JOURNAL_STREAM", None)
    for journal in (False, True):
        with open(scratch("stream"), "w+", encoding="utf-8") as stream, contextlib.redirect_stdout(stream):
            at = os.fstat(stream.fileno())
            os.environ["JOURNAL_STREAM"] = f"{at.st_dev}:{at.st_ino if journal else at.st_ino + 1}"
            logger = log.logger()
            for level, line in ((Level.INFO, "done"), (Level.NOTICE, "note a"), (Level.WARNING, "waits a\nb\x1b")):
                log.say(logger, line, level)
            stream.seek(0)
            lines = stream.read().splitlines()
        if journal:
            check("in the journal", lines, ["<6>done", "<5>note a", "<4>waits a\\nb\\x1b"])
        else:
            stamped = [re.fullmatch(r"\d{4}-\d\d-\d\dT\d\d:\d\d:\d\d\.\d{3} (.*)", line) for line in lines]
            check("elsewhere", [line and line[1] for line in stamped], ["done", "note a", "waits a\\nb\\x1b"])
    del os.environ["JOURNAL_STREAM"]
    if before is not None:
        os.environ["JOURNAL_STREAM"] = before


@case
def floors_of_the_pool() -> None:
    """A number of CPUs, or a part of the machine in whole cores, of which two are kept at least."""
    single, pairs = machine_of(EIGHT), machine_of(FOUR)
    large = machine_of({"nodes": ["0-255"], "reserved": "0"})
    for text, expected in (("0", (0, 0, 0)), ("3", (3, 3, 3)), ("0%", (0, 0, 0)), ("1%", (2, 4, 3)), ("10%", (2, 4, 26)), ("26%", (3, 6, 67)), ("50%", (4, 8, 128)),
                           ("100%", (8, 16, 256))):
        check(f"a pool of {text}", tuple(pool.pool_least_of(text, machine) for machine in (single, pairs, large)), expected)
    words = ("0", "9999", "7%", "99%", "100%", "10000", "101%", "-1", "", "%", "5%%", "1.5", " 1", "\u0661")
    check("what is none", [word for word in words if pool.is_pool_least(word)], ["0", "9999", "7%", "99%", "100%"])


# The system's own groups.


@case
def ids_of_groups() -> None:
    for group, expected in (("system.slice", "system.slice"), ("a/b", "a+b"), ("a" * 64, "a" * 64), (".", ".-"), ("..", "..-")):
        check(f"an id of {group[:9]}", slices.id_of(group)[:len(expected)], expected)
    check("as long as an id may be", len(slices.id_of("a" * 65)), 64)
    for group in ("a b", "a" * 65, "system.slice/a@b", "ä"):
        check(f"a digest for {group[:9]}", (slices.id_of(group)[-9], len(slices.id_of(group)) <= 64), ("-", True))
    check("below", [slices.is_below(path, above) for path, above in (("/t/a", "/t"), ("/t", "/t"), ("/ta", "/t"), ("/t/a", "/t/a/b"))], [True, False, False, False])


def tree(**groups: str) -> Dict[str, Group]:
    """Groups below /t, with + between names, each with what it requests."""
    return {f"/t/{name.replace('__', '/').replace('_', '.')}": Group(f"/t/{name.replace('__', '/').replace('_', '.')}", 1, cpus(text)) for name, text in groups.items()}


@case
def held_groups() -> None:
    """A group above a pinned container is let go, those beside the way are held, and what is below a container is its own."""
    groups = tree(s_slice="", s_slice__a="", s_slice__b="", u_slice="")
    below = {"/t/s.slice": ("a", "b"), "/t/s.slice/b": ()}
    ledger, named = ledger_of(), ("s.slice", "u.slice", "gone.slice")
    turn = Turn(ledger, Look(0.0, groups=groups, slices=named, below=below))
    check("nobody is below", sorted(slices.rest_of(turn)[0]), ["s.slice", "u.slice"])
    turn.there["c"] = sighting("/t/s.slice/b/c", asks(1))
    rest, on_the_way = slices.rest_of(turn)
    check("one is below", (sorted(rest), on_the_way), (["s.slice+a", "u.slice"], {"/t/s.slice": "c", "/t/s.slice/b": "c"}))
    turn.there["c"] = sighting("/t/s.slice/b/c")
    check("one that asks for none", sorted(slices.rest_of(turn)[0]), ["s.slice", "u.slice"])
    turn.there["c"] = sighting("/t/s.slice/b/c", config_of(cpus="x"))
    check("one that is refused", sorted(slices.rest_of(turn)[0]), ["s.slice", "u.slice"])
    ledger.put(container("c", State.PINNED, 1))
    check("one that is told", sorted(slices.rest_of(turn)[0]), ["s.slice+a", "u.slice"])
    turn.there["d"] = sighting("/t/u.slice")
    check("a container is none of them", sorted(slices.rest_of(turn)[0]), ["s.slice+a"])
    others = {"/t/u.slice": NoGroup("no cpuset.cpus in it", folder=True), "/t/gone.slice": NoGroup("gone")}
    turn.look = Look(0.0, groups={**groups, **others}, slices=named, below=below)
    del turn.there["d"]
    found = slices.rest_of(turn)[0]
    check("without a file", (isinstance(found["u.slice"], Missing), "gone.slice" in found), (True, False))
    check("told as shared", [isinstance(one, Found) and one.config == configs.REST and one.told.is_system for name, one in found.items() if name != "u.slice"], [True])
    check("no groups are named", slices.rest_of(Turn(ledger_of(), Look(0.0))), ({}, {}))


@case
def groups_let_go() -> None:
    """A group that is held no more has all CPUs; where that fails the reason is said once."""
    groups = tree(s_slice="0,3", u_slice="0-7", w_slice="", v="0,3")
    ledger = ledger_of()
    ledger.taken = {path: Taken(1, "", "", path != "/t/v") for path in groups}
    turn = Turn(ledger, Look(0.0, groups=groups, slices=("s.slice", "u.slice", "w.slice")))
    commands, _ = done(slices.let_go(turn))
    writes = [(command.path, command.file, command.text) for command in commands if isinstance(command, Write)]
    check("writes", writes, [("/t/s.slice", "cpuset.cpus", ""), ("/t/s.slice", "cpuset.mems", "")])
    check("is said", said(commands), ["all CPUs for /t/s.slice"])
    turn.on_the_way = {"/t/s.slice": "c"}
    check("for whom", said(done(slices.let_go(turn))[0]), ["all CPUs for /t/s.slice: c is below it"])
    turn.there["x"] = sighting("/t/s.slice")
    check("one that is held", said(done(slices.let_go(turn))[0]), [])
    del turn.there["x"]
    tried = tried_again(slices.let_go(turn))
    check("one that can't be written", (said(tried), [one.text for one in tried if isinstance(one, Write)]),
          (["refused /t/s.slice: c is below it, and gets no CPUs: busy"], ["", "0-7"]))
    check("said once", said(tried_again(slices.let_go(turn))), [])
    turn.on_the_way = {}
    check("nobody is below: it is silent", said(tried_again(slices.let_go(turn))), [])
    free = Turn(ledger_of(), Look(0.0, groups=tree(s_slice="0-7", x_slice="0,3"), slices=("s.slice", "x.slice", "gone.slice"), busy=frozenset({"/t/x.slice"})))
    free.on_the_way = {"/t/x.slice": "c", "/t/gone.slice": "c"}
    free.ledger.problems[Topic.SLICE, "/t/s.slice"], free.ledger.taken = Problem(Kind.REFUSED, "/t/s.slice", ""), {"/t/s.slice": Taken(1, "", "", True), "/t/v": Taken(1, "", "", True)}
    commands, _ = done(slices.let_go(free))
    check("on the way, though nothing was taken of it", said(commands), ["all CPUs for /t/x.slice: c is below it",
                                                                          "refused /t/x.slice: it can't be on the pool, since c is below it; its own processes run on all CPUs"])
    check("one that has all", (Topic.SLICE, "/t/s.slice") in free.ledger.problems, False)


def tried_again(steps: Steps[T]) -> List[Command]:
    """What is yielded where no write is taken."""
    return done(steps, faults={Write: "busy"})[0]


@case
def given_back() -> None:
    """What a group requested before is written again, of what could be read; an empty list that is not taken is all of the machine."""
    ledger = ledger_of(members=FOUR)
    turn = Turn(ledger, Look(0.0))
    for taken, whole, expected in (
        (Taken(1, "1-2", "0", True), False, [("cpuset.cpus", "1-2"), ("cpuset.mems", "0")]), (Taken(1, "1-2", None, True), False, [("cpuset.cpus", "1-2")]),
        (Taken(1, "1-2", "0", True), True, [("cpuset.cpus", ""), ("cpuset.mems", "")]), (None, False, [("cpuset.cpus", ""), ("cpuset.mems", "")]),
    ):
        ledger.taken = {"/t/a": taken} if taken else {}
        commands, why = done(slices.give_back(turn, "/t/a", whole))
        check(f"given back {taken}", ([(one.file, one.text) for one in commands if isinstance(one, Write)], why), (expected, None))
    ledger.taken = {}
    commands = tried_again(slices.give_back(turn, "/t/a"))
    check("an empty list is not taken", [(one.file, one.text) for one in commands if isinstance(one, Write)], [("cpuset.cpus", ""), ("cpuset.cpus", "0-15")])
    beside = Turn(ledger, Look(0.0, online=Online(cpus("0-6,8-15"), apart=cpus("7"))))
    commands = tried_again(slices.give_back(beside, "/t/a"))
    check("not the CPU of a partition", [one.text for one in commands if isinstance(one, Write)], ["", "0-6,8-15"])
    ledger.taken = {"/t/a": Taken(1, "1-2", "0", True)}
    commands = tried_again(slices.give_back(turn, "/t/a"))
    check("another one", [(one.file, one.text) for one in commands if isinstance(one, Write)], [("cpuset.cpus", "1-2")])


@case
def processes_on_the_way() -> None:
    ledger = ledger_of()
    turn = Turn(ledger, Look(0.0, busy=frozenset({"/t/s", "/t/other"})))
    turn.on_the_way = {"/t/s": "c", "/t/u": "c"}
    line = "refused /t/s: it can't be on the pool, since c is below it; its own processes run on all CPUs"
    check("said", said(done(slices.say_processes(turn))[0]), [line])
    check("once", said(done(slices.say_processes(turn))[0]), [])
    turn.on_the_way = {}
    done(slices.say_processes(turn))
    check("and no more", ledger.problems, {})


# What is known.


@case
def pauses() -> None:
    """They double up to 64 times the first one."""
    ledger, lengths = ledger_of(pause=0.1), []
    for _ in range(9):
        ledger.begin_pause("plan", "", 100.0)
        lengths.append(ledger.pauses["plan", ""].length)
    check("lengths", [round(length, 2) for length in lengths], [0.1, 0.2, 0.4, 0.8, 1.6, 3.2, 6.4, 6.4, 6.4])
    check("over", [ledger.is_over("plan", "", now) for now in (100.0, 106.3, 106.4)] + [ledger.is_over("plan", "x", 0.0)], [False, False, True, True])
    ledger.end_pause("plan")
    ledger.begin_pause("plan", "", 100.0)
    check("anew", ledger.pauses["plan", ""], Pause(100.1, 0.1))
    short = ledger_of(pause=0.01)
    short.begin_pause("plan", "", 0.0)
    check("at least", short.pauses["plan", ""].length, 0.05)


@case
def problems() -> None:
    """What is left undone is said once as long as it is the same, and counts until it is done."""
    ledger = ledger_of()

    def tell(kind: Kind, text: str) -> List[str]:
        return said(done(report(ledger, Topic.CONTAINER, "a", kind, text))[0])

    check("said", [tell(Kind.WAITS, "x"), tell(Kind.WAITS, "x"), tell(Kind.WAITS, "y"), tell(Kind.FAILED, ": y")], [["waits x"], [], ["waits y"], ["failed: y"]])
    ledger.unsaid.add((Topic.CONTAINER, "a"))
    check("what was not said yet", [tell(Kind.FAILED, ": y"), tell(Kind.FAILED, ": y")], [["failed: y"], []])
    ledger.problems[Topic.PLAN, ""] = Problem(Kind.FAILED, "", "f")
    check("of a plan and of a container", (tell(Kind.FAILED, "f"), ledger.problem(Topic.CONTAINER, "a")), ([], Kind.FAILED))
    ledger.unsaid.add((Topic.PLAN, ""))
    del ledger.problems[Topic.CONTAINER, "a"]
    check("of one of which it was not said yet", tell(Kind.FAILED, "f"), ["failed f"])
    check("status", [is_undone(ledger, told) for told in (True, False)], [True, True])
    for kind, expected in ((Kind.WAITS, False), (Kind.KEEPS, False), (Kind.FEWER, False), (Kind.SHORT, True), (Kind.STAYS, True)):
        ledger.problems = {(Topic.CONTAINER, "a"): Problem(kind, "a", "")}
        check(f"told to end with {kind}", (is_undone(ledger, True), is_undone(ledger, False)), (expected, True))
    ledger.problems = {(Topic.CONTAINER, "a"): Problem(Kind.OUTSIDE, "a", "")}
    check("what is outside never counts", is_undone(ledger, False), False)
    ledger.problems = {}
    check("none", is_undone(ledger, False), False)
    for part, told in (("due", False), ("wrong", True)):
        setattr(ledger, part, True)
        check(part, (is_undone(ledger, True), is_undone(ledger, False)), (told, True))
        setattr(ledger, part, False)
    ledger.problems = {(Topic.STAYS, name): Problem(Kind.STAYS, name, name) for name in ("b", "a")}
    ledger.unsaid = set(ledger.problems)
    check("at the end", said(say_unsaid(ledger)), ["stays a", "stays b"])
    ledger.settle(Topic.STAYS, "a", Kind.WAITS)
    check("another kind is left", (Topic.STAYS, "a") in ledger.problems, True)
    ledger.settle(Topic.STAYS, "a", Kind.STAYS)
    check("done", (list(ledger.problems), ledger.unsaid), ([(Topic.STAYS, "b")], {(Topic.STAYS, "b")}))
    ledger.refused["b"] = ledger.blocking["b"] = sighting()
    ledger.pauses["container", "b"] = Pause(1, 1)
    ledger.forget("b", Topic.DRIFT)
    check("of one topic", (list(ledger.problems), ledger.refused, ledger.blocking, ledger.pauses), ([(Topic.STAYS, "b")], {}, {}, {}))
    ledger.forget("b")
    check("forgotten", (ledger.problems, ledger.unsaid), ({}, set()))


@case
def copies() -> None:
    """What is decided at a look leaves what was known before as it was."""
    before = ledger_of(container("a", State.SHARED))
    copy = before.copy()
    copy.containers.clear()
    copy.problems[Topic.LOOK, ""] = Problem(Kind.FAILED, "", "")
    copy.unsaid.add((Topic.LOOK, ""))
    copy.taken["/t"] = copy.renewed["/t"] = Taken(1, "", "", False)
    check("as it was", (list(before.containers), before.problems, before.unsaid, before.taken), (["a"], {}, set(), {}))
    check("parts of both", [name for name, part in vars(before.copy()).items() if isinstance(part, (dict, set, list)) and part is getattr(before, name)], [])
    check("titles", (copy.title("x"), dataclasses.replace(copy, titles={"x": "y"}).title("x")), ("x", "y"))
    before.renewed = {"/t/a": Taken(1, "1", "", False), "/t/b": Taken(2, "2", "", False)}
    before.taken = {"/t/a": Taken(3, "3", "", False)}
    check("what is kept", [taken.inode for taken in before.all_taken.values()], [3, 2])


# A look.


@case
def reserved_cores() -> None:
    """The machine file's, while one of them runs; else those of the lowest whole core, and these as long as one of them runs."""
    machine = machine_of(FOUR)
    for running, before, expected in (("0-15", "", "0-1"), ("1-15", "", "0-1"), ("2-15", "", "2-3"), ("3-15", "", "4-5"), ("2-15", "4-5", "4-5"),
                                      ("2-3,6-15", "4-5", "2-3"), ("3,5,7", "", "2-3"), ("", "", "0-1")):
        check(f"reserved of {running}, {before}", reserved_of(machine, cpus(running), cpus(before)), cpus(expected))


def looked(ledger: Ledger, answers: Mapping[str, Sequence[str]] = {}, faults: Mapping[Type[object], str] = {}, **look: object) -> Tuple[List[Command], Ledger]:
    parts = {"now": 10.0, "online": Online(ledger.running), **look}
    return done(decide(ledger, Look(**parts)), answers, faults)  # type: ignore[arg-type]


def as_given(held: Container, **parts: Any) -> Found:
    """A container that is there, and requests what it was given."""
    group = dataclasses.replace(held.seen.group, cpus=held.cpus or frozenset(), populated=True)
    return dataclasses.replace(Found(held.seen.told, held.seen.stamp or (), held.seen.config, group), **parts)


def lines_asked(commands: Sequence[Command]) -> List[str]:
    return [command.line for command in commands if isinstance(command, Ask)]


@case
def when_planned() -> None:
    """A plan is worked out at once where something happens, whatever failed before: a CPU goes, an event asks for it, somebody comes, has gone or
    asks for other CPUs. Else a plan that is due waits for its pause, and an update that failed for its own."""
    one = container("p", State.PINNED, 1, cpus=cpus("1"))
    there, other = as_given(one), Found(Told("/n", "/n"), ("s",), {}, Group("/t/n", 1))

    def asks_for_a_plan(told: Mapping[str, Found] = {"p": there}, **parts: Any) -> Tuple[bool, bool]:
        ledger = ledger_of(one)
        ledger.due, ledger.pauses = True, {("plan", ""): Pause(99.0, 1.0)}
        look = {name: parts.pop(name) for name in ("online", "events") if name in parts}
        for name, part in parts.items():
            setattr(ledger, name, part)
        groups = {found.group.path: found.group for found in told.values()}
        commands, after = looked(ledger, told=told, groups=groups, **look)
        return "begin direct" in lines_asked(commands), after.unmade

    plan, none = (True, False), (False, False)
    check("in the pause", asks_for_a_plan(), none)
    check("behind it", asks_for_a_plan(pauses={}), plan)
    check("not due", asks_for_a_plan(pauses={}, due=False), none)
    check("a CPU goes", asks_for_a_plan(online=Online(cpus("0-6"))), plan)
    check("an event", asks_for_a_plan(events=("rebalance",)), plan)
    check("somebody comes", asks_for_a_plan({"p": there, "n": other}), plan)
    check("one has gone", asks_for_a_plan({}), plan)
    more, same = dataclasses.replace(there, stamp=("t",), config=asks(2)), as_given(container("q", State.PINNED, 1, cpus=cpus("3")))
    check("one asks for more", asks_for_a_plan({"p": more}), plan)
    check("one asks for more, and another one not", asks_for_a_plan({"p": more, "q": same}, containers={"p": one, "q": container("q", State.PINNED, 1, cpus=cpus("3"))}), plan)
    check("while it ends", asks_for_a_plan(pauses={}, ending=True), none)
    for until, expected in ((10.0, plan), (10.1, (False, True))):
        check(f"an update that failed, until {until}", asks_for_a_plan(pauses={("update", ""): Pause(until, 1.0)}, due=False, unmade=True), expected)
    commands, _ = looked(ledger_of(), events=("rebalance", "offline 3"))
    check("numarun is told of CPUs alone", lines_asked(commands)[:1] + [line for line in lines_asked(commands) if "rebalance" in line], ["offline 3"])


@case
def begun_anew() -> None:
    """Where numarun has no pids left another run begins, which knows nobody: all are told again, as what they were, and a plan follows."""
    p, s = container("p", State.PINNED, 1, cpus=cpus("2")), container("s", State.SHARED, cpus=cpus("0-1,3-7"))
    ledger, none = ledger_of(p, s), frozenset[int]()
    ledger.spent = ledger.unmade = True
    ledger.taken, ledger.switched = {"/t/p": Taken(1, "", "", False)}, {3: "offline", 4: "online"}
    ledger.refused["r"], ledger.pauses, ledger.pool, ledger.tried = sighting("/t/r"), {("plan", ""): Pause(99.0, 1.0)}, cpus("0-7"), ["pool 0-7"]
    told = {"p": as_given(p), "s": as_given(s)}
    commands, after = looked(ledger, told=told, groups={found.group.path: found.group for found in told.values()})
    check("another run", [(start.reserved, start.offline, start.memory) for start in commands if isinstance(start, Start)], [(cpus("0"), none, cpus("0"))])
    check("all are told", [(tell.name, print_list(tell.cpus)) for tell in commands if isinstance(tell, Tell)][:1], [("p", "2")])
    check("the plan is said", [line for line in said(commands) if line.startswith(("pool", "done"))], ["pool 0-7", "done"])
    check("what is known", (after.before, after.known, after.spent, after.unmade, after.refused, after.switched),
          ({"p": ("/t/p", True), "s": ("/t/s", False)}, {"/t/p"}, False, False, {}, {}))
    for is_fixed, expected in ((True, ["offline 3"]), (False, [])):
        commands, _ = looked(ledger, online=Online(ledger.running, is_fixed=is_fixed))
        check(f"CPUs that events took away, {is_fixed}", [line for line in lines_asked(commands) if "line" in line], expected)
        check("a plan, though nobody is there", "begin direct" in lines_asked(commands), True)
    first = ledger_of()
    first.started = False
    commands, after = looked(first, events=("offline 5",))
    check("an event at the start", (lines_asked(commands)[0], "begin direct" in lines_asked(commands), after.before), ("offline 5", True, {}))
    first.started = False
    check("no event", "begin direct" in lines_asked(looked(first)[0]), False)
    bare = ledger_of(root=None)
    bare.started = False
    try:
        looked(bare, online=Online(cpus("")))
        check("no CPU, and no tree", "goes on", "refused")
    except Refused as why:
        check("no CPU, and no tree", str(why), "m: none of its CPUs is there")


@case
def settled() -> None:
    """Beside a plan: the system's groups that are held no more are let go, limits are lifted, and loose processes are named."""
    one, held = container("p", State.PINNED, 1, cpus=cpus("1")), Group("/t/s.slice", 1, cpus("0,3"))
    limited = as_given(one, group=Group("/t/p", 1, cpus("1"), limit=(QUOTA, QUOTA), populated=True))
    ledger = ledger_of(one, lift=True)
    ledger.taken = {"/t/s.slice": Taken(1, "", "", True), "/t/p": Taken(1, "", "", False)}
    look = {"told": {"p": limited}, "groups": {"/t/s.slice": held, "/t/p": limited.group}, "partition": Partition(None, loose=(Loose(7, "x", cpus("3")),))}
    for ending, expected in ((False, ([("cpuset.cpus", ""), ("cpuset.mems", "")], [SetLimit("/t/p", 1, None, (QUOTA, QUOTA))], ["loose 7 x: it may run on 3"])), (True, ([], [], []))):
        ledger.ending = ending
        commands, _ = looked(ledger, **look)  # type: ignore[arg-type]
        check(f"what is done, while it ends: {ending}", ([(each.file, each.text) for each in commands if isinstance(each, Write)], [each for each in commands if isinstance(each, SetLimit)],
                                                         [line for line in said(commands) if line.startswith("loose")]), expected)


@case
def partition_and_plan() -> None:
    """A partition gets more CPUs before a plan, and gives some up behind it, or where none is due."""
    for has, system, due, unmade, expected in (("1-5", "0", True, False, ["look 1-7", "plan"]), ("1-7", "0,6-7", True, False, ["plan", "look 1-5"]),
                                               ("1-7", "0,6-7", False, False, ["look 1-5"]), ("1-7", "0,6-7", False, True, ["plan", "look 1-5"])):
        ledger = ledger_of(partition=Layout(("/c/pinned",)), system=cpus(system))
        ledger.due, ledger.unmade = due, unmade
        seen = Partition("root", (cpus(has),), cpus(has), cpus("0-7") - cpus(has), way=((True, True), (True, True)))
        commands, _ = looked(ledger, partition=seen)
        steps = [f"look {print_list(each.cpus)}" if isinstance(each, LookAtPartition) else "plan" for each in commands
                 if isinstance(each, LookAtPartition) or isinstance(each, Ask) and each.line == "begin direct"]
        check(f"{has}, without {system}, {due} {unmade}", list(dict.fromkeys(steps)), expected)


@case
def left_for_others() -> None:
    """What is known is left where something of it is another one, and at the end, if there is a tree; the figures, if they are asked for. What can't
    be left is said once."""
    def left(commands: Sequence[Command]) -> List[object]:
        return [command.state["offline"] for command in commands if isinstance(command, LeaveState)]

    off = Online(cpus("0-6"))
    check("no news", (left(looked(ledger_of())[0]), left(looked(ledger_of(), online=off)[0]), left(looked(ledger_of(root=None), online=off)[0])), ([], ["7"], []))
    check("no figures", [command for command in looked(ledger_of())[0] if isinstance(command, LeaveFigures)], [])
    full = {LeaveState: "/run/status.json: full", LeaveFigures: "/figures: full"}
    commands, ledger = looked(ledger_of(figures="/figures"), faults=full, online=off)
    check("a full disk", said(commands)[-2:], ["failed /figures: full", "failed /run/status.json: full"])
    commands, ledger = looked(ledger, faults=full, online=Online(cpus("0-5")), now=20.0)
    check("said once", [line for line in said(commands) if line.startswith("failed")], [])
    commands, ledger = looked(ledger, online=off, now=30.0)
    check("done", ledger.problems, {})
    for root, expected in (("/t", [True]), (None, [])):
        check(f"at the end, {root}", [command.ended for command in at_the_end(ledger_of(root=root), told_to_end=False) if isinstance(command, LeaveState)], expected)
    for due, tried, told, line in (
        (True, ["hold a 1"], True, ["note the hand-over to the last plan has not ended: the next agent takes it up"]), (True, None, True, ["note a plan is due: the next agent begins with it"]),
        (True, ["hold a 1"], False, []), (False, None, True, [])):
        ledger = ledger_of()
        ledger.due, ledger.tried = due, tried
        check(f"due {due} {tried}, told to end {told}", said(at_the_end(ledger, told)), line)


@case
def kept_at_a_look() -> None:
    """What was kept of one before is kept as long as it is told of, or has a process. The list of an update is kept. Titles are the look's."""
    ledger = ledger_of()
    ledger.before, ledger.taken = {name: (f"/t/{name}", None) for name in ("told", "there", "gone")}, {"/t/there": Taken(1, "", "", False)}
    _, after = looked(ledger, told={"told": Missing(Told("/b", "/f"), "not JSON")}, groups={"/t/there": Group("/t/there", 1, cpus("2"), populated=True)})
    check("of one before", sorted(after.before), ["there", "told"])
    one = container("a", State.PINNED, 1, cpus=cpus("1"))
    ledger = ledger_of(one)
    ledger.taken = {"/t/a": Taken(1, "5", "", False)}
    found = as_given(one, told=Told("/b", "/f", listed="1"))
    commands, after = looked(ledger, told={"a": found}, groups={"/t/a": found.group})
    check("an update's list", [command.groups["/t/a"] for command in commands if isinstance(command, SaveTaken)][-1:], [Taken(1, "1", "", False, None, True)])
    commands, _ = looked(after, titles={"a": "web(a)"})
    check("titles", [line for line in said(commands) if line.startswith("ended")], ["ended web(a)"])


@case
def silent_folders() -> None:
    """A folder that is not there is named at once, and one without containers at the second look; each once."""
    ledger, lines = ledger_of(), []
    ledger.due = False
    looks = [Folder("/f", False), Folder("/f", False), Folder("/f", True, 2, 0, "x"), Folder("/f", True, 2, 0, "x"), Folder("/f", True, 2, 0, "x"),
             Folder("/f", True, 2, 1), Folder("/f", True), Folder("/f", False)]
    for folder in looks:
        commands, ledger = looked(ledger, folders=(folder,))
        lines.append(said(commands))
    check("what is said", lines, [["note /f: no such folder yet"], [], [], ["note /f: none of its 2 entries is a container, as x"], [], [], [],
                                  ["note /f: no such folder yet"]])
    ledger = looked(ledger_of(), folders=(Folder("/f", True, 1, 0, "x"),))[1]
    check("one entry", said(looked(ledger, folders=(Folder("/f", True, 1, 0, "x"),))[0]), ["note /f: its 1 entry is no container, as x"])
    for folder in (Folder("/f", True, 2, 1), Folder("/f", True)):
        ledger = ledger_of()
        for _ in range(3):
            commands, ledger = looked(ledger, folders=(folder,))
            check(f"one with {folder.entries} entries, of which {folder.containers} are containers", said(commands), [])


@case
def silent_runtimes() -> None:
    """The folders of runtimes that are not there are named together, at the first look at folders."""
    rows: Sequence[Tuple[Sequence[Tuple[bool, ...]], Sequence[Sequence[str]]]] = (
        ([(), (False, False), (False, False), (True, False)], [[], ["note no such folders yet: /q, /r"], [], []]),
        ([(True, False), (False, False)], [["note no such folders yet: /r"], []]), ([(True, True)], [[]]))
    for looks, expected in rows:
        ledger, lines = ledger_of(), []
        for there in looks:
            commands, ledger = looked(ledger, folders=tuple(Folder(path, is_there, by_runtime=True) for path, is_there in zip(("/q", "/r"), there)))
            lines.append(said(commands))
        check(f"those that are there: {looks}", lines, expected)


@case
def notes() -> None:
    """What is not as in the machine file is said once, until it is another thing; of reserved ones that are off too."""
    ledger = ledger_of(members={"nodes": ["0-7"], "distances": [[10]], "reserved": "0-1"})
    ledger.started = False
    commands, ledger = looked(ledger, online=Online(cpus("0,2-7"), cpus("8-9"), cpus("7")))
    check("at the start", [line for line in said(commands) if line.startswith("note")], [
        "note CPUs 8-9 are left alone: the machine file has none of them", "note CPUs 7 are left alone: they are online, and not in effect in /t",
        "note of the reserved CPUs 1 are not there"])
    check("what it starts with", [(one.reserved, one.offline) for one in commands if isinstance(one, Start)], [(cpus("0-1"), cpus(""))])
    commands, ledger = looked(ledger, online=Online(cpus("0,2-5"), cpus("8-9")))
    check("and then", [line for line in said(commands) if line.startswith(("note", "offline"))], ["offline 6", "offline 7"])
    check("what is told", (ledger.running, ledger.switched), (cpus("0,2-5"), {6: "offline", 7: "offline"}))
    commands, ledger = looked(ledger, online=Online(cpus("0,2-6"), cpus("9")))
    check("another thing", [line for line in said(commands) if line.startswith(("note", "online"))], [
        "online 6", "note CPUs 9 are left alone: the machine file has none of them"])
    check("what is told of that", ledger.running, cpus("0,2-6"))
    commands, ledger = looked(ledger, {"offline 5": ["refused E52 NoSuchCpu 5"]}, online=Online(cpus("0,2-4,6"), cpus("9")))
    check("refused", ([line for line in said(commands) if "5" in line], ledger.wrong, 5 in ledger.running), (["refused E52 NoSuchCpu 5: offline 5"], True, True))
    commands, ledger = looked(ledger_of(), online=Online(ledger.running, cpus("8")))
    check("without an event", [line for line in said(commands) if line.startswith("note")], ["note CPUs 8 are left alone: the machine file has none of them"])
    whole = ledger_of()
    whole.started = False
    check("nothing is otherwise", [line for line in said(looked(whole)[0]) if line.startswith("note")], [])


@case
def no_reserved_left() -> None:
    """Where all reserved CPUs are off a run with others begins, and takes up who is there; where no CPU is left it ends."""
    ledger = ledger_of(container("a", State.PINNED, 1), container("s", State.SHARED))
    commands, ledger = looked(ledger, online=Online(cpus("2-7")))
    starts = [one for one in commands if isinstance(one, Start)]
    check("another run", [(one.reserved, one.offline, one.shown) for one in starts], [(cpus("2"), cpus("0-1"), cpus("2-7"))])
    check("what is known then", (ledger.before, ledger.reserved, ledger.containers), ({}, cpus("2"), {}))
    check("the note", [line for line in said(commands) if "place" in line], ["note of the reserved CPUs 0 are not there, and 2 are reserved in place of them"])
    try:
        looked(ledger, online=Online(cpus("")))
        check("no CPU", "goes on", "refused")
    except Refused as why:
        check("no CPU", str(why), "m: none of its CPUs is there, or in effect in /t")


@case
def told_wrong() -> None:
    """What is no event, a folder that can't be looked at, an id that is told twice, and how the command of --pool ended."""
    ledger, no = ledger_of(), Unread("/f", "/f: no")
    commands, ledger = looked(ledger, wrong=("line 1: x",), unread=(no,), doubles=(Double("a", "/f/a", "/g/a"),), pool_command="sh 1", pool_fault="status 1")
    check("said", said(commands), ["refused: line 1: x", "failed /f: no; looks again", "refused: its id is told by /g/a too: a /f/a", "failed sh 1: status 1"])
    check("left undone", (ledger.wrong, len(ledger.problems)), (True, 3))
    commands, ledger = looked(ledger, unread=(no,), doubles=(Double("a", "/f/a", "/g/a"),))
    check("as long as it is the same", (said(commands), len(ledger.problems)), ([], 3))
    commands, ledger = looked(ledger, pool_command="sh 1")
    check("all done", (said(commands), ledger.problems), ([], {}))
    commands, ledger = looked(ledger, unread=(no, Unread("/g", "/g: no folder")))
    check("two of them", said(commands), ["failed /f: no; looks again", "failed /g: no folder; looks again"])
    commands, ledger = looked(ledger, unread=(no,))
    check("of which one can be read", (said(commands), list(ledger.problems)), ([], [(Topic.LOOK, "/f")]))


@case
def figures() -> None:
    ledger = ledger_of(container("p", State.PINNED, 1), container("q", State.ASKING, 1), container("w", State.WAITING), container("s", State.SHARED),
                       container("o", State.POOLED), figures="/figures")
    ledger.problems = {(Topic.DRIFT, "p"): Problem(Kind.DRIFT, "p", ""), (Topic.SQUEEZED, "q"): Problem(Kind.SQUEEZED, "q", ""),
                       (Topic.SQUEEZED, "s"): Problem(Kind.SQUEEZED, "s", ""), (Topic.DRIFT, "gone"): Problem(Kind.DRIFT, "gone", ""),
                       (Topic.STAYS, "p"): Problem(Kind.STAYS, "p", "")}
    check("squeezed", squeezed_of(ledger), {"p", "q"})
    ledger.loose = frozenset({(1, "x"), (2, "y")})
    check("the partition", [figures_of(ledger)[name] for name in ("partition_valid", "loose_processes")], [1, 2])
    broken = ledger_of(container("p", State.PINNED, 1))
    broken.problems = {(Topic.PARTITION, ""): Problem(Kind.PARTITION, "", ""), (Topic.LIMIT, "p"): Problem(Kind.FAILED, "p", "")}
    check("none", (figures_of(broken)["partition_valid"], squeezed_of(broken)), (0, set()))
    found = figures_of(ledger)
    check("figures", [found[f"containers_{name}"] for name in ("pinned", "waiting", "shared", "squeezed")] + [found["undone"]], [2, 1, 2, 2, 5])
    ledger.looked = 7.5
    held = {one.name: Missing(Told("/b", "/f"), "no config") for one in ledger.containers.values()}
    groups = {f"/t/{name}": Group(f"/t/{name}", 1, populated=True) for name in held}
    commands, ledger = looked(ledger, told=held, groups=groups)
    check("seconds", (ledger.times["waited_seconds_total"], ledger.times["squeezed_seconds_total"], ledger.looked), (2.5, 5.0, 10.0))
    check("left", [one.figures["containers_waiting"] for one in commands if isinstance(one, LeaveFigures)], [1])


@case
def figures_now_and_then() -> None:
    """Figures are left at the first look, where one is another one, and else five seconds behind the last time."""
    ledger, left = ledger_of(figures="/figures"), []
    for now in (10.0, 11.0, 14.9, 15.0, 16.0):
        commands, ledger = looked(ledger, now=now)
        left.append(sum(isinstance(command, LeaveFigures) for command in commands))
    check("the same figures", left, [1, 0, 0, 1, 0])
    ledger.counts["steps_total"] += 1
    commands, ledger = looked(ledger, now=16.5)
    check("others", [command.figures["steps_total"] for command in commands if isinstance(command, LeaveFigures)], [1])
    check("and no more", [command for command in looked(ledger, now=17.0)[0] if isinstance(command, LeaveFigures)], [])


@case
def what_is_known() -> None:
    """What `status` is answered, and when that is left anew."""
    waits = Problem(Kind.WAITS, "w", "w: no place")
    ledger = ledger_of(container("p", State.PINNED, 2, cpus=cpus("1-2"), nodes=cpus("0")), dataclasses.replace(container("w", State.WAITING), demand=Demand(asks(3), 3), certificate="/c/1"))
    ledger.problems, ledger.titles, ledger.running, ledger.pool = {(Topic.ROOM, "w"): waits}, {"w": "web(1)"}, cpus("0-6"), cpus("0,3-6")
    ledger.taken = {"/t/p": Taken(1, "", "", False, (7, 8)), "/t/w": Taken(1, "", "", False)}
    known = reports.status_of(ledger)
    check("of all", [known[name] for name in ("reserved", "offline", "pool", "plan")], ["0", "7", "0,3-6", None])
    check("of containers", known["containers"], [
        {"id": "p", "title": "p", "state": "pinned", "group": "/t/p", "cpus": "1-2", "nodes": "0", "asks": 2, "given": 2, "lifted": "7 8", "why": "",
         "certificate": ""},
        {"id": "w", "title": "web(1)", "state": "waiting", "group": "/t/w", "cpus": "-", "nodes": "-", "asks": 3, "given": None, "lifted": "", "why": "waits w: no place",
         "certificate": "/c/1"}])
    check("left undone", known["undone"], [{"kind": "waits", "of": "w", "line": "waits w: no place"}])
    ledger.problems[Topic.CONTAINER, "w"] = Problem(Kind.UNTOLD, "w", "w: /b: can't be read")
    check("one that can't be told of", [entry["kind"] for entry in reports.status_of(ledger)["undone"]], ["waits", "absent"])  # type: ignore[attr-defined]
    ledger.counts.update(plans_total=1, distance=40, distance_beyond_local=20)
    ledger.certificate = "/c"
    check("of the plan", reports.status_of(ledger)["plan"], {"total": 40, "beyond_local": 20, "certificate": "/c"})
    other = ledger.copy()
    check("no news", reports.is_news(ledger, other), False)
    for part, value in (("pool", cpus("0")), ("problems", {}), ("titles", {}), ("certificate", ""), ("containers", {}), ("running", cpus("0")), ("started", False)):
        other = ledger.copy()
        setattr(other, part, value)
        check(f"news: {part}", reports.is_news(ledger, other), True)


@case
def hooks() -> None:
    """A hook is answered once it is decided: pinned, shared, no place, refused."""
    waits = Problem(Kind.WAITS, "w", "w: no place")
    ledger = ledger_of(container("p", State.PINNED, 1, cpus=cpus("1")), container("s", State.SHARED, cpus=cpus("0,2-7")), container("w", State.WAITING, cpus=cpus("0")),
                       container("q", State.ASKING, 1, cpus=cpus("0")), container("k", State.KEPT, 1, cpus=cpus("2")), container("n", State.PINNED, 1),
                       container("v", State.WAITING, cpus=cpus("0")))
    ledger.problems = {(Topic.ROOM, "w"): waits, (Topic.DEMAND, "r"): Problem(Kind.REFUSED, "r", ": r"), (Topic.CONTAINER, "f"): Problem(Kind.FAILED, "f", "f"),
                       (Topic.CONTAINER, "a"): Problem(Kind.ABSENT, "a", "a"), (Topic.DEMAND, "k"): Problem(Kind.REFUSED, "k", "k")}
    expected = {"p": ("pinned", "pinned p 1"), "s": ("shared", "shared s 0,2-7"), "w": ("no place", "no place waits w: no place"), "q": None, "r": ("refused", "refused: r"),
                "f": ("failed", "failed f"), "a": None, "k": ("refused", "refused k"), "n": None, "nobody": None, "v": None}
    for name, answer in expected.items():
        check(f"of {name}", answer_to_hook(ledger, name), answer and {"answer": answer[0], "text": answer[1]})
    ledger.due = True
    check("a plan is due", [answer_to_hook(ledger, name) for name in "ps"], [None, None])


@case
def seen_sets() -> None:
    """Which limit and which nodes of a group are followed, and who is the same container as before."""
    ledger = ledger_of(container("a", State.PINNED, 1, nodes=cpus("0"), cpus=cpus("2-3")), members=FOUR)

    def found(limit: Optional[Tuple[int, int]] = None, nodes: Optional[str] = None, folder: Optional[str] = "/f") -> Found:
        return Found(Told("/b", folder), ("s",), asks(1), Group("/t/a", 1, nodes=None if nodes is None else cpus(nodes), limit=limit))

    for name, one, expected in (
        ("a", found(), (None, None)), ("a", found((2 * QUOTA, QUOTA)), ((2 * QUOTA, QUOTA), None)), ("a", found(nodes="0"), (None, None)),
        ("a", found(nodes="1"), (None, cpus("1"))), ("a", found(nodes="3"), (None, cpus("3"))), ("a", found(nodes="4"), (None, None)), ("a", found(nodes=""), (None, None)),
        ("a", found((2 * QUOTA, QUOTA), "1", None), (None, None)), ("new", found(nodes="0-3"), (None, None)), ("new", found(nodes="2"), (None, cpus("2"))),
    ):
        check(f"what {name} is seen with", sightings.limits(ledger, name, one), expected)
    ledger.change("a", followed=cpus("3"))
    check("what it followed before", sightings.limits(ledger, "a", found(nodes="0")), (None, cpus("3")))
    check("written", [sightings.written(ledger, nodes) for nodes in (cpus("1"), cpus("9"), None, cpus(""))], [cpus("1"), cpus("0-3"), cpus("0-3"), cpus("0-3")])
    before = ledger.containers["a"]
    seen = dataclasses.replace(before.seen, group=dataclasses.replace(before.seen.group, cpus=cpus("2-3")))

    def same(**parts: object) -> bool:
        return sightings.is_same(ledger, before, dataclasses.replace(seen, **parts))

    other, no_cpus = dataclasses.replace(seen.group, inode=2), dataclasses.replace(seen.group, cpus=cpus(""))
    check("the same", [same(), same(stamp=("t",)), same(group=other), same(stamp=("t",), group=no_cpus), same(group=no_cpus),
                       same(stamp=("t",), told=dataclasses.replace(seen.told, turn=1)), same(stamp=("t",), group=dataclasses.replace(seen.group, path="/t/b")),
                       same(told=Told("/b", None))], [True, True, False, False, True, False, False, False])
    bare, later = dataclasses.replace(before, seen=dataclasses.replace(seen, stamp=None)), dataclasses.replace(seen, told=dataclasses.replace(seen.told, turn=1))
    check("the same, since nothing of it was told before", sightings.is_same(ledger, bare, later), True)
    nowhere = dataclasses.replace(before, cpus=None)
    check("the same, since it requested nothing before", sightings.is_same(ledger, nowhere, dataclasses.replace(seen, stamp=("t",), group=no_cpus)), True)


@case
def seen_again() -> None:
    """What is as it was at the last look is seen as the same object; where the container, what was taken or what is found is another one, it is seen anew."""
    ledger = ledger_of(container("a", State.PINNED, 1, nodes=cpus("0")), members=FOUR)
    found = Found(Told("/b", "/f"), ("s",), asks(1), Group("/t/a", 1, nodes=cpus("0")))
    first = sightings.sighting_of(ledger, "a", found)
    check("the same", sightings.sighting_of(ledger, "a", found) is first, True)
    seen = ledger.change("a", seen=first).seen
    check("as the container was seen", sightings.sighting_of(ledger, "a", dataclasses.replace(found)) is seen, True)
    ledger.change("a", followed=cpus("3"))
    check("another container", sightings.sighting_of(ledger, "a", found).nodes, cpus("3"))
    ledger.taken["/t/a"] = Taken(1, "5", "", False, None, True)
    check("another list", sightings.sighting_of(ledger, "a", found).listed, "5")
    check("another config", sightings.sighting_of(ledger, "a", dataclasses.replace(found, config=asks(2))).config, asks(2))


@case
def lists_of_updates() -> None:
    """Which list of CPUs is that of an update by its runtime: one that is another than the config's, or that was kept, of this very group."""
    same = [configs.same_list(text, other) for text, other in (("1-2", "2,1"), ("1-2", "1"), ("1-2", None), ("x", "1"), ("1", "x"), ("", ""))]
    check("the same lists", same, [True, False, False, False, False, True])
    rows: Sequence[Tuple[str, Optional[str], Config, Optional[Taken], Optional[str], Optional[str]]] = (
        ("none", None, {}, None, "/f", None), ("its config's", "4,5", config_of(cpus="4-5"), None, "/f", None), ("an update's", "4-5", config_of(cpus="6-7"), None, "/f", "4-5"),
        ("where the config has none", "4-5", {}, None, "/f", "4-5"), ("kept", None, {}, Taken(1, "3", "", False, None, True), "/f", "3"),
        ("kept, and no update's", None, {}, Taken(1, "3", "", False), "/f", None), ("kept of another group", None, {}, Taken(2, "3", "", False, None, True), "/f", None),
        ("the system's", "4-5", {}, Taken(1, "3", "", False, None, True), None, None),
    )
    for name, told, config, kept, folder, expected in rows:
        ledger = ledger_of()
        ledger.taken = {"/t/a": kept} if kept else {}
        found = Found(Told("/b", folder, listed=told), ("s",), config, Group("/t/a", 1))
        check(name, sightings.list_of(ledger, found), expected)
    check("without a tree", sightings.list_of(ledger_of(root=None), Found(Told("/b", "/f", listed="4-5"), ("s",), {}, Group("", 0))), None)


@case
def nodes_of_updates() -> None:
    """Which nodes are those of an update by its runtime: others than its config's, which the machine has, or those that were seen last in this very group."""
    rows: Sequence[Tuple[str, Optional[str], Config, Optional[str], int, Optional[str], Optional[str]]] = (
        ("none", None, {}, None, 1, "/f", None), ("its config's", "0,1", config_of(mems="0-1"), None, 1, "/f", None), ("an update's", "2", config_of(mems="1"), None, 1, "/f", "2"),
        ("where the config has none", "2", {}, "3", 1, "/f", "2"), ("forgotten", "", {}, "3", 1, "/f", "3"), ("of another group", "", {}, "3", 2, "/f", None), ("no list", "x", {}, None, 1, "/f", None),
        ("no list, and its config has one", "x", config_of(mems="1"), None, 1, "/f", None),
        ("none that the machine has", "2,4", {}, None, 1, "/f", None), ("the system's", "2", {}, "3", 1, None, None),
    )
    for name, told, config, before, inode, folder, expected in rows:
        ledger = ledger_of(container("a", State.PINNED, 1), members=FOUR)
        ledger.change("a", seen=dataclasses.replace(ledger.containers["a"].seen, named=cpus(before) if before else None))
        found = Found(Told("/b", folder, nodes=told), ("s",), config, Group("/t/a", inode))
        check(name, sightings.nodes_by_update(ledger, "a", found), cpus(expected) if expected else None)
    found = Found(Told("/b", "/f", nodes="2"), ("s",), {}, Group("/t/a", 1, nodes=cpus("1")))
    check("without a tree", sightings.nodes_by_update(ledger_of(root=None, members=FOUR), "a", found), None)
    check("of one that comes", sightings.limits(ledger_of(members=FOUR), "a", found), (None, cpus("2")))


@case
def states_of_runc() -> None:
    """What runc's state has of a container: its list of CPUs and its nodes, which may be empty ones."""
    for cgroups_of, expected in (({}, (None, None)), ({"cpuset_cpus": "", "cpuset_mems": ""}, ("", "")), ({"cpuset_cpus": " 4-5\n", "cpuset_mems": " 2\n"}, ("4-5", "2")),
                                 ({"cpuset_cpus": 4, "cpuset_mems": 2}, (None, None))):
        kept = states.kept_by_runc({"config": {"labels": ["bundle=/b"], "cgroups": cgroups_of}}, "/s", "/")
        check(f"{cgroups_of}", (kept.bundle, kept.listed, kept.nodes), ("/b", *expected))


@case
def as_before() -> None:
    """One of which no config can be read, and which the agent before held, while it has a process: pinned as it was known to be, or by what it requests."""
    for pinned, has, kept, populated, system, expected in (
        (None, "2-3", 1, True, False, (2, "2-3")), (None, "0,2", 1, True, False, (None, "-")), (None, "", 1, True, False, (None, "-")), (True, "0,2", 1, True, False, (1, "2")),
        (False, "2-3", 1, True, False, (None, "-")), (True, "2-3", 9, True, False, None), (True, "2-3", 1, False, False, None), (True, "2-3", 1, True, True, None),
    ):
        ledger = ledger_of()
        ledger.before, ledger.taken = {"a": ("/t/a", pinned)}, {"/t/a": Taken(kept, "", "", system)}
        turn = Turn(ledger, Look(0.0, groups={"/t/a": Group("/t/a", 1, cpus(has), populated=populated)}))
        found = sightings.as_before(turn, "a", Told("/b", "/f"))
        known = configs.at(found.config, "linux", "resources", "cpu", "cpus") if found else None
        what = (configs.asked(found.config, Pin.ANNOTATED, ledger.settings.machine), known or "-") if found else None
        check(f"{pinned} on {has!r}, {kept}, {populated}, {system}", what, expected)
    ledger.before, ledger.taken, ledger.reserved = {"a": ("/t/a", None)}, {"/t/a": Taken(1, "", "", False)}, cpus("7")
    for has, own in (("0,3", False), ("3,7", False), ("3-4", True)):
        found = sightings.as_before(Turn(ledger, Look(0.0, groups={"/t/a": Group("/t/a", 1, cpus(has), populated=True)})), "a", Told("/b", "/f"))
        check(f"on {has}, where others are reserved by now", bool(found and configs.at(found.config, "linux", "resources", "cpu", "cpus")), own)
    ledger.reserved, one = cpus("0"), Found(Told("/b", "/f"), ("s",), {}, Group("/t/a", 1, cpus("0-7"), populated=True))
    commands, _ = looked(ledger, told={"new": one}, groups={"/t/a": one.group})
    check("another id has its group now", said(commands)[:1], ["adopt new /b 0-7"])
    turn = Turn(ledger_of(), Look(0.0))
    check("nobody held it", sightings.as_before(turn, "a", Told("/b", "/f")), None)
    ledger = ledger_of()
    ledger.before, ledger.taken = {"a": ("/t/a", True)}, {"/t/a": Taken(1, "", "", False)}
    commands, _ = looked(ledger, told={"a": Missing(Told("/b", "/f"), "not JSON")}, groups={"/t/a": Group("/t/a", 1, cpus("2"), populated=True)})
    check("in a look", said(commands)[:2], ["stays a: not JSON; there is a process in its group", "adopt a /t/a 2"])
    check("nodes of a group", [sightings.nodes_of(ledger, Group("/t/a", 1, nodes=None if text is None else cpus(text))) for text in (None, "", "0", "1")], [cpus("")] * 2 + [cpus("0"), cpus("")])
    held, other = container("a", State.PINNED, 1), Group("/t/a", 1, cpus("5"))
    there, gone = Turn(ledger, Look(0.0, groups={"/t/a": other})), Turn(ledger, Look(0.0))
    check("as it was", [sightings.as_it_was(turn, held).group for turn in (there, gone)], [other, held.seen.group])


@case
def told_no_more() -> None:
    """Who is told of no more and has a process stays, which is said once, until it is told of again or has ended; a group of the system's does not."""
    one, runs = container("a", State.PINNED, 1, cpus=cpus("1")), Group("/t/a", 1, cpus("1"), populated=True)
    line, lines, ledger = "stays a: it is told of no more; there is a process in its group", [], ledger_of(one)
    for told in ({}, {}, {"a": as_given(one)}, {}):
        commands, ledger = looked(ledger, told=told, groups={"/t/a": runs})
        lines.append(said(commands))
        check(f"it is there, {bool(told)}", ("a" in ledger.containers, bool(ledger.problems)), (True, not told))
    check("said", lines, [[line], [], [], [line]])
    check("without a process", said(looked(ledger_of(one), groups={"/t/a": dataclasses.replace(runs, populated=False)})[0])[:1], ["ended a"])
    system = dataclasses.replace(one, seen=dataclasses.replace(one.seen, told=Told("", None, "a")))
    check("one of the system", said(looked(ledger_of(system), groups={"/t/a": runs})[0])[:1], ["ended a"])


@case
def missing() -> None:
    """Who can't be seen is named: at once if it is in a group outside of the partition, or stays since it has a process; else at the second look. Nothing is
    kept of it once it is gone."""
    one, told = container("a", State.PINNED, 1, cpus=cpus("1")), Told("/b", "/f")
    outside, parts, none = Missing(told, "its group is not below /c", outside=True), Missing(told, "not JSON", in_parts=True), Missing(told, "no file")
    stays, absent = "stays a: not JSON; there is a process in its group", "absent a: not JSON"
    rows: Sequence[Tuple[str, Ledger, Missing, bool, Sequence[Sequence[str]]]] = (
        ("outside", ledger_of(), outside, True, [["outside a: its group is not below /c"], []]),
        ("made anew outside", ledger_of(one), outside, True, [["outside a: its group is not below /c", "ended a"], [], []]), ("it runs", ledger_of(one), parts, True, [[stays], []]),
        ("it does not", ledger_of(one), parts, False, [["ended a"], [], [absent]]), ("a new one", ledger_of(), none, True, [[], ["absent a: no file"]]),
        ("a new one, without a tree", ledger_of(root=None), parts, False, [[], [absent]]), ("without a tree", ledger_of(one, root=None), parts, False, [[], []]))
    for name, ledger, found, runs, expected in rows:
        lines, groups = [], {"/t/a": Group("/t/a", 1, cpus("1"), populated=runs)} if ledger.has_tree else {}
        for _ in expected:
            commands, ledger = looked(ledger, told={"a": found}, groups=groups)
            lines.append([line for line in said(commands) if line.startswith(("outside", "stays", "absent", "ended"))])
        check(name, lines, expected)
        ledger.pauses["container", "a"] = ledger.pauses["limit", "b"] = Pause(99.0, 1.0)
        _, ledger = looked(ledger)
        check(f"{name}: gone", ([key for key in ledger.problems if key[1] == "a"], [of for what, of in ledger.pauses if what != "plan"], ledger.sighted), ([], [], {}))
    ledger = ledger_of()
    ledger.refused["r"], ledger.blocking["b"], ledger.problems[Topic.LIMIT, "p"] = sighting(), sighting(), Problem(Kind.FAILED, "p", "p")
    _, ledger = looked(ledger)
    check("nobody is told of", (ledger.refused, ledger.blocking, ledger.problems), ({}, {}, {}))
    ledger = ledger_of(one)
    ledger.problems[Topic.STAYS, "a"] = ledger.problems[Topic.CONTAINER, "a"] = Problem(Kind.ABSENT, "a", "a")
    _, ledger = looked(ledger, told={"a": as_given(one)}, groups={"/t/a": as_given(one).group})
    check("it is seen", (ledger.problems, list(ledger.sighted), looked(ledger)[1].sighted), ({}, ["a"], {}))
    ledger = ledger_of()
    ledger.problems[Topic.STAYS, "a"] = Problem(Kind.STAYS, "a", "a")
    _, ledger = looked(ledger, told={"a": outside})
    check("it is outside by now", (Topic.STAYS, "a") in ledger.problems, False)


@case
def outside_once() -> None:
    """That one is outside of the partition is said once, also where one look between does not find its config; and anew where another thing was said
    between, or where it was inside."""
    told = Told("/b", "/f")
    outside, none = Missing(told, "its group is not below /c", outside=True), Missing(told, "no file")
    inside = Found(told, ("s",), config_of(), Group("/t/a", 1, cpus("0-7"), populated=True))
    line, absent = "outside a: its group is not below /c", "absent a: no file"
    rows: Sequence[Tuple[str, Sequence[object], Sequence[str], Sequence[Kind]]] = (
        ("once", [outside, outside], [line], [Kind.OUTSIDE]), ("a look without it", [outside, none, outside, none, outside], [line], [Kind.OUTSIDE]),
        ("it is there later", [none, outside, outside], [line], [Kind.OUTSIDE]), ("it is not there", [outside, none, none], [line, absent], [Kind.ABSENT]),
        ("another thing between", [outside, none, none, outside], [line, absent, line], [Kind.OUTSIDE]), ("inside between", [outside, inside, outside, outside], [line, line], [Kind.OUTSIDE]),
        ("inside", [outside, inside], [line], []), ("told of no more", [outside, None], [line], []))
    for name, looks, expected, left in rows:
        ledger, lines = ledger_of(), list[str]()
        for found in looks:
            groups = {"/t/a": found.group} if isinstance(found, Found) else {}
            commands, ledger = looked(ledger, told={"a": found} if found else {}, groups=groups)
            lines += [each for each in said(commands) if each.startswith(("outside", "absent"))]
        check(name, (lines, [problem.kind for problem in ledger.problems.values()]), (expected, left))


@case
def replies() -> None:
    for text, fault, momentary in (("refused E50 KernelFault", 50, True), ("refused E45 NoPids", 45, True), ("refused E111 NoBundle", 111, True),
                                   ("refused E104 NotFree 3", 104, False), ("ok", None, False), ("refused E1 Memory", 1, True), ("refused E5 X", 5, False),
                                   ("refused E1042 X", None, False), ("refused: E50 X", None, False)):
        reply = Reply((text,))
        check(text, (reply.fault, reply.is_momentary), (fault, momentary))
    check("its refusal", Reply(("refused E104 NotFree 3",)).refusal, "E104 NotFree 3")


@case
def asked() -> None:
    """What numarun says beside an answer is said, but for why a write was refused, and of what is asked quietly; refused writes are counted."""
    for lines, quiet, expected in ((("ok",), False, (["note a", "note b"], 0, False)), (("ok",), True, ([], 0, False)), (("refused E50 KernelFault",), False, ([], 1, False)),
                                   (("refused E45 NoPids",), False, (["note a", "note b"], 0, True))):
        ledger, commands = ledger_of(), []
        steps = telling.ask(ledger, Ask("x"), quiet)
        command = next(steps)
        try:
            while True:
                commands.append(command)
                command = steps.send(Answer(lines, ("a", "b"), ending=quiet))
        except StopIteration as end:
            check(f"{lines}, quiet {quiet}: the last is why", (end.value.lines, end.value.note), (lines, "b"))
        check(f"{lines}, quiet {quiet}", (said(commands), ledger.counts["refused_writes_total"], ledger.spent), expected)
        check(f"{lines}, quiet {quiet}: told to end", (ledger.ending, ledger.ends_at_once), (quiet, False))
    for before, at_once in ((False, True), (True, False), (False, False)):
        ledger = ledger_of()
        ledger.ends_at_once, steps = before, telling.ask(ledger, Ask("x"))
        next(steps)
        try:
            steps.send(Answer(("ok",), ending=True, at_once=at_once))
        except StopIteration:
            check(f"at once {at_once}, and before {before}", ledger.ends_at_once, before or at_once)
    ledger = ledger_of()
    ledger.ending = ledger.spent = True
    _, reply = done(telling.ask(ledger, Ask("x")))
    check("what is so stays so", (ledger.ending, ledger.spent, reply.note), (True, True, "ok"))


@case
def pool_told() -> None:
    """The command of --pool is run with the pool's list when that is another one, and a small pool is noted."""
    ledger = ledger_of(pool=True, pool_least=3)
    ledger.due = True
    answers = {"begin": ["plan total 0", "pool 0-1", "end"]}
    commands, ledger = looked(ledger, answers)
    check("run", ([print_list(one.cpus) for one in commands if isinstance(one, RunPool)], said(commands)),
          (["0-1"], ["plan total 0", "pool 0-1", "done", "note the pool has 2 CPUs, and keeps 3: nobody else gets CPUs of its own"]))
    ledger.due = True
    commands, ledger = looked(ledger, answers)
    check("the same one", ([one for one in commands if isinstance(one, RunPool)], said(commands), ledger.due), ([], ["plan total 0", "done"], False))
    for least, reserved, why in ((2, "0", ""), (0, "0", ""), (0, "0-1", "all of them are reserved"), (0, "0-2", "all of them are reserved"), (1, "0-1", "all of them are reserved"),
                                 (3, "0-1", "keeps 3")):
        ledger = ledger_of(members={"nodes": ["0-7"], "reserved": reserved}, pool_least=least)
        ledger.due = True
        found = [line for line in said(looked(ledger, answers)[0]) if line.startswith("note the pool")]
        check(f"a pool of 0-1, {reserved} reserved, {least} at least", found, [f"note the pool has 2 CPUs, and {why}: nobody else gets CPUs of its own"] if why else [])
    for least, why in ((0, "it is reserved"), (2, "keeps 2")):
        found = said(done(plans.say_small(ledger_of(pool_least=least), cpus("0")))[0])
        check(f"a pool of 0, {least} at least", found, [f"note the pool has 1 CPU, and {why}: nobody else gets CPUs of its own"])


@case
def counts() -> None:
    """What is counted is one thing or several: no text of the package has a number before several but by `counted`, or where it is of several in any case."""
    check("counted", [counted(0), counted(1), counted(2), counted(1, "node"), counted(3, "node")], ["0 CPUs", "1 CPU", "2 CPUs", "1 node", "3 nodes"])
    several = {"asked CPUs", "folder.entries entries"}
    package, found = os.path.join(OPERATORS, "numarun_host"), set()
    for name in sorted(os.listdir(package)):
        tree = ast.parse(text_of(os.path.join(package, name))) if name.endswith(".py") else ast.Module([], [])
        for node in ast.walk(tree):
            parts = node.values if isinstance(node, ast.JoinedStr) else []
            for value, text in zip(parts, parts[1:]):
                word = re.match(r" (CPUs|nodes|cores|entries|containers|others|values|rows|numbers|looks|moves)\b", text.value) if isinstance(text, ast.Constant) else None
                if word and isinstance(value, ast.FormattedValue):
                    found.add(f"{ast.unparse(value.value)} {word[1]}")
    check("numbers before several", found - several, set())


@case
def taken_kept() -> None:
    """Of a group that is gone, or another one by now, nothing is kept; of one that is held, or can't be seen, it is."""
    ledger = ledger_of(container("a", State.SHARED, cpus=cpus("")))
    ledger.taken = {f"/t/{name}": Taken(1, "", "", False) for name in ("a", "gone", "other", "there", "unseen")}
    groups = {"/t/a": Group("/t/a", 2), "/t/gone": NoGroup("gone"), "/t/other": Group("/t/other", 2), "/t/there": Group("/t/there", 1)}
    told = {"a": Found(Told("/b", "/f"), ("s",), {}, Group("/t/a", 1))}
    commands, ledger = looked(ledger, told=told, groups=groups)
    check("kept", (sorted(ledger.taken), [sorted(one.groups) for one in commands if isinstance(one, SaveTaken)]),
          (["/t/a", "/t/there", "/t/unseen"], [["/t/a", "/t/there", "/t/unseen"]]))
    commands, _ = looked(ledger, told=told, groups=groups)
    check("saved once", [one for one in commands if isinstance(one, SaveTaken)], [])
