"""What a container asks for, by its config and its annotations, and the configs that are told of it in place of its own."""

from __future__ import annotations

import json
from dataclasses import dataclass, field
from enum import Enum
from typing import Dict, Mapping, Optional, Tuple

from .cpus import NO_CPUS, Cpus, print_list, read_list
from .machine import Machine
from .script import Refused

Config = Mapping[str, object]
Limit = Tuple[int, int]  # a quota and a period, in microseconds

CPU = ("linux", "resources", "cpu")
# What a container says of itself, by an annotation or a variable of its process's environment, as NUMARUN_STAY=true.
PIN = "numarun.pin"      # that it is to get CPUs of its own, where --pin annotated asks for that; or, by `false`, that it is not
LEAST = "numarun.least"  # that it takes so few CPUs, where there are no more
STAY = "numarun.stay"    # that it is never moved
NEAR = "numarun.near"    # that its home is the node of this device
PERIOD = 100000
REST: Config = {"ociVersion": "1.0.2", "root": {"path": "/"}}  # what is told of a group of the system


class Pin(Enum):
    """Who gets CPUs of its own."""

    ALL = "all"
    WHOLE = "whole"
    ANNOTATED = "annotated"


@dataclass(frozen=True)
class Demand:
    """A config, and how many CPUs of its own it asks for, or nothing where it is shared; and whether it has no home since no node has memory
    enough."""

    config: Config
    count: Optional[int]
    lacks_memory: bool = field(default=False, compare=False)


def parse_text(text: str, place: str) -> Dict[str, object]:
    """A JSON object."""
    try:
        found = json.loads(text)
    except (ValueError, RecursionError):
        raise Refused(f"{place}: not JSON") from None
    if not isinstance(found, dict):
        raise Refused(f"{place}: no JSON object")
    return found


def at(config: object, *names: str) -> object:
    """A member of a member, or nothing."""
    for name in names:
        config = config.get(name) if isinstance(config, dict) else None
    return config


def wish_of(config: Config, name: str) -> Optional[str]:
    """What a container says of itself under this name: its annotation, or else the last such variable of its environment, since docker has
    no annotations."""
    text, variables = at(config, "annotations", name), at(config, "process", "env")
    if isinstance(text, str):
        return text
    begins = name.replace(".", "_").upper() + "="
    found = [entry[len(begins):] for entry in variables if isinstance(entry, str) and entry.startswith(begins)] if isinstance(variables, list) else []
    return found[-1] if found else None


def is_number(value: object) -> bool:
    return isinstance(value, int) and not isinstance(value, bool)


def quota_of(config: Config) -> Optional[Limit]:
    """The quota and the period that a config has; nothing where it has none."""
    quota, period = at(config, *CPU, "quota"), at(config, *CPU, "period") or PERIOD
    if isinstance(quota, int) and isinstance(period, int) and is_number(quota) and is_number(period) and quota > 0 and period > 0:
        return quota, period
    return None


def asked(config: Config, rule: Pin, machine: Machine) -> Optional[int]:
    """How many CPUs of its own a container asks for, in whole cores; nothing where it is shared. With no quota these are all that it
    names, but for reserved ones. A list that is none is refused."""
    limit, cpus = quota_of(config), at(config, *CPU, "cpus")
    if limit:
        count = -(-limit[0] // limit[1])
        if rule is Pin.WHOLE and limit[0] % limit[1]:
            return None
    elif isinstance(cpus, str) and cpus.strip(" ,\t\n"):
        count = len(machine.cores_in(read_list(cpus, "cpus") - machine.reserved)) * machine.threads
    else:
        return None
    if is_left_out(config) or rule is Pin.ANNOTATED and wish_of(config, PIN) != "true":
        return None
    return max(1, -(-count // machine.threads)) * machine.threads


def of_section(config: Config, **members: object) -> Config:
    """The same config with other members of its CPU section, those that are nothing left out; the same one where it has no such section."""
    linux = config.get("linux") or {}
    resources = linux.get("resources") or {} if isinstance(linux, dict) else None
    section = resources.get("cpu") or {} if isinstance(resources, dict) else None
    if not isinstance(linux, dict) or not isinstance(resources, dict) or not isinstance(section, dict):
        return config
    cpu = {name: value for name, value in {**section, **members}.items() if value is not None}
    return {**config, "linux": {**linux, "resources": {**resources, "cpu": cpu}}}


def shared(config: Config) -> Demand:
    """A demand of the same config for no CPUs of its own."""
    return Demand(of_section(config, quota=None, period=None, cpus=None), None)


def fewer(demand: Demand, count: int) -> Demand:
    return Demand(of_section(demand.config, quota=count * PERIOD, period=PERIOD), count)


def staying(demand: Demand, cpus: Cpus) -> Demand:
    """The same demand for just these CPUs."""
    return Demand(of_section(demand.config, cpus=print_list(cpus)), demand.count)


def bare(cpus: Cpus, nodes: Cpus) -> Demand:
    """A demand for just these CPUs, or for none of its own, on these nodes: of one whose config can't be told of."""
    section = {**({"cpus": print_list(cpus)} if cpus else {}), **({"mems": print_list(nodes)} if nodes else {})}
    return Demand({**REST, "annotations": {PIN: "true"}, "linux": {"resources": {"cpu": section}}}, len(cpus) or None)


def housed(config: Config, nodes: Cpus) -> Config:
    """The same config with these nodes of memory."""
    return of_section(config, mems=print_list(nodes))


def is_left_out(config: Config) -> bool:
    """Whether it wants no CPUs of its own, whatever else it asks for."""
    return wish_of(config, PIN) == "false"


def stays(config: Config) -> bool:
    return wish_of(config, STAY) == "true"


def least_of(demand: Demand) -> int:
    """How many CPUs a container takes where there are no more."""
    text = wish_of(demand.config, LEAST)
    if text is not None and text.isascii() and text.isdecimal() and len(text) < 6:
        return max(1, int(text))
    return demand.count or 1


def other_limit(config: Config, limit: Optional[Limit]) -> Optional[Limit]:
    """The limit of a group where it is another one than the config's."""
    quota, period = at(config, *CPU, "quota"), at(config, *CPU, "period") or PERIOD
    if limit and isinstance(quota, int) and isinstance(period, int) and quota * limit[1] == limit[0] * period:
        return None
    return limit


def limited(config: Config, limit: Optional[Limit], nodes: Optional[Cpus], cpus: Optional[str] = None) -> Config:
    """The config with what its group has by now, where that is another limit, or other nodes of memory, or another list of CPUs by its
    runtime."""
    members: Dict[str, object] = {"quota": limit[0], "period": limit[1]} if limit else {}
    members.update({"mems": print_list(nodes)} if nodes else {}, **({"cpus": cpus} if cpus else {}))
    return of_section(config, **members) if members else config


def nodes_named(config: Config) -> Cpus:
    """The nodes of memory that a config names; none where it names none, or no list of any."""
    return nodes_in(at(config, *CPU, "mems"))


def nodes_in(text: object) -> Cpus:
    """The nodes of a list; none where it is no list."""
    try:
        return read_list(text, "mems") if isinstance(text, str) else NO_CPUS
    except Refused:
        return NO_CPUS


def same_list(text: str, other: object) -> bool:
    """Whether two texts are lists of the same CPUs."""
    try:
        return isinstance(other, str) and read_list(text, "cpus") == read_list(other, "cpus")
    except Refused:
        return False


def cpus_allowed(config: Config, present: Cpus) -> Cpus:
    """The CPUs that a config names, or all."""
    text = at(config, *CPU, "cpus")
    return read_list(text, "cpus") if isinstance(text, str) and text.strip(" ,\t\n") else present


def memory_asked(config: Config) -> int:
    """The bytes that a config limits its container to; 0 where it has no limit."""
    limit = at(config, "linux", "resources", "memory", "limit")
    return limit if isinstance(limit, int) and is_number(limit) and limit > 0 else 0
