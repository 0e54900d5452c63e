"""A plain model of what the agent decides over: containers in a watched folder with their groups and limits, the kernel's list of online CPUs,
numarun, and an agent that carries out what is decided. It has no file, no process and no clock, and is written from docs/formats.md and the kernel's
page of cgroup v2, not from the agent. What happens is drawn from bytes: where these have run out, nothing happens any more."""

from __future__ import annotations

import dataclasses
from dataclasses import dataclass, field
from typing import Dict, Iterator, List, Optional, Set, Tuple, Union

from numarun_host.commands import (NAMELESS, Answer, Ask, CloseTrial, Command, Drop, Gather, Level, Link, OpenTrial, SaveTaken, Say, SetLimit, Start, Steps,
                                   Taken, Tell, Unlink, Verb, Write)
from numarun_host.configs import Limit, quota_of
from numarun_host.cpus import NO_CPUS, Cpus
from numarun_host.decide import decide
from numarun_host.ledger import Ledger, Settings, Topic
from numarun_host.machine import Machine
from numarun_host.seen import Found, Group, Look, Missing, NoGroup, Online, Told

ROOT, RESERVED = "/tree", frozenset({0})
NAMES = ("a", "b", "c", "d", "e", "s", "t")
POOLED = ("s", "t")  # those of them that ask for no CPUs of their own
NO_WRITE = "refused E50 KernelFault"
NO_MEMORY = "refused E1 Memory"
NOT_SEEN: Tuple[int, Cpus] = (0, NO_CPUS)


def read(text: str) -> Cpus:
    ends = [item.split("-") for item in text.split(",") if item and item != "-"]
    return frozenset(cpu for end in ends for cpu in range(int(end[0]), int(end[-1]) + 1))


def shown(cpus: Cpus) -> str:
    return ",".join(map(str, sorted(cpus))) or "-"


class Choices:
    """What is chosen, byte by byte; the first of all where no byte is left."""

    def __init__(self, bytes: bytes) -> None:
        self.bytes, self.at = bytes, 0

    @property
    def are_left(self) -> bool:
        return self.at < len(self.bytes)

    def below(self, count: int) -> int:
        self.at += 1
        return self.bytes[self.at - 1] % count if self.at <= len(self.bytes) else 0


class Killed(Exception):
    """The agent is killed, or its program, so that it ends."""


@dataclass
class Place:
    """A group of the kernel's."""

    inode: int
    cpus: Cpus = frozenset()
    populated: bool = True
    strays: Cpus = frozenset()  # CPUs besides, on which a thread may run if they are there
    shared: bool = False  # whether it was written, or told of, last as one that asks for none of its own, so that nobody keeps others off


@dataclass(frozen=True)
class Bundle:
    """What a watched folder has of a container: a config, or one that is no JSON, or none; `turn` tells it from those before."""

    config: Optional[Dict[str, object]]
    turn: int


@dataclass
class Row:
    """A container as numarun has it."""

    count: Optional[int]
    allowed: Cpus
    cpus: Cpus


def config_of(count: int, cpus: str = "", **annotations: str) -> Dict[str, object]:
    section: Dict[str, object] = {"quota": count * 100000, "period": 100000} if count else {}
    if cpus:
        section["cpus"] = cpus
    return {"ociVersion": "1.0.2", "root": {"path": "r"}, "annotations": dict(annotations), "linux": {"resources": {"cpu": section}}}


class Program:
    """numarun: what it answers, and what it writes by its links, where it has a tree."""

    def __init__(self, world: World, tree: bool, reserved: Cpus, offline: Cpus) -> None:
        self.world, self.tree, self.reserved = world, tree, reserved
        self.online = world.present - offline
        self.rows: Dict[str, Row] = {}
        self.targets: Optional[Dict[str, Cpus]] = None
        is_shown = tree and world.withholds
        self.strangers = {name: world.places[path].cpus for name, path in world.links.items() if is_shown and path in world.places}

    @property
    def there(self) -> Cpus:
        """The CPUs that are there for a plan."""
        return self.online - (NO_CPUS.union(*self.strangers.values()) - self.reserved)

    def write(self, name: str, cpus: Cpus) -> bool:
        """One write, and whether the kernel took it; into a group that is gone it counts as done."""
        if self.tree and not self.world.write(self.world.links.get(name), cpus, self.rows[name].count is None):
            return False
        self.rows[name].cpus = cpus
        return True

    def has_no_memory(self) -> bool:
        self.world.starved -= self.world.starved > 0
        return self.world.starved > 0

    def demand(self, config: object) -> Union[str, Row]:
        """What a config asks for, or why it is refused."""
        assert isinstance(config, dict)
        if "root" not in config:
            return "refused E58 Missing root"
        section = config.get("linux", {}).get("resources", {}).get("cpu", {})
        named = read(section.get("cpus", ""))
        if named - self.world.present:
            return f"refused E63 NoSuchCpu {min(named - self.world.present)}"
        allowed = (named or self.world.present) - self.reserved
        quota = section.get("quota", 0)
        count = -(-quota // section.get("period", 100000)) if quota else len(allowed) if named else None
        if count is not None and not 0 < count <= len(allowed):
            return "refused E66 QuotaTooLarge"
        return Row(count, allowed, frozenset())

    def tell(self, command: Tell) -> str:
        name, row = command.name, self.demand(command.config)
        if self.targets is not None:
            return "refused E90 Busy"
        if self.has_no_memory():
            return NO_MEMORY
        if (command.verb is Verb.UPDATE) == (name not in self.rows):
            return "refused E92 Exists"
        if isinstance(row, str):
            return row
        if command.verb is Verb.UPDATE:
            return self.update(name, row)
        cpus = command.cpus if command.verb is Verb.ADOPT else self.reserved
        for cpu in sorted(cpus - self.reserved):
            others = [other for other in self.rows.values() if cpu in other.cpus and (other.count is not None or row.count is not None)]
            if others or cpu not in self.world.present:
                return f"refused E104 NotFree {cpu}"
        if self.tree and self.world.spent:
            return "refused E45 NoPids"
        self.rows[name] = row
        if not self.write(name, cpus):
            del self.rows[name]
            return NO_WRITE
        self.strangers.pop(name, None)
        return "pid 2"

    def mark(self, name: str) -> None:
        place = self.world.places.get(self.world.links.get(name, "")) if self.tree else None
        if place:
            place.shared = self.rows[name].count is None

    def update(self, name: str, row: Row) -> str:
        before = self.rows[name]
        if row.count is not None and before.count is None and before.cpus != self.reserved and not self.write(name, self.reserved):
            return NO_WRITE
        self.rows[name] = dataclasses.replace(row, cpus=self.rows[name].cpus)
        self.mark(name)
        return "ok"

    def ask(self, line: str) -> Tuple[str, ...]:
        kind, *words = line.split(" ")
        if kind in ("offline", "online"):
            if int(words[0]) in self.reserved:
                return ("refused E51 Reserved",)
            self.online = self.online - {int(words[0])} if kind == "offline" else self.online | {int(words[0])}
        elif kind == "kill":
            self.world.end_processes(self.world.links.get(words[0]) if self.tree else None)
        elif kind == "delete":
            del self.rows[words[0]]
        elif kind == "forget":
            return (self.forget(words[0]),)
        elif kind == "sets":
            has = shown(self.rows[words[0]].cpus)
            return (f"cpus {has} effective {has} mems 0 effective 0",)
        elif kind in ("begin", "rebalance"):
            return self.begin(kind == "begin")
        elif kind == "step":
            return (self.step(),)
        return ("ok",)

    def forget(self, name: str) -> str:
        if not self.world.withholds:
            return "refused E110 BadLine"
        return "refused E105 NoStranger" if self.strangers.pop(name, None) is None else "ok"

    def begin(self, opens: bool) -> Tuple[str, ...]:
        if self.targets is not None:
            return ("refused E90 Busy",)
        if self.has_no_memory():
            return (NO_MEMORY,)
        holds, short = self.plan()
        if any(cpus & self.reserved and cpus - self.reserved for cpus in self.strangers.values()):
            self.world.wrong.append(f"a plan for which the pool is withheld: {self.strangers}")
        if short:
            allowed = NO_CPUS.union(*(self.rows[name].allowed & self.there for name in short))
            head = f"short demand {sum(self.rows[name].count or 0 for name in short)} allowed {shown(allowed)}"
            return (head, *(f"member {name}" for name in short), "end")
        pool = self.there.difference(*holds.values())
        self.targets = {name: holds.get(name, pool) for name in self.rows}
        if not opens:
            for name, target in self.targets.items():
                self.rows[name].cpus = target
            self.targets = None
        return ("plan total 0", *(f"hold {name} {shown(cpus)}" for name, cpus in holds.items()), f"pool {shown(pool)}", "end")

    def plan(self) -> Tuple[Dict[str, Cpus], List[str]]:
        """A plan in which each keeps what it may, or those who are short (augmenting paths, and Hall's condition)."""
        holder: Dict[int, str] = {}
        asking = [name for name, row in self.rows.items() if row.count is not None]
        for name in asking:
            for cpu in sorted(self.rows[name].cpus & self.rows[name].allowed & self.there)[:self.rows[name].count]:
                holder.setdefault(cpu, name)
        for name in asking:
            for _ in range((self.rows[name].count or 0) - list(holder.values()).count(name)):
                seen: Set[str] = set()
                if not self.augment(name, holder, seen):
                    return {}, self.to_blame([other for other in asking if other in seen])
        return {name: frozenset(cpu for cpu, has in holder.items() if has == name) for name in asking}, []

    def to_blame(self, short: List[str]) -> List[str]:
        """Those who are short, less such as can be left out: without any one that stays the others have a plan."""
        for name in short:
            holder: Dict[int, str] = {}
            rest = [other for other in short if other != name]
            if not all(self.augment(other, holder, set()) for other in rest for _ in range(self.rows[other].count or 0)):
                return self.to_blame(rest)
        return short

    def augment(self, name: str, holder: Dict[int, str], seen: Set[str]) -> bool:
        seen.add(name)
        may = sorted(self.rows[name].allowed & self.there)
        for cpu in may:
            if cpu not in holder:
                holder[cpu] = name
                return True
        for cpu in may:
            other = holder[cpu]
            if other not in seen and self.augment(other, holder, seen):
                holder[cpu] = name
                return True
        return False

    def writes(self) -> Iterator[Tuple[str, Cpus]]:
        """What is due: first each gives back, then each gets."""
        assert self.targets is not None
        for name, target in self.targets.items():
            kept = self.rows[name].cpus & (target | self.reserved) or self.reserved
            if self.rows[name].cpus != kept:
                yield name, kept
        for name, target in self.targets.items():
            if self.rows[name].cpus != target:
                yield name, target

    def step(self) -> str:
        if self.targets is None:
            return "refused E100 NoHandover"
        due = next(self.writes(), None)
        if due is None:
            self.targets = None
            return "done"
        if not self.write(*due):
            self.targets = None
            return NO_WRITE
        if next(self.writes(), None):
            return "more"
        self.targets = None
        return "done"


@dataclass
class World:
    """The machine, and what goes wrong of what may not."""

    machine: Machine
    choices: Choices
    pool_least: int = 0
    present: Cpus = frozenset(range(8))
    online: Cpus = frozenset(range(8))
    places: Dict[str, Place] = field(default_factory=dict)
    bundles: Dict[str, Bundle] = field(default_factory=dict)
    links: Dict[str, str] = field(default_factory=dict)
    taken: Dict[str, Taken] = field(default_factory=dict)
    copies: Set[str] = field(default_factory=set)
    seen: Dict[str, Tuple[int, Cpus]] = field(default_factory=dict)  # by its path a group's inode and what it requests, as the agent saw or wrote it last
    hidden: bool = False
    withholds: bool = True  # whether the program knows strangers
    spent: bool = False     # whether it has no pids left
    starved: int = 0        # for so many commands from now on, but for the last one, it has no memory
    read_only: int = 0  # so many writes fail from now on
    refused: Optional[str] = None  # where the last one failed
    lifts: bool = False  # whether agents lift the limits of those that have CPUs of their own
    limits: Dict[int, Optional[Limit]] = field(default_factory=dict)  # by the inode of a group its limit
    theirs: Dict[int, Optional[Limit]] = field(default_factory=dict)  # and the one that others gave it last
    drifted: Set[int] = field(default_factory=set)  # on the reserved CPUs, by somebody else's write
    is_within: bool = False  # whether an agent is in the midst of a look
    count: int = 0
    happened: int = 0  # how many things
    now: float = 0.0
    wrong: List[str] = field(default_factory=list)

    # What the kernel does.

    def write(self, path: Optional[str], cpus: Cpus, shared: bool = True) -> bool:
        if self.read_only:
            self.read_only, self.refused = self.read_only - 1, path
            return False
        if path in self.places:
            self.check(path, cpus, shared)
            place = self.places[path]
            self.set_cpus(place, cpus)
            place.shared, self.seen[path] = shared, (place.inode, cpus)
        return True

    def effective(self, place: Place) -> Cpus:
        return place.cpus & self.online or self.online

    def set_cpus(self, place: Place, cpus: Cpus) -> None:
        """The kernel brings threads onto a group's CPUs where it gets others."""
        before = self.effective(place)
        place.cpus = cpus
        place.strays = place.strays if self.effective(place) == before else frozenset()

    def set_online(self, online: Cpus) -> None:
        before = {path: self.effective(place) for path, place in self.places.items()}
        self.online = online
        for path, place in self.places.items():
            place.strays = place.strays if self.effective(place) == before[path] else frozenset()

    def gather(self, command: Gather) -> Answer:
        place = self.places.get(command.path)
        if place is None or place.inode != command.inode or place.cpus != command.cpus or not place.strays:
            return Answer(stale=True)
        if not command.others & self.online or not command.others < command.cpus:
            self.wrong.append(f"{command.path} is gathered on {shown(command.others)}")
        for cpus in (command.others, command.cpus):
            if self.read_only:
                self.read_only -= 1
                return Answer(why=f"{command.path}/cpuset.cpus: Read-only file system")
            self.set_cpus(place, cpus)
        return Answer()

    def end_processes(self, path: Optional[str]) -> None:
        if path in self.places and self.places[path].populated:
            self.wrong.append(f"the processes of {path} were ended")

    def set_limit(self, command: SetLimit) -> Answer:
        place = self.places.get(command.path)
        if place is None or place.inode != command.inode or self.limits[place.inode] != command.before:
            return Answer(stale=True)
        if self.read_only:
            self.read_only -= 1
            return Answer(why=f"{command.path}/cpu.max: Permission denied")
        self.check_limit(command, place)
        self.limits[place.inode] = command.limit
        return Answer()

    def check_limit(self, command: SetLimit, place: Place) -> None:
        """A limit is lifted of who has CPUs of its own once what it was is kept, and what is given back is what others gave last."""
        kept, theirs = self.taken.get(command.path), self.theirs[place.inode]
        if command.limit is not None and command.limit != theirs:
            self.wrong.append(f"{command.path} is given back {command.limit}, and had {theirs}")
        if command.limit is None and (kept is None or kept.inode != place.inode or kept.limit != theirs):
            self.wrong.append(f"{command.path} was lifted before that was kept: {kept}")
        if command.limit is None and place.cpus & RESERVED and place.inode not in self.drifted:
            self.wrong.append(f"{command.path} is lifted on the reserved CPUs")

    def release_limits(self) -> None:
        """What a release does: what is kept gives back to each what others gave it last."""
        for path, taken in self.taken.items():
            place = self.places.get(path)
            if place and place.inode == taken.inode and taken.limit and self.limits[place.inode] is None:
                self.limits[place.inode] = taken.limit
        wrong = [path for path, place in self.places.items() if self.limits[place.inode] != self.theirs[place.inode]]
        if wrong:
            self.wrong.append(f"{wrong} have other limits behind a release")

    def check(self, path: str, cpus: Cpus, shared: bool) -> None:
        """What a write gives is nobody else's own, and what it gives as one's own is nobody else's at all, as the agent saw it last. Who requests
        CPUs without a reserved one has them as its own, unless it was written as one that is on the pool."""
        given = cpus - self.places[path].cpus - self.seen.get(path, NOT_SEEN)[1]
        for other, place in self.places.items():
            inode, requested = self.seen.get(other, NOT_SEEN)
            own, both = not place.cpus & RESERVED and not place.shared, given & place.cpus & requested
            if other != path and inode == place.inode and place.populated and both and (own or not (shared or cpus & RESERVED)):
                self.wrong.append(f"{path} is given {shown(both)}, which {other} has")

    # What happens.

    def happen(self) -> None:
        """One thing of all that happens."""
        self.happened += 1
        events = (self.rest, self.come, self.go, self.configure, self.flap, self.fail, self.hide, self.come_anew, self.damage, self.drift, self.spend,
                  self.starve, self.limit_anew)
        events[self.choices.below(len(events))]()

    def rest(self) -> None:
        self.now += 1

    def chosen(self) -> str:
        return NAMES[self.choices.below(len(NAMES))]

    def config(self, name: str) -> Dict[str, object]:
        """A config, most of them of few CPUs; some may take fewer, or are never moved, or name CPUs."""
        if name in POOLED:
            return config_of(0)
        way = self.choices.below(8)
        count = 1 + way % 3
        if way == 6:
            return config_of(0, "1-2")
        if way == 7:
            return config_of(2, **{"numarun.least": "1"})
        return config_of(count, **({"numarun.stay": "true"} if way == 5 else {}))

    def path(self, name: str) -> str:
        return f"{ROOT}/{name}"

    def come(self) -> None:
        """A container; its runtime has written the CPUs that its config names, or those of a container before."""
        name = self.chosen()
        if name not in self.bundles:
            self.count += 1
            config = self.config(name)
            has = read(config["linux"]["resources"]["cpu"].get("cpus", ""))  # type: ignore[index]
            has = has if self.choices.below(4) else read(("", "1-2", "3", "2,5")[self.choices.below(4)])
            self.place(name, has)
            self.bundles[name] = Bundle(config, self.count)
            self.limit_first(config)

    def place(self, name: str, cpus: Cpus) -> None:
        """A group, into which a process is moved from one that has all CPUs; where that changes nothing, it may run on those that are off too."""
        place = self.places[self.path(name)] = Place(self.count, cpus, shared=name in POOLED)
        place.strays = self.present - self.online if self.effective(place) == self.online else frozenset()

    def go(self) -> None:
        name = self.chosen()
        self.bundles.pop(name, None)
        self.places.pop(self.path(name), None)

    def come_anew(self) -> None:
        """Another container under an id; its config may come later."""
        name = self.chosen()
        if name in self.bundles:
            self.count += 1
            self.place(name, frozenset())
            config = self.config(name)
            self.bundles[name] = Bundle(config if self.choices.below(2) else None, self.count)
            self.limit_first(config)

    def configure(self) -> None:
        name = self.chosen()
        if name in self.bundles:
            self.count += 1
            flips = config_of(self.choices.below(3)) if self.choices.below(2) else self.config(name)
            self.bundles[name] = Bundle(flips, self.count)

    def damage(self) -> None:
        """A config that is none, or can't be had."""
        name = self.chosen()
        if name in self.bundles:
            self.count += 1
            self.bundles[name] = Bundle(None if self.choices.below(2) else config_of(0, "90"), self.count)

    def flap(self) -> None:
        cpu = 1 + self.choices.below(7)
        self.set_online(self.online ^ {cpu})

    def fail(self) -> None:
        self.read_only = 1 + self.choices.below(3)

    def hide(self) -> None:
        self.hidden = not self.hidden

    def spend(self) -> None:
        self.spent = True

    def starve(self) -> None:
        self.starved = 2 + self.choices.below(3)

    def lose(self) -> None:
        """What an agent left for the next one is not there as a whole: a link, or the record of what it took."""
        way, links = self.choices.below(16), sorted(self.links)
        if way in (13, 14) and links:
            del self.links[links[self.choices.below(len(links))]]
        elif way == 15:
            self.lose_record()

    def lose_record(self) -> None:
        """Without the record nobody knows of a limit that was lifted."""
        self.taken, self.theirs = {}, dict(self.limits)

    def drift(self) -> None:
        """Somebody else's write."""
        place = self.places.get(self.path(self.chosen()))
        if place and place.cpus:
            self.set_cpus(place, (RESERVED, RESERVED, read("1-2"), read("4"))[self.choices.below(4)])
        self.drifted = {place.inode for place in self.places.values() if place.cpus == RESERVED}

    def limit_first(self, config: Dict[str, object]) -> None:
        """The limit of a group that came last: the runtime wrote that of its config, or it writes none."""
        self.limits[self.count] = self.theirs[self.count] = None if self.choices.below(2) else quota_of(config)

    def limit_anew(self) -> None:
        """Somebody else gives a container another limit; or none, but not where an agent has lifted it, or may be about to: that is the same to
        see."""
        path = self.path(self.chosen())
        count, place, kept = self.choices.below(4), self.places.get(path), self.taken.get(path)
        if place and (count or not (self.lifts and self.is_within or kept and kept.limit)):
            self.limits[place.inode] = self.theirs[place.inode] = (100000 * count, 100000) if count else None

    def asked(self, name: str) -> Dict[str, object]:
        """What a container asks for: its config, with the limit that others gave its group."""
        config, limit = self.bundles[name].config, self.theirs[self.places[self.path(name)].inode]
        assert config
        section: Dict[str, object] = dict(config["linux"]["resources"]["cpu"])  # type: ignore[index]
        if limit:
            section["quota"], section["period"] = limit
        return {**config, "linux": {"resources": {"cpu": section}}}

    def settle(self) -> None:
        """All that went wrong is right again."""
        self.happened += 1
        self.hidden, self.read_only, self.starved = False, 0, 0
        self.set_online(self.present)
        for name, bundle in list(self.bundles.items()):
            if bundle.config is None or bundle.config == config_of(0, "90"):
                self.count += 1
                self.bundles[name] = Bundle(config_of(1) if name not in POOLED else config_of(0), self.count)

    # What a look finds.

    def look(self, ledger: Ledger) -> Look:
        self.now += 0.3
        told = {} if self.hidden else {name: self.found(name, bundle) for name, bundle in self.bundles.items()}
        paths = {container.seen.group.path for container in ledger.containers.values()} | ledger.taken.keys() | ledger.renewed.keys()
        paths |= {path for path, _ in ledger.before.values() if path} | {one.group.path for one in told.values() if isinstance(one, Found)}
        paths |= {stranger.path for stranger in ledger.strangers.values()}
        groups = {path: self.group(path) for path in paths}
        held = {one.group.path for one in told.values() if isinstance(one, Found)}
        inodes = {**{stranger.path: stranger.inode for stranger in ledger.strangers.values()}, **{path: entry.inode for path, entry in ledger.taken.items()}}
        held |= {path for path, inode in inodes.items() if path in self.places and self.places[path].inode == inode}
        self.seen = {path: (group.inode, group.cpus) for path, group in groups.items() if path in held and isinstance(group, Group)}
        return Look(self.now, told, groups, Online(self.online))

    def found(self, name: str, bundle: Bundle) -> Union[Found, Missing]:
        told = Told(f"/g/{name}", f"/g/{name}")
        if bundle.config is None:
            return Missing(told, "not JSON", True)
        group = self.group(self.path(name))
        if isinstance(group, NoGroup):
            return Missing(told, group.why)
        return Found(told, (told, bundle.turn), bundle.config, group, bundle.turn)

    def group(self, path: str) -> Union[Group, NoGroup]:
        place = self.places.get(path)
        if place is None:
            return NoGroup(f"{path}: no such group")
        return Group(path, place.inode, place.cpus, frozenset({0}), None, self.limits.get(place.inode), place.populated, (shown(place.cpus), "0"))


class Agent:
    """An agent over the world. Before some of what it does something happens, and at some of it it is killed."""

    def __init__(self, world: World) -> None:
        self.world = world
        world.lose()
        taken, renewed = {}, {}
        for path, entry in world.taken.items():
            place = world.places.get(path)
            if place and place.inode == entry.inode:
                taken[path] = entry
            elif place:
                renewed[path] = entry
        before: Dict[str, Tuple[Optional[str], Optional[bool]]] = {name: (path, None) for name, path in world.links.items() if name[0] != NAMELESS}
        world.copies.clear()
        settings = Settings(world.machine, "", ROOT, homes=False, pool_least=world.pool_least, pause=1.0, lift=world.lifts)
        self.ledger = Ledger(settings, frozenset({0}), taken=taken, renewed=renewed, before=before)
        self.program: Optional[Program] = None
        self.trial: Optional[Program] = None
        self.offline: Cpus = frozenset()  # as the program was begun
        self.lines: List[str] = []  # that were said in the last look
        self.said: List[str] = []   # those of them that are warnings
        self.known: Set[str] = set()  # the warnings since something happened last
        self.happened = self.at_look = world.happened
        self.set_back: Dict[str, Dict[str, Cpus]] = {}  # in the last look, by who was told of on the reserved CPUs, what each other group requested then
        self.tried: Dict[str, Cpus] = {}     # in the last look, what the last plan that was tried before gave to each
        self.denied: Set[str] = set()        # in the last look, who was refused
        self.is_short = self.is_disturbed = self.has_plan = False  # in the last look
        self.pooled: Set[str] = set()        # the groups that were on the pool as it began

    def look(self, troubled: bool) -> None:
        self.lines = []
        self.said, self.set_back, self.tried, self.denied = [], {}, {}, set()
        self.is_short = self.is_disturbed = self.has_plan = False
        is_first = self.ledger.pool is None and not self.ledger.renewed
        found = self.world.look(self.ledger)
        self.pooled = {path for path, place in self.world.places.items() if place.shared}
        if self.at_look != self.world.happened:  # what came in the midst of the last look is seen by this one
            self.known, self.at_look = set(), self.world.happened
        self.check_rest(found)
        self.world.is_within = True
        try:
            self.ledger = self.carry_out(decide(self.ledger, found), troubled)
        finally:
            self.world.is_within = False
        self.check_strangers()
        self.check_threads(found)
        if is_first and self.ledger.pool is not None and not self.is_short and not self.is_disturbed:
            self.check_beginnings()

    def carry_out(self, steps: Steps[Ledger], troubled: bool) -> Ledger:
        try:
            command = next(steps)
            while True:
                if troubled:
                    self.trouble()
                command = steps.send(self.do(command))
        except StopIteration as end:
            known: Ledger = end.value
            return known

    @property
    def rests(self) -> bool:
        """Whether there was nothing to be done at the last look, nor is at the next one, unless that finds something else."""
        return self.ledger.rest is not None

    def check_rest(self, found: Look) -> None:
        """A look that is no work, since it finds what the last one did, would be none if it were worked through."""
        if found == self.ledger.rest:
            before = self.ledger.copy()
            before.rest = None
            try:
                self.world.wrong.append(f"at rest, and to be done: {next(decide(before, found))}")
            except StopIteration as end:
                if not end.value.stands_as(self.ledger) or end.value.rest is None:
                    self.world.wrong.append("at rest, and something is known that was not")

    def check_strangers(self) -> None:
        """Behind each look numarun withholds what the agent knows of, and nothing else."""
        names = self.program.strangers.keys() if self.program else set[str]()
        if names - self.ledger.strangers.keys():
            self.world.wrong.append(f"withheld, and the agent knows nothing of it: {names - self.ledger.strangers.keys()}")

    def check_threads(self, found: Look) -> None:
        """Behind each look no thread of a container that the look found may run on another one's own CPUs, of those that are there and were as the look
        began; but for groups that can't be written."""
        seen = {told.group.path: name for name, told in found.told.items() if isinstance(told, Found)
                and told.group.path in self.world.places and told.group.inode == self.world.places[told.group.path].inode}
        for name, row in self.program.rows.items() if self.program else ():
            for path, place in self.world.places.items():
                both = place.strays & row.cpus & found.online.running & self.world.online - RESERVED
                if row.count is not None and path in seen and path != self.world.links.get(name) and both and self.ledger.problem(Topic.THREADS, seen[path]) is None:
                    self.world.wrong.append(f"threads of {path} may run on {shown(both)}, which {name} has")

    def check_beginnings(self) -> None:
        """Behind the first plan of a run: who came, and has CPUs by it that nobody requested then, nor those of the plan that was tried, which may be
        another one, was never on the reserved CPUs alone."""
        for name, others in self.set_back.items():
            row = self.program.rows.get(name) if self.program else None
            tried = self.tried.get(name, row.cpus) if row else NO_CPUS
            if row and row.cpus != RESERVED and not (row.cpus | tried) & self.kept_off(row, others) - RESERVED:
                self.world.wrong.append(f"{name} was on the reserved CPUs, though nobody had {shown(row.cpus)}")

    def kept_off(self, row: Row, others: Dict[str, Cpus]) -> Cpus:
        """What others requested that keeps a container off: of one that asks for no CPUs of its own, only what is requested by who asks for some, or
        did as the look began, or was not told of."""
        pooled = {path for path, place in self.world.places.items() if place.shared} & self.pooled
        return NO_CPUS.union(*(cpus for path, cpus in others.items() if row.count is not None or path not in pooled))

    def note_set_back(self, command: Tell, answer: str) -> None:
        """Notes who is told of on the reserved CPUs, but for those that request CPUs which are others', or whose config is refused as it is. If
        one of the latter has CPUs, the plan that is tried does not know of these."""
        name = command.name
        if answer.startswith("refused E"):
            self.denied.add(name)
            place = self.world.places.get(self.world.path(name))
            self.is_disturbed = self.is_disturbed or answer.startswith("refused E104") or bool(place and place.cpus - RESERVED)
        elif command.verb is Verb.CREATE and name not in self.denied:
            self.set_back[name] = {path: place.cpus for path, place in self.world.places.items() if path != self.world.path(name)}

    def trouble(self) -> None:
        draw = self.world.choices.below(64)
        if draw == 1:
            raise Killed()
        if draw > 56:
            self.is_disturbed = True
            self.world.happen()

    def do(self, command: Command) -> Answer:
        world = self.world
        if isinstance(command, (Ask, Tell)):
            return self.answer(command)
        if isinstance(command, Say):
            self.hear(command)
        elif isinstance(command, Start):
            world.links, world.spent, self.known = dict(command.strangers), False, set()
            self.program, self.offline = Program(world, True, command.reserved, command.offline), command.offline
        elif isinstance(command, OpenTrial):
            assert self.program
            self.trial = Program(world, False, self.program.reserved, self.offline)
        elif isinstance(command, CloseTrial):
            self.trial = None
        elif isinstance(command, Link):
            world.links[command.name] = command.path
        elif isinstance(command, Unlink):
            world.links.pop(command.name, None)
        elif isinstance(command, Drop):
            world.copies.discard(command.name)
        elif isinstance(command, SaveTaken):
            world.taken = dict(command.groups)
        elif isinstance(command, SetLimit):
            return world.set_limit(command)
        elif isinstance(command, Gather):
            return world.gather(command)
        elif isinstance(command, Write):
            return Answer(why=None if world.write(command.path, read(command.text)) else f"{command.path}: Read-only file system")
        return Answer()

    def answer(self, command: Union[Ask, Tell]) -> Answer:
        program = self.trial if command.trial else self.program
        assert program
        if isinstance(command, Ask):
            lines = program.ask(command.line)
            if command.trial and lines[0].startswith("plan") and not self.set_back:
                self.tried = {name: read(cpus) for kind, name, cpus in (line.split(" ") for line in lines[1:-2])}
        else:
            self.world.copies.add(command.name)
            lines = (program.tell(command),)
            if not command.trial:
                self.note_set_back(command, lines[0])
        gets_room = isinstance(command, Tell) and command.verb is Verb.UPDATE and not command.trial and not self.has_plan
        self.is_short, self.has_plan = self.is_short or lines[0].startswith("short") and not command.trial, self.has_plan or lines[0].startswith("plan") and not command.trial
        self.is_disturbed = self.is_disturbed or gets_room or lines[0] in (NO_WRITE, NO_MEMORY)
        return Answer(lines, (f"{self.world.refused}: Read-only file system",) if lines[0] == NO_WRITE else ())

    def hear(self, command: Say) -> None:
        self.lines.append(command.line)
        if command.level is Level.WARNING:
            self.said.append(command.line)
            self.check_twice(command.line)
        kind, _, name = command.line.partition(" ")
        container = self.ledger.containers.get(name)
        self.is_disturbed = self.is_disturbed or kind == "ended"
        if kind == "ended" and container:
            place = self.world.places.get(container.seen.group.path)
            if place and place.populated and place.inode == container.seen.group.inode:
                self.world.wrong.append(f"{name} has a process, and was given up")

    def check_twice(self, line: str) -> None:
        """No warning is said again as long as nothing happens; but to another run all is told anew, and what is refused then is said again."""
        if self.happened != self.world.happened:
            self.known, self.happened = set(), self.world.happened
        if line in self.known:
            self.world.wrong.append(f"said twice: {line}")
        self.known.add(line)
