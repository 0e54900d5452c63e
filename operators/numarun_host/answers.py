"""What scripts read in the answers of a script: plans, shortages and certificates.

Sets of CPUs in certificates are masks, since a large one has thousands of them. Where the machine file lists cores, a certificate counts
cores: each is there as its lowest CPU, and all its numbers are those of cores."""

from __future__ import annotations

import re
from typing import Dict, Iterable, Iterator, List, NoReturn, Optional, Sequence, Tuple, Union

from .cpus import Cpus, cpus_of, mask_of, print_list, read_list, read_ranges
from .machine import Machine
from .names import short
from .script import Refused, read_text

LOCAL = 10
SCALE = 65536  # a weight of version 2 is the distance times this, and one more where the CPU moves
Words = Sequence[str]


def cut(text: str, width: int) -> str:
    """As much of a text as has room; a list of CPUs ends behind a comma."""
    if len(text) <= width:
        return text
    front = text[: width - 1]
    comma = front.rfind(",") + 1
    return (front[:comma] if comma > width // 2 else front) + "…"


def cut_name(name: str, width: int) -> str:
    """The front and the end of a name, by which those of one service are told apart; of an id of 64 digits the first ones."""
    name, tail = short(name), width // 3
    return name if len(name) <= width else f"{name[: width - 1 - tail]}…{name[-tail:]}"


def wrapped(text: str, indent: str = "    ") -> List[str]:
    """Lines of at most 80 columns, cut behind blanks and commas."""
    lines, line = [], ""
    for part in re.findall(r"[^ ,]*[ ,]|[^ ,]+", text):
        if len(line) + len(part.rstrip()) > 80 and line.strip():
            lines.append(line.rstrip())
            line = indent
        line += part
    return lines + [line.rstrip()]


class Certificate:
    """Its rows by their ids. Weights, values and amounts are as they are written, `scale` times a distance; CPUs stand for cores."""

    def __init__(self, line: int, scale: int, machine: Machine) -> None:
        self.line, self.scale, self.machine, self.moves = line, scale, machine, 0
        self.total: Optional[int] = None
        self.demand: Dict[str, int] = {}
        self.offers: Dict[str, List[Tuple[int, int]]] = {}  # pairs of a weight and a mask
        self.holds: Dict[str, int] = {}
        self.values: Dict[str, int] = {}
        self.prices: List[Tuple[int, int]] = []
        self.short: List[str] = []

    def allowed(self, name: str) -> int:
        """All that a container may have."""
        mask = 0
        for _, cpus in self.offers[name]:
            mask |= cpus
        return mask

    def distance_to(self, name: str, cpu: int) -> Optional[int]:
        core = self.machine.core_of[cpu]
        return next((weight // self.scale for weight, cores in self.offers.get(name, []) if cores >> core & 1), None)

    def cpus(self, cores: int) -> Cpus:
        """The CPUs of cores, which are a mask of their lowest CPUs."""
        return self.machine.cpus_of(cpus_of(cores))

    def listed(self, cores: int) -> str:
        return print_list(self.cpus(cores))

    def of_cpus(self, number: int) -> int:
        """As many cores, or what so many cost together, counted by CPUs."""
        return number * self.machine.threads

    @property
    def unit(self) -> str:
        return "CPU" if self.machine.threads == 1 else "core"


class Plan:
    """A plan, and the certificate behind it where there is one."""

    def __init__(self, line: int, total: int) -> None:
        self.line, self.total = line, total
        self.certificate: Optional[Certificate] = None
        self.holds: Dict[str, Cpus] = {}
        self.pool: Optional[Cpus] = None

    def weight(self, name: str, cpu: int) -> Optional[int]:
        return self.certificate.distance_to(name, cpu) if self.certificate else None

    def is_told_by(self, certificate: Certificate) -> bool:
        return not certificate.short and list(certificate.demand) == list(self.holds)

    def holder_of(self) -> Dict[int, str]:
        return {cpu: name for name, cpus in self.holds.items() for cpu in cpus}

    def distance(self, name: str) -> Optional[int]:
        """The container's distance, or nothing where no certificate tells it."""
        weights = [self.weight(name, cpu) for cpu in self.holds[name]]
        known = [weight for weight in weights if weight is not None]
        return sum(known) if len(known) == len(weights) else None

    def far(self, name: str) -> Dict[int, Cpus]:
        """The CPUs of a container that are beyond local, by their distance."""
        by_weight: Dict[int, Cpus] = {}
        for cpu in self.holds[name]:
            weight = self.weight(name, cpu) or 0
            if weight > LOCAL:
                by_weight[weight] = by_weight.get(weight, frozenset()) | {cpu}
        return by_weight


class Shortage:
    """Its members together ask for `demand` CPUs and may have the `allowed` ones; and the certificate behind it where there is one."""

    def __init__(self, line: int, demand: int, allowed: Cpus) -> None:
        self.line, self.demand, self.allowed = line, demand, allowed
        self.certificate: Optional[Certificate] = None
        self.members: List[str] = []

    def is_told_by(self, certificate: Certificate) -> bool:
        return certificate.short == self.members


Outcome = Union[Plan, Shortage]


class Answers:
    """The outcomes and the certificates among the answers of a script, or in these lines; others are passed over."""

    def __init__(self, path: str, machine: Machine, lines: Optional[Sequence[str]] = None) -> None:
        self.path, self.machine = path, machine
        self.outcomes: List[Outcome] = []
        self.certificates: List[Certificate] = []
        self.masks: Dict[str, int] = {}
        self.lines = read_text(path).splitlines() if lines is None else lines
        self.cores = mask_of(machine.cores)
        self.at = 0
        while self.at < len(self.lines):
            words = self.lines[self.at].split(" ")
            self.at += 1
            if re.fullmatch(r"plan total [0-9]{1,20}", " ".join(words)):
                self.read_plan(int(words[2]))
            elif words[:2] == ["short", "demand"] and len(words) == 5 and words[3] == "allowed":
                self.read_shortage(words)
            elif words in (["numarun-certificate", "1"], ["numarun-certificate", "2"]):
                self.read_certificate(SCALE if words[1] == "2" else 1)

    @property
    def plans(self) -> List[Plan]:
        return [outcome for outcome in self.outcomes if isinstance(outcome, Plan)]

    def place(self) -> str:
        return f"{'standard input' if self.path == '-' else self.path}: line {self.at}"

    def refuse(self, what: str) -> NoReturn:
        raise Refused(f"{self.place()}: {what}")

    def at_end(self, what: str) -> NoReturn:
        """Refuses the whole, at its end."""
        self.at = len(self.lines) + 1
        self.refuse(what)

    def block(self, what: str) -> Iterator[List[str]]:
        """The words of the lines up to `end`."""
        while self.at < len(self.lines):
            self.at += 1
            if self.lines[self.at - 1] == "end":
                return
            yield self.lines[self.at - 1].split(" ")
        self.at += 1
        self.refuse(f"the {what} has no end")

    def cpus(self, text: str) -> Cpus:
        cpus = read_list(text, self.place())
        if not cpus <= self.machine.present:
            self.refuse(f"the machine has no CPU {min(cpus - self.machine.present)}")
        return cpus

    def mask(self, text: str) -> int:
        """The mask of a list of CPUs that stand for cores; the same text is read once."""
        mask = self.masks.get(text, 0)
        if not mask:
            for first, last in read_ranges(text, self.place()):
                mask |= (1 << last + 1) - (1 << first)
            if mask & ~self.cores:
                stray = min(cpus_of(mask & ~self.cores))
                self.refuse(f"CPU {stray} is the lowest of no core" if stray in self.machine.present else f"the machine has no CPU {stray}")
            self.masks[text] = mask
        return mask

    def number(self, word: str) -> int:
        if not re.fullmatch(r"[0-9]{1,20}", word):
            self.refuse(f"{word[:40]!r} is no number")
        return int(word)

    def read_plan(self, total: int) -> None:
        plan, taken = Plan(self.at, total), frozenset[int]()
        for words in self.block("plan"):
            if words[0] == "hold" and len(words) == 3 and words[1].isprintable() and words[1] not in plan.holds:
                cpus = plan.holds[words[1]] = self.cpus(words[2])
            elif words[0] == "pool" and len(words) == 2 and plan.pool is None:
                cpus = plan.pool = self.cpus(words[1])
            else:
                self.refuse(f"{' '.join(words)[:40]!r} is no line of a plan")
            if cpus & taken:
                self.refuse(f"CPU {min(cpus & taken)} stands twice in the plan")
            taken |= cpus
        if plan.pool is None:
            self.refuse("the plan has no pool")
        self.outcomes.append(plan)

    def read_shortage(self, words: Words) -> None:
        shortage = Shortage(self.at, self.number(words[2]), self.cpus(words[4]))
        for words in self.block("shortage"):
            if words[0] != "member" or len(words) != 2 or not words[1].isprintable() or words[1] in shortage.members:
                self.refuse(f"{' '.join(words)[:40]!r} is no line of a shortage")
            shortage.members.append(words[1])
        self.outcomes.append(shortage)

    def read_certificate(self, scale: int) -> None:
        certificate = Certificate(self.at, scale, self.machine)
        self.priced = 0
        for words in self.block("certificate"):
            self.read_row(certificate, words)
        self.certificates.append(certificate)
        if self.outcomes and self.outcomes[-1].is_told_by(certificate):
            self.outcomes[-1].certificate = certificate

    def read_row(self, to: Certificate, words: Words) -> None:
        """A line of a certificate."""
        if words[0] == "row" and len(words) >= 3 and words[1].isprintable() and words[1] not in to.demand:
            to.demand[words[1]] = self.number(words[2])
            to.offers[words[1]] = [self.offer(text) for text in words[3:]]
            self.once(cpus for _, cpus in to.offers[words[1]])
        elif words[0] == "hold" and len(words) == 4 and words[1] in to.demand and words[1] not in to.holds:
            to.holds[words[1]], to.values[words[1]] = self.mask(words[2]), self.number(words[3])
        elif words[0] == "price" and len(words) == 3:
            to.prices.append((self.number(words[1]), self.mask(words[2])))
            self.priced = self.once([self.priced, to.prices[-1][1]])
        elif words[0] == "total" and len(words) == (2 if to.scale == 1 else 4):
            to.total, to.moves = self.number(words[1]), self.number(words[-1]) if to.scale != 1 else 0
        elif words[0] == "short" and len(words) == 2 and words[1] in to.demand and words[1] not in to.short:
            to.short.append(words[1])
        else:
            self.refuse(f"{' '.join(words)[:40]!r} is no line of a certificate")

    def once(self, masks: Iterable[int]) -> int:
        """All of these together, where no CPU is in two of them."""
        whole = 0
        for mask in masks:
            if whole & mask:
                self.refuse(f"CPU {min(cpus_of(whole & mask))} stands twice in the line, or in two prices")
            whole |= mask
        return whole

    def offer(self, text: str) -> Tuple[int, int]:
        weight, colon, cpus = text.partition(":")
        if not re.fullmatch(r"[0-9]{1,20}", weight) or not colon:
            self.refuse(f"{text[:40]!r} is no offer")
        return int(weight), self.mask(cpus)
