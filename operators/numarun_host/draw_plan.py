"""Draws a plan or a shortage of `numarun run`, read from the answers of a script on standard input, as an SVG or, with
--text, as text of 80 columns.

Drawn are the nodes with their CPUs: each container in a colour and with letters of its own, the pool, reserved and offline
CPUs. The legend has each container's CPUs and total distance, and which of them are far from home. Of a shortage it is the
CPUs that those who are short may have: in a container's colour where no other of them may have it, and `*` where several
may. Where the machine file lists cores, the CPUs of a core (SMT siblings) stand together, in a box of their own. Distances, and
who may have what, are told by the certificate: put the command `certificate` behind `rebalance` in the
script. Of several outcomes the last one is drawn; --before draws it beside the plan before, with a thick edge where a
container got a CPU, and lists what has moved."""

from __future__ import annotations

import argparse
import html
from typing import Dict, Iterable, List, NamedTuple, Optional, Sequence, Tuple, Union

from .answers import LOCAL, Answers, Outcome, Plan, Shortage, cut, cut_name, wrapped
from .cpus import NO_CPUS, Cpus, counted, print_list
from .machine import Machine

EXAMPLE = """example, from the top of the repository:
  crates/numarun/out/numarun run examples/machines/two-socket.json < examples/scripts/plans > answers
  operators/numarun-draw-plan examples/machines/two-socket.json < answers > plan.svg"""
# Of the palette of Okabe and Ito, which people without red or green tell apart; further containers take lighter and
# darker shades of these with stripes across.
PALETTE = ["#e69f00", "#56b4e9", "#009e73", "#f0e442", "#0072b2", "#d55e00", "#cc79a7"]


def letters(count: int) -> List[str]:
    """As many distinct tags: one letter each, or two where there are more containers than letters; x is an offline CPU."""
    signs = "abcdefghijklmnopqrstuvwyzABCDEFGHIJKLMNOPQRSTUVWYZ"
    return list(signs[:count]) if count <= len(signs) else [a + b for a in signs for b in signs][:count]


def mixed(colour: str, other: str, part: float) -> str:
    pair = [[int(code[k : k + 2], 16) for k in (1, 3, 5)] for code in (colour, other)]
    return "#" + "".join(f"{round(a + (b - a) * part):02x}" for a, b in zip(*pair))


class Paint(NamedTuple):
    """How a CPU is drawn; `tip` is what it says when pointed at."""

    fill: str
    ink: str
    tag: str
    tip: str
    striped: bool = False
    offline: bool = False
    far: bool = False
    moved: bool = False


RESERVED = Paint("#404040", "#ffffff", "#", "reserved")
POOL = Paint("#ffffff", "#606060", "", "pool")
OFFLINE = Paint("#ffffff", "#303030", "", "offline", offline=True)
SEVERAL = Paint("#c8c8c8", "#000000", "*", "for several")
NOBODY = Paint("#ffffff", "#606060", "", "for none")


Entry = Tuple[Paint, str, str]  # of the legend: a CPU, and what is said beside it and below
Move = Tuple[Optional[Cpus], Optional[Cpus]]  # what a container gives and gets


class Style:
    """The tag, the colour and the stripes of each container that has CPUs in one of the plans, or is short."""

    def __init__(self, outcomes: Sequence[Outcome]) -> None:
        named: Iterable[Iterable[str]] = (outcome.holds if isinstance(outcome, Plan) else outcome.members for outcome in outcomes)
        self.names = list(dict.fromkeys(name for names in named for name in names))
        self.tag = dict(zip(self.names, letters(len(self.names))))
        self.place = {name: k for k, name in enumerate(self.names)}

    def colour(self, name: str) -> str:
        base, turn = PALETTE[self.place[name] % len(PALETTE)], self.place[name] // len(PALETTE)
        shades = [(base, 0), ("#ffffff", 0.5), ("#000000", 0.3), ("#ffffff", 0.75)]
        return base if turn % 4 == 0 else mixed(base, shades[turn % 4][0], shades[turn % 4][1])

    def ink(self, name: str) -> str:
        """Black or white, whichever has the higher contrast to the colour."""
        red, green, blue = ((int(self.colour(name)[k : k + 2], 16) / 255) ** 2.2 for k in (1, 3, 5))
        return "#000000" if 0.2126 * red + 0.7152 * green + 0.0722 * blue > 0.18 else "#ffffff"

    def look(self, name: str) -> Paint:
        return Paint(self.colour(name), self.ink(name), self.tag[name], name, striped=self.place[name] >= len(PALETTE))


class PlanView:
    """How a plan is drawn; `before` is the plan beside it, where that is drawn too."""

    def __init__(self, machine: Machine, plan: Plan, style: Style, name: str = "", before: Optional[Plan] = None) -> None:
        self.machine, self.plan, self.style, self.name, self.holder = machine, plan, style, name, plan.holder_of()
        self.pool = plan.pool or NO_CPUS
        self.before = before.holder_of() if before else None
        known = plan.certificate or not plan.holds
        self.title = f"total distance {plan.total}" + ("" if known else " (each: no certificate)")
        self.signs = "# reserved   x offline   . pool"

    def sign(self, cpu: int) -> str:
        if cpu in self.holder:
            return self.style.tag[self.holder[cpu]]
        if cpu in self.machine.reserved:
            return "#"
        return "." if cpu in self.pool else "x"

    def look(self, cpu: int) -> Paint:
        name = self.holder.get(cpu)
        if name is None:
            return RESERVED if cpu in self.machine.reserved else POOL if cpu in self.pool else OFFLINE
        weight = self.plan.weight(name, cpu)
        return self.style.look(name)._replace(
            tip=name if weight is None else f"{name}, distance {weight}",
            far=(weight or 0) > LOCAL,
            moved=self.before is not None and self.before.get(cpu) != name,
        )

    def grounds(self) -> List[Entry]:
        """The legend's entries for CPUs that are nobody's own."""
        return [(RESERVED, "", ""), (POOL, print_list(self.pool), ""), (OFFLINE, "", "")]

    def facts(self, name: str) -> Tuple[str, str, str]:
        """What the legend says of a container behind its name, which of its CPUs, and which are far."""
        if name not in self.plan.holds:
            return "gone", "", ""
        cpus, distance = self.plan.holds[name], self.plan.distance(name)
        text = counted(len(cpus)) + (f", distance {distance}" if distance is not None else "")
        far = "; ".join(f"{len(cpus)} at {weight}: {print_list(cpus)}" for weight, cpus in sorted(self.plan.far(name).items()))
        return text, print_list(cpus), far


class ShortView:
    """How a shortage is drawn: the CPUs that those who are short may have."""

    def __init__(self, machine: Machine, shortage: Shortage, style: Style, name: str = "") -> None:
        self.machine, self.shortage, self.style, self.name, self.told = machine, shortage, style, name, shortage.certificate
        missing = shortage.demand - len(shortage.allowed)
        self.title = f"short: {counted(shortage.demand)} asked for, {len(shortage.allowed)} there, {missing} missing"
        self.signs = "# reserved   . for none who is short   * for several"
        self.takers: Dict[int, List[str]] = {}
        for name in shortage.members if self.told else []:
            for cpu in shortage.allowed & self.allowed(name):
                self.takers.setdefault(cpu, []).append(name)

    def allowed(self, name: str) -> Cpus:
        return self.told.cpus(self.told.allowed(name)) if self.told else NO_CPUS

    def sign(self, cpu: int) -> str:
        if cpu in self.machine.reserved:
            return "#"
        takers = self.takers.get(cpu, [])
        return self.style.tag[takers[0]] if len(takers) == 1 else "*" if cpu in self.shortage.allowed else "."

    def look(self, cpu: int) -> Paint:
        if cpu in self.machine.reserved:
            return RESERVED
        takers = self.takers.get(cpu, [])
        if len(takers) == 1:
            return self.style.look(takers[0])
        return SEVERAL if cpu in self.shortage.allowed else NOBODY

    def grounds(self) -> List[Entry]:
        who = "of those who are short"
        return [(RESERVED, "", ""), (NOBODY, who, ""), (SEVERAL, who, "")]

    def facts(self, name: str) -> Tuple[str, str, str]:
        if name not in self.shortage.members:
            return "not short", "", ""
        if not self.told:
            return "short", "", ""
        asked, allowed = self.told.of_cpus(self.told.demand[name]), self.allowed(name)
        return f"asks for {asked}, may have {len(allowed)}", print_list(allowed), ""


View = Union[PlanView, ShortView]


def moves(before: Plan, after: Plan) -> Dict[str, Move]:
    """What each container gives back and gets from one plan to the next: none, where it is new or gone."""
    found: Dict[str, Move] = {}
    for name, old in before.holds.items():
        new = after.holds.get(name)
        if old != new:
            found[name] = (old, None) if new is None else (old - new, new - old)
    for name in after.holds:
        if name not in before.holds:
            found[name] = (None, after.holds[name])
    return found


def move_text(gives: Optional[Cpus], gets: Optional[Cpus]) -> str:
    if gets is None:
        return f"gone, had {print_list(gives or NO_CPUS)}"
    return f"new, gets {print_list(gets)}" if gives is None else f"gives {print_list(gives)}, gets {print_list(gets)}"


def move_lines(before: Plan, after: Plan, style: Style) -> List[str]:
    rows = [f"  {style.tag[name]} {cut_name(name, 20)}: {move_text(*change)}" for name, change in moves(before, after).items()]
    return ["moves:"] + rows if rows else ["moves: none"]


def views_of(machine: Machine, outcomes: Sequence[Outcome], style: Style) -> List[View]:
    """The views of one outcome, or of a plan and what came of it."""
    views: List[View] = []
    for k, outcome in enumerate(outcomes):
        name, first = ("before: ", "after: ")[k] if len(outcomes) == 2 else "", outcomes[0]
        if isinstance(outcome, Plan):
            views.append(PlanView(machine, outcome, style, name, first if k and isinstance(first, Plan) else None))
        else:
            views.append(ShortView(machine, outcome, style, name))
    return views


def move_lines_of(outcomes: Sequence[Outcome], style: Style) -> List[str]:
    """What moved from a plan to the next one, where these are drawn."""
    if len(outcomes) == 2 and isinstance(outcomes[0], Plan) and isinstance(outcomes[1], Plan):
        return move_lines(outcomes[0], outcomes[1], style)
    return []


# Text.


def by_cores(machine: Machine, cpus: Cpus) -> List[List[int]]:
    """The CPUs of a node as lists, one for each core."""
    return [sorted(machine.cores[cpu]) for cpu in sorted(cpus & machine.cores.keys())]


def text_lines(machine: Machine, cpus: Cpus, width: int, size: int) -> Tuple[List[List[List[int]]], str]:
    """The CPUs of a node in lines of as many cores as have room, or of CPUs where a core is alone longer than a line."""
    cores = by_cores(machine, cpus)
    apart = machine.threads > 1
    if machine.threads * size > width:
        cores, apart = [[cpu] for core in cores for cpu in core], False
    count = width // (len(cores[0]) * size + apart) if cores else 1
    return [cores[k : k + max(count, 1)] for k in range(0, len(cores), max(count, 1))], " " if apart else ""


def text_row(view: View, cores: List[List[int]], between: str, size: int) -> str:
    return between.join("".join(view.sign(cpu).ljust(size) for cpu in core) for core in cores)


def draw_text(machine: Machine, outcomes: Sequence[Outcome]) -> str:
    style = Style(outcomes)
    views = views_of(machine, outcomes, style)
    size = max([1] + [len(tag) for tag in style.tag.values()])
    width = 64 if len(views) == 1 else 32
    out = [view.name + view.title for view in views]
    for node, cpus in enumerate(machine.nodes):
        out += ["", cut(f"node {node}: " + (f"CPUs {print_list(cpus)}" if cpus else "memory alone"), 80)]
        lines, between = text_lines(machine, cpus, width, size)
        for cores in lines:
            row = "   ".join(text_row(view, cores, between, size).ljust(width // size * size) for view in views)
            out.append(f"{cores[0][0]:>6}  " + row.rstrip())
    out += ["", *dict.fromkeys(f"legend: {view.signs}" for view in views)]
    for name in style.names:
        out += legend_lines(views[-1], style, name, size)
    moved = move_lines_of(outcomes, style)
    out += [""] if moved else []
    for line in moved:
        out += wrapped(line)
    return "\n".join(out)


def legend_lines(view: View, style: Style, name: str, size: int) -> List[str]:
    text, cpus, far = view.facts(name)
    lines = wrapped(f"{style.tag[name]:{size}} {cut_name(name, 24)}: {text}" + (f": {cpus}" if cpus else ""))
    return lines + (wrapped(f"{' ' * size} far from home: {far}") if far else [])


# Pictures.


class Picture:
    """Lines of an SVG, and how far it reaches."""

    def __init__(self) -> None:
        self.lines: List[str] = []
        self.width, self.height = 0.0, 0.0

    def reach(self, x: float, y: float) -> None:
        self.width, self.height = max(self.width, x), max(self.height, y)

    def add(self, line: str) -> None:
        self.lines.append(line)

    def box(self, x: float, y: float, width: float, height: float, fill: str, more: str = "") -> None:
        self.reach(x + width, y + height)
        self.add(f'<rect x="{x:g}" y="{y:g}" width="{width:g}" height="{height:g}" fill="{fill}"{more}/>')

    def text(self, x: float, y: float, size: float, text: str, more: str = "") -> None:
        """Text in letters of one width, of which each takes at most 0.62 of its size."""
        self.reach(x + 0.62 * size * len(text), y + size / 2)
        self.add(f'<text x="{x:g}" y="{y:g}" font-size="{size:g}"{more}>{html.escape(text)}</text>')

    def inside(self, x: float, y: float, size: float, text: str, ink: str, bold: bool = False) -> None:
        """Text about a middle, in a box that is there."""
        more = ' font-weight="bold"' if bold else ""
        self.add(f'<text x="{x:g}" y="{y:g}" font-size="{size:g}"{more} text-anchor="middle" fill="{ink}">{text}</text>')

    def svg(self, title: str) -> str:
        width, height = self.width + 16, self.height + 16
        head = [
            f'<svg xmlns="http://www.w3.org/2000/svg" viewBox="0 0 {width:g} {height:g}" width="{width:g}" height="{height:g}"'
            ' font-family="DejaVu Sans Mono, Menlo, Consolas, monospace" role="img">',
            f"<title>{html.escape(title)}</title>",
            '<defs><pattern id="stripes" width="6" height="6" patternUnits="userSpaceOnUse" patternTransform="rotate(45)">'
            '<rect width="1.5" height="6" fill="#000000" fill-opacity="0.45"/></pattern></defs>',
            f'<rect x="0.5" y="0.5" width="{width - 1:g}" height="{height - 1:g}" rx="8" fill="#fafafa" stroke="#808080"/>',
        ]
        return "\n".join(head + self.lines + ["</svg>"])


def draw_box(picture: Picture, x: float, y: float, width: float, height: float, look: Paint) -> None:
    """The ground of a CPU, or of a line of the legend."""
    edge = ' stroke="#606060" stroke-width="0.8"' + (' stroke-dasharray="2 2"' if look.offline else "")
    picture.box(x, y, width, height, look.fill, ' stroke="#000000" stroke-width="2.2"' if look.moved else edge)
    if look.striped:
        picture.box(x + 0.5, y + 0.5, width - 1, height - 1, "url(#stripes)")
        picture.box(x + width * 0.14, y + height * 0.08, width * 0.72, height * 0.84, look.fill)
    if look.offline:
        picture.add(f'<path d="M{x:g} {y:g}l{width:g} {height:g}m0 {-height:g}l{-width:g} {height:g}" stroke="#c8c8c8" fill="none"/>')


def draw_cell(picture: Picture, x: float, y: float, side: int, cpu: int, look: Paint) -> None:
    """One CPU: its number above, and the letters of its container below."""
    inner = side - 2
    picture.add(f"<g><title>CPU {cpu}: {html.escape(look.tip)}</title>")
    draw_box(picture, x, y, inner, inner, look)
    picture.inside(x + inner / 2, y + inner * 0.4, side * 0.31, str(cpu), look.ink)
    if look.tag:
        picture.inside(x + inner / 2, y + inner * 0.85, side * 0.4, look.tag, look.ink, bold=True)
    if look.far:
        corner, other = inner * 0.34, "#ffffff" if look.ink == "#000000" else "#000000"
        picture.add(f'<path d="M{x + inner:g} {y:g}v{corner:g}l{-corner:g} {-corner:g}z" fill="{look.ink}" stroke="{other}" stroke-width="0.5"/>')
    picture.add("</g>")


class Grid:
    """Where the CPUs of nodes stand: in lines of cells, with as many cores across as have room. A core whose CPUs are more than a
    line has is several lines high; round one of several CPUs there is room for a box."""

    def __init__(self, machine: Machine) -> None:
        most = max(len(cpus) for cpus in machine.nodes)
        self.side = 34 if len(machine.present) <= 64 else 28 if len(machine.present) <= 256 else 24
        columns = min(16 if most > 8 else 8, most)
        self.threads, self.columns = machine.threads, min(machine.threads, columns)
        self.across, self.edge = columns // self.columns, 3 if self.threads > 1 else 0
        self.wide = self.columns * self.side + 2 * self.edge
        self.high = -(-self.threads // self.columns) * self.side + 2 * self.edge
        self.width = self.across * self.wide

    def height(self, cpus: Cpus) -> int:
        """What a node of so many CPUs takes."""
        return max(1, -(-len(cpus) // self.threads // self.across)) * self.high

    def draw_core(self, picture: Picture, x: float, y: float, core: int, cpus: List[int], view: View) -> None:
        """The core with this place in its node, whose cells begin here."""
        x, y = x + core % self.across * self.wide, y + core // self.across * self.high
        if self.edge:
            picture.box(x, y, self.wide - 3, self.high - 3, "#c4c4c4", ' rx="4" stroke="#808080" stroke-width="0.8"')
        for k, cpu in enumerate(cpus):
            left, top = x + self.edge + k % self.columns * self.side, y + self.edge + k // self.columns * self.side
            draw_cell(picture, left - self.edge / 6, top - self.edge / 6, self.side, cpu, view.look(cpu))


def draw_nodes(picture: Picture, machine: Machine, view: View, left: float, top: float, room: float) -> float:
    """The nodes of a machine from this corner on; answers how far down they reach."""
    grid = Grid(machine)
    width = max(grid.width, 150) + 20
    across = max(1, min(len(machine.nodes), int(room // (width + 12))))
    y = top
    for first in range(0, len(machine.nodes), across):
        nodes = range(first, min(first + across, len(machine.nodes)))
        height = max(grid.height(machine.nodes[node]) for node in nodes)
        for node in nodes:
            x, cpus = left + (node - first) * (width + 12), machine.nodes[node]
            picture.box(x, y, width, height + 34, "#eeeeee", ' rx="5" stroke="#404040"')
            name = f"node {node}" + (f": {print_list(cpus)}" if cpus else ": memory alone")
            picture.text(x + 10, y + 18, 12, cut(name, int((width - 20) / 7.5)), ' fill="#000000"')
            for core, siblings in enumerate(by_cores(machine, cpus)):
                grid.draw_core(picture, x + 10, y + 27, core, siblings, view)
        y += height + 46
    return y


def legend_entries(views: Sequence[View], style: Style) -> List[Entry]:
    view = views[-1]
    entries = list({entry[0].tip: entry for side in views for entry in side.grounds()}.values())
    if isinstance(view, PlanView) and view.before is not None:
        entries.append((POOL._replace(tip="got (see moves)", moved=True), "", ""))
    for name in style.names:
        text, _, far = view.facts(name)
        entries.append((style.look(name), text, far))
    return entries


def draw_legend(picture: Picture, views: Sequence[View], style: Style, top: float, room: float) -> float:
    """The legend, in as many columns as there is room for."""
    wide = 470
    across = max(1, int(room // wide))
    entries, y = legend_entries(views, style), top
    for first in range(0, len(entries), across):
        tall = 22
        for k, (look, text, far) in enumerate(entries[first : first + across]):
            x = 16 + k * wide
            draw_box(picture, x, y, 24, 16, look)
            picture.inside(x + 12, y + 12, 11, look.tag, look.ink, bold=True)
            picture.text(x + 32, y + 12, 12, cut_name(look.tip, 20), ' fill="#000000"')
            picture.text(x + 32 + 21 * 7.5, y + 12, 12, cut(text, 36), ' fill="#000000"')
            if far:
                picture.text(x + 32, y + 28, 12, cut(f"◥ far from home: {far}", 56), ' fill="#000000"')
                tall = 38
        y += tall
    return y


def draw_moves(picture: Picture, lines: List[str], top: float) -> None:
    """What moved, in as many columns as there is room for."""
    heading, *rows = lines
    picture.text(16, top + 16, 12, heading, ' fill="#000000"')
    across = max(1, int((picture.width - 16) // 620))
    deep = -(-len(rows) // across)
    wide = (picture.width - 16) / across
    for k, row in enumerate(rows):
        x, y = 16 + k // deep * wide, top + 34 + k % deep * 18
        picture.text(x, y, 12, cut(row.strip(), int(wide / 7.5) - 2), ' fill="#000000"')


def draw_svg(machine: Machine, outcomes: Sequence[Outcome]) -> str:
    style, picture = Style(outcomes), Picture()
    views = views_of(machine, outcomes, style)
    room = (1000 if len(machine.present) <= 256 else 2100) * (0.64 if len(views) == 2 else 1)
    picture.text(16, 28, 16, cut(machine.about or counted(len(machine.present)), 90), ' font-weight="bold" fill="#000000"')
    bottom, left = 0.0, 16.0
    for view in views:
        side = Picture()
        side.text(left, 50, 13, view.name + view.title, ' fill="#000000"')
        bottom = max(bottom, draw_nodes(side, machine, view, left, 64, room))
        picture.lines += side.lines
        picture.reach(side.width, side.height)
        left = side.width + 28
    y = draw_legend(picture, views, style, bottom + 6, max(picture.width - 16, 480))
    moved = move_lines_of(outcomes, style)
    if moved:
        draw_moves(picture, moved, y)
    return picture.svg(f"numarun: {views[-1].title}")


def main() -> int:
    parser = argparse.ArgumentParser(description=__doc__, epilog=EXAMPLE, formatter_class=argparse.RawDescriptionHelpFormatter)
    parser.add_argument("machine", metavar="MACHINE", help="the machine file")
    parser.add_argument("answers", nargs="?", default="-", metavar="ANSWERS", help="the answers; none, or -, is standard input")
    parser.add_argument("--text", action="store_true", help="draw with letters, 80 columns wide")
    parser.add_argument("--before", action="store_true", help="draw the last outcome beside the plan before it")
    words = parser.parse_intermixed_args()
    machine = Machine(words.machine)
    answers = Answers(words.answers, machine)
    outcomes: List[Outcome] = answers.outcomes[-1:]
    if not outcomes:
        answers.at_end("the answers end with no plan and no shortage, where one must be")
    if words.before:
        plans = [outcome for outcome in answers.outcomes[:-1] if isinstance(outcome, Plan)]
        if not plans:
            answers.at_end("the answers have no plan before the last outcome, where one must be")
        outcomes = [plans[-1], *outcomes]
    print(draw_text(machine, outcomes) if words.text else draw_svg(machine, outcomes))
    return 0
