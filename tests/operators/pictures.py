"""Compares what numarun-draw-plan draws of the worked examples with the pictures that stand for them, and looks at large ones."""

from __future__ import annotations

import json
import os
import re
import xml.etree.ElementTree as xml

from trial import TOP, bad_files, bad_output, case, check, piped, refuses, scratch, told, words_and_help

MACHINE = os.path.join(TOP, "examples", "machines", "two-socket.json")
ANSWERS = os.path.join(TOP, "examples", "scripts", "before-and-after.answers")
TINY = scratch("tiny.json")
# Two are short of one CPU together: a may have 1-2 and b 2-3, and c, which is not short, 4-7.
SHORT = "short demand 4 allowed 1-3\nmember a\nmember b\nend\n"
SHORT_TOLD = "numarun-certificate 2\nrow a 2 655361:1-2\nrow b 2 655361:2-3\nrow c 1 1376257:4-7\nshort a\nshort b\nend\n"
TINY_PLAN = "plan total 41\nhold a 1-2\nhold c 4\npool 0,3,5-7\nend\n"
SHORT_DRAWN = """short: 4 CPUs asked for, 3 there, 1 missing

node 0: CPUs 0-3
     0  #a*b

node 1: CPUs 4-7
     4  ....

legend: # reserved   . for none who is short   * for several
a a: asks for 2, may have 2: 1-2
b b: asks for 2, may have 2: 2-3
"""
# The same of cores of two CPUs: the certificate's numbers are those of cores.
PAIRS = {"nodes": ["0-3,8-11", "4-7,12-15"], "distances": [[10, 21], [21, 10]], "reserved": "0,8", "cores": [f"{k},{k + 8}" for k in range(8)]}
SHORT_OF_CORES = "short demand 8 allowed 1-3,9-11\nmember a\nmember b\nend\n"
CORES_DRAWN = """short: 8 CPUs asked for, 6 there, 2 missing

node 0: CPUs 0-3,8-11
     0  ## aa ** bb

node 1: CPUs 4-7,12-15
     4  .. .. .. ..

legend: # reserved   . for none who is short   * for several
a a: asks for 4, may have 4: 1-2,9-10
b b: asks for 4, may have 4: 2-3,10-11
"""
BARE_DRAWN = SHORT_DRAWN.replace("#a*b", "#***").replace("asks for 2, may have 2: 1-2", "short").replace("asks for 2, may have 2: 2-3", "short")
BEFORE_DRAWN = """before: total distance 41 (each: no certificate)
after: short: 4 CPUs asked for, 3 there, 1 missing

node 0: CPUs 0-3
     0  #aa.                               #a*c

node 1: CPUs 4-7
     4  b...                               ....

legend: # reserved   x offline   . pool
legend: # reserved   . for none who is short   * for several
a a: asks for 2, may have 2: 1-2
b c: not short
c b: asks for 2, may have 2: 2-3
"""
PLAN = "plan total 20\nhold a 1-2\npool 0,3-15,17-31\nend\n"


def stands(name: str, path: str, *words: str) -> None:
    check(name, told("numarun-draw-plan", *words), (0, open(path).read(), ""))


def answers_of(cpus: int, containers: int, last: int) -> str:
    """A plan of equal containers with names that are long, and its certificate."""
    each = (cpus - 3) // containers
    holds = {f"{'container-' * 5}{k}": range(1 + each * k, 1 + each * k + each) for k in range(containers)}
    lists = {name: f"{of[0]}-{of[-1]}" for name, of in holds.items()}
    lines = ["plan total 1"] + [f"hold {name} {text}" for name, text in lists.items()] + [f"pool 0,{1 + each * containers}-{last}", "end"]
    lines += ["numarun-certificate 1"] + [f"row {name} {each} 21:{text}" for name, text in lists.items()] + ["end", ""]
    return "\n".join(lines)


def large(cpus: int, nodes: int, containers: int) -> None:
    each = cpus // nodes
    machine = {"nodes": [f"{each * k}-{each * k + each - 1}" for k in range(nodes)], "reserved": "0"}
    path = scratch(f"machine-{cpus}.json")
    json.dump(machine, open(path, "w"))
    text = answers_of(cpus, containers, cpus - 2)
    status, drawn, _ = told("numarun-draw-plan", path, "--text", text=text)
    check(f"{cpus} CPUs as text", (status, max(map(len, drawn.splitlines())) <= 80), (0, True))
    check(f"{cpus} CPUs as text: legend", drawn.count(f"distance {21 * ((cpus - 3) // containers)}:"), containers)
    rows = [row[8:] for row in drawn.splitlines() if re.match(r"[ 0-9]{5}[0-9]  \S", row)]
    signs = "".join(sign for row in rows for sign in re.findall(r"[a-zA-Z]+", row))
    check(f"{cpus} CPUs as text: offline", signs.count("x"), 1)
    check(f"{cpus} CPUs as text: held", len(signs) - 1, (1 if containers <= 50 else 2) * ((cpus - 3) // containers) * containers)
    status, drawn, _ = told("numarun-draw-plan", path, text=text)
    check(f"{cpus} CPUs", (status, drawn.count("<title>CPU "), drawn.count(": offline</title>")), (0, cpus, 1))
    apart(f"{cpus} CPUs", xml.fromstring(drawn))


def cores(cpus: int, threads: int, nodes: int) -> None:
    """Each core is a box, and within a node the CPUs of one stand together."""
    of = [range(k * threads, k * threads + threads) for k in range(cpus // threads)]
    lists = [f"{core[0]}-{core[-1]}" for core in of]
    machine = {"nodes": [",".join(lists[n::nodes]) for n in range(nodes)], "reserved": lists[0], "cores": lists}
    path = scratch(f"cores-{cpus}-{threads}.json")
    json.dump(machine, open(path, "w"))
    text = f"plan total 0\npool 0-{cpus - 1}\nend\n"
    status, drawn, _ = told("numarun-draw-plan", path, "--text", text=text)
    rows = [row[8:] for row in drawn.splitlines() if re.match(r"[ 0-9]{5}[0-9]  \S", row)]
    check(f"{threads} CPUs a core as text", (status, max(map(len, drawn.splitlines())) <= 80, sum(map(len, "".join(rows).split()))), (0, True, cpus))
    check(f"{threads} CPUs a core apart", {len(word) for row in rows for word in row.split()}, {threads} if threads <= 64 else {64})
    for words in ((path,), (path, "--before")):
        status, drawn, _ = told("numarun-draw-plan", *words, text=text * len(words))
        check(f"{words}", (status, drawn.count("<title>CPU "), drawn.count('fill="#c4c4c4"')), (0, cpus * len(words), len(of) * len(words)))
        titles = [int(number) for number in re.findall("<title>CPU ([0-9]+):", drawn)]
        together = [titles[k : k + threads] for k in range(0, len(titles), threads)]
        check(f"{words}: together", [part for part in together if part[-1] - part[0] != threads - 1 or part[0] % threads], [])
        apart(f"{words}", xml.fromstring(drawn))


def apart(name: str, root: xml.Element) -> None:
    """No two texts overlap, and none reaches out of the picture, where a letter is 0.62 of its size wide at most."""
    boxes, spot = [], "{http://www.w3.org/2000/svg}text"
    _, _, width, height = map(float, root.get("viewBox", "").split())
    for entry in root.iter(spot):
        size, x, y = (float(entry.get(key, "")) for key in ("font-size", "x", "y"))
        wide = 0.62 * size * len(entry.text or "")
        left = x - wide / 2 if entry.get("text-anchor") == "middle" else x
        boxes.append((y - 0.75 * size, left, left + wide, y))
    check(f"{name}: within", all(0 <= left and right <= width and 0 <= up and down <= height for up, left, right, down in boxes), True)
    boxes.sort()
    for k, (up, left, right, down) in enumerate(boxes):
        for other in boxes[k + 1 :]:
            if other[0] >= down:
                break
            if other[1] < right and left < other[2]:
                check(f"{name}: apart", (up, left, right, down), other)
                return


@case
def worked_examples() -> None:
    stands("before and after", os.path.join(TOP, "docs", "two-socket.svg"), "--before", MACHINE, ANSWERS)
    stands("before and after as text", os.path.join(TOP, "tests", "operators", "two-socket.txt"), "--before", "--text", MACHINE, ANSWERS)
    apart("before and after", xml.parse(os.path.join(TOP, "docs", "two-socket.svg")).getroot())


@case
def large_machines() -> None:
    for size in [(8, 2, 3), (32, 2, 6), (256, 8, 24), (1024, 64, 200), (4096, 128, 1024)]:
        large(*size)


@case
def machines_with_cores() -> None:
    for size in [(12, 3, 2), (64, 2, 2), (256, 8, 4), (512, 128, 2), (4096, 2, 128), (4096, 8, 16)]:
        cores(*size)


@case
def refusals() -> None:
    words_and_help("numarun-draw-plan", "operators/numarun-draw-plan examples/machines/two-socket.json < answers")
    bad_files("numarun-draw-plan", [], [ANSWERS])
    bad_files("numarun-draw-plan", [MACHINE])
    bad_output("numarun-draw-plan", MACHINE, ANSWERS)
    refuses("numarun-draw-plan", ANSWERS, says="before-and-after.answers: line 1: not JSON")
    refuses("numarun-draw-plan", MACHINE, text="", says="standard input: line 1: the answers end with no plan and no shortage")
    refuses("numarun-draw-plan", MACHINE, "--before", text=PLAN, says="standard input: line 5: the answers have no plan before the last outcome")
    bad = scratch("bad-cores.json")
    for lists, says in [("x", "cores: not an array of lists"), (["0,8", "1,2,9"], "cores: core 1: not as many CPUs as core 0 has"), (["0,1"], "cores: core 0: not"),
                        (["0,8", "4,3"], "cores: core 1: not"), (["0,8", 7], "cores: core 1: no list of CPUs"), (["0,8", "1,x"], "cores: core 1: 'x' is no CPU"),
                        (["0,8", "1,9", "9,2"], "cores: core 2: not"), ([""], "cores: core 0: not"), (["0,8", "1,9"], "cores: CPU 2 is in no core"), ([], "cores: CPU 0 is in no core")]:
        json.dump({**PAIRS, "cores": lists}, open(bad, "w"))
        refuses("numarun-draw-plan", bad, text=PLAN, says=f"bad-cores.json: {says}")
    refuses("numarun-draw-plan", MACHINE, text=PLAN[:-4], says="standard input: line 4: the plan has no end")
    refuses("numarun-draw-plan", MACHINE, text=PLAN.replace("31", "32"), says="standard input: line 3: the machine has no CPU 32")
    refuses("numarun-draw-plan", MACHINE, text=PLAN.replace("1-2", "1-x"), says="standard input: line 2: '1-x' is no CPU")
    refuses("numarun-draw-plan", MACHINE, text=PLAN.replace("hold", "held"), says="standard input: line 2: 'held a 1-2' is no line")
    refuses("numarun-draw-plan", MACHINE, text=PLAN.replace("1-2", "1-3"), says="standard input: line 3: CPU 3 stands twice")
    refuses("numarun-draw-plan", MACHINE, text=PLAN + "numarun-certificate 1\nrow a 2 x\n", says="standard input: line 6: 'x' is no offer")


@case
def shortages() -> None:
    """Shortages in text, to the letter, and as a picture: which CPU says what, and that no two texts overlap."""
    json.dump({"nodes": ["0-3", "4-7"], "distances": [[10, 21], [21, 10]], "reserved": "0"}, open(TINY, "w"))
    check("a shortage", told("numarun-draw-plan", TINY, "--text", text=SHORT + SHORT_TOLD), (0, SHORT_DRAWN, ""))
    path = scratch("pairs.json")
    json.dump(PAIRS, open(path, "w"))
    check("a shortage of cores", told("numarun-draw-plan", path, "--text", text=SHORT_OF_CORES + SHORT_TOLD), (0, CORES_DRAWN, ""))
    check("a shortage last", told("numarun-draw-plan", TINY, "--text", text=TINY_PLAN + SHORT + SHORT_TOLD), (0, SHORT_DRAWN, ""))
    check("a shortage without its certificate", told("numarun-draw-plan", TINY, "--text", text=SHORT), (0, BARE_DRAWN, ""))
    check("before and a shortage", told("numarun-draw-plan", TINY, "--text", "--before", text=TINY_PLAN + SHORT + SHORT_TOLD), (0, BEFORE_DRAWN, ""))
    check("a plan behind a shortage", told("numarun-draw-plan", TINY, "--text", text=SHORT + TINY_PLAN)[1].startswith("total distance 41"), True)
    two = TINY_PLAN + SHORT + TINY_PLAN.replace("a 1-2", "a 1,3").replace("pool 0,3", "pool 0,2")
    status, out, _ = told("numarun-draw-plan", TINY, "--text", "--before", text=two)
    check("the plan before, over a shortage", (status, out.splitlines()[-2:]), (0, ["moves:", "  a a: gives 2, gets 3"]))
    for more in ("", "--before"):
        status, drawn, err = told("numarun-draw-plan", TINY, *more.split(), text=TINY_PLAN + SHORT + SHORT_TOLD)
        titles = re.findall("<title>(CPU .*)</title>", drawn)[-8:]
        each = ["CPU 0: reserved", "CPU 1: a", "CPU 2: for several", "CPU 3: b"] + [f"CPU {cpu}: for none" for cpu in range(4, 8)]
        check(f"a shortage drawn {more}", (status, titles, err), (0, each, ""))
        apart(f"a shortage {more}", xml.fromstring(drawn))


@case
def odd_shortages() -> None:
    json.dump({"nodes": ["0-3", "4-7"], "distances": [[10, 21], [21, 10]], "reserved": "0"}, open(TINY, "w"))
    refuses("numarun-draw-plan", TINY, text=SHORT.replace("member b", "member a"), says="standard input: line 3: 'member a' is no line of a shortage")
    refuses("numarun-draw-plan", TINY, text=SHORT.replace("1-3", "1-8"), says="standard input: line 1: the machine has no CPU 8")
    refuses("numarun-draw-plan", TINY, text=SHORT.replace("demand 4", "demand x"), says="standard input: line 1: 'x' is no number")
    refuses("numarun-draw-plan", TINY, text=SHORT[:-4], says="standard input: line 4: the shortage has no end")
    refuses("numarun-draw-plan", TINY, "--before", text=SHORT, says="standard input: line 5: the answers have no plan before the last outcome")
    piped("numarun-draw-plan", MACHINE, ANSWERS)
