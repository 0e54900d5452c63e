"""Compares the machine files that numarun-describe makes of hwloc's recorded machines with those that stand for them."""

from __future__ import annotations

import json
import os
import shutil
import subprocess
from typing import List, Sequence, Tuple

from trial import TOP, bad_files, bad_output, case, check, piped, refuses, scratch, text_of, told, words_and_help

MACHINES = os.path.join(TOP, "tests", "operators", "machines")
TWO_SOCKET = os.path.join(MACHINES, "two-socket.xml")
ALLOWED = ('<topology version="2.0"><object type="Machine" os_index="0" cpuset="0x{here}" complete_cpuset="0xff" allowed_cpuset="0x0f">'
           '<object type="NUMANode" os_index="0" cpuset="0x0f" complete_cpuset="0x0f"/>{node}</object></topology>')
SECOND = '<object type="NUMANode" os_index="1" cpuset="0x30" complete_cpuset="0xf0"/>'
NODE = ('<topology version="2.0"><object type="Machine" os_index="0" cpuset="0x{online}" complete_cpuset="0x{all}">'
        '<object type="NUMANode" os_index="{node}" cpuset="0x{online}" complete_cpuset="0x{all}"/></object></topology>')

# The bitmap of CPU 4095 alone.
LAST = "80000000" + ",0x0" * 127


def recorded(name: str, *words: str, said: Sequence[str] = (), **expected: object) -> None:
    """The machine file of a recorded machine has these members; each line on standard error says one of these, in their order."""
    status, out, err = told("numarun-describe hwloc", os.path.join(MACHINES, name + ".xml"), *words)
    found = json.loads(out) if status == 0 else {}
    check(name, {key: found.get(key) for key in expected}, expected)
    lines = err.splitlines()
    check(f"{name}: said {lines}", [text in line for text, line in zip(said, lines)] + [len(lines)], [True] * len(said) + [len(said)])


@case
def into_a_file() -> None:
    """What is there is replaced by a machine file, or stays as it was where that is refused."""
    path, words = scratch("machine.json"), ("numarun-describe hwloc", TWO_SOCKET, "--reserved")
    expected = told(*words, "0,16")[1]
    check("written", (told(*words, "0,16", "--output", path), text_of(path)), ((0, "", ""), expected))
    refuses(*words, "99", "--output", path, says="reserved CPUs that are not online: 99")
    check("it stays", (text_of(path), os.listdir(scratch())), (expected, ["machine.json"]))
    refuses(*words, "0", "--output", scratch("none", "machine.json"), says="none/machine.json: No such file or directory")


def same_as_by_hand(name: str, reserved: str) -> None:
    told_here = told("numarun-describe hwloc", os.path.join(MACHINES, name + ".xml"), "--reserved", reserved)[1]
    expected = json.load(open(os.path.join(TOP, "examples", "machines", name + ".json")))
    del expected["about"]
    expected.pop("cores", None)
    check(f"{name}, read off by hand", json.loads(told_here or "{}"), {**expected, "offline": ""})


def with_cores(*cores: Sequence[int]) -> str:
    """What hwloc tells of two-socket with these cores in it."""
    words = [[sum(1 << cpu % 32 for cpu in core if cpu // 32 == word) for word in (1, 0)] for core in cores]
    entries = "".join(f'<object type="Core" os_index="{k}" complete_cpuset="0x{high:x},0x{low:x}"/>' for k, (high, low) in enumerate(words))
    return open(TWO_SOCKET).read().replace('<object type="Package" os_index="0"', entries + '<object type="Package" os_index="0"', 1)


@case
def of_cores() -> None:
    pairs: List[Sequence[int]] = [(k, k + 16) for k in range(16)]
    expected = json.load(open(os.path.join(TOP, "examples", "machines", "two-socket.json")))
    del expected["about"]
    for words in ((), ("--reserved", "16,0")):
        status, out, err = told("numarun-describe hwloc", "--cores", *words, text=with_cores(*reversed(pairs)))
        check(f"cores {words}", (status, json.loads(out or "{}"), err), (0, {**expected, "offline": ""}, ""))
    table: Sequence[Tuple[List[Sequence[int]], Tuple[str, ...], str]] = [
        (pairs[:5] + [(5,)], (), "--cores: cores have different numbers of CPUs: 0,16 and 5"),
        (pairs[:5], (), "--cores: no core is told of the CPUs 5-15,21-31, as of those that are offline"),
        ([], (), "--cores: no core is told of the CPUs 0-31"),
        (pairs[:7] + [(7, 8)], (), "--cores: the core 7-8 has CPUs of another one, or of two nodes, or of none"),
        (pairs[:5] + [(4, 20)], (), "--cores: the core 4,20 has CPUs of another one"),
        (pairs + [(15, 31, 32)], (), "--cores: the core 15,31-32 has CPUs of another one"),
        (pairs, ("--reserved", "0-1,16"), "--cores: the core 1,17 is reserved in part"),
    ]
    for cores, more, says in table:
        refuses("numarun-describe hwloc", "--cores", *more, text=with_cores(*cores), says=says)


@case
def same_as_of_this_machine() -> None:
    if not shutil.which("lstopo"):
        print("hwloc: passed over, as there is no lstopo: what it tells of this machine")
        return
    tells = subprocess.run(["lstopo", "--disallowed", "--of", "xml"], capture_output=True, check=True).stdout.decode()
    expected = told("numarun-describe host")
    found = told("numarun-describe hwloc", text=tells)
    check("this machine", (found[0], json.loads(found[1] or "{}")), (expected[0], json.loads(expected[1] or "{}")))


FROM_ITSELF = ["node 2 is at 17 from itself", "node 16 is at 14 from itself", "left out, as no node has them: CPUs 4-7,20-23"]


@case
def read_off_by_hand() -> None:
    same_as_by_hand("two-socket", "0,16")
    same_as_by_hand("two-nodes-a-socket", "0-1,64-65")


@case
def recorded_machines() -> None:
    recorded("offline", said=["which `lstopo --disallowed` tells apart: CPUs 2,5,7-11,13-14"], nodes=["0-15"], distances=[[10]], reserved="0", offline="2,5,7-11,13-14")
    recorded("memory-and-a-hole", "--renumber", said=FROM_ITSELF,
             nodes=["0-3", "16-19", ""], distances=[[10, 17, 17], [17, 10, 10], [14, 14, 10]], reserved="0", offline="")
    recorded("memory-and-a-hole", said=FROM_ITSELF + ["become nodes without CPUs: 1,3-15"], nodes=["0-3", "", "16-19"] + [""] * 14)
    recorded("memory-and-a-hole", "--renumber", "--cores", said=FROM_ITSELF, reserved="0", cores=["0", "1", "2", "3", "16", "17", "18", "19"])
    recorded("no-distances", "--reserved", "7", said=["it tells no distances"], nodes=["0-1", "2-3", "4-5", "6-7"], reserved="7",
             distances=[[10 if a == b else 255 for b in range(4)] for a in range(4)], offline="")


@case
def made_machines() -> None:
    status, out, err = told("numarun-describe hwloc", text=NODE.format(online=LAST, all=LAST, node=127))
    check("the last node and CPU", (status, json.loads(out or "{}").get("nodes")), (0, [""] * 127 + ["4095"]))

    status, out, err = told("numarun-describe hwloc", text=ALLOWED.format(here="0f", node=""))
    check("a restricted shell", (status, json.loads(out)["nodes"], err.splitlines()), (0, ["0-3"], [
        "numarun-describe: left out, as no node has them: CPUs 4-7",
        "numarun-describe: offline, or not allowed to the shell that ran lstopo, which `lstopo --disallowed` tells apart: CPUs 4-7"]))
    status, out, err = told("numarun-describe hwloc", text=ALLOWED.format(here="3f", node=SECOND))
    check("a restricted shell and --disallowed", (status, json.loads(out)["nodes"], json.loads(out)["offline"], "not allowed the CPUs 4-5;" in err),
          (0, ["0-3", "4-7"], "6-7", True))


@case
def refusals() -> None:
    words_and_help("numarun-describe hwloc", "lstopo --disallowed --of xml | operators/numarun-describe hwloc")
    bad_files("numarun-describe hwloc", [])
    bad_output("numarun-describe hwloc", TWO_SOCKET)
    piped("numarun-describe hwloc", TWO_SOCKET)
    piped("numarun-describe host")
    refuses("numarun-describe hwloc", text='<?xml version="1.0" encoding="none"?><a/>', says="-: line 1: an unknown encoding")
    refuses("numarun-describe hwloc", text=open(TWO_SOCKET).read()[:700], says="-: line ")
    refuses("numarun-describe hwloc", text="<html/>", says="first object is no Machine")
    refuses("numarun-describe hwloc", TWO_SOCKET, "--reserved", "32", says="reserved CPUs that are not online: 32")
    refuses("numarun-describe hwloc", os.path.join(MACHINES, "offline.xml"), "--cores", says="--cores: no core is told of the CPUs")
    refuses("numarun-describe hwloc", TWO_SOCKET, "--reserved", "x", says="--reserved: 'x' is no CPU")
    refuses("numarun-describe hwloc", text=NODE.format(online="1", all="1", node=128), says="node 128: a machine file has nodes 0 to 127")
    refuses("numarun-describe hwloc", text=NODE.format(online="1", all="1", node="x"), says="NUMANode x: no os_index")
    refuses("numarun-describe hwloc", text=NODE.format(online="f...f", all="f...f", node=0), says="no finite bitmap")
    refuses("numarun-describe hwloc", text=NODE.format(online="1", all="1" + ",0x0" * 128, node=0), says="CPU 4096: a machine file has")
    refuses("numarun-describe hwloc", text=NODE.format(online="0", all="1", node=0), says="no CPU is online")
