"""Folders of a run before that wait for their adoption: no plan gives a CPU that one of them holds to anybody, until it is adopted or let
go of. By hand, over a restart with two shared containers, and by chance beside the second runtime.

PROGRAM FOLDERS, from the top of the repository: the library is loaded before the program."""

import json
import os
import pathlib
import random
import shutil
import sys
import tempfile
from typing import Dict, FrozenSet, List, Optional, Tuple

sys.path[:0] = [str(pathlib.Path(__file__).resolve().parents[1]), str(pathlib.Path(__file__).resolve().parents[1] / "scripts")]
import compare
from program import run
from roots import FILES
from second_runtime import Machine, Runtime, config_of, print_list
from transcripts import config, difference

program, folders = (os.path.abspath(word) for word in sys.argv[1:])
two_socket = os.path.abspath("examples/machines/two-socket.json")
work = tempfile.mkdtemp()
os.chdir(work)
SCRIPTS = 150
# Of the scripts by chance so many have to plan while a stranger holds CPUs, and so many strangers have to be let go of and adopted.
LEAST = {"planned": 150, "forgotten": 40, "adopted": 20}
MACHINE = json.dumps({"nodes": ["0-3", "4-7"], "distances": [[10, 21], [21, 10]], "reserved": "0"}).encode()
BUNDLES = {"two": config({"quota": 200000, "mems": "0"}), "far": config({"quota": 200000, "mems": "1"}), "four": config({"quota": 400000}),
           "shared": config({})}
Groups = Dict[str, Optional[str]]


class Tree:
    """A root in which a run before left these groups, each with this text in its `cpuset.cpus`, or without that file."""

    def __init__(self, groups: Groups) -> None:
        self.folder = tempfile.mkdtemp()
        self.root, self.log = self.folder + "/root", self.folder + "/log"
        for group in ("", "/numarun", *(f"/numarun/{name}" for name in groups)):
            os.mkdir(self.root + group)
            for name in FILES if group.count("/") == 2 else ("cgroup.subtree_control",):
                pathlib.Path(f"{self.root}{group}/{name}").write_text("")
        for name, text in groups.items():
            if text is None:
                os.remove(f"{self.root}/numarun/{name}/cpuset.cpus")
            else:
                pathlib.Path(f"{self.root}/numarun/{name}/cpuset.cpus").write_text(text)

    def played(self, machine: bytes, bundles: Dict[str, bytes], script: List[bytes], *words: str) -> Tuple[str, List[str]]:
        """The answers to a script in this tree, and the lines of standard error, sorted, ROOT for the root's path."""
        pathlib.Path(self.log).write_text("")
        for name, data in bundles.items():
            os.makedirs(name, exist_ok=True)
            pathlib.Path(name, "config.json").write_bytes(data)
        pathlib.Path("machine.json").write_bytes(machine)
        environment = dict(os.environ, LD_PRELOAD=folders, FOLDERS_ROOT=self.root, FOLDERS_LOG=self.log)
        done = run([program, "run", "machine.json", "--cgroup", self.root, *words], b"\n".join(script), env=environment)
        assert done.returncode == 0, (script, done)
        return done.stdout.decode("utf-8", "surrogateescape"), sorted(done.stderr.decode().replace(self.root, "ROOT").splitlines())

    def cpus(self, name: str) -> str:
        return pathlib.Path(self.root, "numarun", name, "cpuset.cpus").read_text()

    def remove(self) -> None:
        shutil.rmtree(self.folder)


def note(name: str, cpus: str = "") -> str:
    until = f": until then no plan gives {cpus} to anybody, but for reserved CPUs" if cpus else ""
    return f"note: ROOT/numarun/{name} is there and has to be adopted{until}"


def check(what: str, got: object, wanted: object) -> None:
    assert got == wanted, f"{what}: {got}, not {wanted}"


def answers(what: str, groups: Groups, table: List[Tuple[str, str]], notes: List[str], *words: str) -> None:
    """Each line of the table has its answer, and standard error has these notes and no other line."""
    tree = Tree(groups)
    out, err = tree.played(MACHINE, BUNDLES, [line.encode() for line, _ in table], *words)
    check(what, (out, err), ("".join(answer + "\n" for _, answer in table), sorted(notes)))
    tree.remove()


NONE = "refused E105 NoStranger"
# Near the home of `two` are 1 to 3, and of `far` 4 to 7.
HELD = {"web": "2-3\n", "db": "4-5\n"}
NOTES = [note("web", "2-3"), note("db", "4-5")]
answers("kept from everybody, and given when they count again", HELD, [
    ("create a two", "pid 2"),
    ("rebalance", "plan total 31\nhold a 1,6\npool 0,7\nend"),
    ("sets a", "cpus 1,6 effective 1,6 mems 0 effective 0"),
    ("forget nobody", NONE),
    ("forget a", NONE),
    ("forget", "refused E110 BadLine"),
    ("forget web db", "refused E110 BadLine"),
    ("adopt web shared 2-3,x", "refused E102 BadSet E10 4"),
    ("rebalance direct", "plan total 31\nhold a 1,6\npool 0,7\nend"),
    ("adopt web shared 2-3", "pid 3"),
    ("forget web", NONE),
    ("rebalance", "plan total 20\nhold a 1-2\npool 0,3,6-7\nend"),
    ("sets web", "cpus 0,3,6-7 effective 0,3,6-7 mems 0-1 effective 0-1"),
    ("forget db", "ok"),
    ("forget db", NONE),
    ("rebalance", "plan total 20\nhold a 1-2\npool 0,3-7\nend"),
], NOTES, "--adopt")
answers("a shortage that is none without them", HELD, [
    ("create a four", "pid 2"),
    ("create b two", "pid 3"),
    ("rebalance", "short demand 4 allowed 1,6-7\nmember a\nend"),
    ("begin direct", "short demand 4 allowed 1,6-7\nmember a\nend"),
    ("kill web 9", "refused E94 NoContainer"),
    ("create web two", "pid 4"),
    ("kill web 9", "ok"),
    ("delete web", "ok"),
    ("forget web", NONE),
    ("kill b 9", "ok"),
    ("rebalance", "plan total 40\nhold a 1-3,6\npool 0,7\nend"),
], NOTES, "--adopt")
answers("a hand-over that is stepped, and a folder that is let go of in its midst", HELD, [
    ("create a two", "pid 2"),
    ("begin", "plan total 31\nhold a 1,6\npool 0,7\nend"),
    ("forget web", "ok"),
    ("adopt db far 4-5", "refused E90 Busy"),
    ("step", "done"),
    ("phase", "settled"),
    ("offline 1", "ok"),
    ("online 1", "ok"),
    ("online 5", "ok"),
    ("sets a", "cpus 1,6 effective 1,6 mems 0 effective 0"),
    ("rebalance", "plan total 20\nhold a 1-2\npool 0,3,6-7\nend"),
], NOTES, "--adopt")
answers("a CPU that is offline before a plan is offline behind it", HELD, [
    ("offline 4", "ok"),
    ("create a four", "pid 2"),
    ("rebalance", "short demand 4 allowed 1,6-7\nmember a\nend"),
    ("forget web", "ok"),
    ("rebalance", "plan total 40\nhold a 1-3,6\npool 0,7\nend"),
    ("forget db", "ok"),
    ("rebalance", "plan total 40\nhold a 1-3,6\npool 0,5,7\nend"),
    ("online 4", "ok"),
    ("rebalance", "plan total 40\nhold a 1-3,6\npool 0,4-5,7\nend"),
], NOTES, "--adopt")
answers("without a list, without a file, on reserved CPUs, and past the machine's", {"all": "every one\n", "none": None, "empty": "\n", "low": "0\n", "high": "4000\n"}, [
    ("create a two", "pid 2"),
    ("rebalance", "short demand 2 allowed -\nmember a\nend"),
    ("forget all", "ok"),
    ("rebalance", "plan total 20\nhold a 1-2\npool 0,3-7\nend"),
    ("forget none", "ok"),
    ("forget empty", "ok"),
    ("forget low", "ok"),
    ("forget high", "ok"),
], [note("all", "0-4095"), note("none"), note("empty"), note("low", "0"), note("high", "4000")], "--adopt")
answers("no folder of a run before", {}, [("create a two", "pid 2"), ("forget a", NONE), ("rebalance", "plan total 20\nhold a 1-2\npool 0,3-7\nend")], [], "--adopt")
check("without a tree", run([program, "run", two_socket], b"forget a\nforget\n").stdout, b"refused E105 NoStranger\nrefused E110 BadLine\n")


def restarted() -> None:
    """Two shared containers and one with CPUs of its own are taken up as they are, in each order, with no line on standard error but those
    at the start, and the plan is the one before."""
    made = [f"create {name} {bundle}".encode() for name, bundle in (("a", "shared"), ("b", "shared"), ("c", "far"))]
    for order in (("a", "b", "c"), ("c", "b", "a"), ("b", "c", "a")):
        tree = Tree({})
        first, err = tree.played(MACHINE, BUNDLES, made + [b"rebalance", b"sets a"], "--adopt")
        check("a first run", (first.splitlines()[3:], err), (["plan total 20", "hold c 4-5", "pool 0-3,6-7", "end",
              "cpus 0-3,6-7 effective 0-3,6-7 mems 0-1 effective 0-1"], []))
        held = {name: tree.cpus(name).rstrip("\n") for name in order}
        bundles = dict(a="shared", b="shared", c="far")
        script = [line for name in order for line in (f"adopt {name} {bundles[name]} {held[name]}".encode(), f"sets {name}".encode())]
        out, err = tree.played(MACHINE, BUNDLES, script + [b"rebalance"], "--adopt")
        sets = "".join(f"pid {2 + k}\ncpus {held[name]} effective {held[name]} mems {1 if name == 'c' else '0-1'} effective {1 if name == 'c' else '0-1'}\n"
                       for k, name in enumerate(order))
        check(f"taken up as {order}", (out, err), (sets + "plan total 20\nhold c 4-5\npool 0-3,6-7\nend\n", sorted(note(name, held[name]) for name in order)))
        check("what they request", {name: tree.cpus(name).rstrip("\n") for name in order}, held)
        tree.remove()


restarted()
print("cgroup: folders of a run before, by hand and over a restart")


def made_strangers(cpus: List[int]) -> Dict[str, FrozenSet[int]]:
    """Some of the ids that scripts have, and others, with CPUs that may lie in one another."""
    names = random.sample(compare.IDS[:5] + ["y", "left over"], random.randint(1, 4))
    return {name: frozenset(compare.some(cpus)) for name in names}


def by_chance() -> Dict[str, int]:
    """Random scripts beside strangers, answered as the second runtime does."""
    seen = {"planned": 0, "forgotten": 0, "adopted": 0}
    for _ in range(SCRIPTS):
        machine, table, cpus, count = compare.made_machine()
        while table is not None:
            machine, table, cpus, count = compare.made_machine()
        bundles, strangers = compare.made_bundles(cpus, count), made_strangers(cpus)
        more = [f"forget {random.choice([*strangers, 'a', 'nobody'])}".encode() for _ in range(random.randint(0, 4))]
        script = compare.made_script(cpus) + more + [random.choice([b"rebalance", b"begin", b"rebalance direct"]) for _ in range(4)]
        random.shuffle(script)
        tree = Tree({name: print_list(held) + "\n" if held else "\n" for name, held in strangers.items()})
        out, _ = tree.played(machine, bundles, script, "--adopt")
        runtime = Runtime(Machine(machine, None), config_of, strangers)

        def count_seen(line: bytes, answer: List[str]) -> None:
            words = line.split()
            seen["planned"] += bool(answer) and answer[0].startswith("plan ") and any(runtime.strangers.values())
            seen["forgotten"] += words[:1] == [b"forget"] and answer == ["ok"]
            seen["adopted"] += words[:1] in ([b"create"], [b"adopt"]) and answer[0].startswith("pid") and words[1].decode() in strangers

        wrong = difference(runtime, script, out.encode("utf-8", "surrogateescape"), count_seen)
        assert not wrong, (machine, strangers, script, wrong)
        tree.remove()
    return seen


random.seed(3)
found = by_chance()
assert all(found[what] >= least for what, least in LEAST.items()), (found, LEAST)
print(f"cgroup: {SCRIPTS} scripts by chance beside folders of a run before: {found}")
os.chdir("/")
shutil.rmtree(work)
