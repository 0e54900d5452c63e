"""What the tests of the agent share: a machine in plain folders, an agent that runs, and a program that stands in for numarun."""

from __future__ import annotations

import contextlib
import json
import os
import signal
import subprocess
import sys
import textwrap
import threading
from typing import IO, Any, Dict, Iterator, List, Mapping, Optional, Tuple, Union

from trial import OPERATORS, SLOWER, TOP, check, command, scratch, text_of, told, written

IN_FOLDERS = os.path.join(os.path.dirname(os.path.abspath(__file__)), "in_folders.sh")
QUOTA = 100000
PATIENCE = 30 * SLOWER  # seconds in which a line comes that is waited for
EIGHT_CPUS: Mapping[str, object] = {"nodes": ["0-7"], "distances": [[10]], "reserved": "0"}
# By hand each container that asks for CPUs gets some, however few are left.
ALL_PINNED = ("--pin", "all", "--pool-least", "0")
NOT_TOLD = ("--listen", "--defaults")  # words of the tests alone: the events are those of standard input, and what the agent does by itself
Wanted = Union[int, float, str]  # CPUs by their number, or a list of them


def untimed(text: str) -> List[str]:
    """The lines of the agent, without their times."""
    return [line.split(" ", 1)[1] for line in text.splitlines()]


def of(lines: List[str], *words: str) -> List[str]:
    """Those lines that begin so."""
    return [line for line in lines if line.startswith(words)]


def section_of(cpus: Wanted) -> Dict[str, object]:
    """A config's CPU section by which a container asks for so many CPUs, or for these, or for none."""
    if isinstance(cpus, str):
        return {"cpus": cpus}
    return {"quota": int(cpus * QUOTA), "period": QUOTA} if cpus else {}


def config_of(section: Mapping[str, object], **more: object) -> Dict[str, object]:
    linux = more.pop("linux", {})
    assert isinstance(linux, dict)
    return {"ociVersion": "1.0.2", "root": {"path": "r"}, "linux": {"resources": {"cpu": dict(section)}, **linux}, **more}


class Tree:
    """A machine in a folder: its file, bundles in `g`, groups in `root/numarun`, and a list of online CPUs."""

    def __init__(self, folder: str, machine: Mapping[str, object], root: bool = True) -> None:
        self.folder, self.went = folder, 0
        for name in ("g", "gone", *(("root/numarun",) if root else ())):
            os.makedirs(self.at(name))
        written(self.at("machine.json"), json.dumps(machine))

    def at(self, *names: str) -> str:
        return os.path.join(self.folder, *names)

    def put_whole(self, path: str, text: str) -> None:
        """A file in the place of another one, of which nobody sees a part."""
        os.rename(written(self.at("written"), text), path)

    def online(self, cpus: str) -> None:
        self.put_whole(self.at("online"), f"{cpus}\n")

    def make_group(self, name: Optional[str], cpus: str = "", group: Optional[str] = None) -> None:
        path = self.at("root", group.lstrip("/") if group else f"numarun/{name}")
        os.makedirs(path)
        written(os.path.join(path, "cpuset.cpus"), cpus)
        written(os.path.join(path, "cpuset.mems"), "")

    def put(self, group: str, file: str, text: str) -> None:
        """A file of a group."""
        self.put_whole(self.at("root", group, file), f"{text}\n")

    def file(self, group: str, file: str = "cpuset.cpus") -> str:
        return text_of(self.at("root", group, file)).strip()

    def put_away(self, path: str) -> None:
        """A folder goes at once, as in the kernel. It is kept elsewhere, so that the next one in its place has another inode."""
        self.went += 1
        os.rename(path, self.at("gone", str(self.went)))


class Site(Tree):
    """A machine of the case that runs."""

    count = 0

    def __init__(self, machine: Optional[Mapping[str, object]] = None, root: bool = True) -> None:
        Site.count += 1
        machine = machine or EIGHT_CPUS
        super().__init__(scratch(f"site-{Site.count}"), machine, root)
        nodes = machine["nodes"]
        assert isinstance(nodes, list)
        self.online(nodes[-1].replace("8-", "0-"))

    def configure(self, name: str, cpus: Wanted, **more: Any) -> None:
        """Another config in the place of the one that is there."""
        self.come("another", cpus, group=False, **more)
        os.rename(self.at("g/another/config.json"), self.at("g", name, "config.json"))
        os.rmdir(self.at("g/another"))

    def come(self, name: str, cpus: Wanted = 0, group: bool = True, has: str = "", **more: object) -> None:
        config = config_of(section_of(cpus), **more)
        if group:
            path = config["linux"].get("cgroupsPath")  # type: ignore[attr-defined]
            self.make_group(name, has, path)
        os.makedirs(self.at("new"))
        written(self.at("new", "config.json"), json.dumps(config))
        os.rename(self.at("new"), self.at("g", name))

    def write(self, name: str, cpus: str) -> None:
        """Somebody else's write."""
        self.put(f"numarun/{name}", "cpuset.cpus", cpus)

    def go(self, name: str) -> None:
        for path in (self.at("g", name), self.at("root", "numarun", name)):
            self.put_away(path)

    def has(self, *names: str) -> List[str]:
        return [self.file(f"numarun/{name}") for name in names]

    def words(self, *more: str) -> List[str]:
        words = [self.at("machine.json"), "--program", IN_FOLDERS, "--cgroup", self.at("root"), "--work", self.at("work"), "--pause", "0.1"]
        watching = ["--watch", self.at("g"), "--online", self.at("online")] if "--listen" not in more else []
        all_pinned = ALL_PINNED if "--defaults" not in more else ()
        return [*words, *watching, *all_pinned, *(word for word in more if word not in NOT_TOLD)]

    def run(self, *more: str, text: str = "", rounds: str = "1") -> Tuple[int, List[str]]:
        status, out, err = told("numarun-agent", *self.words(*more, "--rounds", rounds), text=text, env={**os.environ, "GROUPS_LOG": self.at("log")})
        check("nothing on standard error", err, "")
        return status, untimed(out)

    def log(self) -> List[str]:
        """The writes of CPUs since the last time."""
        lines = text_of(self.at("log")).splitlines() if os.path.exists(self.at("log")) else []
        written(self.at("log"), "")
        return lines

    def stand_in(self, before: str, after: str = "", **names: object) -> Tuple[str, str]:
        """A program in the place of numarun, as words for the agent: it sees each `line` before and after that is passed on to numarun, and
        knows these names."""
        known = "\n".join(f"{name} = {value!r}" for name, value in names.items())
        before, after = (textwrap.indent(textwrap.dedent(code), "    ") for code in (before, after))
        text = STAND_IN.format(python=sys.executable, program=IN_FOLDERS, known=known, before=before, after=after)
        return "--program", written(self.at("stand-in"), text, 0o755)


STAND_IN = """#!{python}
import os, signal, subprocess, sys, time
run = subprocess.Popen([{program!r}, *sys.argv[1:]], stdin=subprocess.PIPE, close_fds=False)
{known}
for line in sys.stdin.buffer:
{before}
    run.stdin.write(line)
    run.stdin.flush()
{after}
run.stdin.close()
run.wait()
"""


class Open:
    """An agent that runs; what it says is read as it comes."""

    def __init__(self, site: Site, *more: str, stdin: int = subprocess.DEVNULL) -> None:
        words = command("numarun-agent", *site.words(*more))
        here = {**os.environ, "GROUPS_LOG": site.at("log")}
        self.process = subprocess.Popen(words, stdin=stdin, stdout=subprocess.PIPE, text=True, cwd=TOP, env=here)
        self.lines: List[str] = []

    @contextlib.contextmanager
    def watched(self) -> Iterator[IO[str]]:
        """What it says, for a time; where that does not come to an end it is killed."""
        assert self.process.stdout
        watch = threading.Timer(PATIENCE, self.process.kill)
        watch.daemon = True
        watch.start()
        try:
            yield self.process.stdout
        finally:
            watch.cancel()

    def tell(self, text: str) -> None:
        """Lines for its standard input."""
        assert self.process.stdin
        self.process.stdin.write(text)
        self.process.stdin.flush()

    def end_input(self) -> None:
        assert self.process.stdin
        self.process.stdin.close()

    def until(self, beginning: str) -> List[str]:
        """The lines up to one that begins so."""
        lines: List[str] = []
        with self.watched() as said:
            for line in said:
                lines.append(line.split(" ", 1)[1].rstrip("\n"))
                self.lines.append(lines[-1])
                if lines[-1].startswith(beginning):
                    return lines
        check(f"a line {beginning!r}", lines, "one of them")
        return lines

    def end(self, number: int = signal.SIGTERM) -> Tuple[int, List[str]]:
        self.process.send_signal(number)
        with self.watched() as said:
            rest = untimed(said.read())
        return self.process.wait(), rest


def begun(tree: Tree, *more: str) -> subprocess.Popen[bytes]:
    """An agent over a tree, with its defaults but for the pause; what it says is added to the file `out`."""
    words = [tree.at("machine.json"), "--program", IN_FOLDERS, "--cgroup", tree.at("root"), "--work", tree.at("work"), "--watch", tree.at("g"),
             "--online", tree.at("online"), "--pause", "0.02", *more]
    with open(tree.at("out"), "a", encoding="utf-8") as out:
        return subprocess.Popen([sys.executable, "-B", os.path.join(OPERATORS, "numarun-agent"), *words], stdout=out, stderr=out)
