"""Feeds what is not as it ought to be, 200 of each kind: configs, states of runtimes, entries of watched folders, files of groups, what an agent has
left in its folder, options in files, what is said at the agent's socket and on its standard input, machine files, answers with certificates. What can't be had is named in a line with its path and the reason,
the others go on, and nothing ends by a traceback. What is fed is drawn by a seed, and kept in no file of the repository."""

from __future__ import annotations

import json
import os
import random
import re
import socket
import subprocess
import sys
import tempfile
import time
import traceback
from typing import Callable, Dict, Iterator, List, Mapping, Sequence, Set, Tuple

from sites import IN_FOLDERS, Open, Site, config_of, of, section_of, untimed
from trial import EXAMPLES, SECONDS, Told, case, check, command, long_case, scratch, text_of, told, written
from numarun_host import agent, answers, explain
from numarun_host.hooks import near
from numarun_host.machine import Machine
from numarun_host.script import Refused, run
from numarun_host.sources import is_word

COUNT = 200
SEED = 20261129
LARGE = 64 << 20
DEPTHS = (50, 126, 127, 128, 129, 500, *range(940, 996, 4))  # of well-formed members, up to what Python's reader refuses
DEEP = (50, 300, 600, 900)
STAMPED = re.compile(r"\d{4}-\d\d-\d\dT\d\d:\d\d:\d\d\.\d{3} \S")
ODD_VALUES: Sequence[object] = (
    None, True, 0, -1, 1 << 63, 10 ** 400, 1.5, float("nan"), float("inf"), "", "x", "\ud800", "a\0b", "a\nb", "../..", "/" * 5000, "9" * 5000, "0-", "4-1",
    "0-99999999999", [], [None], {}, {"": 1}, {"cpus": []}, [[[]]] * 3, "\u202e\u0007", "١-٢")


def nested(depth: int) -> object:
    found: object = 1
    for k in range(depth):
        found = [found] if k % 2 else {"a": found}
    return found


def places(value: object, path: Tuple[object, ...] = ()) -> Iterator[Tuple[object, ...]]:
    """Where there is something in a JSON value."""
    yield path
    entries = value.items() if isinstance(value, dict) else enumerate(value) if isinstance(value, list) else ()
    for key, member in entries:
        yield from places(member, (*path, key))


def with_other(value: object, path: Sequence[object], other: object) -> object:
    """The same with something else in one place."""
    if not path:
        return other
    key, *rest = path
    if isinstance(value, dict):
        return {**value, key: with_other(value[key], rest, other)}
    assert isinstance(value, list)
    return [with_other(member, rest, other) if k == key else member for k, member in enumerate(value)]


def odd_text(chance: random.Random, whole: object, text_of: Callable[[object], str] = json.dumps) -> bytes:
    """A text that is like that of this value, and is none, or one of another value."""
    text = text_of(whole).encode()
    at = chance.randrange(len(text))
    ways: Sequence[Callable[[], bytes]] = (
        lambda: text[:at], lambda: text[:at] + bytes([chance.randrange(256)]) + text[at + 1:], lambda: text[:at] + text[at + 1:],
        lambda: bytes(chance.randrange(256) for _ in range(chance.randrange(300))), lambda: b"\0" * chance.choice((1, 5000)), lambda: b"\xef\xbb\xbf" + text,
        lambda: text + text, lambda: text[:at] + b"\0" + text[at:], lambda: b"[" * chance.choice((10, 900, 100000)),
        lambda: text_of(nested(chance.choice(DEEP))).encode(), lambda: text.replace(b'"', b"'"),
        lambda: text_of(with_other(whole, chance.choice(list(places(whole))), chance.choice((*ODD_VALUES, nested(chance.choice(DEEP)))))).encode())
    few = 0 if chance.random() < 0.5 else len(ways) - 1  # half of them are JSON of other values
    return ways[few or chance.randrange(len(ways))]()


def deep_member(text: bytes, depth: int) -> bytes:
    """A config that is well-formed and has a member that is nested so deep."""
    return text[:-1] + b', "deep": ' + b"[" * depth + b"]" * depth + b"}"


def odd_file(chance: random.Random, path: str, text: bytes, links: Sequence[str] = ("/dev/zero", "/dev/null", "/proc/self/mem"), pipes: bool = True) -> None:
    """In the place of a file: this text, or a folder, a pipe, a link in a circle or to nothing or to one of these, a large file."""
    way = chance.randrange(20)
    if way == 0:
        os.makedirs(path)
    elif way == 1 and pipes:
        os.mkfifo(path)
    elif way == 2:
        os.symlink(path, path)
    elif way == 3:
        os.symlink("/no/such", path)
    elif way == 4:
        os.symlink(chance.choice(links), path)
    else:
        with open(path, "wb") as file:
            file.write(text)
            if way == 5:
                file.truncate(LARGE)


def goes_on(site: Site, lines: List[str]) -> None:
    """The containers that are as they ought to be have their CPUs, and each line is one of the agent's."""
    check("the others go on", site.has("good", "other"), ["1-2", "3"])
    check("no traceback", of(lines, "Traceback"), [])


def run_of(site: Site, *more: str, rounds: str = "3") -> List[str]:
    """What an agent says in some looks, each line with its time, and nothing on standard error."""
    words = site.words("--rounds", rounds, *more)
    status, out, err = told("numarun-agent", *words)
    check("nothing on standard error, and something is left undone", (status, err), (1, ""))
    check("lines that are none", [line for line in out.splitlines() if not STAMPED.match(line)], [])
    return untimed(out)


def made() -> Site:
    site = Site()
    site.come("good", 2)
    site.come("other", 1)
    site.run()
    return site


def named(lines: List[str], names: Sequence[str], but: Sequence[str] = ()) -> None:
    """Each of these has a line of what can't be had, or what it was taken with."""
    text = "\n".join(of(lines, "absent", "refused", "create", "adopt", "waits", "failed", "stays"))
    check("named by no line", [name for name in names if name not in but and not re.search(rf"\b{re.escape(name)}\b", text)], [])


@case
def configs() -> None:
    """In the place of configs."""
    site, chance, names = made(), random.Random(SEED), [f"odd{k:03}" for k in range(COUNT)]
    whole = config_of({**section_of(1), "cpus": "1-7", "mems": "0"}, annotations={"numarun.least": "1", "numarun.near": "eth0", "numarun.stay": "true"},
                      process={"env": ["NUMARUN_PIN=true"]}, linux={"cgroupsPath": "/numarun/x"})
    for k, name in enumerate(names):
        site.make_group(name)
        os.makedirs(site.at("g", name))
        text = odd_text(chance, whole) if k % 10 else deep_member(json.dumps(config_of(section_of(0))).encode(), DEPTHS[k // 10])
        odd_file(chance, site.at("g", name, "config.json"), text)
    lines = run_of(site)
    goes_on(site, lines)
    files = [name for name in names if os.path.isfile(site.at("g", name, "config.json"))]
    named(lines, files)


@case
def states() -> None:
    """In the place of what crun and runc keep of a container that runs."""
    site, chance, names = made(), random.Random(SEED + 1), [f"odd{k:03}" for k in range(COUNT)]
    crun = {"cgroup-path": "/numarun/x", "pid": 5, "process-start-time": 7, "bundle": "/b"}
    runc = {"cgroup_paths": {"": "/numarun/x"}, "init_process_pid": 5, "init_process_start": "7", "config": {"labels": [f"bundle={site.at('bundle')}"]}}
    os.makedirs(site.at("bundle"))
    written(site.at("bundle/config.json"), json.dumps(config_of(section_of(1))))
    for k, name in enumerate(names):
        site.make_group(name)
        os.makedirs(site.at("g", name))
        if k % 2:
            written(site.at("g", name, "config.json"), json.dumps(config_of(section_of(1))))
        odd_file(chance, site.at("g", name, "status" if k % 2 else "state.json"), odd_text(chance, crun if k % 2 else runc))
    lines = run_of(site)
    goes_on(site, lines)
    broken = [name for k, name in enumerate(names) if k % 2 or is_broken(site.at("g", name, "state.json"))]
    named(lines, broken)


def is_broken(path: str) -> bool:
    """Whether a state that is there is no JSON object."""
    if not os.path.isfile(path):
        return False
    try:
        with open(path, "rb") as file:
            text = file.read(2 << 20)
        return len(text) > 1 << 20 or not isinstance(json.loads(text.decode()), dict)
    except (OSError, ValueError, RecursionError):
        return True


@case
def folders() -> None:
    """Entries of a watched folder under odd names, files for folders, links, and folders that are no containers."""
    site, chance = made(), random.Random(SEED + 2)
    config = json.dumps(config_of(section_of(1)))
    bad: List[str] = []
    for k in range(COUNT):
        signs = chance.choice(("ab c", "a\tb", "a\nb", "ä\u202e", "\udcff\udcfe", "a;$'\"", "x" * 200, "%s{}", "\\", "-"))
        name = f"{signs}{k}"
        path, way = site.at("g", name), chance.randrange(6)
        if way == 0:
            written(path, config)
        elif way == 1:
            os.symlink(path, path)
        elif way == 2:
            os.symlink(chance.choice(("/proc/1", "/dev/null", site.at("g"))), path)
        else:
            os.makedirs(path)
            written(os.path.join(path, "config.json"), config)
            bad.append(name)
    lines = run_of(site)
    goes_on(site, lines)
    refused = of(lines, "refused E91 BadId: ", "absent ")
    shown = {name if is_word(name) else ascii(name) for name in bad}
    check("named by no line", [name for name in shown if not any(name in line for line in refused)], [])


@case
def watched_folders() -> None:
    """A file, a link in a circle, a pipe in the place of a watched folder, and all of them: a line for each, and the others go on: somebody comes
    beside them, and ends, and a CPU goes and comes."""
    site, bad = made(), ("file", "circle", "pipe")
    written(site.at("file"), "")
    os.symlink(site.at("circle"), site.at("circle"))
    os.mkfifo(site.at("pipe"))
    for paths in (*((name,) for name in bad), bad):
        agent = Open(site, *(word for name in paths for word in ("--watch", site.at(name))))
        agent.until("adopt other")
        site.come("new", 1)
        agent.until("create new")
        agent.until("done")
        check(f"{paths}: who comes has CPUs", site.has("good", "other", "new"), ["1-2", "3", "4"])
        site.online("0-6")
        agent.until("offline 7")
        site.go("new")
        agent.until("ended new")
        site.online("0-7")
        agent.until("online 7")
        status, rest = agent.end()
        named = [len(of(agent.lines + rest, f"failed {site.at(name)}: ")) for name in paths]
        check(f"{paths}: each is named once", (status, named), (1, [1] * len(paths)))
        goes_on(site, agent.lines + rest)


@case
def group_files() -> None:
    """In the place of the files of containers' groups. None of these links leads out of the case's folder, and there are pipes only where numarun
    opens nothing: it writes there, and waits as the kernel lets nobody wait."""
    site, chance = made(), random.Random(SEED + 3)
    with open(site.at("large"), "wb") as large:
        large.truncate(LARGE)
    contents = [b"", b"\xff\xfe", b"x", b"1-", b"99999", b"0-4095\n" * 3, b"\0" * 100, b"max 0", b"populated 2", b"-1", b"0" * 70000, b"max", b"1 1 1", b"populated 1"]
    for k in range(COUNT // 5):
        site.come(f"c{k:02}", 1 + k % 2)
        for file in ("cpuset.cpus", "cpuset.mems", "cpuset.cpus.effective", "cpu.max", "cgroup.events"):
            path = site.at(f"root/numarun/c{k:02}", file)
            if os.path.lexists(path):
                os.remove(path)
            if chance.random() > 0.05:
                odd_file(chance, path, chance.choice(contents), [site.at("large"), "large"], pipes=not file.startswith("cpuset."))
    agent = Open(site)
    agent.until("adopt other")
    time.sleep(2)
    status, rest = agent.end()
    goes_on(site, agent.lines + rest)
    check("it ends when it is told to", status in (0, 1), True)


def connected(path: str) -> socket.socket:
    """A connection, once the agent has taken up enough of those before."""
    until = time.monotonic() + 60
    while True:
        door = socket.socket(socket.AF_UNIX, socket.SOCK_STREAM)
        door.settimeout(10)
        try:
            door.connect(path)
            return door
        except BlockingIOError:
            door.close()
            if time.monotonic() > until:
                raise
            time.sleep(0.05)


@case
def sockets() -> None:
    """What is told at the agent's socket: odd lines, none, many at once; who asks as one ought to is answered."""
    site, chance = made(), random.Random(SEED + 4)
    agent = Open(site)
    agent.until("done")
    doors: List[socket.socket] = []
    with near(site.at("work/hooks")) as path:
        for k in range(COUNT):
            door = connected(path)
            text = chance.choice((b"", b"\n", b"good", b"\xff\n", b"x" * 1000, b"?status", b"\0\n", b"a\nb\nc\n", os.urandom(200), b"nobody\n"))
            try:
                door.sendall(text)
            except OSError:
                pass
            if chance.random() < 0.3:
                door.close()
            else:
                doors.append(door)
    status, out, err = told("numarun-agent", "status", "--json", "--agent", site.at("work/hooks"))
    check("who asks is answered", (status, err, [entry["id"] for entry in json.loads(out or "{}").get("containers", [])]), (0, "", ["good", "other"]))
    for door in doors:
        door.close()
    status, rest = agent.end()
    goes_on(site, agent.lines + rest)
    check("its end", (status, rest), (0, []))


@case
def lines_of_input() -> None:
    """On standard input: each line that is no event is named by its number, and those that are go on."""
    site, chance = made(), random.Random(SEED + 5)
    odd: List[bytes] = []
    while len(odd) < COUNT:
        kind = chance.choice((b"created", b"ended", b"offline", b"online", b"rebalance", b"x", b"\xff", b""))
        more = [bytes(chance.choice(b"ab/ \t\0\xff0-9,.") for _ in range(chance.randrange(20))) for _ in range(chance.randrange(4))]
        odd.append(b" ".join([kind, *more]).replace(b"\n", b""))
    good = f"created good {site.at('g/good')}\ncreated other {site.at('g/other')}\n".encode()
    words = command("numarun-agent", *site.words("--listen"))
    ran = subprocess.run(words, input=good + b"\n".join(odd) + b"\n" + b"x" * 100000 + b"\n", capture_output=True, timeout=SECONDS, check=False)
    lines = untimed(ran.stdout.decode())
    check("nothing on standard error", (ran.returncode, ran.stderr), (1, b""))
    goes_on(site, lines)
    check("the last one is named", [line for line in lines if line.startswith(f"refused: line {COUNT + 3}: ")] != [], True)


def in_child(*words: str) -> Told:
    """What the agent's program does with these words, in a process that has read its source already."""
    sys.stdout.flush()
    with tempfile.TemporaryFile() as out, tempfile.TemporaryFile() as err:
        child = os.fork()
        if child == 0:
            status = 1
            try:
                os.dup2(out.fileno(), 1)
                os.dup2(err.fileno(), 2)
                sys.argv = ["numarun-agent", *words]
                run(agent.main)
            except SystemExit as end:
                status = end.code if isinstance(end.code, int) else 1
                print(end.code if isinstance(end.code, str) else "", end="\n" * isinstance(end.code, str), file=sys.stderr)
            except BaseException:
                traceback.print_exc()
            sys.stdout.flush()
            sys.stderr.flush()
            os._exit(status)
        status = os.waitstatus_to_exitcode(os.waitpid(child, 0)[1])
        out.seek(0)
        err.seek(0)
        return status, out.read().decode(), err.read().decode()


def removed(path: str) -> None:
    """What odd_file left there is gone."""
    if os.path.isdir(path) and not os.path.islink(path):
        os.rmdir(path)
    elif os.path.lexists(path):
        os.remove(path)


def as_they_were(text: bytes, groups: Mapping[str, object]) -> Set[str]:
    """The groups of which a record still says what it said, where it is one."""
    try:
        found = json.loads(text.decode())["groups"]
        return {path for path, entry in groups.items() if found[path] == entry} if isinstance(found, dict) and groups.keys() <= found.keys() else set()
    except (ValueError, RecursionError, KeyError, TypeError):
        return set()


@case
def records_of_taken() -> None:
    """In the place of what an agent kept of groups: what can be given back of it is."""
    site, chance, names = Site(), random.Random(SEED + 9), ("a", "b", "c")
    for name in names:
        site.make_group(name)
    paths = {name: site.at("root/numarun", name) for name in names}
    groups: Dict[str, object] = {paths[name]: [os.stat(paths[name]).st_ino, "5-6", "0", False, [5, 10]] for name in names}
    whole = {"all": ["0-7", "0"], "groups": groups, "listed": [paths["a"]]}
    kept, count = site.at("work/taken.json"), 0
    os.makedirs(site.at("work"))
    for k in range(COUNT):
        removed(kept)
        text = odd_text(chance, whole)
        odd_file(chance, kept, text)
        for name in names:
            site.put(f"numarun/{name}", "cpuset.cpus", "1")
        is_text = os.path.isfile(kept) and os.path.getsize(kept) == len(text)
        status, out, err = in_child("release", "--cgroup", site.at("root"), "--work", site.at("work"))
        check(f"{k}: a line at most", (status in (0, 1), err == "" or err.startswith(f"numarun-agent: {kept}: ") and err.count("\n") == 1), (True, True))
        left = as_they_were(text, groups) if is_text else set()
        given = {path for path in left if text_of(os.path.join(path, "cpuset.cpus")) == "5-6\n"}
        check(f"{k}: the others are given back", (given, out.count("given back") >= len(left)), (left, True))
        count += len(left) > 0
    check("some of each", 0 < count < COUNT, True)


@case
def last_states() -> None:
    """In the place of an agent's last state: a table, or JSON, and a line of why no agent answers."""
    site, chance = Site(), random.Random(SEED + 10)
    entry: Dict[str, object] = {"id": "a", "title": "a", "state": "pinned", "cpus": "1", "nodes": "0", "asks": 1, "given": 1, "lifted": "", "why": ""}
    whole = {"running": False, "ended": True, "time": "x", "reserved": "0", "offline": "-", "pool": "2-7", "containers": [entry, dict(entry, why="waits a")],
             "plan": {"total": 10, "beyond_local": 0, "certificate": ""}, "undone": [{"kind": "waits", "of": "a", "line": "waits a"}]}
    os.makedirs(site.at("work"))
    shown: Set[bool] = set()
    for k in range(COUNT):
        removed(site.at("work/status.json"))
        odd_file(chance, site.at("work/status.json"), odd_text(chance, whole))
        status, out, err = in_child("status", "--agent", site.at("work/hooks"), *(["--json"] if k % 2 else []))
        check(f"{k}", (status, "no agent answers" in err, "Traceback" in err), (1, True, False))
        shown.add(bool(out))
    check("both were met", shown, {True, False})


@case
def records_of_partitions() -> None:
    """In the place of what was there before an agent made a partition. No pipe is fed: nobody but the agent writes there."""
    site, chance, group = Site(), random.Random(SEED + 11), "pinned"
    written(site.at("root/cgroup.controllers"), "cpuset\n")
    path = site.at("root", group)
    for k in range(COUNT):
        removed(site.at("work/partition.json"))
        os.makedirs(path, exist_ok=True)
        os.makedirs(site.at("work"), exist_ok=True)
        for file, text in (("cpuset.cpus", "1-2"), ("cpuset.cpus.partition", "root"), ("cpuset.cpus.exclusive", "")):
            written(os.path.join(path, file), f"{text}\n")
        whole = {"path": path, "inode": os.stat(path).st_ino, "made": [], "files": {f"{path}/cpuset.cpus": "", f"{path}/cpuset.cpus.exclusive": ""}}
        odd_file(chance, site.at("work/partition.json"), odd_text(chance, whole), pipes=False)
        status, out, err = in_child("release", "--cgroup", site.at("root"), "--work", site.at("work"))
        check(f"{k}", (status in (0, 1), "Traceback" in err, err.count("\n") <= 1), (True, False, True))


def toml_of(value: object) -> str:
    """A file of --config with these members, as far as TOML has such; or what JSON has."""
    return "\n".join(f"{key} = {json.dumps(member)}" for key, member in value.items()) if isinstance(value, dict) else json.dumps(value)


def words_of(value: object) -> str:
    """A file of words for these members; or what JSON has."""
    return "\n".join(f"--{key}={json.dumps(member)}" for key, member in value.items()) if isinstance(value, dict) else json.dumps(value)


@case
def files_of_options() -> None:
    """In the place of a file of --config, and of one that `@FILE` names: the words are had, or refused by a line with the file's path or the
    option."""
    site, chance = Site(), random.Random(SEED + 12)
    whole = {"watch": ["/g", "/h"], "cgroup": site.at("root"), "pool": "taskset -c", "pause": 2, "pool-least": "10%", "rest": "system.slice", "lift": True,
             "keep": 7, "pin": "all", "runtime": ["crun"], "textfile": "/f.prom", "certificates": "/certificates"}
    for k in range(2 * COUNT):
        path, is_toml = scratch(f"options{k}"), k % 2 == 0
        odd_file(chance, path, odd_text(chance, whole, toml_of if is_toml else words_of), pipes=False)
        words = ["--config", path] if is_toml else [f"@{path}"]
        status, out, err = in_child("check-config", site.at("machine.json"), "--program", IN_FOLDERS, *words)
        check(f"{k}: had or refused", (status in (0, 1, 2), "Traceback" in err, bool(out) != bool(err)), (True, False, True))
        check(f"{k}: with its path", status != 1 or err.startswith(f"numarun-agent: {path}: ") and err.count("\n") == 1, True)


def refused_or_read(path: str, read: Callable[[str], object]) -> str:
    """What a reader says of a file, and an exception that is no refusal."""
    try:
        read(path)
        return "read"
    except Refused as why:
        return str(why)


@case
def machine_files() -> None:
    """In the place of a machine file: it is refused by a line that begins with its path, or it is a machine."""
    chance = random.Random(SEED + 6)
    whole = {"nodes": ["0-3", "4-7"], "distances": [[10, 21], [21, 10]], "reserved": "0-1", "offline": "7", "cores": ["0-1", "2-3", "4-5", "6-7"], "about": "x"}
    said: Set[bool] = set()
    for k in range(COUNT):
        path = scratch(f"machine{k}")
        if k % 20:
            odd_file(random.Random(k + 7), path, odd_text(chance, whole))
        else:
            written(path, json.dumps(nested(100 * (k // 20) + 50)))
        if os.path.isfile(path) or os.path.isdir(path) or not os.path.exists(path):
            why = refused_or_read(path, Machine)
            check(f"machine file {k}", why == "read" or (why.startswith(f"{path}: ") and "\n" not in why), True)
            said.add(why == "read")
    check("both were met", said, {True, False})


@case
def certificates() -> None:
    """In the place of answers and certificates."""
    chance, machine = random.Random(SEED + 7), Machine(os.path.join(EXAMPLES, "machines", "two-socket.json"))
    with open(os.path.join(EXAMPLES, "scripts", "before-and-after.answers"), "rb") as file:
        whole = file.read()
    ways: Sequence[Callable[[bytes, int], bytes]] = (
        lambda text, at: text[:at], lambda text, at: text[:at] + bytes([chance.randrange(256)]) + text[at + 1:], lambda text, at: text[at:],
        lambda text, at: text[:at] + text[at + chance.randrange(40):], lambda text, at: text[:at] + b"9" * 5000 + text[at:],
        lambda text, at: text[:at] + b"\0\xff" + text[at:], lambda text, at: text.replace(b"hold", b"row", 1), lambda text, at: text + text[at:],
        lambda text, at: b"\n".join(chance.sample(text.split(b"\n"), text.count(b"\n"))))
    for k in range(COUNT):
        path = scratch(f"answers{k}")
        text = chance.choice(ways)(whole, chance.randrange(len(whole)))
        odd_file(random.Random(k + 8), path, text)
        if not os.path.isfile(path):
            continue

        def read(path: str) -> None:
            found = answers.Answers(path, machine)
            for certificate in found.certificates:
                explain.check_plan(certificate)
                explain.explain(certificate, machine)

        why = refused_or_read(path, read)
        check(f"answers {k}", why == "read" or "\n" not in why, True)


@long_case
def programs() -> None:
    """Some of these by the programs themselves: a line on standard error, and status 1."""
    chance = random.Random(SEED + 8)
    machine, answers_path = os.path.join(EXAMPLES, "machines", "two-socket.json"), os.path.join(EXAMPLES, "scripts", "before-and-after.answers")
    with open(answers_path, "rb") as file:
        whole = file.read()
    for k in range(20):
        path, at = scratch(f"odd{k}"), chance.randrange(len(whole))
        with open(path, "wb") as file:
            file.write(whole[:at] + chance.choice((b"\xff", b"\0", b"x", b"9" * 5000)) + whole[at + 1:])
        for script, words in (("numarun-explain", [machine, path]), ("numarun-draw-plan", [machine, path]), ("numarun-explain", [path, answers_path]),
                              ("numarun-describe hwloc", [path])):
            status, out, err = told(script, *words)
            check(f"{script} {k}", (status in (0, 1), bool(out) != bool(status), "Traceback" in err, err.count("\n") <= 1 or status == 0), (True, True, False, True))
