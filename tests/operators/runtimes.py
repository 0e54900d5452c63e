"""Tries what the agent knows of runtimes: their folders by name, lists of CPUs that runc's state has, one container that two folders tell
of, states that are broken and names that are no ids; numarun-runc; and services that are described as containers."""

from __future__ import annotations

import json
import os
import random
import subprocess
import time
from typing import Any, Dict, List, Optional, Sequence, Tuple

from sites import QUOTA, Open, Site
from numarun_host import runc, services, sources
from numarun_host.cgroups import below_root, group_path
from numarun_host.commands import Level, Say
from numarun_host.decide import say_silent
from numarun_host.ledger import Ledger, Settings
from numarun_host.machine import Machine
from numarun_host.runtimes import FOLDERS, NAMES, Runtime, Watch, watches_of
from numarun_host.taken import read_record
from trial import OPERATORS, Told, case, check, refuses, scratch, told, words_and_help, written

WRAPPER = os.path.join(OPERATORS, "numarun-runc")


# Folders.


@case
def names() -> None:
    """Each name stands for its folders, each of which is watched once, before those that are named by --watch."""
    check("docker", watches_of(["docker"], []), [Watch("/run/docker/runtime-runc/moby", True)])
    check("several", [watch.path for watch in watches_of(["podman,runc", "crun"], ["/g", "/run/crun"])], ["/run/crun", "/run/runc", "/g"])
    check("all", {watch.path for watch in watches_of(["all"], [])}, {path for paths in FOLDERS.values() for path in paths})
    check("each is named", set(NAMES), {runtime.value for runtime in Runtime})
    for words in (["--runtime", "dokcer"], ["--runtime", "docker,,x"]):
        status, out, err = told("numarun-agent", "machine.json", *words)
        check(" ".join(words), (status, out, "is no runtime: docker, containerd, podman, cri-o, crun, runc, or all" in err), (2, "", True))


def put_state(folder: str, bundle: str, group: str = "", **cgroups: object) -> None:
    """A folder as runc keeps it, whose state is there at once."""
    os.makedirs(folder, exist_ok=True)
    state = {"id": os.path.basename(folder), "cgroup_paths": {"": group}, "config": {"labels": [f"bundle={bundle}"], "cgroups": cgroups}}
    with open(os.path.join(folder, "new"), "w") as file:
        json.dump(state, file)
    os.rename(os.path.join(folder, "new"), os.path.join(folder, "state.json"))


@case
def families() -> None:
    """Of containerd each namespace is a folder, those that are there; one that comes is watched from then on."""
    site = Site()
    source = sources.Folders([Watch(site.at("runc", "*"), True), Watch(site.at("g"))], site.at("root"))
    source.look()
    check("none", [(folder.path, folder.there, folder.by_runtime) for folder in source.folders], [(site.at("runc"), False, True), (site.at("g"), True, False)])
    for namespace in ("default", "other"):
        put_state(site.at("runc", namespace, namespace[0]), "/b")
    open(site.at("runc", "file"), "w").close()
    source.look()
    check("two namespaces", ([folder.path for folder in source.folders], sorted(source.told)), ([site.at("runc/default"), site.at("runc/other"), site.at("g")], ["d", "o"]))


@case
def silent() -> None:
    """Those of runtimes that are not there are named once, together, and those of --watch one by one."""
    site = Site()
    source = sources.Folders([Watch("/no/docker", True), Watch("/no/containerd/*", True), Watch("/no/such")], site.at("root"))
    source.look()
    ledger, said = Ledger(Settings(Machine(site.at("machine.json")))), []
    for _ in range(3):
        said += list(say_silent(ledger, source.folders))
    lines = ["note no such folders yet: /no/docker, /no/containerd", "note /no/such: no such folder yet"]
    check("said once", said, [Say(line, Level.NOTICE) for line in lines])


@case
def groups() -> None:
    """A group's path below the root, however it is said."""
    for text, expected in (("/a/b", "/a/b"), ("a//b/", "/a/b"), ("/tree/a/b", "/a/b"), ("/tree", "/tree"), ("", "/"), ("/../a", "/a"), ("//a", "/a")):
        check(f"below the root: {text!r}", below_root("/tree", text), expected)
    check("the root itself", group_path("/tree", "numarun", "x", {}, None, "/"), "/tree")
    check("and of one that says nothing", group_path("/tree", "numarun", "x", {}, None, None), "/tree/numarun/x")


# Lists of runc's.


def with_runc(site: Site, name: str, cpus: str, has: str = "") -> None:
    """A container of runc's with a list of CPUs."""
    site.make_group(name, has)
    bundle = site.at("bundles", name)
    os.makedirs(bundle)
    with open(os.path.join(bundle, "config.json"), "w") as file:
        json.dump({"ociVersion": "1.0.2", "root": {"path": "r"}, "linux": {"resources": {"cpu": {"cpus": cpus} if cpus else {}}}}, file)
    update(site, name, cpus)


def update(site: Site, name: str, cpus: str, writes: bool = False) -> None:
    """What an update leaves in runc's state, and in the group."""
    if writes:
        site.write(name, cpus)
    put_state(site.at("runc", name), site.at("bundles", name), site.at("root/numarun", name), cpuset_cpus=cpus)


@case
def lists() -> None:
    """An update's list is followed and is no drift; what runc forgets by another update is kept, also for the next agent and for release."""
    site = Site()
    words = ("--watch", site.at("runc"))
    with_runc(site, "pk", "6-7", has="6-7")
    with_runc(site, "web", "")
    agent = Open(site, *words)
    agent.until("done")
    check("as runc made them", site.has("pk", "web"), ["6-7", "0-5"])
    site.write("pk", "4-5")
    while site.has("pk") != ["6-7"]:  # a look falls between the two writes of an update
        time.sleep(0.01)
    update(site, "pk", "4-5")
    lines = agent.until("hold pk 4-5") + agent.until("done")
    check("another list", (site.has("pk", "web"), [line for line in lines if line.startswith(("drift", "squeezed"))]), (["4-5", "0-3,6-7"], []))
    update(site, "pk", "")
    site.come("one", 1)
    agent.until("create one")
    lines = agent.until("done")
    check("runc forgets it", (site.has("pk"), [line for line in lines if " pk " in line], agent.end()[0]), (["4-5"], [], 0))
    status, lines = site.run(*words, rounds="2")
    check("the next agent", (status, site.has("pk"), [line for line in lines if line.startswith(("hold", "drift"))]), (0, ["4-5"], []))
    agent = Open(site, *words)
    agent.until("done")
    update(site, "pk", "6-7", writes=True)
    agent.until("hold pk 6-7")
    agent.until("done")
    update(site, "pk", "")
    site.come("two", 1)
    agent.until("create two")
    agent.until("done")
    check("back to that of its config, and forgotten", site.has("pk"), ["6-7"])
    update(site, "web", "3", writes=True)
    agent.until("hold web 3")
    agent.until("done")
    site.write("web", "1-5")
    check("what others write is drift all the same", agent.until("drift")[-1], "drift web has 1-5 in place of 3: that is written again")
    agent.end()
    check("release", (told("numarun-agent", "release", "--cgroup", site.at("root"), "--work", site.at("work"))[0], site.has("pk", "web")), (0, ["6-7", "3"]))


@case
def a_list_and_a_limit() -> None:
    """A limit that changes in the look in which somebody writes its CPUs is followed too."""
    site = Site()
    site.come("a", 2)
    agent = Open(site)
    agent.until("done")
    site.write("a", "5-6")
    site.configure("a", 3)
    lines = agent.until("hold a") + agent.until("done")
    check("both", (len(site.has("a")[0].replace("-", "")) > 1, [line for line in lines if line.startswith("hold")][:1]), (True, ["hold a 1-3"]))
    agent.end()


KILLED_AT = "if line.startswith(begins) and os.path.exists(armed):\n    os.remove(armed)\n    os.kill(os.getppid(), signal.SIGKILL)"


@case
def listed_and_lifted() -> None:
    """An update's list is followed of one whose limit is lifted, wherever the agent is killed meanwhile: what is kept has both, also once runc
    has forgotten the list, and a release gives both back."""
    for begins in ("kill pk", "adopt pk", "update pk", "begin", "step"):
        site = Site()
        words = ("--watch", site.at("runc"), "--lift")
        with_runc(site, "pk", "6-7", has="6-7")
        site.put("numarun/pk", "cpu.max", "200000 100000")
        agent = Open(site, *words, *site.stand_in(KILLED_AT, begins=begins.encode(), armed=site.at("armed")))
        agent.until("lift pk")
        written(site.at("armed"), "")
        update(site, "pk", "4-5", writes=True)
        check(f"killed at {begins}", (agent.process.wait(), os.path.exists(site.at("armed"))), (-9, False))
        for cpus in ("4-5", ""):
            update(site, "pk", cpus)
            status, lines = site.run(*words, rounds="3")
            taken = read_record(site.at("work")).groups[site.at("root/numarun/pk")]
            check(f"killed at {begins}, and runc's list is {cpus!r}", (status, site.has("pk"), site.file("numarun/pk", "cpu.max"), taken.cpus, taken.limit, taken.listed),
                  (0, ["4-5"], "max", "4-5", (200000, 100000), True))
        release = ("release", "--cgroup", site.at("root"), "--work", site.at("work"))
        check("given back", (told("numarun-agent", *release)[0], site.has("pk"), site.file("numarun/pk", "cpu.max")), (0, ["4-5"], "200000 100000"))


@case
def without_room() -> None:
    """A list of CPUs that others have is not given, and the container keeps what it has until there is room."""
    site = Site()
    words = ("--watch", site.at("runc"))
    with_runc(site, "pk", "6-7", has="6-7")
    with_runc(site, "db", "4-5", has="4-5")
    agent = Open(site, *words)
    agent.until("done")
    update(site, "pk", "4-5")
    check("no room", agent.until("keeps pk")[-1].startswith("keeps pk: short demand 4 allowed 4-5"), True)
    check("as it was", site.has("pk", "db"), ["6-7", "4-5"])
    site.go("db") if os.path.isdir(site.at("g/db")) else os.rename(site.at("runc/db"), site.at("gone-db"))
    os.rename(site.at("root/numarun/db"), site.at("gone-group"))
    agent.until("hold pk 4-5")
    agent.until("done")
    check("there is", (site.has("pk"), agent.end()[0]), (["4-5"], 0))


# One container, two folders.


@case
def told_twice() -> None:
    """What a hook and a runtime tell of one group is one container; two groups of one id are two."""
    site = Site()
    with_runc(site, "pk", "6-7", has="6-7")
    hooked = site.at("told", "pk")
    os.makedirs(hooked)
    os.symlink(site.at("bundles/pk/config.json"), os.path.join(hooked, "config.json"))
    with open(os.path.join(hooked, "status"), "w") as file:
        json.dump({"cgroup-path": "/numarun/pk"}, file)
    words = ("--watch", site.at("told"), "--watch", site.at("runc"))
    agent = Open(site, *words)
    agent.until("done")
    update(site, "pk", "4-5", writes=True)
    agent.until("hold pk 4-5")
    agent.until("done")
    os.rename(site.at("runc/pk"), site.at("gone"))
    site.come("one", 1)
    agent.until("done")
    check("told on by the other folder", ([line for line in agent.lines if line.startswith(("ended", "refused", "drift"))], site.has("pk"), agent.end()[0]), ([], ["4-5"], 0))
    os.rename(site.at("gone"), site.at("runc/pk"))
    with open(os.path.join(hooked, "status"), "w") as file:
        json.dump({"cgroup-path": "/numarun/one"}, file)
    status, lines = site.run(*words, rounds="2")
    check("two groups", (status, [line for line in lines if "its id is told by" in line]), (1, [f"refused: its id is told by {hooked} too: pk {site.at('runc/pk')}"]))


# What is broken.


@case
def broken() -> None:
    """A state that is no state, or none that can be read, and names that are no ids, are said with their paths; the others go on."""
    site = Site()
    words = ("--watch", site.at("runc"))
    for name, text in (("half", '{"config": {"labe'), ("list", "[]"), ("none", "{}"), ("large", " " * (2 << 20)), ("empty", "")):
        os.makedirs(site.at("runc", name))
        with open(site.at("runc", name, "state.json"), "w") as file:
            file.write(text)
    os.makedirs(site.at("runc/folder/state.json"))
    os.makedirs(site.at("runc/circle"))
    os.symlink("state.json", site.at("runc/circle/state.json"))
    os.makedirs(site.at("runc/pipe"))
    os.mkfifo(site.at("runc/pipe/state.json"))
    for name in ("a b", "a\nb", "a\x1b[2Jb", " "):
        put_state(site.at("runc", name), "/b")
    with_runc(site, "good", "7", has="7")
    status, lines = site.run(*words, rounds="2")
    check("the others go on", (status, site.has("good")), (1, ["7"]))
    found = {line.split(": ")[0]: ": ".join(line.split(": ")[1:]) for line in lines if line.startswith("absent")}
    state = {name: site.at("runc", name, "state.json") for name in ("half", "list", "none", "large", "empty", "folder", "circle", "pipe")}
    blank = "a name with blanks, or with signs that can't be printed, is no id"
    said = {"half": "not JSON", "list": "no JSON object", "none": "it names no bundle", "large": f"more than {1 << 20} bytes", "empty": "not JSON", "folder": "no file",
            "circle": "no file", "pipe": "no file"}
    expected = {f"absent {name}": f"{state[name]}: {why}" for name, why in said.items()}
    expected.update({f"absent {ascii(name)}": f"{ascii(site.at('runc', name))}: {blank}" for name in ("a b", "a\nb", "a\x1b[2Jb", " ")})
    check("each by its path", found, expected)
    agent = Open(site, *words)
    agent.until("done")
    with open(site.at("runc/half/new"), "w") as file:
        json.dump({"config": {"labels": [f"bundle={site.at('bundles/good')}"]}}, file)
    site.make_group("half")
    os.rename(site.at("runc/half/new"), site.at("runc/half/state.json"))
    os.remove(site.at("runc/good/state.json"))
    agent.until("ended good")
    agent.until("hold half 7")
    agent.end()


# numarun-runc.


@case
def reads_words() -> None:
    """Which command it is, and of which bundle; all words are runc's but those that stand first."""
    table: Sequence[Tuple[List[str], Tuple[str, str]]] = (
            ([], ("", ".")), (["--version"], ("", ".")), (["state", "a"], ("state", ".")), (["create", "a"], ("create", ".")),
            (["--root", "create", "state", "run"], ("state", ".")), (["--root=/r", "create", "--bundle", "/b", "a"], ("create", "/b")),
            (["--log", "/l", "--log-format", "json", "--systemd-cgroup", "create", "--bundle=/b", "--pid-file", "/p", "a"], ("create", "/b")),
            (["-debug", "run", "-b", "/b", "--no-pivot", "-d", "a"], ("run", "/b")), (["run", "--no-pivot", "-bundle", "/b", "a"], ("run", "/b")),
            (["run", "--console-socket", "--bundle", "a"], ("run", ".")), (["create", "a", "--bundle", "/b"], ("create", ".")),
            (["create", "--bundle"], ("create", ".")), (["exec", "--bundle", "/b", "a"], ("exec", ".")))
    for words, expected in table:
        found = runc.read_words(words)
        check(f"the words {words}", ((found.command, found.bundle), list(found.runc), dict(found.own)), (expected, words, {}))
    found = runc.read_words(["--numarun-wait=3", "--numarun-folder=/f", "--root", "/r", "--numarun-wait=5", "create", "a"])
    check("one's own", (dict(found.own), found.runc), ({"wait": "3", "folder": "/f"}, ("--root", "/r", "--numarun-wait=5", "create", "a")))


@case
def by_chance() -> None:
    """However the options stand, the bundle that is found is the one that runc takes: the last that is named before the id."""
    chance = random.Random(74)
    for _ in range(2000):
        before = [chance.choice([["--debug"], ["--log", "create"], ["--root=/run"], ["--rootless", "auto"], ["--systemd-cgroup"]]) for _ in range(chance.randrange(4))]
        behind = [chance.choice([["--no-pivot"], ["--pid-file", "--bundle"], ["--preserve-fds=3"], ["--console-socket", "/c"], ["-d"]]) for _ in range(chance.randrange(4))]
        bundle: List[str] = chance.choice([[], ["--bundle", "/b"], ["-b=/b"], ["-b", "/b"]])
        behind.insert(chance.randrange(len(behind) + 1), bundle)
        command = chance.choice(["create", "run", "state"])
        words = [word for group in [*before, [command], *behind, ["id"]] for word in group]
        found = runc.read_words(words)
        if (found.command, found.bundle) != (command, "/b" if bundle and command != "state" else "."):
            check(f"by chance: {words}", (found.command, found.bundle), (command, bundle))


def wrapped(bundle: str, *words: str, own: Sequence[str] = (), stand_in: Optional[str] = None, **more: Any) -> Told:
    """numarun-runc over a stand-in for runc, which says its words."""
    stand_in = stand_in or written(scratch("runc-stand-in"), '#!/bin/sh\nprintf "%s\\n" "$@"\n', 0o755)
    ran = subprocess.run([WRAPPER, f"--numarun-runc={stand_in}", *own, *words], capture_output=True, cwd=bundle, timeout=60, **more)
    return ran.returncode, ran.stdout.decode(), ran.stderr.decode()


def hooks_of(bundle: str) -> Dict[str, List[Tuple[str, List[str]]]]:
    with open(os.path.join(bundle, "config.json")) as file:
        return {stage: [(os.path.basename(hook["path"]), hook["args"][1:]) for hook in hooks] for stage, hooks in json.load(file).get("hooks", {}).items()}


@case
def wraps() -> None:
    """It adds both hooks, before others, once; runc has all words but one's own; what can't be read is left to it, what can't be written is
    refused, also where docker looks."""
    site = Site()
    site.come("a", 2, group=False, hooks={"createRuntime": [{"path": "/other", "args": ["other", "x"]}], "prestart": [{"path": "/first", "args": ["f", "y"]}]})
    bundle, words = site.at("g/a"), ["--root", "/r", "create", "--bundle", site.at("g/a"), "a"]
    expected = {"createRuntime": [("numarun-hook", ["/run/numarun-containers", "--wait", "10"]), ("other", ["x"])], "prestart": [("first", ["y"])],
                "poststop": [("numarun-hook", ["/run/numarun-containers"])]}
    os.chmod(os.path.join(bundle, "config.json"), 0o640)
    for times in ("once", "twice"):
        check(times, (wrapped("/", *words), hooks_of(bundle)), ((0, "\n".join(words) + "\n", ""), expected))
    check("its mode, and nothing beside", (os.stat(os.path.join(bundle, "config.json")).st_mode & 0o777, os.listdir(bundle)), (0o640, ["config.json"]))
    found = json.load(open(os.path.join(bundle, "config.json")))
    check("all else is as it was", (found["linux"], os.access(found["hooks"]["poststop"][0]["path"], os.X_OK)), ({"resources": {"cpu": {"quota": 2 * QUOTA, "period": QUOTA}}}, True))
    check("no wait", (wrapped(bundle, "run", "a", own=["--numarun-wait=0", "--numarun-folder=/f"])[0], hooks_of(bundle)["createRuntime"][0]), (0, ("numarun-hook", ["/f"])))
    before = open(os.path.join(bundle, "config.json")).read()
    check("another command", (wrapped(bundle, "state", "a"), open(os.path.join(bundle, "config.json")).read()), ((0, "state\na\n", ""), before))
    for text in ("", "[]", "{", '{"hooks": 5}', '{"hooks": {"createRuntime": {}}}'):
        with open(os.path.join(bundle, "config.json"), "w") as file:
            file.write(text)
        check(f"a config {text!r}", wrapped(bundle, "create", "a")[:2], (0, "create\na\n"))
    check("no bundle", wrapped(site.at(), "create", "a"), (0, "create\na\n", ""))
    check("runc's status", wrapped(bundle, "state", "a", stand_in="/bin/false")[0], 1)
    says = "numarun-runc: --numarun-wait=x: no number of seconds"
    log = site.at("log.json")
    status, out, err = wrapped(bundle, "--log", log, "--log-format", "json", "create", "a", own=["--numarun-wait=x"])
    check("where docker looks", (status, out, err, json.load(open(log))["msg"]), (1, "", f"{says}\n", says))
    check("no runc", wrapped(bundle, "state", "a", stand_in="/no/runc"), (1, "", "numarun-runc: /no/runc: no program\n"))
    check("itself", wrapped(bundle, "state", "a", stand_in=WRAPPER)[2], f"numarun-runc: {WRAPPER}: is numarun-runc itself (see --numarun-runc)\n")
    check("help", (told("numarun-runc", "--help")[0], "--numarun-folder=FOLDER" in told("numarun-runc", "--help")[1]), (0, True))
    with open(os.path.join(bundle, "config.json"), "w") as file:
        file.write("{}")
    os.mkdir(os.path.join(bundle, "config.json.numarun"))
    status, out, err = wrapped(bundle, "create", "a")
    check("a config that can't be written", (status, out, err), (1, "", "numarun-runc: ./config.json.numarun: Is a directory\n"))


# Services.


@case
def adds_services() -> None:
    """Both files of a service, its id, and where its group is: as systemd makes it, or where it is by now."""
    for unit, slice in (("postgresql.service", "system.slice"), ("postgresql@15-main.service", "system.slice/system-postgresql.slice"),
                        ("a-b@c.service", "system.slice/system-a\\x2db.slice")):
        check(f"the slice of {unit}", services.slice_of(unit), slice)
    site = Site()
    words = ("--services", site.at("services"), "--cgroup", site.at("root"))
    found = told("numarun-agent", "add-service", "postgresql@15-main", "--cpus", "4", *words)
    group = "/system.slice/system-postgresql.slice/postgresql@15-main.service"
    check("added", (found[0], found[1].splitlines(), found[2]), (0, [f"{site.at('services/postgresql-15-main')}: postgresql@15-main.service at {group}",
                    f"note {site.at('root')}{group}: no such group yet: it is taken up once postgresql@15-main.service runs there"], ""))
    config = json.load(open(site.at("services/postgresql-15-main/config.json")))
    check("what it asks for", (config["linux"]["resources"]["cpu"], json.load(open(site.at("services/postgresql-15-main/status")))),
          ({"quota": 400000, "period": 100000}, {"cgroup-path": group}))
    site.make_group(None, group=group)
    status, lines = site.run("--watch", site.at("services"))
    check("and pinned", (status, site.file(group.lstrip("/"))), (0, "1-4"))
    check("changed", (told("numarun-agent", "add-service", "postgresql@15-main.service", "--cpuset-cpus", "7,6", "--cpuset-mems", "0", *words)[:2],
                      json.load(open(site.at("services/postgresql-15-main/config.json")))["linux"]["resources"]["cpu"]),
          ((0, f"{site.at('services/postgresql-15-main')}: postgresql@15-main.service at {group}\n"), {"cpus": "6-7", "mems": "0"}))
    os.makedirs(site.at("root/user.slice/x.service"))
    check("where it is by now", told("numarun-agent", "add-service", "x", "--cpus", "1", *words)[1].splitlines(),
          [f"{site.at('services/x')}: x.service at /user.slice/x.service", f"note {site.at('root/user.slice/x.service')}: no cpuset.cpus in it: its unit needs Delegate=cpuset"])
    os.makedirs(site.at("root/system.slice/x.service"))
    refuses("numarun-agent", "add-service", "x", "--cpus", "1", *words, says="there are several groups of this name (see --cgroup-path): /system.slice/x.service, /user.slice/x.service")
    check("that is said", told("numarun-agent", "add-service", "x", "--cpus", "1", "--cgroup-path", "user.slice/x.service", "--id", "y", *words)[1].splitlines()[0],
          f"{site.at('services/y')}: x.service at /user.slice/x.service")
    check("taken away", (told("numarun-agent", "add-service", "x", "--remove", "--id", "y", *words)[1], os.path.exists(site.at("services/y"))),
          (f"{site.at('services/y')} is taken away: x.service keeps its CPUs until it ends\n", False))
    for more, says in ((["../x", "--cpus", "1"], "is no unit"), (["x y", "--cpus", "1"], "is no unit"), (["x", "--cpus", "1", "--id", ".."], "is no id"),
                       (["x" * 80, "--cpus", "1"], "more than 64 signs"), (["z", "--remove"], "no such folder"), (["v", "--cpuset-cpus", "3-"], "--cpuset-cpus"),
                       (["q", "--cpus", "1", "--services", site.at("machine.json")], "machine.json")):
        refuses("numarun-agent", "add-service", *more, *(words if "--services" not in more else words[2:]), says=says)
    for more in (["x"], ["x", "--cpus", "-1"], ["x", "--cpus", "4097"], ["x", "--cpus", "a"], ["--cpus", "1"]):
        check(f"add-service {' '.join(more)}", told("numarun-agent", "add-service", *more, *words)[0], 2)
    words_and_help("numarun-agent add-service", "numarun-agent add-service postgresql@15-main --cpus 4")
