"""Tries `--config FILE`: what a file of TOML says is as if it were said, what is said beside it counts more, and what can't be had is refused with
the file, the key and the reason."""

from __future__ import annotations

import sys
from typing import Dict, List, Optional

from sites import IN_FOLDERS, Site
from numarun_host import agent, configuration
from numarun_host.script import Refused
from trial import case, check, refuses, told

if configuration.library_of_toml() is None:
    print("--config: passed over, as there is none: tomllib, or python3-tomli")
    sys.exit(0)

SAID = """# of a test
machine = "{machine}"
cgroup = "{root}"
program = "{program}"
work = "{work}"
watch = ["{first}", "{second}"]
online = "{online}"
rest = "system.slice,user.slice"
pause = 0.1
pin = "all"
pool-least = 0
lift = true
keep = 7
"""
REFUSED: Dict[str, str] = {
    'pin = "some"': "pin: invalid choice: 'some' (choose from ",
    "pin = 5": "pin: no text",
    'pin = ["all"]': "pin: a list, and it takes one value",
    "pause = 0": "pause: 0 is not 0.01 to 86400 seconds",
    "pause = inf": "pause: inf is not 0.01 to 86400 seconds",
    'pause = "x"': "pause: invalid seconds value: 'x'",
    "pause = true": "pause: neither a number nor a text",
    "keep = 1.5": "keep: invalid count value: '1.5'",
    "keep = 0": "keep: 0 is below 1",
    'pool-least = "x%"': "pool-least: x% is no number of CPUs, nor of percents",
    "lift = 1": "lift: neither true nor false",
    "watch = [1]": "watch: no text",
    'watch = [["x"]]': "watch: no text",
    'runtime = "docker,dokcer"': "runtime: 'dokcer' is no runtime: docker, ",
    "runtime = [5]": "runtime: '5' is no runtime: docker, ",
    "watcch = 1": "watcch: no option of a file (see --help)",
    "pool_least = 1": "pool_least: no option of a file (see --help)",
    "pool = 2020-01-01": "pool: neither a number nor a text",
    "pool = '\"'": "pool: '\"' is no command: No closing quotation",
    'pool = "  "': "pool: '  ' is no command: it has no words",
    'pool = "a\\u0000b"': "pool: a NUL",
    'watch = ["a", "\\u0000"]': "watch: a NUL",
    'machine = "\\u0000"': "machine: a NUL",
    "rounds = 1": "rounds: no option of a file (see --help)",
    "release = true": "release: no option of a file (see --help)",
    'config = "x"': "config: no option of a file (see --help)",
    "[agent]\npause = 1": "agent: no option of a file (see --help)",
    "machine = 1": "machine: no text",
    "pause = 1\npause = 2": "not TOML: Cannot overwrite a value",
    "pause =": "not TOML: Invalid value (at end of document)",
    "\0": "not TOML: ",
    "a = " + "[" * 5000: "not TOML: ",
}


def put(path: str, text: str) -> str:
    with open(path, "w", encoding="utf-8") as file:
        file.write(text)
    return path


def written(site: Site, text: str) -> str:
    return put(site.at("agent.toml"), text)


def said(site: Site) -> str:
    return SAID.format(machine=site.at("machine.json"), root=site.at("root"), program=IN_FOLDERS, work=site.at("work"), first=site.at("g"),
                       second=site.at("h"), online=site.at("online"))


def words(path: str, *more: str) -> Dict[str, object]:
    return vars(agent.words_of(["--config", path, *more]))


@case
def as_if_said() -> None:
    """The same words, and an agent that works by them; what is said beside them counts more, and lists add."""
    site = Site()
    path = written(site, said(site))
    told_so = agent.words_of([site.at("machine.json"), "--cgroup", site.at("root"), "--program", IN_FOLDERS, "--work", site.at("work"), "--watch",
                              site.at("g"), "--watch", site.at("h"), "--online", site.at("online"), "--rest", "system.slice,user.slice", "--pause", "0.1",
                              "--pin", "all", "--pool-least", "0", "--lift", "--keep", "7", "--config", path])
    check("the same", words(path), {**vars(told_so), "rest": ["system.slice,user.slice"], "watch": [site.at("g"), site.at("h")],
                                    "groups": ["system.slice", "user.slice"]})
    more = words(path, "other.json", "--pin", "whole", "--pause", "5", "--watch", "w", "--rest", "init.scope")
    check("what is said beside it", [more[name] for name in ("machine", "pin", "pause", "watch", "groups", "keep")],
          ["other.json", "whole", 5.0, [site.at("g"), site.at("h"), "w"], ["system.slice", "user.slice", "init.scope"], 7])
    check("one that says nothing", words(written(site, ""), "m")["machine"], "m")
    path = written(site, said(site))
    site.make_group(None, group="system.slice")
    site.come("a", 2)
    site.put("numarun/a", "cpu.max", "200000 100000")
    status, out, err = told("numarun-agent", "--config", path, "--rounds", "1")
    check("it works by them", (status, err, site.has("a"), site.file("system.slice"), site.file("numarun/a", "cpu.max")), (0, "", ["1-2"], "0,3-7", "max"))
    status, out, err = told("numarun-agent", "release", "--config", path)
    check("and releases", (status, err, site.has("a"), site.file("numarun/a", "cpu.max")), (0, "", [""], "200000 100000"))
    status, out, err = told("numarun-agent", "check-config", "--config", path)
    check("check-config", (status, out, err), (0, f"{site.at('machine.json')}: 8 CPUs on 1 node, reserved 0, and 0 are left to the pool\n", ""))


@case
def refused() -> None:
    """With the file, the key and the reason, by check-config too."""
    site = Site()
    for text, says in REFUSED.items():
        path = written(site, text)
        for first in ((), ("check-config",)) if text == "pause = 0" else ((),):
            refuses("numarun-agent", *first, site.at("machine.json"), "--config", path, says=f"{path}: {says}")
    with open(site.at("agent.toml"), "wb") as file:
        file.write(b'pin = "\xff"')
    refuses("numarun-agent", site.at("machine.json"), "--config", site.at("agent.toml"), says=f"{site.at('agent.toml')}: byte 7: not UTF-8")
    refuses("numarun-agent", site.at("machine.json"), "--config", site.at("none.toml"), says=f"{site.at('none.toml')}: No such file or directory")
    refuses("numarun-agent", site.at("machine.json"), "--config", site.at("g"), says=f"{site.at('g')}: Is a directory")
    check("no machine file", told("numarun-agent", "--config", written(site, "pause = 1"))[0], 2)
    check("words that go with others", told("numarun-agent", site.at("machine.json"), "--config", written(site, 'rest = "x"'))[0], 2)


@case
def words_in_files() -> None:
    """What `@FILE` names, whose words stand in a file, is refused with its path and the line, as a word is that can't be had."""
    site = Site()
    path, other = site.at("words"), site.at("others")
    for text, says in ((b"--pin all\n--pool '\n", f"{path}: line 2: No closing quotation"), (b"--pin all\n--pool x\\", f"{path}: line 2: No escaped character"),
                       (b"--pin \xff\n", f"{path}: byte 6: not UTF-8"), (b"--watch a\0b", f"{path}: line 1: a NUL"), (b" " * (2 << 20), f"{path}: more than 1048576 bytes"),
                       (f"--pin all @{path}".encode(), f"{path}: it names itself"), (f"@{other}".encode(), f"{other}: No such file or directory"),
                       (b"--pool '\"'", "argument --pool: '\"' is no command: No closing quotation")):
        with open(path, "wb") as file:
            file.write(text)
        status, out, err = told("numarun-agent", "check-config", site.at("machine.json"), f"@{path}")
        check(f"{text[:40]!r}", (status, out, err.endswith(f"numarun-agent: error: {says}\n")), (2, "", True))
    put(other, "--pause 5 --watch 'a b'  # some more\n")
    for line in (f"--pin all  # as here\n@{other}\n", f"@{other} --pin all @{other}"):
        found = vars(agent.words_of([f"@{put(path, line)}", site.at("machine.json")]))
        check("files in files", [found[name] for name in ("pin", "pause", "machine")] + [set(found["watch"])], ["all", 5.0, site.at("machine.json"), {"a b"}])


@case
def by_which_library() -> None:
    """Python's own from 3.11 on, Debian's tomli before, or a line that says what to install."""
    site = Site()
    path = written(site, "pause = 2")
    before: Dict[str, Optional[object]] = {name: sys.modules.get(name) for name in ("tomllib", "tomli")}
    own = configuration.library_of_toml()
    for modules, expected in (({"tomllib": None, "tomli": own}, {"pause": 2}), ({"tomllib": None, "tomli": None}, "this Python reads no TOML: install python3-tomli")):
        sys.modules.update(modules)  # type: ignore[arg-type] # nothing in its place is a module that is not there
        try:
            found: object = configuration.read_toml(path)
        except Refused as why:
            found = str(why)
        right = found == expected if isinstance(expected, dict) else f"{path}: {expected}" in str(found)
        check(f"by {[name for name, module in modules.items() if module]}", right, True)
    for name, module in before.items():
        sys.modules.pop(name, None)
        if module is not None:
            sys.modules[name] = module  # type: ignore[assignment]


@case
def each_option() -> None:
    """Each option of the help can be said by a file, but for those of one run."""
    parser = agent.parser_of_words()
    names: List[str] = [line.split()[0].strip(",") for line in parser.format_help().splitlines() if line.startswith("  --")]
    check("options", len(names) > 20, True)
    check("those that no file can say", sorted(name for name in names if parser.action(name[2:]) is None), ["--config", "--release", "--rounds", "--version"])
