"""Is runc, but for one thing: before a container is made, the hooks of numarun-hook are written into the config of its bundle. So a
container of docker's or containerd's, which name no hooks, has its CPUs before its first instruction, or is not started.

All words are runc's own, but for those that begin so, which stand first:
  --numarun-runc=PATH      the runtime that it becomes (runc)
  --numarun-folder=FOLDER  what is told to numarun-hook, and to the agent by --watch (/run/numarun-containers)
  --numarun-wait=SECONDS   how long a container waits for the agent, and is not started behind that; with 0 none waits (10)

docker names it by `--add-runtime numarun=/usr/local/bin/numarun-runc`, and `docker run --runtime numarun` takes it; in daemon.json its
`runtimeArgs` may have the words above. containerd has it as the BinaryName of a runtime, and ctr by `--runc-binary`."""

from __future__ import annotations

import json
import os
import re
import shutil
import sys
import time
from dataclasses import dataclass, field
from typing import Dict, List, Mapping, NoReturn, Optional, Sequence, Tuple

FOLDER, WAIT = "/run/numarun-containers", "10"
OWN = re.compile(r"--numarun-(runc|folder|wait)=(.*)", re.S)
MAKES = ("create", "run")
# The options of runc 1.1 that have a value behind them: those before the command, and those of create and run.
BEFORE = ("log", "log-format", "root", "criu", "rootless")
BEHIND = ("bundle", "b", "console-socket", "pid-file", "preserve-fds", "pidfd-socket")


@dataclass(frozen=True)
class Words:
    """A command line: the words of one's own, runc's, its command, its bundle, and where runc would write what is wrong."""

    own: Mapping[str, str]
    runc: Tuple[str, ...]
    command: str = ""
    bundle: str = "."
    log: Mapping[str, str] = field(default_factory=dict)


def own_words(words: Sequence[str]) -> Tuple[Dict[str, str], List[str]]:
    """Those that stand first, and the others."""
    own: Dict[str, str] = {}
    for place, word in enumerate(words):
        found = OWN.fullmatch(word)
        if not found:
            return own, list(words[place:])
        own[found[1]] = found[2]
    return own, []


def options(words: Sequence[str], valued: Sequence[str]) -> Tuple[Dict[str, str], List[str]]:
    """The values of the options that stand first, by their names, and the words behind them. One or two hyphens are the same to runc."""
    values: Dict[str, str] = {}
    place = 0
    while place < len(words) and words[place].startswith("-") and words[place] not in ("-", "--"):
        name, equals, value = words[place].lstrip("-").partition("=")
        if name in valued and not equals:
            place += 1
            value = words[place] if place < len(words) else ""
        values[name] = value
        place += 1
    return values, list(words[place:])


def read_words(words: Sequence[str]) -> Words:
    own, runc = own_words(words)
    before, rest = options(runc, BEFORE)
    command = rest[0] if rest else ""
    behind, _ = options(rest[1:], BEHIND) if command in MAKES else ({}, [])
    return Words(own, tuple(runc), command, behind.get("bundle") or behind.get("b") or ".", before)


def hook_of(path: str, folder: str, *more: str) -> Dict[str, object]:
    return {"path": path, "args": ["numarun-hook", folder, *more], "env": ["PATH=/usr/local/sbin:/usr/local/bin:/usr/sbin:/usr/bin:/sbin:/bin"]}


def with_hooks(config: Mapping[str, object], path: str, folder: str, wait: str) -> Dict[str, object]:
    """The config with both hooks: a container that is made is told by one before all others, and by the other one when it has stopped. Those
    of an earlier time are replaced."""
    hooks = config.get("hooks")
    found: Dict[str, object] = dict(hooks) if isinstance(hooks, dict) else {}
    waits = ("--wait", wait) if float(wait) > 0 else ()
    for stage, hook in (("createRuntime", hook_of(path, folder, *waits)), ("poststop", hook_of(path, folder))):
        there = found.get(stage)
        others = [other for other in there if not (isinstance(other, dict) and other.get("path") == path)] if isinstance(there, list) else []
        found[stage] = [hook, *others]
    return {**config, "hooks": found}


def change_config(bundle: str, path: str, folder: str, wait: str) -> None:
    """Puts another config in the place of a bundle's, in one step. One that can't be read is left to runc, which refuses it."""
    name = os.path.join(bundle, "config.json")
    try:
        with open(name, encoding="utf-8", errors="surrogateescape") as file:
            config = json.load(file)
    except (OSError, ValueError, RecursionError):
        return
    if not isinstance(config, dict):
        return
    new = f"{name}.numarun"
    with open(new, "w", encoding="utf-8", errors="surrogateescape") as file:
        json.dump(with_hooks(config, path, folder, wait), file)
    shutil.copystat(name, new)
    there = os.stat(name)
    os.chown(new, there.st_uid, there.st_gid)
    os.rename(new, name)


def refuse(words: Words, why: str) -> NoReturn:
    """Says why no container is made, on standard error, and where runc would have said it, since docker and containerd look there."""
    text = f"numarun-runc: {why}"
    if words.log.get("log"):
        line = json.dumps({"level": "error", "msg": text, "time": time.strftime("%Y-%m-%dT%H:%M:%SZ", time.gmtime())})
        try:
            with open(words.log["log"], "a") as file:
                file.write((line if words.log.get("log-format") == "json" else text) + "\n")
        except OSError:
            pass
    sys.exit(text)


def runtime_of(words: Words, here: str) -> str:
    """The runtime that it becomes, by its path; it is none that is this program."""
    name = words.own.get("runc") or "runc"
    path = shutil.which(name)
    if path is None:
        refuse(words, f"{name}: no program")
    if os.path.realpath(path) == os.path.realpath(here):
        refuse(words, f"{path}: is numarun-runc itself (see --numarun-runc)")
    return path


def main(told: Sequence[str], here: str) -> Optional[int]:
    """Becomes runc; `here` is the path of this program, beside which numarun-hook is."""
    if list(told) in (["--help"], ["-h"]):
        print(__doc__)
        return 0
    words = read_words(told)
    runtime, wait = runtime_of(words, here), words.own.get("wait", WAIT)
    if not re.fullmatch(r"[0-9]{1,5}(\.[0-9]{1,3})?", wait):
        refuse(words, f"--numarun-wait={wait[:40]}: no number of seconds")
    if words.command in MAKES:
        hook = os.path.join(os.path.dirname(os.path.realpath(here)), "numarun-hook")
        try:
            change_config(words.bundle, hook, words.own.get("folder") or FOLDER, wait)
        except OSError as why:
            refuse(words, f"{why.filename}: {why.strerror}")
    try:
        os.execv(runtime, [runtime, *words.runc])
    except OSError as why:
        refuse(words, f"{runtime}: {why.strerror}")
