"""Tries the unit and the package: that nothing ends the agent for good on a fresh boot, that the page's commands come to an agent that
starts, and a package that is made (layers.py installs it). No service manager is started."""

from __future__ import annotations

import configparser
import json
import os
import re
import shlex
import shutil
import socket
import subprocess
import time
from typing import List

from sites import IN_FOLDERS, PATIENCE, Open, Site
from trial import OPERATORS, PROGRAM, case, check, long_case, refuses, scratch, told

HERE = {**os.environ, "PROGRAM": PROGRAM}
WORDS = ["--online", "/sys/devices/system/cpu/online", "--program", IN_FOLDERS, "--pause", "0.1"]


class Unit(configparser.ConfigParser):
    """A unit, whose options are as they are written."""

    def optionxform(self, optionstr: str) -> str:
        return optionstr


def unit_of(prefix: str) -> configparser.ConfigParser:
    unit = Unit(interpolation=None, strict=False)
    unit.read(os.path.join(prefix, "lib", "systemd", "system", "numarun-agent.service"))
    return unit


def installed(name: str) -> str:
    prefix = scratch(name)
    check("installed", told("install.sh", prefix, env=HERE)[0], 0)
    return prefix


def begun(unit: configparser.ConfigParser, options: str, **paths: str) -> List[str]:
    """The words of ExecStart as systemd makes them, with other paths in place of the system's."""
    line = unit["Service"]["ExecStart"].replace("$OPTIONS", options).replace("%%", "%")
    return [paths.get(word, word) for word in shlex.split(line)]


@case
def goes_on() -> None:
    """Whatever ends it, it is started again; its program is named by its path, and OPTIONS adds to what is told."""
    prefix = installed("of one's own")
    unit = unit_of(prefix)
    check("started again", (unit["Service"]["Restart"], unit["Unit"]["StartLimitIntervalSec"], int(unit["Service"]["RestartSec"]) >= 5), ("always", "0", True))
    check("ready behind a look, and watched", (unit["Service"]["Type"], int(unit["Service"]["WatchdogSec"]) > 120, unit["Service"]["RuntimeDirectoryPreserve"]),
          ("notify", True, "yes"))
    check("ready before the runtimes start containers", {"docker.service", "containerd.service", "podman-restart.service"} <= set(unit["Unit"]["Before"].split()), True)
    check("kept in", [unit["Service"][name] for name in ("NoNewPrivileges", "RestrictAddressFamilies", "IPAddressDeny")], ["yes", "AF_UNIX", "any"])
    check("its temporary files are where it may write anyway", "TMPDIR=/run/numarun" in unit["Service"]["Environment"].split(), True)
    check("not without a machine file", unit["Unit"]["ConditionPathExists"], "/etc/numarun/machine.json")
    check("no limit stands where it counts for nothing", "StartLimitIntervalSec" in unit["Service"], False)
    site = Site()
    for group in ("system.slice", "more.slice"):
        site.make_group(None, group=group)
    site.come("a", 2)
    os.mkdir(site.at("second"))
    site.come("b", 1)
    os.rename(site.at("g/b"), site.at("second/b"))
    paths = {"/etc/numarun/machine.json": site.at("machine.json"), "/sys/fs/cgroup": site.at("root"), "/etc/numarun/services": site.at("g"), "all": "docker"}
    words = begun(unit, f"--watch {site.at('second')} --rest more.slice", **paths)
    check("all runtimes", "--runtime all" in unit["Service"]["ExecStart"], True)
    check("its path", words[0], os.path.join(prefix, "bin", "numarun-agent"))
    ran = subprocess.run([*words, *WORDS, "--online", site.at("online"), "--work", site.at("work"), "--rounds", "1"], capture_output=True)
    check("OPTIONS adds", (ran.returncode, site.has("a", "b"), site.file("system.slice"), site.file("more.slice")), (0, ["1-2", "3"], "0,4-7", "0,4-7"))
    check("taken away", told("install.sh", "--uninstall", prefix)[0], 0)
    status, out, _ = told("numarun-agent", "--release", "--cgroup", site.at("root"), "--work", site.at("work"))
    check("and given back", (status, site.file("system.slice"), site.has("a")), (0, "", [""]))


def until_enabled() -> str:
    """What the first page says to type from the machine file until the unit is enabled, without its comments and without the look before."""
    blocks = re.findall(r"```sh\n(.*?)```", open(os.path.join(OPERATORS, "README.md")).read(), re.S)
    first, last = (next(k for k, block in enumerate(blocks) if word in block) for word in ("numarun-describe host", "systemctl enable"))
    return re.sub(r"\s+#.*", "", "".join(block for block in blocks[first:last + 1] if "--rounds" not in block))


@case
def by_the_page() -> None:
    """What the page says to type makes a machine file with cores, and an agent that starts by it before any container ran."""
    prefix, etc, bin = installed("prefix"), scratch("etc"), scratch("bin")
    block = until_enabled()
    os.makedirs(bin)
    with open(os.path.join(bin, "systemctl"), "w") as file:
        file.write(f'#!/bin/sh\necho "$@" > {shlex.quote(os.path.join(etc, "systemctl"))}\n')
    os.chmod(os.path.join(bin, "systemctl"), 0o755)
    here = {**os.environ, "PATH": f"{bin}:{prefix}/bin:{os.environ['PATH']}"}
    status, _, err = told("numarun-describe host", "--cores")
    if status:
        print(f"the commands of the page: passed over: {err.strip()}")
        return
    ran = subprocess.run(["sh", "-e", "-c", block.replace("/etc", etc)], capture_output=True, env=here)
    check("the commands of the page", (ran.returncode, ran.stderr.decode()), (0, ""))
    machine = os.path.join(etc, "numarun", "machine.json")
    check("a machine file with cores", "cores" in json.load(open(machine)), True)
    check("the unit", open(os.path.join(etc, "systemctl")).read(), "enable --now numarun-agent\n")
    site = Site()
    words = begun(unit_of(prefix), "", **{"/etc/numarun/machine.json": machine, "/sys/fs/cgroup": site.at("root"), "/etc/numarun/services": site.at("no-such"), "all": "docker"})
    ran = subprocess.run([*words, *WORDS, "--work", site.at("work"), "--rounds", "3"], capture_output=True)
    check("it starts", (ran.returncode, ran.stdout.decode().count("refused"), ran.stderr), (0, 0, b""))


@case
def notified() -> None:
    """systemd is told that it is ready behind the first look, that it works, and that it ends."""
    site = Site()
    path = site.at("notify")
    with socket.socket(socket.AF_UNIX, socket.SOCK_DGRAM) as door:
        door.bind(path)
        door.settimeout(PATIENCE)
        os.environ.update(NOTIFY_SOCKET=path, WATCHDOG_USEC="1000000")
        agent = Open(site, "--pause", "3600")
        heard = [door.recv(100), door.recv(100)]
        del os.environ["NOTIFY_SOCKET"], os.environ["WATCHDOG_USEC"]
        status, _ = agent.end()
        while heard[-1] == b"WATCHDOG=1":
            heard.append(door.recv(100))
    check("systemd is told", (status, heard[:2], heard[-1]), (0, [b"READY=1", b"WATCHDOG=1"], b"STOPPING=1"))


@case
def before_any_container() -> None:
    """The watched folder comes with the first container."""
    site = Site()
    os.rename(site.at("g"), site.at("later"))
    agent = Open(site)
    time.sleep(0.5)
    check("it goes on", agent.process.poll(), None)
    os.rename(site.at("later"), site.at("g"))
    site.come("a", 2)
    lines = agent.until("done")
    check("the first one", (site.has("a"), [line for line in lines if "look" in line], agent.end()[0]), (["1-2"], [], 0))


@long_case
def package() -> None:
    if not shutil.which("dh_python3"):
        print("the package: passed over, as there is none: dh_python3")
        return
    refuses("install.sh", "--deb", "/dev/null", says="/dev/null: no folder", env=HERE)
    folder = scratch("packages")
    os.makedirs(folder)
    status, out, err = told("install.sh", "--deb", folder, env=HERE)
    made = os.listdir(folder)
    check("a package", (status, len(made), bool(re.fullmatch(r"numarun_[0-9][^_]*_[a-z0-9]+\.deb", made[0])), err), (0, 1, True, ""))
    path = os.path.join(folder, made[0])
    names = subprocess.run(["dpkg-deb", "--fsys-tarfile", path], capture_output=True).stdout
    owners = set(subprocess.run(["tar", "-tv", "--numeric-owner"], input=names, capture_output=True).stdout.decode().split("\n")[0].split()[1:2])
    check("root's files", owners, {"0/0"})
