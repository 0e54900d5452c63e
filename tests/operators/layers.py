"""Tries the package where it is installed, upgraded, removed and purged, in a layer over this machine that is thrown away, while an agent runs from
it; and debian/changelog, which is made of CHANGELOG.md."""

from __future__ import annotations

import functools
import importlib.util
import os
import re
import shlex
import shutil
import subprocess
import sys
from datetime import datetime, timezone
from typing import List

from sites import IN_FOLDERS, Site
from trial import PROGRAM, SLOWER, TOP, case, check, long_case, scratch, told

HERE = {**os.environ, "PROGRAM": PROGRAM}
TOOLS = ("dpkg-buildpackage", "dh", "dh_python3", "unshare", "chroot")
APART = ["unshare", "-m", "-p", "-f", "--kill-child"]  # whatever is started in the layer ends with it
EXPECTED = [
    "installed: start numarun-agent.service,",
    "0",
    "started:  1-2",
    "upgraded: restart numarun-agent.service, 1-2",
    "another agent runs",
    "removed: stop numarun-agent.service,",
    "/usr/share/containers/oci/hooks.d/layer.json names a program",
    "cpus - mems -",
    "files left: 0, agents left: 0, etc: machine.json",
    "purged: none nothing",
]


def lacking() -> List[str]:
    lacks = [tool for tool in TOOLS if not shutil.which(tool)]
    return lacks or ([] if subprocess.run([*APART, "true"], capture_output=True).returncode == 0 else ["namespaces of mounts and processes"])


@functools.lru_cache(None)
def packaged() -> str:
    """The package, in a folder of its own."""
    folder = scratch("packaged")
    os.makedirs(folder)
    status, out, err = told("install.sh", "--deb", folder, env=HERE)
    check("a package", (status, err), (0, ""))
    return os.path.join(folder, *os.listdir(folder))


def later(path: str) -> str:
    """The same package, of a later version."""
    folder = os.path.splitext(path)[0]
    subprocess.run(["dpkg-deb", "-R", path, folder], check=True)
    control = os.path.join(folder, "DEBIAN", "control")
    text = re.sub(r"^Version: .*", "Version: 99", open(control).read(), flags=re.M)
    with open(control, "w") as file:
        file.write(text)
    subprocess.run(["dpkg-deb", "--root-owner-group", "-b", folder, f"{folder}-99.deb"], check=True, capture_output=True)
    return f"{folder}-99.deb"


@long_case
def in_a_layer() -> None:
    lacks = lacking()
    if lacks or os.geteuid() != 0:
        print(f"the package: installing it is passed over, as there is none: {', '.join(lacks) or 'root'}")
        return
    site = Site()
    first = packaged()
    site.come("a", 2)
    os.mkdir(site.at("etc"))
    shutil.copy(site.at("machine.json"), site.at("etc"))
    os.rename(site.at("root"), site.at("tree"))
    os.mkdir(site.at("layer"))
    words = ["/usr/bin/numarun-agent", "/etc/numarun/machine.json", "--cgroup", "/sys/fs/cgroup", "--watch", site.at("g"), "--online", site.at("online"),
             "--pause", "0.1", "--program", IN_FOLDERS]
    with open(site.at("words"), "w") as file:
        file.write(f"export GROUPS_LIBRARY={shlex.quote(os.environ['GROUPS_LIBRARY'])} PROGRAM={shlex.quote(PROGRAM)}\nexec {shlex.join(words)}\n")
    script = os.path.join(os.path.dirname(os.path.abspath(__file__)), "layer.sh")
    ran = subprocess.run([*APART, "sh", script, site.folder, first, later(first)], capture_output=True, text=True, timeout=300 * SLOWER)
    check("in a layer", ([line.rstrip() for line in ran.stdout.splitlines()], ran.stderr), (EXPECTED, ""))


@case
def same_files() -> None:
    """The package has what install.sh lays out, but for Debian's own."""
    if not shutil.which("dh"):
        return
    path, prefix = packaged(), scratch("prefix")
    check("installed", told("install.sh", prefix, env=HERE)[0], 0)
    listed = subprocess.run(["dpkg-deb", "-c", path], capture_output=True, text=True, check=True).stdout.splitlines()
    names = {re.sub(r"\.gz$", "", line.split(None, 5)[5].split(" -> ")[0]) for line in listed if not line.startswith("d")}
    packed = {re.sub(r"^\./(usr/)?", "", name) for name in names}
    installed = {line for line in open(os.path.join(prefix, "lib/numarun/installed")).read().split("\n") if line and not line.endswith("/")}
    of_debian = {"share/doc/numarun/changelog", "share/doc/numarun/copyright", "share/python3/runtime.d/numarun.rtupdate", "share/lintian/overrides/numarun"}
    check("what one has and the other lacks", packed ^ installed, of_debian | {"lib/numarun/installed"})
    check("a folder for the machine file", any(line.endswith(" ./etc/numarun/") for line in listed), True)
    unit = subprocess.run(f"dpkg-deb --fsys-tarfile {shlex.quote(path)} | tar -xO --wildcards '*/numarun-agent.service'", shell=True, capture_output=True, text=True).stdout
    check("its unit", re.findall(r"^ExecStart=(\S+)", unit, re.M), ["/usr/bin/numarun-agent"])
    fields = subprocess.run(["dpkg-deb", "-f", path, "Depends", "Maintainer", "Version"], capture_output=True, text=True).stdout
    check("it depends on Python", "python3" in fields, True)
    if shutil.which("lintian"):
        ran = subprocess.run(["lintian", path], capture_output=True, text=True)
        check("what lintian says", ran.stdout, "")
    else:
        print("the package: passed over, as there is none: lintian")


@case
def changelog() -> None:
    """Each version with its date, and what is not released yet behind the last one."""
    spec = importlib.util.spec_from_file_location("changelog_of", os.path.join(TOP, "debian", "changelog_of.py"))
    assert spec and spec.loader
    module = importlib.util.module_from_spec(spec)
    sys.modules["changelog_of"] = module
    spec.loader.exec_module(module)
    text = "# Changelog\n\n## [Unreleased]\n\n### Added\n\n- One `thing`, and\n  *another*. See [it](x.md).\n- " + "long " * 30 + "\n\n## [1.2.0] - 2026-01-02\n\nWords.\n\n### Fixed\n\n- A.\n"
    entries = module.entries_of(text, datetime(2026, 11, 29, tzinfo=timezone.utc))
    printed = "\n".join(module.text_of(entry, "A B <a@b>") for entry in entries)
    lines = printed.split("\n")
    check("an entry", (lines[0], lines[2:4], lines[-2]), ("numarun (1.2.0+unreleased) UNRELEASED; urgency=low", ["  [ Added ]", "  * One thing, and another. See it."],
                                                          " -- A B <a@b>  Fri, 02 Jan 2026 00:00:00 +0000"))
    check("no line is too long", max(map(len, lines)) <= 80, True)
    nothing = module.entries_of("## [Unreleased]\n\n## [1.0.0] - 2026-01-02\n\n### Added\n\n- A.\n", datetime.now(timezone.utc))
    check("nothing behind a release", [entry.version for entry in nothing], ["1.0.0"])
    if shutil.which("dpkg-parsechangelog"):
        made = subprocess.run([sys.executable, "-B", os.path.join(TOP, "debian", "changelog_of.py")], capture_output=True, text=True, check=True).stdout
        ran = subprocess.run(["dpkg-parsechangelog", "-l", "-", "--all"], input=made, capture_output=True, text=True)
        check("as dpkg reads it", (ran.returncode, ran.stderr), (0, ""))
