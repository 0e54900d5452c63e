"""Describes a service of systemd's to the agent as a container: it writes the two files of a folder that the agent watches, one with
the service's control group, and one with the CPUs that it asks for. Nothing is started, and nothing is asked of systemd."""

from __future__ import annotations

import argparse
import json
import os
import re
import shutil
from typing import Dict, List, Optional, Sequence

from .cpus import print_list, read_list
from .script import Refused, replace_file

PERIOD = 100000
FOLDER = "/etc/numarun/services"
UNIT = re.compile(r"[A-Za-z0-9:_.\\@-]{1,200}")
KINDS = (".service", ".scope", ".slice")
EXAMPLE = """examples:
  numarun-agent add-service postgresql@15-main --cpus 4
  numarun-agent add-service postgresql@15-main --cpus 0    # it runs on the pool again"""


def unit_named(text: str) -> str:
    """A unit's whole name."""
    if not UNIT.fullmatch(text) or text.startswith((".", "@", "-")):
        raise Refused(f"{text[:80]!a} is no unit")
    return text if text.endswith(KINDS) else f"{text}.service"


def id_of(unit: str) -> str:
    """What the agent calls it: the unit's name without what an id can't have."""
    name = re.sub(r"[^A-Za-z0-9_.+-]", "-", unit[:-len(".service")] if unit.endswith(".service") else unit)
    if len(name) > 64:
        raise Refused(f"{unit}: its name has more than 64 signs (see --id)")
    return name


def escaped(text: str) -> str:
    """A text as a part of a unit's name, as systemd-escape has it."""
    return "".join(sign if re.fullmatch(r"[A-Za-z0-9:_.]", sign) else f"\\x{ord(sign):02x}" for sign in text)


def slice_of(unit: str) -> str:
    """The slice in which systemd puts a system unit of which nothing else is said: those of one template have a slice of their own."""
    prefix, at, _ = unit.partition("@")
    return f"system.slice/system-{escaped(prefix)}.slice" if at else "system.slice"


def groups_named(root: str, unit: str) -> List[str]:
    """The groups of this name below the root."""
    return sorted(f"/{os.path.relpath(os.path.join(place, unit), root)}" for place, names, _ in os.walk(root) if unit in names)


def group_of(root: str, unit: str) -> str:
    """The group of a unit: where it is by now, or else where systemd will make it."""
    found = groups_named(root, unit)
    if len(found) > 1:
        raise Refused(f"{unit}: there are several groups of this name (see --cgroup-path): {', '.join(found)}")
    return found[0] if found else f"/{slice_of(unit)}/{unit}"


def section_of(cpus: int, listed: Optional[str], nodes: Optional[str]) -> Dict[str, object]:
    """The config's section, by which it asks for so many CPUs, or for these, on these nodes."""
    section: Dict[str, object] = {"quota": cpus * PERIOD, "period": PERIOD} if cpus else {}
    for member, text in (("cpus", listed), ("mems", nodes)):
        if text is not None:
            section[member] = print_list(read_list(text, f"--cpuset-{member}"))
    return section


def put(folder: str, group: str, section: Dict[str, object]) -> None:
    """Writes both files. The agent takes nobody for a container without a config, so that comes last."""
    config = {"ociVersion": "1.0.2", "root": {"path": "/"}, "linux": {"resources": {"cpu": section}}}
    try:
        os.makedirs(folder, exist_ok=True)
    except OSError as why:
        raise Refused(f"{folder}: {why.strerror}") from None
    replace_file(os.path.join(folder, "status"), json.dumps({"cgroup-path": group}) + "\n")
    replace_file(os.path.join(folder, "config.json"), json.dumps(config) + "\n")


def say_what_lacks(root: str, unit: str, group: str) -> None:
    """What the unit needs besides, where that can be seen."""
    path = root + group
    if not os.path.isdir(path):
        print(f"note {path}: no such group yet: it is taken up once {unit} runs there")
    elif not os.path.lexists(os.path.join(path, "cpuset.cpus")):
        print(f"note {path}: no cpuset.cpus in it: its unit needs Delegate=cpuset")


def words_of(told: Sequence[str]) -> argparse.Namespace:
    parser = argparse.ArgumentParser(prog="numarun-agent add-service", description=__doc__, epilog=EXAMPLE,
                                     formatter_class=argparse.RawDescriptionHelpFormatter)
    parser.add_argument("unit", metavar="UNIT", help="as systemctl has it; .service may be left out")
    parser.add_argument("--cpus", type=int, metavar="N", help="how many CPUs of its own it asks for; with 0 it runs on the pool")
    parser.add_argument("--cpuset-cpus", metavar="LIST", help="the CPUs that it may have; without --cpus it asks for all of these")
    parser.add_argument("--cpuset-mems", metavar="LIST", help="its nodes of memory; without them it gets a home")
    parser.add_argument("--cgroup-path", metavar="PATH", help="its group below the root, where that is not as systemd makes it or none runs yet")
    parser.add_argument("--id", metavar="ID", help="what the agent calls it; the unit's name where nothing is said")
    parser.add_argument("--services", default=FOLDER, metavar="FOLDER", help="where the files are put: the agent's --watch names it (%(default)s)")
    parser.add_argument("--cgroup", default="/sys/fs/cgroup", metavar="ROOT", help="the cgroup v2 tree (%(default)s)")
    parser.add_argument("--remove", action="store_true", help="take its files away; it keeps its CPUs until it ends")
    words = parser.parse_args(told)
    if not words.remove and words.cpus is None and words.cpuset_cpus is None:
        parser.error("what it asks for is not said: --cpus or --cpuset-cpus")
    if words.cpus is not None and not 0 <= words.cpus <= 4096:
        parser.error("--cpus is 0 to 4096")
    return words


def main(told: Sequence[str]) -> int:
    words = words_of(told)
    unit = unit_named(words.unit)
    name = words.id if words.id is not None else id_of(unit)
    if not re.fullmatch(r"[A-Za-z0-9_+-][A-Za-z0-9_.+-]{0,63}", name):
        raise Refused(f"{name[:80]!a} is no id")
    folder = os.path.join(words.services, name)
    if words.remove:
        if not os.path.isdir(folder):
            raise Refused(f"{folder}: no such folder")
        shutil.rmtree(folder)
        print(f"{folder} is taken away: {unit} keeps its CPUs until it ends")
        return 0
    group = "/" + words.cgroup_path.strip("/") if words.cgroup_path else group_of(words.cgroup, unit)
    put(folder, group, section_of(words.cpus or 0, words.cpuset_cpus, words.cpuset_mems))
    print(f"{folder}: {unit} at {group}")
    say_what_lacks(words.cgroup, unit, group)
    return 0
