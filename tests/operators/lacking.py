"""Tries what tests/linux.sh says where it can't have what it needs: a line, and status 0, so that the other tests go on."""

from __future__ import annotations

import os
import shutil
import subprocess
from typing import List, Sequence, Tuple

from trial import TOP, case, check, scratch

FOLDER = scratch("lacking")


def where(tool: str) -> str:
    return shutil.which(tool) or f"no {tool}"


def said(name: str, tools: Sequence[str], stand_ins: Sequence[str] = (), **scripts: str) -> Tuple[int, str, List[str]]:
    """Status and both streams of linux.sh where there are just these tools, and these scripts under their names."""
    folder = os.path.join(FOLDER, name)
    os.makedirs(folder)
    for tool in ("bash", "dirname", "mktemp", "rm", *tools):
        os.symlink(where(tool), os.path.join(folder, tool))
    for script, text in {**dict.fromkeys(stand_ins, "exit 0"), **{script.replace("_", "-"): text for script, text in scripts.items()}}.items():
        path = os.path.join(folder, script)
        with open(path, "w") as file:
            file.write(f"#!{where('bash')}\n{text}\n")
        os.chmod(path, 0o755)
    ran = subprocess.run([where("bash"), os.path.join(TOP, "tests", "linux.sh")], env={"PATH": folder}, stdin=subprocess.DEVNULL,
                         capture_output=True, timeout=100)
    return ran.returncode, ran.stdout.decode(), ran.stderr.decode().splitlines()[:1]


NEEDED = ("qemu-system-x86_64", "cpio", "gcc", "crun")
LINE = "linux: passed over: {}\n"
INSTALLING = "linux: installing qemu-system-x86 cpio gcc libc6-dev crun by apt-get"


@case
def what_is_said() -> None:
    check("neither qemu nor apt-get", said("nothing", ()),
          (0, LINE.format("there is no qemu-system-x86 cpio gcc libc6-dev crun, and they can't be installed"), [INSTALLING]))
    check("no apt-cache, as where Linux is not Debian's", said("another", ("awk",), NEEDED), (0, LINE.format("apt-cache knows no linux-image-cloud-amd64"), []))
    check("no network", said("alone", ("awk",), NEEDED, apt_cache="echo '  Depends: linux-image-6.1'", apt_get="exit 100"),
          (0, LINE.format("linux-image-6.1 can't be had"), ["linux: downloading linux-image-6.1, to be unpacked"]))
