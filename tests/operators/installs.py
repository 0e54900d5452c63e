"""Tries install.sh into a temporary folder: what is there, that each script finds the rest of it, that installing again changes
nothing, and that what is taken away is all of it and nothing else."""

from __future__ import annotations

import os
import re
import shlex
import shutil
import subprocess
from typing import Dict, List, Optional, Sequence, Tuple, Union

from trial import OPERATORS, PROGRAM, TOP, Told, case, check, refuses, scratch, told

PREFIX = scratch("installed here")
MACHINE = os.path.join(TOP, "examples", "machines", "two-socket.json")
ANSWERS = os.path.join(TOP, "examples", "scripts", "before-and-after.answers")
DATABASE = os.path.join(TOP, "examples", "bundles", "database")
OF_THE_HOST, AT_A_DESK = ["agent", "hook", "runc"], ["describe", "draw-plan", "dry-run", "explain"]
NAMES = sorted(OF_THE_HOST + AT_A_DESK)
HERE = {**os.environ, "PROGRAM": PROGRAM}

Standing = Dict[str, Optional[Tuple[Union[str, bytes], int]]]  # by its path what a file has in it, and its mode


def standing() -> Standing:
    """All files and folders below the prefix, with what the files have in them."""
    found: Standing = {}
    for folder, folders, files in os.walk(PREFIX):
        for name in folders:
            found[os.path.relpath(os.path.join(folder, name), PREFIX) + "/"] = None
        for name in files:
            path = os.path.join(folder, name)
            content: Union[str, bytes] = os.readlink(path) if os.path.islink(path) else open(path, "rb").read()
            found[os.path.relpath(path, PREFIX)] = content, os.lstat(path).st_mode
    return found


def installed(name: str, *words: str, text: str = "", folder: str = "/") -> Told:
    """What an installed script says, from another folder, with nothing of the checkout in its environment."""
    plain = {"PATH": os.environ["PATH"], "HOME": "/nowhere"}
    ran = subprocess.run([os.path.join(PREFIX, "bin", name), *words], input=text.encode(), capture_output=True, cwd=folder, env=plain, timeout=100)
    return ran.returncode, ran.stdout.decode(), ran.stderr.decode()


def taken_away(name: str, left: Sequence[str]) -> None:
    check(name, told("install.sh", "--uninstall", PREFIX)[0], 0)
    check(f"{name}: what is left", sorted(standing()), left)


def install() -> List[str]:
    """Installs into a folder that has something of somebody else's already; what was there before."""
    os.makedirs(os.path.join(PREFIX, "share", "man"))
    os.makedirs(os.path.join(PREFIX, "bin"))
    with open(os.path.join(PREFIX, "bin", "other"), "w") as file:
        file.write("another program\n")
    before = sorted(standing())
    status, out, err = told("install.sh", PREFIX, env=HERE)
    check("installed", (status, out.startswith("numarun and its scripts are in "), err), (0, True, ""))
    return before


@case
def what_is_there() -> None:
    before = install()
    first = standing()
    check("the commands", sorted(name for name in os.listdir(os.path.join(PREFIX, "bin"))), ["numarun"] + [f"numarun-{name}" for name in NAMES] + ["other"])
    pages = [name for name in first if name.startswith("share/") and not name.endswith("/")]
    kept = [os.path.relpath(os.path.join(folder, name), TOP) for of in ("bundles", "dashboards", "machines", "scripts") for folder, _, names in os.walk(os.path.join(TOP, "examples", of)) for name in names]
    kept += ["operators/" + name for name in os.listdir(OPERATORS) if name.endswith(".md")]
    kept += ["docs/formats.md", "docs/two-socket.svg", "examples/caches.certificate", "examples/caches.problem", "examples/two-containers.certificate"]
    manual = ["man1/numarun.1", *(f"man1/numarun-{name}.1" for name in AT_A_DESK), *(f"man8/numarun-{name}.8" for name in OF_THE_HOST)]
    check("the pages", sorted(pages), sorted([f"share/doc/numarun/{name}" for name in kept] + [f"share/man/{name}" for name in manual]))
    listed = open(os.path.join(PREFIX, "lib", "numarun", "installed")).read().splitlines()
    check("the list is what is new", sorted(listed), sorted(set(first) - set(before)))
    check("the unit alone names the prefix", [name for name, told in first.items() if told and PREFIX in str(told[0])],
          ["lib/systemd/system/numarun-agent.service"])
    check("installed again", (told("install.sh", PREFIX, env=HERE)[0], standing() == first), (0, True))


@case
def what_it_says() -> None:
    """The installed scripts, from another folder."""
    install()
    for name in NAMES:
        status, out, err = installed(f"numarun-{name}", "--help")
        check(f"numarun-{name} --help", (status, bool(out), err), (0, True, ""))
    check("numarun", installed("numarun", "list", "3,1-2"), (0, "1-3\n", ""))
    DOC = os.path.join(PREFIX, "share", "doc", "numarun")
    told_paths = set(re.findall(r"\b(?:docs|examples)/[\w./-]*\w", open(os.path.join(TOP, "docs", "numarun.1")).read()))
    for command in ("", "check", "list", "slit", "run", "solve"):
        told_paths.update(re.findall(r"\b(?:docs|examples)/[\w./-]*\w", installed("numarun", "help", *command.split())[1]))
    check("what the help and the man page name is installed", sorted(path for path in told_paths if not os.path.exists(os.path.join(DOC, path))), [])
    check("paths that they name", len(told_paths) >= 5, True)
    status, out, err = installed("numarun", "run", "examples/machines/two-socket.json", text=open(os.path.join(DOC, "examples/scripts/plans")).read(), folder=DOC)
    check("an installed script", (status, out, err), (0, open(os.path.join(TOP, "examples/scripts/plans.answers")).read(), ""))
    check("numarun-agent", installed("numarun-agent", MACHINE, text=f"created database {DATABASE}\n")[1].splitlines()[-2].split()[1:], ["pool", "0,7-16,23-31"])
    check("numarun-draw-plan", installed("numarun-draw-plan", "--before", MACHINE, ANSWERS), (0, open(os.path.join(TOP, "docs", "two-socket.svg")).read(), ""))
    check("numarun-explain", installed("numarun-explain", MACHINE, ANSWERS)[1].splitlines()[0], "plan: total distance 140, 2 cores moved; none is far from home")
    check("numarun-dry-run", installed("numarun-dry-run", MACHINE, DATABASE)[1].splitlines()[0], "new would have 1-6,17-22: 12 CPUs, distance 120")
    check("numarun-describe", installed("numarun-describe", "host")[:2], told("numarun-describe host")[:2])
    check("what a refusal is named by", installed("numarun-explain", "no-file")[2], "numarun-explain: no-file: No such file or directory\n")


@case
def over_an_older_one() -> None:
    before = install()
    moved = PREFIX + " after all"
    os.rename(PREFIX, moved)
    os.rename(moved, PREFIX)
    with open(os.path.join(PREFIX, "lib", "numarun", "installed"), "a") as file:
        file.write("lib/numarun/of-old.py\nshare/numarun/of-old\nshare/numarun/\n")
    open(os.path.join(PREFIX, "lib", "numarun", "of-old.py"), "w").close()
    os.makedirs(os.path.join(PREFIX, "share", "numarun"))
    open(os.path.join(PREFIX, "share", "numarun", "of-old"), "w").close()
    check("installed over an older one", told("install.sh", PREFIX, env=HERE)[0], 0)
    check("what the older one had more", sorted(name for name in standing() if "of-old" in name), [])
    taken_away("taken away", before)
    refuses("install.sh", "--uninstall", PREFIX, says="installed: no such file: nothing is installed there")


@case
def of_somebody_else() -> None:
    """What somebody else put there stays, and a list that names other files is refused."""
    before = install()
    os.makedirs(os.path.join(PREFIX, "lib", "numarun", "numarun_host", "__pycache__"), exist_ok=True)
    open(os.path.join(PREFIX, "lib", "numarun", "numarun_host", "__pycache__", "cpus.cpython-311.pyc"), "w").close()
    open(os.path.join(PREFIX, "lib", "numarun", "mine"), "w").close()
    taken_away("what somebody else put there stays", sorted(before + ["lib/", "lib/numarun/", "lib/numarun/mine"]))
    for name in ("../x", "/etc/x", "a/../../x", "", "./a"):
        with open(os.path.join(PREFIX, "lib", "numarun", "installed"), "w") as file:
            file.write(f"{name}\n")
        refuses("install.sh", "--uninstall", PREFIX, says="is no name of what is installed")


@case
def named_by_a_runtime() -> None:
    """While a runtime's configuration names a program of it, it is not taken away: no container would start then."""
    if not shutil.which("unshare") or subprocess.run(["unshare", "-m", "true"], capture_output=True).returncode:
        print("a runtime that names it: passed over, as there is none: namespaces of mounts")
        return
    before = install()
    there = sorted(standing())
    for path, status, left in ((f"{PREFIX}/bin/numarun-runc", 1, there), ("/elsewhere/bin/numarun-runc", 0, before)):
        line = f"mount -t tmpfs none /etc && mkdir /etc/docker && cat > /etc/docker/daemon.json && exec bash {shlex.join([OPERATORS + '/install.sh', '--uninstall', PREFIX])}"
        text = f'{{"runtimes": {{"numarun": {{"path": "{path}"}}}}}}'
        ran = subprocess.run(["unshare", "-m", "sh", "-c", line], input=text, capture_output=True, text=True)
        check(path, (ran.returncode, "/etc/docker/daemon.json: no container starts" in ran.stderr, sorted(standing())), (status, status == 1, left))


@case
def refusals() -> None:
    refuses("install.sh", says="usage", status=2)
    refuses("install.sh", "a", "b", says="usage", status=2)
    refuses("install.sh", "--no-such-word", says="no such option", status=2)
    refuses("install.sh", PREFIX, says="no-such-program: no program: build it", env={**HERE, "PROGRAM": "no-such-program"})
    check("nothing was made", os.path.exists(PREFIX), False)
    refuses("install.sh", "/dev/null", says="", env=HERE, first="mkdir: ")
    status, out, err = told("install.sh", "--help")
    check("install.sh --help", (status, "Example: operators/install.sh /usr/local" in out, err), (0, True, ""))
