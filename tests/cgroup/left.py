"""What a refused `create` or `adopt` leaves in a tree: no folder once the last pid was given (E45), and where the tree refuses (E50) at most
one for each id, however often it is asked for, which the next `create` of the id uses. PROGRAM MACHINE, from the top of the repository."""

import json
import os
import pathlib
import sys
import tempfile
from typing import Callable, List, Set, Union

sys.path.insert(0, os.path.join(os.path.dirname(os.path.abspath(__file__)), ".."))
from program import run
from roots import FILES, grouped, lived

LAST_PID = 4_194_303
TRIES = 50
Step = Union[str, Callable[[str], None]]


def bundle() -> str:
    """A folder with a config that asks for no CPUs of its own."""
    folder = tempfile.mkdtemp()
    told = {"ociVersion": "1.0.2", "root": {"path": "rootfs"}, "process": {"args": ["run"]}}
    pathlib.Path(folder, "config.json").write_text(json.dumps(told))
    return folder


def folders(root: str) -> Set[str]:
    """The groups below ROOT/numarun."""
    return {path.name for path in pathlib.Path(root, "numarun").iterdir() if path.is_dir()}


def has(*names: str) -> Callable[[str], None]:
    """Below ROOT/numarun are these groups and no others."""

    def look(root: str) -> None:
        assert folders(root) == set(names), (folders(root), names)

    return look


def give_files(name: str) -> Callable[[str], None]:
    """A group gets the files that each group of a cgroup v2 tree has."""

    def give(root: str) -> None:
        for file in FILES:
            pathlib.Path(root, "numarun", name, file).write_text("")

    return give


def without_pids(program: str, machine: str, config: str) -> None:
    """Once the last pid was given no new id gets a folder, by `create` or by `adopt`."""
    with tempfile.TemporaryDirectory() as folder:
        root = f"{folder}/root"
        grouped("a")(root)
        forks = "fork 2\n" * (LAST_PID - 2)
        more = [f"{command} {name}{k} {config}{cpus}" for k in range(TRIES)
                for command, name, cpus in (("create", "b", ""), ("adopt", "c", " 0"))]
        script = f"create a {config}\n{forks}" + "".join(line + "\n" for line in more) + "list\n"
        done = run([program, "run", machine, "--cgroup", root, "--adopt"], script.encode())
        answers = done.stdout.decode().splitlines()
        assert done.returncode == 0 and answers[LAST_PID - 2] == f"pid {LAST_PID}", (done.returncode, answers[-3:], done.stderr[:300])
        assert answers[LAST_PID - 1 :] == ["refused E45 NoPids"] * len(more) + ["a created", "end"], answers[LAST_PID - 1 :]
        has("a")(root)


def again(program: str, machine: str, config: str) -> None:
    """A group whose files can't be written stays, and is the one that the next `create` of the id uses."""
    create = f"create x {config}"
    script: List[Step] = [*[create] * TRIES, has("x"), "list", f"create y {config}", has("x", "y"), give_files("x"), create, "list", has("x", "y")]
    answers, _ = lived(program, machine, script, grouped(), ("--adopt",))
    refused = "refused E50 KernelFault\n"
    assert answers[: TRIES + 3] == [refused] * TRIES + ["end\n", refused, "pid 2\n"], answers


def main(program: str, machine: str) -> None:
    config = bundle()
    again(program, machine, config)
    without_pids(program, machine, config)
    print(f"cgroup: no folder is left without pids, and one of {TRIES} tries")


main(*sys.argv[1:])
