"""What `--partition` refuses, and what it says when ROOT stops being a partition root: a table of folders, scripts in which the file
changes between two lines, and where the file is read.

PROGRAM PRELOAD MACHINE, from the top of the repository. What the file of a partition root has is the kernel's (cgroup v2,
`cpuset.cpus.partition`); what is said of it is docs/formats.md's."""

import os
import pathlib
import shutil
import sys
import tempfile
from typing import Callable, Dict, List, Optional, Sequence, Tuple

sys.path.insert(0, str(pathlib.Path(__file__).resolve().parent.parent))
import roots
from program import run

PROGRAM, PRELOAD, MACHINE = sys.argv[1:]  # two-socket.json: CPUs 0-31 online, nodes 0 and 1
FILE = "cpuset.cpus.partition"
ABSENT = f"error: ROOT/{FILE}: there is no such file, so this group can be no partition\n"
WHY_NOT_ISOLATED = f"note: ROOT/{FILE}: no load is balanced there, so all threads of a container may run on one CPU\n"
NOT_EXCLUSIVE = "root invalid (Cpu list in cpuset.cpus not exclusive)"

Answer = Tuple[int, str, str]
TAKEN: Answer = (0, "end\n", "")


def says(text: str) -> str:
    """The line about a file that says this."""
    return f"error: ROOT/{FILE}: {text} in place of root\n"


def refused(note: str) -> Answer:
    return 1, "refused E117 NoPartition\n", note


def rooted(files: Dict[str, Optional[str]]) -> str:
    """A new folder with a root in it that has these files, and folders where there is no text."""
    folder = tempfile.mkdtemp()
    root = pathlib.Path(folder, "root")
    root.mkdir()
    every: Dict[str, Optional[str]] = {"cgroup.subtree_control": ""}
    every.update(files)
    for name, text in every.items():
        if text is None:
            root.joinpath(name).mkdir()
        else:
            root.joinpath(name).write_text(text)
    return folder


def held(root: pathlib.Path) -> List[Tuple[pathlib.Path, Optional[str]]]:
    """Each path below a root, with the text of a file."""
    return [(path, path.read_text() if path.is_file() else None) for path in sorted(root.rglob("*"))]


def opened(files: Dict[str, Optional[str]], words: Sequence[str]) -> Answer:
    """Status, standard output and standard error over such a root, which is left as it was if it is refused."""
    folder = rooted(files)
    root = pathlib.Path(folder, "root")
    before = held(root)
    done = run([PROGRAM, "run", MACHINE, "--cgroup", str(root), *words], b"list\n")
    assert done.returncode == 0 or held(root) == before, f"a refused root is changed: {held(root)}, not {before}"
    shutil.rmtree(folder)
    return done.returncode, done.stdout.decode(), done.stderr.decode().replace(str(root), "ROOT")


def is_taken_or_refused() -> None:
    lacks = "error: ROOT/cpuset.cpus.effective: lacks 31\n"
    has = "error: ROOT/cpuset.mems.effective: has besides 2\n"
    unread = f"error: ROOT/{FILE}: Is a directory (os error 21)\nerror: ROOT: can't be read\n"
    asked, both = ("--partition",), ("--partition", "--adopt")
    table: List[Tuple[str, Dict[str, Optional[str]], Sequence[str], Answer]] = [
        ("a partition root", {FILE: "root\n"}, asked, TAKEN),
        ("one that a run before left", {FILE: "root\n", "numarun": None}, both, TAKEN),
        ("no file", {}, asked, refused(ABSENT)),
        ("no file, adopted", {"numarun": None}, both, refused(ABSENT)),
        ("a member", {FILE: "member\n"}, asked, refused(says("member"))),
        ("an isolated one", {FILE: "isolated\n"}, asked, refused(says("isolated") + WHY_NOT_ISOLATED)),
        ("an invalid one", {FILE: NOT_EXCLUSIVE + "\n"}, asked, refused(says(NOT_EXCLUSIVE))),
        ("one without a reason", {FILE: "root invalid\n"}, asked, refused(says("root invalid"))),
        ("an isolated one that is invalid", {FILE: "isolated invalid (Invalid cpu list in cpuset.cpus)\n"}, asked,
         refused(says("isolated invalid (Invalid cpu list in cpuset.cpus)") + WHY_NOT_ISOLATED)),
        ("an empty file", {FILE: ""}, asked, refused(says("nothing"))),
        ("two lines", {FILE: "root\nroot\n"}, asked, refused(says("root\\x0aroot"))),
        ("a word that begins so", {FILE: "roots\n"}, asked, refused(says("roots"))),
        ("control characters", {FILE: "ro\x1bot\n"}, asked, refused(says("ro\\x1bot"))),
        ("a folder in its place", {FILE: None}, asked, (1, "refused E113 ReadFault\n", unread)),
        ("unasked", {FILE: "member\n"}, (), TAKEN),
        ("without a file, unasked", {}, (), TAKEN),
        ("another machine's CPUs first", {FILE: "member\n", "cpuset.cpus.effective": "0-30\n"}, asked, (1, "refused E116 OtherMachine\n", lacks)),
        ("its nodes first", {FILE: "member\n", "cpuset.mems.effective": "0-2\n"}, asked, (1, "refused E116 OtherMachine\n", has)),
        ("no controller first", {FILE: "member\n", "cgroup.controllers": "cpu\n"}, asked, (1, "refused E115 NoCpuset\n", "")),
        ("before a run before", {FILE: "member\n", "numarun": None}, asked, refused(says("member"))),
    ]
    for name, files, words, wanted in table:
        got = opened(files, words)
        assert got == wanted, f"{name}: {got}, not {wanted}"
    print(f"cgroup: {len(table)} roots that have to be partitions or not")


def partitioned(*names: str) -> Callable[[str], None]:
    """A partition root in which these groups are there."""

    def make(root: str) -> None:
        roots.grouped(*names)(root)
        pathlib.Path(root, FILE).write_text("root\n")

    return make


def becomes(text: Optional[str]) -> Callable[[str], None]:
    """The file has this text from here on, or is not there."""

    def change(root: str) -> None:
        if text is None:
            os.unlink(f"{root}/{FILE}")
        else:
            pathlib.Path(root, FILE).write_text(text)

    return change


def notes_of(err: str) -> List[str]:
    """What was said of the partition file, in its order."""
    return [line + "\n" for line in err.splitlines() if FILE in line]


def is_looked_at_again() -> None:
    web, database = "create web examples/bundles/web", "create database examples/bundles/database"
    asked, both = ("--partition", "--adopt"), ("web", "database")
    gone = f"error: ROOT/{FILE}: No such file or directory (os error 2)\n"
    table: List[Tuple[str, List[object], Sequence[str], List[str]]] = [
        ("it stays one", [web, database, "rebalance"], asked, []),
        ("broken before a create", [becomes(NOT_EXCLUSIVE + "\n"), web], asked, [says(NOT_EXCLUSIVE)]),
        ("broken between two", [web, becomes("member\n"), database], asked, [says("member")]),
        ("broken and healed", [web, becomes("root invalid\n"), becomes("root\n"), database], asked, []),
        ("gone", [web, becomes(None), database], asked, [gone]),
        ("broken, and nothing is written", [web, becomes("member\n"), "phase", "offline 5"], asked, []),
        ("broken, and nobody asked", [web, becomes("member\n"), database], ("--adopt",), []),
    ]
    for name, script, words, wanted in table:
        answers, err = roots.lived(PROGRAM, MACHINE, script, partitioned(*both), words)
        assert not [answer for answer in answers if answer.startswith("refused")], (name, answers)
        assert notes_of(err) == wanted, f"{name}: {notes_of(err)}, not {wanted}"
    answers, err = roots.lived(PROGRAM, MACHINE, [web, database, becomes("member\n"), "rebalance"], partitioned(*both), asked)
    assert answers[-1].startswith("plan ") and set(notes_of(err)) == {says("member")}, (answers, err)
    print(f"cgroup: {len(table) + 1} scripts over a partition that stays one, breaks and heals")


def is_read_behind_each_write() -> None:
    """Behind each write of CPUs the group's file is read and then ROOT's; without the option ROOT's is never opened. It is never written."""
    script = pathlib.Path("tests/cgroup/script").read_bytes()
    for words in ((), ("--partition",)):
        folder = rooted({FILE: "root\n"})
        root, log = f"{folder}/root", f"{folder}/log"
        open(log, "w").close()
        environment = dict(os.environ, LD_PRELOAD=PRELOAD, FOLDERS_ROOT=root, FOLDERS_LOG=log)
        done = run([PROGRAM, "run", MACHINE, "--cgroup", root, *words], script, env=environment)
        assert done.returncode == 0 and FILE not in done.stderr.decode(), done
        calls = pathlib.Path(log).read_text().splitlines()
        shutil.rmtree(folder)
        own = f"read /{FILE}"
        assert not [call for call in calls if FILE in call and call != own], calls
        assert not [call for call in calls if call.startswith("write /cpuset.")], calls
        looks = [at for at, call in enumerate(calls) if call == own]
        writes = [at for at, call in enumerate(calls) if call.startswith("write ") and call.split()[1].endswith("/cpuset.cpus")]
        assert writes, calls
        assert looks[1:] == [at + 2 for at in writes] and len(looks) == len(writes) + 1 if words else not looks, (looks, writes, calls)
    print(f"cgroup: the partition file is read behind each of {len(writes)} writes, and never written")


is_taken_or_refused()
is_looked_at_again()
is_read_behind_each_write()
