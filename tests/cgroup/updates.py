"""Which files an `update` writes: they are marked before it, and what was not written has its mark still. PROGRAM MACHINE, from the top of
the repository."""

import json
import os
import pathlib
import sys
import tempfile

from roots import grouped, lived

program, machine = sys.argv[1:]  # two-socket.json: the reserved CPUs are 0 and 16, nodes 0 and 1
MARK = "not written"
NAMES = ("cpuset.cpus", "cpuset.mems")
SHARED, PINNED = {"mems": "0"}, {"mems": "0", "quota": 200000}
ELSEWHERE, PINNED_ELSEWHERE = {"mems": "1"}, {"mems": "1", "quota": 200000}
bundle = tempfile.mkdtemp()


def asks(section):
    """The bundle's config asks for this from now on."""

    def write(root):
        told = {"ociVersion": "1.0.2", "root": {"path": "rootfs"}, "process": {"args": ["run"]}, "linux": {"resources": {"cpu": section}}}
        pathlib.Path(bundle, "config.json").write_text(json.dumps(told))

    return write


def mark(root):
    for name in NAMES:
        pathlib.Path(root, "numarun", "a", name).write_text(MARK)


def has(what, *texts):
    """The files have these lines, or their marks. A plain file keeps what stood behind a line that is shorter."""

    def look(root):
        found = tuple(pathlib.Path(root, "numarun", "a", name).read_text().split("\n")[0] for name in NAMES)
        assert found == texts, f"{what}: {found}, not {texts}"

    return look


def updated(what, section, *texts):
    """An `update` to this, behind which the files have these texts."""
    return [asks(section), mark, f"update a {bundle}", has(what, *texts)]


script = [asks(SHARED), f"create a {bundle}", has("created", "0,16", "0")]
script += updated("shared, and stays so", SHARED, MARK, MARK)
script += updated("becomes pinned on the reserved CPUs", PINNED, MARK, MARK)
script += updated("pinned, and stays so", PINNED, MARK, MARK)
script += updated("becomes shared on the reserved CPUs", SHARED, MARK, MARK)
script += updated("becomes pinned on the reserved CPUs, elsewhere", PINNED_ELSEWHERE, MARK, "1")
script += updated("comes back", PINNED, MARK, "0")
script += ["rebalance", has("planned", "1,17", "0")]
script += updated("becomes shared on CPUs of its own", SHARED, MARK, MARK)
script += updated("becomes pinned on CPUs of its own", PINNED, "0,16", MARK)
script += updated("becomes shared again", SHARED, MARK, MARK)
script += ["rebalance", has("in the pool", "0-31", MARK)]
script += updated("shared, elsewhere", ELSEWHERE, MARK, "1")
script += updated("becomes pinned on the pool, and comes back", PINNED, "0,16", "0")
answers, err = lived(program, machine, script, grouped("a"), ("--adopt",))
plans = ["plan total 20\nhold a 1,17\npool 0,2-16,18-31\nend\n", "plan total 0\npool 0-31\nend\n"]
assert [answer for answer in answers if answer.startswith("plan ")] == plans, answers
assert [answer for answer in answers if not answer.startswith("plan ")] == ["pid 2\n"] + ["ok\n"] * 11, answers
os.remove(bundle + "/config.json")
os.rmdir(bundle)
print("cgroup: 11 updates, and which files they write")
