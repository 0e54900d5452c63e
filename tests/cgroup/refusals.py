"""What is said where a root is not taken, or is: a table of folders. PROGRAM MACHINE, from the top of the repository."""

import os
import pathlib
import shutil
import sys
import tempfile

sys.path.insert(0, str(pathlib.Path(__file__).resolve().parent.parent))
import roots
from program import run
from roots import grouped

program, machine = sys.argv[1:]  # two-socket.json: CPUs 0-31 online, nodes 0 and 1


def held(folder):
    """What is below a folder: each path, with the text of a file."""
    paths = sorted(pathlib.Path(folder).rglob("*"))
    return [(path, path.read_text() if path.is_file() and not path.is_symlink() else None) for path in paths]


def played(make, words=(), script=b"list\n"):
    """Status, standard output and standard error over a root that this makes, ROOT for its name. A root that is refused is left as
    it was, and no byte of the script was read."""
    folder = tempfile.mkdtemp()
    root = folder + "/root"
    make(root)
    before = held(folder)
    with tempfile.TemporaryFile() as given:
        given.write(script)
        given.seek(0)
        done = run([program, "run", machine, "--cgroup", root, *words], given)
        read = os.lseek(given.fileno(), 0, os.SEEK_CUR)
    if done.stdout.startswith((b"refused E113", b"refused E115", b"refused E116")):
        assert held(folder) == before, f"a refused root is changed: {held(folder)}, not {before}"
        assert read == 0, f"{read} bytes of the script were read before the root was refused"
    answer = (done.returncode, done.stdout.decode(), done.stderr.decode().replace(root, "ROOT"))
    shutil.rmtree(folder)
    return answer


def folder(**files):
    """A root with these files, underscores for full stops, and folders where the text is None."""

    def make(root):
        os.mkdir(root)
        for name, text in dict({"cgroup_subtree_control": ""}, **files).items():
            path = root + "/" + name.replace("_", ".", 1 if name == "cgroup_subtree_control" else -1)
            if text is None:
                os.mkdir(path)
            else:
                pathlib.Path(path).write_text(text)

    return make


def file(root):
    pathlib.Path(root).write_text("")


NONE = (0, "end\n", "")


def other(file, what):
    """The root is another machine's, by what this file of it has."""
    return 1, "refused E116 OtherMachine\n", f"error: ROOT/cpuset.{file}.effective: {what}\n"


def unread(name):
    """A file of the root is a folder."""
    why = f"error: ROOT/{name}: Is a directory (os error 21)\nerror: ROOT: can't be read\n"
    return 1, "refused E113 ReadFault\n", why


NO_LIST = "is no list of numbers below 4096"
TABLE = [
    ("nothing is there", lambda root: None, (), (1, "refused E113 ReadFault\n", "error: ROOT: no such file\n")),
    ("a file", file, (), (1, "refused E113 ReadFault\n", "error: ROOT: not a directory\n")),
    ("a file, adopted", file, ("--adopt",), (1, "refused E113 ReadFault\n", "error: ROOT: not a directory\n")),
    ("a plain folder", folder(), (), NONE),
    ("controllers with cpuset", folder(cgroup_controllers="cpuset cpu io\n"), (), NONE),
    ("cpuset last", folder(cgroup_controllers="cpu cpuset\n"), (), NONE),
    ("no cpuset", folder(cgroup_controllers="cpu io\n"), (), (1, "refused E115 NoCpuset\n", "")),
    ("a word that has it within", folder(cgroup_controllers="cpusets xcpuset\n"), (), (1, "refused E115 NoCpuset\n", "")),
    ("none at all", folder(cgroup_controllers="\n"), (), (1, "refused E115 NoCpuset\n", "")),
    ("the machine's CPUs", folder(cpuset_cpus_effective="0-31\n"), (), NONE),
    ("other CPUs", folder(cpuset_cpus_effective="0-30\n"), (), other("cpus", "lacks 31")),
    ("others than these", folder(cpuset_cpus_effective="1-15,17-40\n"), (),
     (1, "refused E116 OtherMachine\n", other("cpus", "lacks 0,16")[2] + other("cpus", "has besides 32-40")[2])),
    ("a CPU more", folder(cpuset_cpus_effective="0-32\n"), (), other("cpus", "has besides 32")),
    ("no CPU", folder(cpuset_cpus_effective="\n"), (), other("cpus", "lacks 0-31")),
    ("no list", folder(cpuset_cpus_effective="all\n"), (), other("cpus", NO_LIST)),
    ("a CPU past the limit", folder(cpuset_cpus_effective="0-31,4096\n"), (), other("cpus", NO_LIST)),
    ("the machine's nodes", folder(cpuset_mems_effective="0-1\n"), (), NONE),
    ("a node without memory", folder(cpuset_mems_effective="1\n"), (), NONE),
    ("a node that the machine has not", folder(cpuset_mems_effective="0-2\n"), (), other("mems", "has besides 2")),
    ("no list of nodes", folder(cpuset_mems_effective="none\n"), (), other("mems", NO_LIST)),
    ("a node past the limit", folder(cpuset_mems_effective="0,4096\n"), (), other("mems", NO_LIST)),
    ("a node that it lacks, and another", folder(cpuset_mems_effective="1-2\n"), (), other("mems", "has besides 2")),
    ("controllers that are a folder", folder(cgroup_controllers=None), (), unread("cgroup.controllers")),
    ("CPUs in effect that are a folder", folder(cpuset_cpus_effective=None), (), unread("cpuset.cpus.effective")),
    ("nodes in effect that are a folder", folder(cpuset_mems_effective=None), (), unread("cpuset.mems.effective")),
    ("both, the first", folder(cgroup_controllers="cpu\n", cpuset_cpus_effective="0\n"), (), (1, "refused E115 NoCpuset\n", "")),
    ("a run before", folder(numarun=None), (), (1, "refused E50 KernelFault\n", "error: ROOT/numarun: File exists (os error 17)\n")),
    ("a run before, adopted", folder(numarun=None), ("--adopt",), NONE),
    ("a file where its folder would be", folder(numarun=""), ("--adopt",), (1, "refused E50 KernelFault\n", "error: ROOT/numarun: File exists (os error 17)\n")),
    ("no file to pass controllers on", lambda root: os.mkdir(root), (),
     (1, "refused E50 KernelFault\n", "error: ROOT/cgroup.subtree_control: No such file or directory (os error 2)\n"
      "note: ROOT/cgroup.subtree_control: each folder of a cgroup v2 tree has this file\n")),
    ("a folder of links", lambda root: os.mkdir(root), ("--adopt",), NONE),
]
for name, make, words, wanted in TABLE:
    got = played(make, words)
    assert got == wanted, f"{name}: {got}, not {wanted}"
print(f"cgroup: {len(TABLE)} roots")


def no_file(root):
    """What a group of a run before holds can't be read."""
    folder()(root)
    os.makedirs(root + "/numarun/web/cpuset.cpus")


got = played(no_file, ("--adopt",))
assert got == unread("numarun/web/cpuset.cpus"), got
assert played(no_file)[:2] == (1, "refused E50 KernelFault\n")


def links(root):
    os.makedirs(root + "/numarun")
    os.mkdir(root + "/slice")
    for name in ("cpuset.cpus", "cpuset.mems", "cgroup.kill"):
        pathlib.Path(root + "/slice/" + name).write_text("")
    pathlib.Path(root + "/slice/cpuset.cpus.effective").write_text("0,16\n")
    os.symlink(root + "/slice", root + "/numarun/web")


status, out, err = played(links, ("--adopt",), b"create web examples/bundles/web\nsets web\n")
assert (status, out.splitlines()[0], err) == (0, "pid 2", "note: ROOT/numarun/web is there and has to be adopted\n"), (status, out, err)


def strange(root):
    folder()(root)
    os.makedirs(root + "/numarun/a\nb\x1b[2J\u0085c")


status, out, err = played(strange, ("--adopt",))
assert (status, err) == (0, "note: ROOT/numarun/a\\x0ab\\x1b[2J\\x85c is there and has to be adopted\n"), (status, out, err)


def lived(script, make, words=()):
    return roots.lived(program, machine, script, make, words)


def gone(path):
    return lambda root: shutil.rmtree(root + path)


E50 = "refused E50 KernelFault\n"
GONE = "No such file or directory (os error 2)"
web, database = "create web examples/bundles/web", "create database examples/bundles/database"

answers, err = lived([web, database, gone("/numarun/database"), "rebalance", "kill database KILL", "delete database", "rebalance", "list"],
                     grouped("web", "database"), ("--adopt",))
assert answers[2].startswith("plan ") and answers[3:5] == ["ok\n", "ok\n"] and answers[5].startswith("plan "), answers
for file in ("cpuset.cpus", "cpuset.cpus.effective", "cgroup.kill"):
    assert f"error: ROOT/numarun/database/{file}: {GONE}\n" in err, err
assert f"error: ROOT/numarun/database: {GONE}\n" in err, err

answers, err = lived([web, gone(""), "rebalance", database, "kill web KILL", "delete web", "list"], grouped("web", "database"), ("--adopt",))
assert answers[1].startswith("plan ") and answers[2:5] == [E50, "ok\n", "ok\n"], answers
assert f"error: ROOT/numarun/database: {GONE}\n" in err, err


def a_file(root):
    shutil.rmtree(root + "/numarun/database")
    pathlib.Path(root + "/numarun/database").write_text("")


answers, err = lived([web, database, a_file, "rebalance", "kill database KILL", "delete database"], grouped("web", "database"), ("--adopt",))
assert answers[2:] == [E50, E50, "refused E99 NotStopped\n"], answers
for file in ("cpuset.cpus", "cgroup.kill"):
    assert f"error: ROOT/numarun/database/{file}: Not a directory (os error 20)\n" in err, err
print("cgroup: folders that vanish")


def link_is_gone(root):
    assert not os.path.lexists(root + "/numarun/web") and os.path.isdir(root + "/slice"), os.listdir(root + "/numarun")


answers, err = lived([web, "kill web KILL", "delete web", link_is_gone, "list"], links, ("--adopt",))
assert answers == ["pid 2\n", "ok\n", "ok\n", "end\n"], answers
assert err.splitlines()[-1] == "note: ROOT/numarun/web: a link is removed", err


def a_link(root):
    """The folder that the run made is a link now, to a group elsewhere."""
    os.mkdir(root + "/slice")
    for name in roots.FILES:
        pathlib.Path(f"{root}/slice/{name}").write_text("")
    os.rmdir(root + "/numarun/web")
    os.symlink(root + "/slice", root + "/numarun/web")


def link_stays(root):
    assert os.path.islink(root + "/numarun/web") and os.path.isdir(root + "/slice"), os.listdir(root + "/numarun")


def passes_on(root):
    """The group of all containers has the file of a cgroup by which its children get a controller; plain folders have none."""
    pathlib.Path(root + "/numarun/cgroup.subtree_control").write_text("")


answers, err = lived(["list", passes_on, web, a_link, web, "kill web KILL", "delete web", link_stays], folder())
assert answers == ["end\n", E50, "pid 2\n", "ok\n", E50], answers
assert err.splitlines()[-1] == "error: ROOT/numarun/web: Not a directory (os error 20)", err


def ids(root):
    folder()(root)


status, out, err = played(ids, (), b"create cgroup.subtree_control examples/bundles/web\ncreate web examples/bundles/web\n")
assert status == 0 and out.startswith("refused E50 KernelFault\n"), (status, out, err)
print("cgroup: links, and an id that is a file's name")
