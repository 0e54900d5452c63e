"""Two programs on one tree: the second one is refused as long as the first one lives, with --adopt or without, by whatever path it
comes, and before anything of the root is read. PROGRAM MACHINE, from the top of the repository."""

import fcntl
import os
import pathlib
import shutil
import subprocess
import sys
import tempfile

sys.path.insert(0, str(pathlib.Path(__file__).resolve().parent.parent))
from program import run

program, machine = sys.argv[1:]
folder = tempfile.mkdtemp()
root, beside, link = folder + "/root", folder + "/beside", folder + "/link"
for made in (root, beside):
    os.mkdir(made)
    pathlib.Path(made + "/cgroup.subtree_control").write_text("")
os.symlink(root, link)
HAD = (1, "refused E50 KernelFault\n", "error: ROOT: another program has it\n")
FREE = (0, "end\n", "")


def begun(*words):
    """A program that has answered a line, and waits for the next one."""
    words = [program, "run", machine, "--cgroup", root, *words]
    started = subprocess.Popen(words, stdin=subprocess.PIPE, stdout=subprocess.PIPE, stderr=subprocess.PIPE)
    started.stdin.write(b"list\n")
    started.stdin.flush()
    assert started.stdout.readline() == b"end\n", started.stderr.read()
    return started


def second(path, *words):
    """Status, answers and notes of a program that lists what it has, ROOT for its path."""
    done = run([program, "run", machine, "--cgroup", path, *words], b"list\n")
    return done.returncode, done.stdout.decode(), done.stderr.decode().replace(path + ":", "ROOT:")


def check(what, got, wanted):
    assert got == wanted, f"{what}: {got}, not {wanted}"


first = begun()
check("without --adopt", second(root), HAD)
check("with --adopt", second(root, "--adopt"), HAD)
for path in (link, root + "/", root + "/../root"):
    check(f"by {path}", second(path, "--adopt"), HAD)
check("another root", second(beside), FREE)
os.mkdir(root + "/numarun/web")
check("folders are not named", second(root, "--adopt"), HAD)
os.rmdir(root + "/numarun/web")
for name, text in (("cgroup.controllers", "cpu\n"), ("cpuset.cpus.effective", "0\n")):
    pathlib.Path(root, name).write_text(text)
    check(f"before {name} is read", second(root), HAD)
    os.remove(root + "/" + name)
check("nothing of it was made", sorted(os.listdir(root)), ["cgroup.subtree_control", "numarun"])

# The file is closed where another program is started in its place, so that no child has the lock.
locked = [name for name in os.listdir(f"/proc/{first.pid}/fd") if os.path.realpath(f"/proc/{first.pid}/fd/{name}") == os.path.realpath(root)]
flags = [line.split()[1] for name in locked for line in open(f"/proc/{first.pid}/fdinfo/{name}") if line.startswith("flags:")]
check("one open file, closed at exec", [int(text, 8) & os.O_CLOEXEC for text in flags], [os.O_CLOEXEC])

check("the first one lives", first.poll(), None)
first.kill()
first.wait()
check("killed", second(root), (1, "refused E50 KernelFault\n", f"error: {root}/numarun: File exists (os error 17)\n"))
check("killed, and taken up", second(root, "--adopt"), FREE)
first = begun("--adopt")
check("adopted by the first one", second(root, "--adopt"), HAD)
out, err = first.communicate()
check("ended", (first.returncode, out, err), (0, b"", b""))
check("ended, and taken up", second(root, "--adopt"), FREE)

# It has the root as long as it lives: behind the first folder that it makes, and behind the first that it removes.
os.mkdir(root + "/numarun/web")
for name in ("cpuset.cpus", "cpuset.mems", "cpuset.cpus.effective", "cgroup.kill"):
    pathlib.Path(root, "numarun/web", name).write_text("")


def ask(line):
    """The first program's answer to a line."""
    first.stdin.write(line + b"\n")
    first.stdin.flush()
    return first.stdout.readline()


first = begun("--adopt")
check("a container", ask(b"create web examples/bundles/web"), b"pid 2\n")
check("behind a create", second(root, "--adopt"), HAD)
check("killed", ask(b"kill web KILL"), b"ok\n")
for name in os.listdir(root + "/numarun/web"):
    os.remove(f"{root}/numarun/web/{name}")
check("deleted", (ask(b"delete web"), os.listdir(root + "/numarun")), (b"ok\n", []))
check("behind a delete", second(root, "--adopt"), HAD)
first.communicate()

# Whoever else locks the folder, as an agent does, is a program that has it; and finds that this one has it.
agent = os.open(root, os.O_RDONLY | os.O_DIRECTORY)
fcntl.flock(agent, fcntl.LOCK_EX)
check("locked by somebody else", second(root, "--adopt"), HAD)
fcntl.flock(agent, fcntl.LOCK_UN)
first = begun("--adopt")
try:
    fcntl.flock(agent, fcntl.LOCK_EX | fcntl.LOCK_NB)
    raise AssertionError("somebody else has the lock too")
except BlockingIOError:
    pass
first.communicate()
shutil.rmtree(folder)
print("cgroup: two programs on one tree")
