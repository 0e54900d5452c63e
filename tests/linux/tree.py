"""What the parts share: the emulated machine's cgroup v2 tree, containers with a process each, an open run of the program over the
tree, and what has to be so of every state: no two containers of which one is pinned share a CPU outside the reserved ones, and each
process may run on the CPUs that its group has in effect."""

import contextlib
import errno
import json
import os
import random
import re
import sys
import time

REPOSITORY = "/numarun"
sys.path[:0] = [f"{REPOSITORY}/operators"]
from numarun_host import machine as machines, program, script
from numarun_host.cpus import print_list, read_list

ROOT, TOP = "/sys/fs/cgroup", "/sys/fs/cgroup/numarun"
PROGRAM, STOP = "/app/numarun", "/app/stop.so"
MACHINE = f"{REPOSITORY}/tests/linux/machine.json"
CPUS, RESERVED = set(range(8)), {0}
CPU = "/sys/devices/system/cpu"
PATIENCE = 60  # seconds that the kernel has to do what it does behind a call; an emulated machine may have little of a processor


def say(text):
    print(f"linux: {text}", flush=True)


def seed():
    return sys.argv[1] if len(sys.argv) > 1 else "1"


def share():
    """Which share of a part's work is done: one in so many."""
    return int(sys.argv[2]) if len(sys.argv) > 2 else 1


def is_due(number):
    """Whether a piece of work is in that share, which the seed chooses."""
    return (number + int(seed())) % share() == 0


def chance(of):
    return random.Random(f"{of} {seed()}")


def read(path):
    with open(path) as file:
        return file.read().strip()


def write(path, text):
    """One write of the system; the number of its failure, or 0."""
    try:
        file = os.open(path, os.O_WRONLY)
    except OSError as why:
        return why.errno
    try:
        os.write(file, text.encode())
        return 0
    except OSError as why:
        return why.errno
    finally:
        os.close(file)


def cpus(text):
    return read_list(text, "a list") if text.strip() else set()


def until(holds, seconds=PATIENCE):
    """Waits until this holds, for the kernel does some things a moment later."""
    end = time.monotonic() + seconds
    while not holds():
        if time.monotonic() > end:
            return False
        time.sleep(0.002)
    return True


# Processes that do nothing.


def spawn(group):
    """A process in a group. It is a child of the first process, which waits for it."""
    reader, writer = os.pipe()
    child = os.posix_spawn("/app/sleeper", ["sleeper", group], {}, file_actions=[(os.POSIX_SPAWN_DUP2, writer, 1)])
    os.close(writer)
    os.waitpid(child, 0)
    told = os.read(reader, 20)
    os.close(reader)
    assert told, f"{group}: no process can be put into it"
    return int(told)


def allowed(pid):
    """The CPUs on which a process may run, or nothing where it is gone."""
    try:
        return cpus(re.search(r"^Cpus_allowed_list:\s*(\S*)", read(f"/proc/{pid}/status"), re.M)[1])
    except (OSError, TypeError):
        return None


def alive(pid):
    try:
        return re.search(r"^State:\s+(\S)", read(f"/proc/{pid}/status"), re.M)[1] not in "ZX"
    except (OSError, TypeError):
        return False


def processes(group):
    return [int(pid) for pid in read(f"{group}/cgroup.procs").split()]


def kill(group):
    """Ends the processes of a group and waits until they are gone."""
    write(f"{group}/cgroup.kill", "1")
    assert until(lambda: not processes(group)), f"{group}: its processes do not end"


def remove(group):
    """Removes a group and those below it."""
    for name in os.listdir(group):
        if os.path.isdir(f"{group}/{name}") and not os.path.islink(f"{group}/{name}"):
            remove(f"{group}/{name}")
    if processes(group):
        kill(group)

    def done():
        with contextlib.suppress(OSError):
            os.rmdir(group)
        return not os.path.exists(group)
    assert until(done), f"{group}: it can't be removed"


def clear():
    """Takes the program's tree away, and brings all CPUs back."""
    for cpu in CPUS - RESERVED:
        turn(cpu, True)
    if os.path.isdir(TOP):
        remove(TOP)


def turn(cpu, on):
    """Takes a CPU off, or brings it back, and waits until all groups know of it."""
    if (read(f"{CPU}/cpu{cpu}/online") == "1") == on:
        return
    failed = write(f"{CPU}/cpu{cpu}/online", "1" if on else "0")
    assert not failed, f"CPU {cpu}: {os.strerror(failed)}"
    assert until(lambda: cpus(read(f"{ROOT}/cpuset.cpus.effective")) == cpus(read(f"{CPU}/online")) and settled(ROOT))


def settled(group):
    """Whether the groups below have in effect what comes of what they request, and their processes may run there."""
    above = cpus(read(f"{group}/cpuset.cpus.effective"))
    for name in os.listdir(group):
        below = f"{group}/{name}"
        if os.path.isdir(below) and os.path.exists(f"{below}/cpuset.cpus"):
            has = cpus(read(f"{below}/cpuset.cpus")) & above or above
            if cpus(read(f"{below}/cpuset.cpus.effective")) != has or any(allowed(pid) not in (has, None) for pid in processes(below)):
                return False
            if not settled(below):
                return False
    return True


# The program.


class Run(program.Run):
    """An open run over the tree. `fail` is the call that is refused, and by what; `killed_behind` the one behind which it is killed."""

    def __init__(self, *more, root=ROOT, machine=MACHINE, fail=None, number=errno.EBUSY, killed_behind=None):
        wanted = {"STOP_ROOT": root, "STOP_ERRNO": str(number), "LD_PRELOAD": STOP}
        wanted.update({"STOP_FAIL": str(fail)} if fail else {}, **({"STOP_KILL": str(killed_behind)} if killed_behind else {}))
        with environment(wanted if fail or killed_behind else {}):
            super().__init__(PROGRAM, machine, None, ("--cgroup", root, *more), patience=900)

    def one(self, line):
        """The only line of an answer."""
        lines = self.ask(line)
        assert len(lines) == 1, (line, lines)
        return lines[0]

    def ok(self, line, answer="ok"):
        found = self.one(line)
        assert found == answer, (line, found, self.said())

    def plan(self, command="rebalance"):
        """A plan's sets, its pool and its total; or a shortage's lines."""
        return Plan(self.ask(command))


class Plan:
    def __init__(self, lines):
        self.lines, self.holds, self.pool, self.total = lines, {}, None, None
        self.refused = lines[0] if lines[0].startswith("refused") else None
        self.short = lines[0].startswith("short")
        for word, *rest in (line.split(" ") for line in lines):
            if word == "plan":
                self.total = int(rest[1])
            elif word == "hold":
                self.holds[rest[0]] = cpus(rest[1])
            elif word == "pool":
                self.pool = cpus(rest[0].replace("-", "", 1) if rest[0] == "-" else rest[0])


@contextlib.contextmanager
def environment(more):
    before = dict(os.environ)
    os.environ.update(more)
    try:
        yield
    finally:
        os.environ.clear()
        os.environ.update(before)


# Containers.


class Containers:
    """The containers of a run: bundles in a folder, and a process in the group of each."""

    def __init__(self, folder="/tmp/bundles"):
        self.folder, self.there, self.asks = folder, {}, {}
        os.makedirs(folder, exist_ok=True)

    def bundle(self, name, quota=None, allowed=None, mems=None):
        """Writes a bundle, and says how many CPUs of its own it asks for; 0 is a shared one."""
        section = {"quota": quota * 100000, "period": 100000} if quota else {}
        section.update({"cpus": allowed} if allowed else {}, **({"mems": mems} if mems is not None else {}))
        config = {"ociVersion": "1.0.2", "process": {"cwd": "/", "args": ["sh"]}, "root": {"path": "rootfs"},
                  "linux": {"resources": {"cpu": section}}}
        os.makedirs(f"{self.folder}/{name}", exist_ok=True)
        with open(f"{self.folder}/{name}/config.json", "w") as file:
            json.dump(config, file)
        self.asks[name] = quota or len(cpus(allowed or ""))
        return f"{self.folder}/{name}"

    def group(self, name):
        return f"{TOP}/{name}"

    def start(self, name):
        """Its process, in its group."""
        self.there[name] = spawn(self.group(name))

    def create(self, run, name, **section):
        bundle = self.bundle(name, **section)
        answer = run.one(f"create {name} {bundle}")
        if answer.startswith("pid"):
            self.start(name)
        return answer

    def end(self, run, name):
        """Kills and deletes one; the program ends its process."""
        run.ok(f"kill {name} KILL")
        pid = self.there.pop(name)
        assert until(lambda: not alive(pid)), f"{name}: its process does not end"
        run.ok(f"delete {name}")
        assert not os.path.exists(self.group(name)), f"{name}: its group is there"

    def states(self):
        """What each group with a process requests and has in effect, and where that process may run."""
        found = {}
        for name, pid in self.there.items():
            group = self.group(name)
            if os.path.isdir(group) and alive(pid):
                found[name] = (cpus(read(f"{group}/cpuset.cpus")), cpus(read(f"{group}/cpuset.cpus.effective")), allowed(pid))
        return found

    def check(self, where, effective=True):
        """What has to be so of every state; how many containers it has. One of whose CPUs none is online has all that are, as the
        kernel has it, until there is a plan; what it requests is its own even then."""
        states, online = self.states(), cpus(read(f"{ROOT}/cpuset.cpus.effective"))
        names = sorted(states)
        fallen = {name for name, (requests, _, _) in states.items() if not requests & online}
        for name, (_, has, may) in states.items():
            assert may == has, f"{where}: {name} has {print_list(has)}, and its process may run on {print_list(may)}"
        for k, one in enumerate(names):
            for other in names[k + 1:]:
                if self.asks[one] or self.asks[other]:
                    for which in (0, 1) if effective and not fallen & {one, other} else (0,):
                        both = (states[one][which] & states[other][which]) - RESERVED
                        assert not both, f"{where}: {one} and {other} share {print_list(both)}: {states}"
        return len(names)

    def check_answers(self, run, where):
        """What the program says of each group is what the kernel has."""
        for name in self.there:
            found = re.fullmatch(r"cpus (\S+) effective (\S+) mems (\S+) effective (\S+)", run.one(f"sets {name}"))
            group = self.group(name)
            has = [read(f"{group}/cpuset.{file}") or "-" for file in ("cpus", "cpus.effective", "mems", "mems.effective")]
            assert list(found.groups()) == has, f"{where}: {name}: {found.groups()} are said, and {has} is so"
        return 4 * len(self.there)

    def check_plan(self, plan, where):
        """What a plan said is what each container has."""
        for name, (_, has, _) in self.states().items():
            said = plan.holds.get(name, plan.pool)
            assert has == said, f"{where}: {name} has {print_list(has)} in place of {print_list(said)}: {plan.lines}"
