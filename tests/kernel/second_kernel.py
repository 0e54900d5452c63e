"""A second modelled kernel: groups with the CPUs and memory nodes that they request, processes, and CPUs that go and come, by the
refusals of docs/formats.md and what cgroup-v2's page tells of effective sets, which are worked out anew each time."""

LAST_PID = 4_194_303


class Refused(Exception):
    pass


def numbers(text):
    """The set of a plain list; `-` is the empty one."""
    found = set()
    for item in text.split(",") if text != "-" else []:
        first, _, last = item.partition("-")
        found |= set(range(int(first), int(last or first) + 1))
    return found


def spelled(members):
    """A set as rising ranges, each as long as possible."""
    runs = []
    for n in sorted(members):
        if runs and runs[-1][1] == n - 1:
            runs[-1][1] = n
        else:
            runs.append([n, n])
    return ",".join(f"{a}" if a == b else f"{a}-{b}" for a, b in runs) or "-"


class Kernel:
    def __init__(self, fail, line):
        present, reserved, online, nodes, pid = line.split(" ")
        self.present, self.reserved, self.online = numbers(present), numbers(reserved), numbers(online)
        self.nodes, self.next_pid, self.next_serial = numbers(nodes), int(pid), 1
        self.groups = {0: {"parent": None, "name": "", "cpus": set(), "mems": set()}}
        self.processes, self.writes, self.fail = {}, 0, fail

    def answer(self, line):
        """What is answered to a call."""
        word, *rest = line.split(" ")
        try:
            if word in ("make", "remove", "spawn", "end") or word in ("cpus", "mems") and len(rest) == 2:
                self.writes += 1
                if self.writes == self.fail:
                    raise Refused("Failed")
            return getattr(self, f"call_{word.replace('.', '_')}")(*rest) or "ok"
        except Refused as why:
            return f"refused {why}"

    def group(self, serial):
        if int(serial) not in self.groups:
            raise Refused("NoGroup")
        return self.groups[int(serial)]

    def child(self, parent, name):
        return next((k for k, g in self.groups.items() if g["parent"] == int(parent) and g["name"] == name), None)

    def call_root(self):
        return "group 0"

    def call_make(self, parent, name):
        self.group(parent)
        if self.child(parent, name) is not None:
            raise Refused("Exists")
        self.groups[self.next_serial] = {"parent": int(parent), "name": name, "cpus": set(), "mems": set()}
        self.next_serial += 1
        return f"group {self.next_serial - 1}"

    def call_remove(self, serial):
        if self.group(serial)["parent"] is None:
            raise Refused("IsRoot")
        if any(g["parent"] == int(serial) for g in self.groups.values()):
            raise Refused("HasChildren")
        if any(group == int(serial) for group, _ in self.processes.values()):
            raise Refused("HasProcesses")
        del self.groups[int(serial)]

    def call_find(self, parent, name):
        self.group(parent)
        child = self.child(parent, name)
        return "none" if child is None else f"group {child}"

    def requested(self, what, serial, written=None):
        group = self.group(serial)
        if written is None:
            return f"ids {spelled(group[what])}"
        if group["parent"] is None:
            raise Refused("IsRoot")
        group[what] = numbers(written)

    def call_cpus(self, *words):
        return self.requested("cpus", *words)

    def call_mems(self, *words):
        return self.requested("mems", *words)

    def effective(self, what, serial):
        group = self.group(serial)
        above = {"cpus": self.online, "mems": self.nodes}[what] if group["parent"] is None else self.effective(what, group["parent"])
        return group[what] & above or above

    def call_cpus_effective(self, serial):
        return f"ids {spelled(self.effective('cpus', serial))}"

    def call_mems_effective(self, serial):
        return f"ids {spelled(self.effective('mems', serial))}"

    def new_pid(self, group, first):
        if self.next_pid > LAST_PID:
            raise Refused("NoPids")
        pid = self.next_pid
        self.next_pid += 1
        self.processes[pid] = (group, pid if first is None else first)
        return f"pid {pid}"

    def call_spawn(self, serial):
        self.group(serial)
        return self.new_pid(int(serial), None)

    def call_fork(self, pid):
        if int(pid) not in self.processes:
            raise Refused("NoProcess")
        return self.new_pid(*self.processes[int(pid)])

    def call_exit(self, pid):
        if int(pid) not in self.processes:
            raise Refused("NoProcess")
        self.processes = {n: told for n, told in self.processes.items() if int(pid) not in (n, told[1])}

    def call_end(self, serial):
        self.group(serial)
        self.processes = {n: told for n, told in self.processes.items() if told[0] != int(serial)}

    def call_alive(self, pid):
        return "true" if int(pid) in self.processes else "false"

    def cpu(self, cpu):
        if int(cpu) not in self.present:
            raise Refused("NoCpu")
        return int(cpu)

    def call_offline(self, cpu):
        if self.cpu(cpu) in self.reserved:
            raise Refused("Reserved")
        self.online = self.online - {int(cpu)}

    def call_online(self, cpu=None):
        if cpu is None:
            return f"ids {spelled(self.online)}"
        self.online = self.online | {self.cpu(cpu)}

    def call_nodes(self):
        return f"ids {spelled(self.nodes)}"
