"""What a user reads in README.md and on the pages of operators/, typed as it stands: the transcripts, pictures, explanations and dry runs;
numarun over the kernel's own tree; the installation, the machine file, the agent as its unit starts it, containers by crun and podman, the
hook, the pool's script, a service, what is given back, and the package. Each command of these pages is typed here, or named as one that
isn't; those of partitions are left to the part `partition_page`."""

import json
import os
import re
import shutil
import subprocess
import sys
import time

sys.path[:0] = [os.path.join(os.path.dirname(os.path.abspath(__file__)), "..")]
import of_podman
import tree
import watched
from desk import OUT, OUT_OF_AGENT, begun, done, ended, lines_of, prepare, typed, until
from of_crun import bundle, crun, process
from tree import ROOT, read, say

TOP = tree.REPOSITORY
# Its commands name CPUs that this machine has not, and an image: the part `partition_page` types them with others.
APART = ("partitions.md",)
OPERATORS = sorted(f"operators/{name}" for name in os.listdir(f"{TOP}/operators") if name.endswith(".md") and name not in APART)
PAGES = {name: read(f"{TOP}/{name}") for name in ("README.md", *OPERATORS)}
# What is not typed: it wants the toolchain, what makes packages, or a service manager.
ELSEWHERE = ("bash examples/quick-look.sh", "bash tests/all.sh", "bash build.sh", "operators/install.sh --deb", "systemctl ", "journalctl ")
# What is typed in parts of its own.
BY_OTHERS = (*(f"{runtime} " for runtime in ("docker", "ctr", "podman", "crun", "runc")), "operators/numarun-agent host.json --cgroup /sys/fs/cgroup --runtime all --partition ")


def command(beginning):
    """The line of the pages that begins so, as it stands there, on one of them or on several."""
    found = {line for page in PAGES for line, _ in lines_of(PAGES[page]) if line.startswith(beginning)}
    assert len(found) == 1 or beginning in found, (beginning, found)
    return beginning if beginning in found else found.pop()


def shown_on(*pages):
    """What is shown behind a command is what it says, but for the time."""
    for line, shown in [one for page in pages for one in lines_of(PAGES[page]) if one[1]]:
        found, stamp = typed(line), r"\d{4}-\d\d-\d\dT[\d:.]+ "
        assert re.sub(stamp, "", found) == re.sub(stamp, "", shown), (line, found)


def transcripts():
    """README's, of which those of a script are answers."""
    shown_on("README.md")
    for block in re.findall(r"^```\n(> .*?)^```", PAGES["README.md"], re.M | re.S):
        asked = "".join(line[2:] + "\n" for line in block.splitlines() if line.startswith("> "))
        answers = "".join(line + "\n" for line in block.splitlines() if not line.startswith("> "))
        with open("/tmp/script", "w") as file:
            file.write(asked)
        found = typed("crates/numarun/out/numarun run examples/machines/two-socket.json < /tmp/script")
        assert found == answers.strip(), (asked, found)


def pictures():
    """What the pages of operators/ show, by what is installed: transcripts, and pictures."""
    shown_on(*OPERATORS)
    typed(command("numarun run"))
    typed(command("numarun-draw-plan --before examples"))
    assert read("/tmp/plan.svg") == read(f"{TOP}/docs/two-socket.svg")
    assert "database" in typed(command("numarun-draw-plan --before --text"))


def program():
    """The table of the program's commands."""
    numarun = "crates/numarun/out/numarun"
    assert typed(f"{numarun} check examples/two-containers.certificate").startswith("plan total ")
    assert typed(f"{numarun} solve examples/caches.problem").startswith("numarun-certificate ")
    assert typed(f"{numarun} list 3,1-2") == "1-3"
    rows = [" ".join(map(str, row)) for row in json.load(open(tree.MACHINE))["distances"]]
    assert typed(f"{numarun} slit /sys/firmware/acpi/tables/SLIT").splitlines()[1:] == rows, read(OUT)


def on_a_real_kernel():
    """The machine file of this machine, and a run over its tree, with a process in one of its containers; it is undone by hand."""
    typed(command("operators/numarun-describe host"))
    machine = json.load(open(f"{TOP}/host.json"))
    assert machine["nodes"] == ["0-1", "2-3", "4-5", "6-7"] and machine["distances"][1] == [20, 10, 30, 20] and machine["cores"], machine
    containers = tree.Containers("/tmp/b")
    with open("/tmp/notes", "w") as notes:
        run = subprocess.Popen(["crates/numarun/out/numarun", "run", "host.json", "--cgroup", ROOT], cwd=TOP, stdin=subprocess.PIPE,
                               stdout=subprocess.PIPE, stderr=notes, text=True)

    def ask(line, last):
        run.stdin.write(line + "\n")
        run.stdin.flush()
        found = [run.stdout.readline().rstrip()]
        while not found[-1].startswith(last):
            found.append(run.stdout.readline().rstrip())
            assert found[-1], (line, found)
        return found

    ask(f"create packets {containers.bundle('packets', allowed='4-5')}", "pid")
    pid = tree.spawn(ROOT)
    assert tree.allowed(pid) == tree.CPUS
    session = re.search(r"^```console\n(.*?)^```", read(f"{TOP}/docs/formats.md"), re.M | re.S)[1].replace("421", str(pid)).splitlines()
    found, places = [], []
    for line in session:
        if line.startswith(("$ ", "> ")):
            found.append(typed(line[2:]) if line.startswith("$ ") else ask(line[2:], "end"))
            places.append(tree.allowed(pid))
    assert places == [{0}, {4, 5}, {4, 5}], places
    assert "hold packets 4-5" in found[1] and found[2].split() == ["Cpus_allowed_list:", "4-5"], found
    assert ask("kill packets KILL", "ok") + ask("delete packets", "ok") == ["ok", "ok"]
    run.stdin.close()
    assert run.wait() == 0, read("/tmp/notes")
    undone = "rmdir /sys/fs/cgroup/numarun"
    assert f"`{undone}`" in read(f"{TOP}/docs/formats.md")
    typed(undone)
    tree.clear()


def installed():
    """install.sh, and a machine file by the page's commands; hwloc makes the same one."""
    typed(command("operators/install.sh /usr/local"))
    typed(command("mkdir -p /etc/numarun"))
    typed(command("numarun-describe host --cores"))
    assert read("/etc/numarun/machine.json") == read(f"{TOP}/host.json")
    assert "8 CPUs on 4 nodes" in typed(command("numarun-agent check-config /etc")), read(OUT)
    line = command("lstopo --disallowed")
    if os.path.exists("/usr/bin/lstopo"):
        for more, names in (("", []), ("--cores ", ["cores"])):
            typed(line.replace("--reserved", f"{more}--reserved"))
            found, told = (json.load(open(path)) for path in ("/tmp/machine.json", f"{TOP}/host.json"))
            assert all(found[name] == told[name] for name in ("nodes", "distances", "reserved", *names)), found
    done.add(line)


def has_own(pid, many):
    cpus = tree.allowed(pid)
    return cpus is not None and len(cpus) == many and 0 not in cpus


def by_readme():
    """README's lines for an agent, with a container of crun's, and what undoes them."""
    pid, _ = process_of_crun("first", {"quota": 200000, "period": 100000, "mems": "1"})
    assert "hold first 2-3" in typed(command("numarun-agent /etc/numarun/machine.json --runtime all --rounds")) and tree.allowed(pid) == tree.CPUS, read(OUT)
    assert "hold first 2-3" in typed(command("operators/numarun-agent host.json --runtime")) and tree.allowed(pid) == tree.CPUS, read(OUT)
    agent = begun(command("operators/numarun-agent host.json --cgroup /sys/fs/cgroup --runtime all"))
    until(agent, lambda: has_own(pid, 2), "README's agent")
    assert tree.allowed(pid) == {2, 3}
    ended(agent)
    typed(command("operators/numarun-agent release"))
    assert tree.allowed(pid) == tree.CPUS, read(OUT)
    crun("delete", "--force", "first")


def process_of_crun(name, section):
    crun("run", "--no-pivot", "--detach", "--bundle", bundle(name, section), name)
    return process(name)


def of_the_unit(options):
    """The line by which the unit starts the agent."""
    unit = read("/usr/local/lib/systemd/system/numarun-agent.service")
    return re.search(r"^ExecStart=(.*)", unit, re.M)[1].replace("$OPTIONS", options)


def by_the_unit():
    """The agent as the unit starts it, beside containers of crun, of podman, and of podman with the hook; what it leaves to read."""
    options = "--watch /run/numarun-containers --textfile /tmp/numarun.prom --certificates /var/log/numarun --pool /tmp/pool"
    pool = re.search(r"^```sh\n(#!/bin/sh.*?)^```", PAGES["operators/safety.md"], re.M | re.S)[1]
    hook = re.search(r"^```json\n(.*?)^```", PAGES["operators/runtimes.md"], re.M | re.S)[1]
    for path, text in (("/tmp/pool", pool), ("/usr/share/containers/oci/hooks.d/numarun.json", hook)):
        os.makedirs(os.path.dirname(path), exist_ok=True)
        with open(path, "w") as file:
            file.write(text)
        os.chmod(path, 0o755)
    os.makedirs("/var/log")
    agent = begun(of_the_unit(options))
    db, _ = process_of_crun("db", {"quota": 200000, "period": 100000, "mems": "1"})
    until(agent, lambda: has_own(db, 2), "crun's container")
    assert typed(command("numarun-dry-run /etc/numarun/machine.json")).startswith("new would have 4"), read(OUT)
    eager, _ = of_podman.begin("eager", "--cpus", "2")
    assert has_own(eager, 2) and not tree.allowed(eager) & tree.allowed(db), (tree.allowed(eager), read(OUT_OF_AGENT)[-3000:])
    assert len(os.listdir("/run/numarun-containers")) == 1  # its hook has told of it, and has had an answer
    web, _ = of_podman.begin("web")
    until(agent, lambda: not tree.allowed(web) & (tree.allowed(db) | tree.allowed(eager)), "one on the pool")
    until(agent, lambda: read("/proc/irq/default_smp_affinity").endswith(mask(tree.allowed(web))), "the pool's script")
    assert read("/sys/devices/virtual/workqueue/cpumask").endswith(mask(tree.allowed(web)))
    assert "numarun_containers_pinned 2" in read("/tmp/numarun.prom")
    assert "cpuset.cpus:" in typed(command("cd /sys/fs/cgroup && find")), read(OUT)
    table = [row.split()[:2] for row in typed(command("numarun-agent status")).splitlines()]
    assert ["db", "pinned"] in table and "pool" in table[0], table
    kept = sorted(os.listdir("/var/log/numarun"))[-1]
    assert typed(f"numarun check /var/log/numarun/{kept}").startswith("plan total 40"), read(OUT)
    assert "db: 2 CPUs" in typed(f"numarun-explain /etc/numarun/machine.json < /var/log/numarun/{kept}"), read(OUT)
    assert typed("numarun-dry-run /etc/numarun/machine.json --cpus 2 --running /run/crun").startswith("new would have"), read(OUT)
    assert "makes room by itself" in typed("numarun-dry-run /etc/numarun/machine.json --cpus 6 --running /run/crun", status=1), read(OUT)
    assert "another agent or program has it" in typed(of_the_unit(""), status=1)
    ended(agent)
    typed(command("numarun-agent release --cgroup /sys/fs/cgroup"))
    assert all(tree.allowed(pid) == tree.CPUS for pid in (db, eager, web)), read(OUT)
    crun("delete", "--force", "db")
    of_podman.podman("rm", "-f", "-t", "0", "eager", "web")
    assert not os.listdir("/run/numarun-containers")


def mask(cpus):
    return f"{sum(1 << cpu for cpu in cpus):02x}"


def a_service():
    """A service that is described as a container: it has CPUs of its own, and the other one of its slice has not."""
    service, other = (watched.group(f"system.slice/{name}.service") for name in ("mariadb", "ssh"))
    for beginning in ("numarun-agent add-service", "mkdir -p /etc/numarun/services", "echo '{\"cgroup-path\"", "echo '{\"ociVersion\""):
        typed(command(beginning))
    assert "hugepages" in typed(command("grep . /sys/devices/system/node")), read(OUT)
    assert "hold mariadb" in typed(command("numarun-agent /etc/numarun/machine.json --runtime all --watch")), read(OUT)
    agent = begun(of_the_unit(""))
    until(agent, lambda: has_own(service, 4) and not tree.allowed(other) & tree.allowed(service), "a service")
    ended(agent)
    typed(command("numarun-agent release --cgroup /sys/fs/cgroup"))
    assert tree.allowed(service) == tree.allowed(other) == tree.CPUS, read(OUT)
    assert "nothing was kept in /run/numarun" in typed(command("numarun-agent release --cgroup /sys/fs/cgroup --rest")), read(OUT)
    tree.remove(f"{ROOT}/system.slice")


def taken_away():
    """Not while podman would call the hook; and then all of it."""
    line = command("operators/install.sh --uninstall /usr/local")
    assert "hooks.d/numarun.json: no container starts" in typed(line, status=1), read(OUT)
    typed(command("rm -f /usr/share/containers"))
    typed(line)
    assert not [name for _, _, names in os.walk("/usr/local") for name in names], list(os.walk("/usr/local"))


def package():
    """The package that was made outside, in a database of packages that knows what it depends on."""
    line = command("dpkg -i")
    if not [name for name in os.listdir("/") if name.endswith(".deb")]:
        done.add(line)
        return say("walk: the package is passed over, as none could be made")
    for name in ("info", "updates", "triggers"):
        os.makedirs(f"/var/lib/dpkg/{name}")
    with open("/var/lib/dpkg/status", "w") as file:
        for name, version in (("python3", "3.11"), ("libc6", "2.36")):
            file.write(f"Package: {name}\nStatus: install ok installed\nMaintainer: nobody\nArchitecture: amd64\nMulti-Arch: allowed\nVersion: {version}\nDescription: there\n\n")
    typed(line, folder="/")
    assert "agent" in typed("numarun-agent --help")
    typed("numarun-describe host --cores > /etc/numarun/machine.json")
    typed("dpkg -r numarun")
    assert not shutil.which("numarun-agent", path="/usr/local/bin:/usr/bin:/bin")


def all_typed():
    """No command of the pages is left."""
    for page in PAGES:
        for line, _ in lines_of(PAGES[page]):
            assert line in done or line.startswith(ELSEWHERE + BY_OTHERS), (page, line)


prepare()
of_podman.prepare()
tree.clear()
for step in (transcripts, program, on_a_real_kernel, installed, pictures, by_readme, by_the_unit, a_service, taken_away, package, all_typed):
    began = time.monotonic()
    step()
    say(f"walk: {step.__name__} in {time.monotonic() - began:.0f} s")
assert "Traceback" not in read(OUT_OF_AGENT), read(OUT_OF_AGENT)[-2000:]
say(f"walk: {len(done)} lines typed as the pages have them")
