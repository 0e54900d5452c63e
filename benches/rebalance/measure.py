"""Prints how long `rebalance` takes: `measure.py PROGRAM TOOLS [--count] [NAME..]`; with names only these jobs, and with --count
instructions alone.

In microseconds, the least of some: `typed` is the time from the line to the `end` of its answer, with what the pipe takes; `again`
what one takes that has nothing to write, since it comes right behind another, in a script read from a file; and `solver` the
solver on the same rows, as the node's certificate tells them. In thousands of instructions, where callgrind is there: `all` a
rebalance, `writes` what it takes more than a `begin`, which plans and writes nothing, `solver`, and `rest` what is left: rows,
certificate, entries and the text of the answer. (The time of the writes is lost in that of a script.) The containers have their homes on one node: seven of
eight ask for 1 to 7 CPUs, which may be any or, with lists of their own, half of them by chance, the others for none of their
own; with few CPUs of their own each names 4 that no other one names, and asks for these. With cores, and in the job beside it
that has the same demands and no cores, they ask for 2, 4 or 6 CPUs. The last line of each machine has the thousands of
instructions that a `create` takes, with homes on one node, and on all nodes where the config names none."""

import os
import random
import re
import shutil
import subprocess
import sys
import tempfile
import time

from places import Job, place

ROUNDS, TIMES, RUNS = 5, 200, 40


# Those of 4,096 CPUs are as large as may be.
JOBS = {
    "2-nodes-in-turn": Job(2, 1024, 255, in_turn=True),
    "8-nodes-in-turn": Job(8, 1024, 255, in_turn=True),
    "64-nodes-in-turn": Job(64, 1024, 255, in_turn=True),
    "2-nodes-2048-in-turn": Job(2, 2048, 443, in_turn=True),
    "8-nodes": Job(8, 1024, 256),
    "64-nodes": Job(64, 1024, 256),
    "64-nodes-ring": Job(64, 1024, 255, ring=True),
    "64-nodes-lists": Job(64, 1024, 256, lists="half"),
    "64-nodes-few": Job(64, 1024, 255, lists="few"),
    "128-nodes": Job(128, 4096, 1024),
    "128-nodes-ring": Job(128, 4096, 1024, ring=True),
    "128-nodes-lists": Job(128, 4096, 1024, lists="half"),
    "8-nodes-few": Job(8, 4096, 1024, lists="few"),
    "128-nodes-whole": Job(128, 4096, 1023, whole=True),
    "128-nodes-cores": Job(128, 4096, 1023, whole=True, threads=2),
    "128-nodes-cores-beside": Job(128, 4096, 1000, whole=True, threads=2, beside=True),
    "128-nodes-ring-whole": Job(128, 4096, 1023, ring=True, whole=True),
    "128-nodes-ring-cores": Job(128, 4096, 1023, ring=True, whole=True, threads=2),
}


class Shell:
    def __init__(self, program):
        self.shell = subprocess.Popen([program, "run", "machine.json"], stdin=subprocess.PIPE, stdout=subprocess.PIPE)

    def ask(self, line):
        """The answer to a line, and how many microseconds it took."""
        start = time.perf_counter()
        self.shell.stdin.write(line.encode() + b"\n")
        self.shell.stdin.flush()
        answer = [self.shell.stdout.readline()]
        while answer[0].startswith((b"plan", b"short", b"numarun")) and answer[-1] != b"end\n":
            answer.append(self.shell.stdout.readline())
        return answer, (time.perf_counter() - start) * 1e6

    def close(self):
        self.shell.stdin.close()
        self.shell.wait()


def typed(program, before):
    """The least time of a typed `rebalance`, for each number of lines of `before` that come first."""
    least = [float("inf")] * len(before)
    for _ in range(ROUNDS):
        shell = Shell(program)
        for k, lines in enumerate(before):
            for line in lines:
                shell.ask(line)
            answer, took = shell.ask("rebalance")
            if not answer[0].startswith(b"plan"):
                sys.exit(f"rebalance: {answer}")
            least[k] = min(least[k], took)
        shell.close()
    return least


def run(program, scripts, runs):
    """The least time of each of these scripts in microseconds, run in turn."""
    least = [float("inf")] * len(scripts)
    for k, lines in enumerate(scripts):
        open(f"script{k}", "w").write("\n".join(lines) + "\n")
    for _ in range(runs):
        for k in range(len(scripts)):
            with open(f"script{k}") as script:
                start = time.perf_counter()
                subprocess.run([program, "run", "machine.json"], stdin=script, stdout=subprocess.DEVNULL, check=True)
                least[k] = min(least[k], time.perf_counter() - start)
    return [seconds * 1e6 for seconds in least]


def again(program, before, share):
    """What a rebalance takes right behind one behind these lines."""
    times = TIMES // share
    one, more = run(program, [before + ["rebalance"] * count for count in (1, times + 1)], RUNS // share)
    return (more - one) / times


def solver(tools, certificate, share):
    times = TIMES // share

    def seconds(count):
        start = time.perf_counter()
        subprocess.run([tools, "solve", str(count)], input=certificate, capture_output=True, check=True)
        return time.perf_counter() - start
    once, often = (min(seconds(count) for _ in range(3)) for count in (1, times + 1))
    return (often - once) / times * 1e6


def instructions(words, text):
    """Thousands of instructions of a run on this input."""
    valgrind = ["valgrind", "--tool=callgrind", "--callgrind-out-file=/dev/null"]
    told = subprocess.run([*valgrind, *words], input=text, capture_output=True, check=True).stderr.decode()
    return int(re.search(r"Collected : (\d+)", told)[1]) / 1000


def counted(program, tools, before, certificate):
    """What a rebalance takes behind these lines, a `begin` there, and its solver, in thousands of instructions."""
    scripts = ["\n".join(before + more + [""]).encode() for more in ([], ["rebalance"], ["begin"])]
    none, whole, begun = (instructions([program, "run", "machine.json"], script) for script in scripts)
    once, twice = (instructions([tools, "solve", times], certificate) for times in ("1", "2"))
    return whole - none, begun - none, twice - once


def created(program, containers):
    """The thousands of instructions of a `create`, with homes on one node, and with homes on all of them."""
    lines = [f"create c{k} b{k}" for k in range(containers)]
    half = lines[: containers // 2]
    anywhere = half + [f"create a{k} any{k}" for k in range(1, containers, 2)]
    counts = [instructions([program, "run", "machine.json"], "\n".join(script + [""]).encode()) for script in (half, lines, anywhere)]
    return [(count - counts[0]) / (containers // 2) for count in counts[1:]]


def shown(count_only, job, program, tools, share):
    """A line for each state in which a rebalance is asked for."""
    gone = 401 if job.lists == "few" else 500
    before = [[f"create c{k} b{k}" for k in range(job.containers)], ["kill c100 KILL", "delete c100"], [f"offline {gone}"]]
    whole, told, shell = None if count_only else typed(program, before), [], Shell(program)
    for k, name in enumerate(["from nothing", "after a container went", "after a CPU went off"]):
        told += before[k]
        for line in before[k] + ["rebalance"]:
            answer, _ = shell.ask(line)
        if not answer[0].startswith(b"plan"):
            sys.exit(f"rebalance: {answer}")
        certificate = b"".join(shell.ask("certificate")[0])
        times = [0] * 3 if count_only else [whole[k], again(program, told, share), solver(tools, certificate, share)]
        row = f"{name:24} {times[0]:8.0f} {times[1]:8.0f} {times[2]:8.0f}"
        if shutil.which("valgrind"):
            all_of_it, begun, alone = counted(program, tools, told, certificate)
            row += f"   {all_of_it:8.0f} {all_of_it - begun:8.0f} {begun - alone:8.0f} {alone:8.0f}"
        print(row, flush=True)
        told += ["rebalance"]
    shell.close()


def measure(program, tools, job, count_only):
    share = job.cpus // 1024 * (4 if job.lists else 1)
    with tempfile.TemporaryDirectory() as folder:
        os.chdir(folder)
        place(job)
        print(job.about())
        print(f"{f'{job.nodes} nodes':24} {'typed':>8} {'again':>8} {'solver':>8}   {'all':>8} {'writes':>8} {'rest':>8} {'solver':>8}")
        shown(count_only, job, program, tools, share)
        if shutil.which("valgrind"):
            near, anywhere = created(program, job.containers)
            print(f"{'a create':53} {near:8.0f} {anywhere:8.0f}")
        os.chdir("/")


def main(program, tools, *words):
    program, tools = os.path.abspath(program), os.path.abspath(tools)
    names = [word for word in words if word != "--count"] or list(JOBS)
    if not set(names) <= JOBS.keys():
        sys.exit(f"measure.py: the jobs are {', '.join(JOBS)}")
    for name in names:
        random.seed(1)
        measure(program, tools, JOBS[name], "--count" in words)


if __name__ == "__main__":
    main(*sys.argv[1:])
