"""Counts what the program allocates: `memory.py PROGRAM REFUSE.SO`. A script takes as many allocations as the same one with a
thousand lines more of the commands that take no memory, whether they are carried out or refused. And a rebalance of containers
that are alike takes few for each: what their rows have in common is worked out once."""

import os
import sys
import tempfile

from transcripts import config, place, run

MACHINE = b'{"nodes":["0-63","64-127"],"distances":[[10,21],[21,10]],"reserved":"0"}'
NAMES = [f"c{k}" for k in range(100)]
BEFORE = [f"create {name} b{k % 2}" for k, name in enumerate(NAMES)] + ["fork 2"] * 100 + ["begin"]
STEPS = ["step"] * 250
ENDS = [line for k, name in enumerate(NAMES) for line in (f"exit {k + 2}", f"kill {name} 9")]
CPUS = [f"{command} {cpu}" for command in ("offline", "online", "offline") for cpu in range(0, 130)]
QUESTIONS = [line for name in NAMES for line in (f"sets {name}", f"start {name}")] + ["list", "phase", "certificate"] * 20
REMOVALS = [f"delete {name}" for name in NAMES]
REFUSED = ["step", "kill c0 HUP", "kill no 9", "exit 1", "offline 128", "online 500", "sets no", "foo", "state no", "create x", "certificate now", ""] * 10
COMMANDS = {"step": STEPS, "exit and kill": ENDS, "offline and online": CPUS, "sets, start, list, phase, certificate": QUESTIONS,
            "what is refused": REFUSED, "all, and delete": QUESTIONS + STEPS + CPUS + ENDS + REMOVALS + REFUSED}


def allocations(program, library, words, lines):
    """How many allocations a script takes, and how many lines it is answered by."""
    os.ftruncate(3, 0)
    environment = dict(os.environ, COUNT="1", LD_PRELOAD=library)
    done = run(program, words, "".join(line + "\n" for line in lines).encode(), env=environment, pass_fds=[3])
    if done.returncode or done.stderr or b"refused E1 " in done.stdout:
        sys.exit(f"memory: {done}")
    return os.fstat(3).st_size, done.stdout.count(b"\n")


def of_alike_ones(program, library):
    """The allocations of a first rebalance for each container more, of containers with the same config: its name in its row,
    the two lists of its offers, and no others."""
    words = place(MACHINE, None, {"b": config({"quota": 100000})})
    counts = []
    for containers in (30, 120):
        creates = [f"create c{k} b" for k in range(containers)]
        before, behind = (allocations(program, library, words, creates + more)[0] for more in ([], ["rebalance"]))
        counts.append(behind - before)
    each = (counts[1] - counts[0]) / 90
    if not 3 <= each < 4:
        sys.exit(f"memory: a rebalance takes {each} allocations for each container more that is like the others")
    return each


def main(program, library):
    program, library = os.path.abspath(program), os.path.abspath(library)
    with tempfile.TemporaryDirectory() as folder:
        os.chdir(folder)
        count = open("count", "ab")
        os.dup2(count.fileno(), 3)
        words = place(MACHINE, None, {"b0": config({"quota": 100000, "mems": "1"}), "b1": config({})})
        few, answers = allocations(program, library, words, BEFORE)
        more, _ = allocations(program, library, words, BEFORE + ["fork 2"] * 1000)
        if not 100 < few < more:
            sys.exit(f"memory: {few} allocations, and {more} with a thousand forks more: they are not counted")
        for name, lines in COMMANDS.items():
            found, answered = allocations(program, library, words, BEFORE + lines)
            if found != few or answered < answers + len(lines) - lines.count(""):
                sys.exit(f"memory: {name}: {found} allocations, {few} without, and {answered - answers} lines of answers")
        each = of_alike_ones(program, library)
        os.chdir("/")
    print(f"memory: {few} allocations, and no more with", "; ".join(f"{len(COMMANDS[name])} of {name}" for name in COMMANDS))
    print(f"memory: {each:.2f} allocations of a rebalance for each container that is like another")


main(*sys.argv[1:])
