"""Runs a create with each allocation refused in turn, and reads from the kernel what is left: `over_memory.py TOOLS REFUSE.SO`. Where
the answer is E1 there is no group of the container, or one without a process, and both are seen; a second create of the id uses the
group that is there, and else makes it."""

import os
import sys
import tempfile

from run import MACHINE, STREAMS, config, place
import program

MEMORY = "refused E1 Memory"
WORDS = ["run", "0"] + [str(word) for word in STREAMS.values()] + ["machine.json", "ba"]
# What the kernel is asked, and what it answers where it has no group of the container, and where it has one.
ASKED = ["find 0 numarun", "find 1 a", "alive 2"]
NO_GROUP = ["group 1", "none", "false"]
EMPTY = ["group 1", "group 2", "false"]
WHOLE = ["group 1", "group 2", "true"]
AFTERWARDS = ["find 0 numarun", "find 1 a", "remove 2", "cpus 2", "mems 2", "make 1 z"]
USED = ["group 1", "group 2", "refused HasProcesses", "ids 0", "ids 1", "group 3"]


def answered(tools, library, number, script, asked):
    """The lines that are printed where this allocation is refused, or none where the program says that it has no memory; and
    whether one was."""
    os.ftruncate(3, 0)
    text = "".join(line + "\n" for line in script + ["kernel"] + asked).encode()
    done = program.run([tools] + WORDS, text, env=dict(os.environ, REFUSE=str(number), LD_PRELOAD=library), pass_fds=[3])
    was = os.fstat(3).st_size > 0
    if was and done.returncode == 1 and done.stderr.startswith(b"Error: "):
        return None, was
    if done.returncode or done.stderr:
        sys.exit(f"over memory: allocation {number}: {done}")
    return done.stdout.decode().splitlines(), was


def each(tools, library, script, asked, expected):
    """Compares what is answered where each allocation is refused, except one of the node's group, of the writer, or of a call that
    asks the kernel; the whole answer is the last of what is expected. How many allocations there are."""
    seen, number, was = [], 0, True
    while was:
        number += 1
        found, was = answered(tools, library, number, script, asked)
        if found is not None and found[0] not in ("Memory", "Err(Write)") and "refused Memory" not in found:
            if found not in expected or not was and found != expected[-1]:
                sys.exit(f"over memory: allocation {number}: {found} is none of {expected}")
            seen.append(expected.index(found))
    if set(seen) != set(range(len(expected))):
        sys.exit(f"over memory: of {expected} only {sorted(set(seen))} are seen")
    return number - 1


def main(tools, library):
    tools, library = os.path.abspath(tools), os.path.abspath(library)
    with tempfile.TemporaryDirectory() as folder:
        os.chdir(folder)
        told = open("told", "ab")
        os.dup2(told.fileno(), 3)
        place(MACHINE, None, {"ba": config({"quota": 300000, "mems": "1"})})
        one, two = ["create a ba"], ["create a ba", "create a ba"]
        left = [["Ok(())", MEMORY] + NO_GROUP, ["Ok(())", MEMORY] + EMPTY, ["Ok(())", "pid 2"] + WHOLE]
        count = each(tools, library, one, ASKED, left)
        used = [["Ok(())", MEMORY, "pid 2"] + USED, ["Ok(())", "pid 2", MEMORY] + USED, ["Ok(())", "pid 2", "refused E92 IdInUse"] + USED]
        count += each(tools, library, two, AFTERWARDS, used)
        os.chdir("/")
    print(f"over memory: {count} allocations, each refused in turn")


main(*sys.argv[1:])
