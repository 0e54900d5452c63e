"""Runs a worked transcript by the program with each of its allocations refused in turn: `allocation_failures.py PROGRAM REFUSE.SO
TRANSCRIPT`. The answer is the whole one, or E1 alone, or E1 for one command, and of all others what they answer where that
command is left out. Each command that allocates has to be seen with E1. The status of E1 alone is 1 while the words are
collected, 2 while they are parsed, and 1 from then on. Each container of the transcript is created or adopted twice, so that one which
could not be is made by the second line. Then the same lines come on as many CPUs and nodes as there may be."""

import json
import os
import re
import sys
import tempfile

from second_runtime import CPUS, NODES, Machine, Runtime, config_of, read_slit
from transcripts import Transcript, run, unwanted

MEMORY = "refused E1 Memory"


def answers(told, without):
    """What the lines answer where an allocation fails in the one of this number."""
    runtime = Runtime(Machine(told.machine, told.slit and read_slit(told.slit)), config_of)
    lines = [[MEMORY] if k == without else runtime.answer(line) for k, line in enumerate(told.script)]
    return "".join(answer + "\n" for answers in lines for answer in answers)


def with_second_tries(script):
    return [line for command in script for line in [command] * (1 + command.startswith((b"create ", b"adopt ")))]


def refused(program, library, words, script, number, told):
    """What the program answers where this allocation is refused, and whether one was."""
    told.truncate(0)
    environment = dict(os.environ, REFUSE=str(number), LD_PRELOAD=library)
    done = run(program, words, script, env=environment, pass_fds=[3])
    return done, os.fstat(told.fileno()).st_size > 0


def enlarge(told):
    """Gives it a machine of as many CPUs and nodes as there may be, and a distance table."""
    each = CPUS // NODES
    nodes = [f"{each * n}-{each * n + each - 1}" for n in range(NODES)]
    told.machine = json.dumps({"nodes": nodes, "reserved": "0"}).encode()
    table = bytearray(b"SLIT" + (44 + NODES * NODES).to_bytes(4, "little") + bytes(28) + NODES.to_bytes(8, "little"))
    table += bytes(10 if i == j else 20 for i in range(NODES) for j in range(NODES))
    table[9] = -sum(table) % 256
    told.slit = bytes(table)


def each_refused(program, library, told, name):
    with tempfile.TemporaryDirectory() as folder:
        os.chdir(folder)
        words = told.place()
        whole = answers(told, None)
        known = {answers(told, k): k for k in range(len(told.script))}
        seen, statuses, number = set(), "", 0
        refusals = open("refusals", "ab")
        os.dup2(refusals.fileno(), 3)
        while True:
            number += 1
            done, was = refused(program, library, words, b"\n".join(told.script), number, refusals)
            output = done.stdout.decode()
            plain = not unwanted(done, notes_lack=True)
            if plain and (done.returncode, output) == (0, whole):
                if not was:
                    break
            elif plain and done.returncode == 0 and output in known:
                seen.add(told.script[known[output]].split(b" ")[0].decode())
            elif plain and output == MEMORY + "\n":
                statuses += str(done.returncode)
            else:
                sys.exit(f"allocation failures: {name}, allocation {number}: {str(done)[:3000]}")
        os.chdir("/")
    if not re.fullmatch("1+2+1+", statuses):
        sys.exit(f"allocation failures: {name}: the statuses of E1 are {statuses}")
    if seen != {"create", "adopt", "update", "state", "fork", "rebalance", "begin"}:
        sys.exit(f"allocation failures: {name}: E1 was seen of {sorted(seen)}")
    print(f"allocation failures: {name}: {number - 1} allocations, each refused in turn, E1 of {', '.join(sorted(seen))}")


def main(program, library, transcript):
    told = Transcript(os.path.abspath(transcript))
    told.script = with_second_tries(told.script)
    program, library = os.path.abspath(program), os.path.abspath(library)
    each_refused(program, library, told, "run")
    enlarge(told)
    each_refused(program, library, told, f"run on {CPUS} CPUs and {NODES} nodes")


main(*sys.argv[1:])
