"""Takes up containers that run already on the sets of a plan: `adopted.py PROGRAM`. Random containers are created and planned by
one run; the next run adopts each with the set that the plan gave it, or the pool, and plans again. That plan has to be the same
one and to move no CPU, since the sets are still a plan of least distance. The second runtime answers the second script beside
the program."""

import os
import random
import sys
import tempfile

from compare import made_planned
from second_runtime import Machine, Runtime, config_of
from transcripts import difference, place, run

SCRIPTS = 80
# Plans of so many containers in all have to be seen.
LEAST = 400


def outcome_of(output):
    """The sets of the first plan by the containers' ids, and the pool; or nothing where it is no plan."""
    lines = output.decode().split("\n")
    first = next((k for k, line in enumerate(lines) if line.startswith(("plan total ", "short demand "))), None)
    if first is None or lines[first].startswith("short"):
        return None, None
    block = [line.split(" ") for line in lines[first : lines.index("end", first)]]
    return {words[1]: words[2] for words in block if words[0] == "hold"}, next(words[1] for words in block if words[0] == "pool")


def told(output):
    """The lines of the first outcome, and the moves that the certificate behind it tells."""
    lines = output.decode().split("\n")
    first = next(k for k, line in enumerate(lines) if line.startswith("plan total "))
    moves = next(line.split(" ")[3] for line in lines[first:] if line.startswith("total "))
    return lines[first : lines.index("end", first) + 1], moves


def adopted(program):
    """How many containers a plan held that was taken up again, or 0 where there was no plan."""
    machine, slit, bundles, script = made_planned()
    words = place(machine, slit, bundles)
    created = [line for line in script if line.startswith(b"create ")][: len({line.split()[1] for line in script if line.startswith(b"create ")})]
    planned = run(program, words, b"\n".join(created + [b"rebalance", b"certificate"]))
    holds, pool = outcome_of(planned.stdout)
    if not holds or pool == "-":
        return 0
    taken = [f"adopt {name} {bundle} {holds.get(name, pool)}".encode() for _, name, bundle in (line.decode().split() for line in created)]
    script = taken + [b"rebalance", b"certificate"]
    done = run(program, words, b"\n".join(script))
    wrong = difference(Runtime(Machine(machine, None), config_of), script, done.stdout)
    block, moves = told(done.stdout)
    if wrong or moves != "0" or block != told(planned.stdout)[0]:
        sys.exit(f"adopted: {machine!r}\n{bundles}\n{script}\n{wrong}\n{planned.stdout}\n{done.stdout}")
    return len(holds)


def main(program):
    random.seed(2)
    program, seen = os.path.abspath(program), 0
    for _ in range(SCRIPTS):
        with tempfile.TemporaryDirectory() as folder:
            os.chdir(folder)
            seen += adopted(program)
            os.chdir("/")
    if seen < LEAST:
        sys.exit(f"adopted: {seen} containers alone were adopted with the sets of a plan")
    print(f"adopted: {SCRIPTS} scripts, {seen} containers on the sets of a plan, none moved")


if __name__ == "__main__":
    main(*sys.argv[1:])
