"""Tries numarun-dry-run: where a container would go, by hand; that another run comes to the same, and that nothing is written."""

from __future__ import annotations

import json
import os
import shutil

from trial import EXAMPLES, PROGRAM, TOP, Told, bad_files, bad_output, case, check, piped, refuses, scratch, told, words_and_help, written

MACHINE = os.path.join(EXAMPLES, "machines", "two-socket.json")
DATABASE, PACKETS, WEB, CONTROL = (f"examples/bundles/{name}" for name in ("database", "packet-processing", "web", "real-time"))
AFTER = ["--after", os.path.join("examples", "scripts", "a-cpu-goes")]
# By hand, over the plan that a-cpu-goes ends with: the database on the cores 1-3 and 6-8, packets on 4-5, 182 together.
CASES = [
    ((CONTROL, *AFTER), "new would have 12,28: 2 CPUs, distance 20\ntotal distance: 202; 0 CPUs of the others would move"),
    ((WEB, *AFTER), "new asks for no CPUs of its own, and would run on the pool: 0,9-16,25-31\ntotal distance: 182; 0 CPUs of the others would move"),
    (("--cpus", "2", "--cpuset-mems", "0", *AFTER), "new would have 9,25: 2 CPUs, distance 42\n  far: 9,25 at 21\ntotal distance: 224; 0 CPUs of the others would move"),
    (("--cpus", "2.2", "--cpuset-cpus", "8-9,24-25", "--id", "x", *AFTER), "x would have 8-9,24-25: 4 CPUs, distance 40\n"
     "database would give 8,24 and get 10,26\ntotal distance: 222; 2 CPUs of the others would move"),
    (("--cpus", "0.5"), "new would have 1,17: 2 CPUs, distance 20\nits home would be node 0\ntotal distance: 20; 0 CPUs of the others would move"),
    (("--cpuset-cpus", "5-6,20-22"), "new would have 5-6,21-22: 4 CPUs, distance 40\nits home would be node 0\ntotal distance: 40; 0 CPUs of the others would move"),
    ((DATABASE,), "new would have 1-6,17-22: 12 CPUs, distance 120\ntotal distance: 120; 0 CPUs of the others would move"),
]
NO_PLACE = """new has no place
short: packets and new together ask for 6 CPUs and may have 4: 4-5,20-21
missing: 2 CPUs
each of these makes room by itself:
  end new
  end packets, or shrink it from 4 to 2 CPUs
  allow new 2 CPUs more, as """


def dry(*words: str, text: str = "") -> Told:
    return told("numarun-dry-run", MACHINE, "--program", PROGRAM, "--pin", "all", *words, text=text)


@case
def places() -> None:
    """Where a container would go, and that there is no place for one."""
    for words, expected in CASES:
        check(f"{' '.join(words)}", dry(*words), (0, expected + "\n", ""))
    status, out, err = dry("--cpus", "1", "--cpuset-cpus", "4-5,20-21", *AFTER)
    check("no place", (status, out.startswith(NO_PLACE), err), (1, True, ""))


@case
def rules() -> None:
    """Who is pinned, and what is left to the pool."""
    status, out, err = dry("--cpus", "0.5", "--pin", "whole")
    check("a part of a CPU", (status, out.splitlines()[0], err), (0, "new asks for no CPUs of its own, and would run on the pool: 0-31", ""))
    status, out, err = dry("--cpus", "29")
    check("what is left to the pool", (status, " ".join(out.split()), err),
          (1, "new has no place: it would leave 2 CPUs to the pool, and that keeps 4 (see --pool-least)", ""))
    check("where nothing is left to it", dry("--cpus", "30", "--pool-least", "0")[0], 0)
    os.mkdir(scratch("left"))
    config = {"ociVersion": "1.0.2", "root": {"path": "r"}, "process": {"env": ["NUMARUN_PIN=false"]}, "linux": {"resources": {"cpu": {"quota": 200000, "period": 100000}}}}
    written(scratch("left", "config.json"), json.dumps(config))
    check("one that is left out", dry(scratch("left"))[1].splitlines()[0], "new asks for no CPUs of its own, and would run on the pool: 0-31")


@case
def beside_what_runs() -> None:
    """Beside the containers of a folder, of which one is no container, and one no JSON; and where a CPU is offline."""
    running = scratch("running")
    for name, bundle in [("database", DATABASE), ("packets", PACKETS), ("a b", WEB), ("not-yet", None)]:
        os.makedirs(os.path.join(running, name))
        if bundle:
            shutil.copy(os.path.join(TOP, bundle, "config.json"), os.path.join(running, name))
    check("beside what runs", dry(CONTROL, "--running", running), dry(CONTROL, *AFTER))
    online = scratch("list")
    with open(online, "w") as file:
        file.write("0-5,7-31\n")
    status, out, err = dry("--cpuset-cpus", "5-7,21-23", "--online", online)
    check("a CPU that is offline", (status, out.splitlines()[0]), (1, "new has no place"))
    with open(os.path.join(running, "not-yet", "config.json"), "w") as file:
        file.write("{")
    status, out, err = dry(CONTROL, "--running", running)
    check("a config that is not whole", (status, out.splitlines()[0], err),
          (0, "new would have 12,28: 2 CPUs, distance 20", f"numarun-dry-run: passed over: {running}/not-yet: refused E56 NotJson\n"))


@case
def behind_a_script() -> None:
    """Behind a script that ends in the midst of a hand-over, has the id already, or has an ended container."""
    check("an open hand-over", dry(CONTROL, "--after", "-", text=f"create database {DATABASE}\nbegin\n")[1].splitlines()[0], "new would have 12,28: 2 CPUs, distance 20")
    check("an id that is taken", dry(CONTROL, "--after", "-", text=f"create new {WEB}\n")[1].splitlines()[0], "new-2 would have 12,28: 2 CPUs, distance 20")
    gone = f"create database {DATABASE}\nrebalance\nkill database KILL\n"
    check("one that has stopped", dry(CONTROL, "--after", "-", text=gone)[1].splitlines()[-1], "total distance: 20; 0 CPUs of the others would move")


@case
def refusals() -> None:
    words_and_help("numarun-dry-run", "operators/numarun-dry-run examples/machines/two-socket.json examples/bundles/real-time")
    bad_files("numarun-dry-run", ["--program", PROGRAM], [WEB])
    bad_output("numarun-dry-run", MACHINE, WEB, "--program", PROGRAM)
    piped("numarun-dry-run", MACHINE, WEB, "--program", PROGRAM)
    refuses("numarun-dry-run", MACHINE, "--program", PROGRAM, says="no container: name its bundle, or what it asks for (see --help)")
    refuses("numarun-dry-run", MACHINE, WEB, "--cpus", "2", "--program", PROGRAM, says="a bundle tells what it asks for, so that no option can")
    refuses("numarun-dry-run", MACHINE, "no-bundle", "--program", PROGRAM, says="no-bundle: refused E111 NoBundle")
    refuses("numarun-dry-run", MACHINE, "--cpuset-cpus", "3-99", "--program", PROGRAM, says="what is asked for: refused E63 NoSuchCpu 32")
    refuses("numarun-dry-run", MACHINE, "--cpuset-mems", "x", "--program", PROGRAM, says="what is asked for: refused E64 BadMems E10 0")
    refuses("numarun-dry-run", MACHINE, WEB, "--id", "a/b", "--program", PROGRAM, says="refused E91 BadId")
    refuses("numarun-dry-run", MACHINE, WEB, "--after", "no-script", "--program", PROGRAM, says="no-script: No such file")
    refuses("numarun-dry-run", MACHINE, WEB, "--running", "no-folder", "--program", PROGRAM, says="no-folder: No such file")
    refuses("numarun-dry-run", MACHINE, WEB, "--online", "no-list", "--program", PROGRAM, says="no-list: No such file")
    refuses("numarun-dry-run", MACHINE, WEB, "--program", "no-such-program", says="no-such-program: no program (see --program)")
    refuses("numarun-dry-run", MACHINE, WEB, "--after", "-", "--program", PROGRAM, text="list\nfoo bar\n", says="standard input: line 2: refused E110 BadLine: 'foo bar'")
    for words in (["--cpus", "0"], ["--cpus", "nan"], ["--cpus", "x"], ["--after", "x", "--running", "y"]):
        check(f"{words}", dry(WEB, *words)[0], 2)
