"""Runs a script that forks until every pid was given, and then asks for more of them, and one that makes and removes a container
more than 65,536 times, so that as many groups are made: `last_pid.py PROGRAM`. What is to be answered is counted here; a second
runtime would take minutes over it. Without pids a `create` of a new id leaves nothing, so that 50,000 of them take no memory."""

import os
import sys
import tempfile

from transcripts import config, place, run

PEAK = os.path.join(os.path.dirname(os.path.abspath(__file__)), "..", "peak.py")

LAST = 4_194_303
MACHINE = b'{"nodes":["0-3"],"distances":[[10]],"reserved":"0"}'
BEFORE = [("create a ba", "pid 2")]
GIVEN = [("fork 2", f"pid {pid}") for pid in range(3, LAST + 1)]
AFTER = [
    ("fork 2", "refused E45 NoPids"),
    ("fork 1", "refused E46 NoProcess"),
    ("create b ba", "refused E45 NoPids"),
    ("list", "a created\nend"),
    ("exit 2", "ok"),
    ("fork 2", "refused E46 NoProcess"),
    ("delete a", "ok"),
    ("create a ba", "refused E45 NoPids"),
    ("list", "end"),
]
NEW = [(f"{command} c{k} ba{cpus}", "refused E45 NoPids") for k in range(25_000) for command, cpus in (("create", ""), ("adopt", " 0"))]
MORE_MEMORY = 8 * 2**20
MADE = [line for k in range(66_000) for line in (("create a ba", f"pid {k + 2}"), ("kill a 9", "ok"), ("delete a", "ok"))]


def compare(program, lines):
    """Compares the answers, and tells how much memory the program had at most, in bytes."""
    with tempfile.TemporaryDirectory() as folder:
        os.chdir(folder)
        words = place(MACHINE, None, {"ba": config({"quota": 100000})})
        done = run(sys.executable, [PEAK, program, *words], b"".join(line.encode() + b"\n" for line, _ in lines))
        os.chdir("/")
    expected = "".join(answer + "\n" for _, answer in lines).encode()
    if (done.returncode, done.stdout) != (0, expected) or not done.stderr.strip().isdigit():
        sys.exit(f"last pid: status {done.returncode}, the last answers {done.stdout[-300:]}, error {done.stderr[:300]}")
    print(f"last pid: {len(lines)} lines")
    return int(done.stderr) * 1024


def main(program):
    program = os.path.abspath(program)
    most = compare(program, BEFORE + GIVEN + AFTER)
    more = compare(program, BEFORE + GIVEN + NEW) - most
    if more > MORE_MEMORY:
        sys.exit(f"last pid: {len(NEW)} creates that are refused take {more} bytes")
    compare(program, MADE)


main(*sys.argv[1:])
