"""Prints a table of the solver's benchmark: `measure.py TOOLS [LEMON]`, in microseconds a run, the least of some.

A run of ours groups the CPUs, searches and deals; LEMON's are given the classes, or, of the smaller problems, take single CPUs.
Of the classes it has two forms: with a sink, and the plain one, which is its better one. Where both programs are there, their
totals are compared. Callgrind counts instructions where it is there. Of the hard families a run that takes long is timed once,
and its instructions are not counted."""

import re
import shutil
import subprocess
import sys
import tempfile
import time
from pathlib import Path

import families

TIMES, MORE_TIMES, ROUNDS = 20, 400, 5
SINGLE = 256
# A run of so many seconds is long.
LONG = 0.5


def seconds(words, text):
    start = time.perf_counter()
    subprocess.run(words, input=text, capture_output=True, check=True)
    return time.perf_counter() - start


def took(tools, text):
    """Microseconds of a run: what some runs more take, by their number; of short runs many, so that reading the text, which
    both do, does not hide them."""
    none = min(seconds([tools, "solve", "0"], text) for _ in range(ROUNDS))
    once = seconds([tools, "solve", "1"], text)
    if once - none > LONG:
        return round((once - none) * 1e6)
    once = min(once, *(seconds([tools, "solve", "1"], text) for _ in range(ROUNDS)))
    for times in TIMES, MORE_TIMES:
        often = min(seconds([tools, "solve", str(times + 1)], text) for _ in range(ROUNDS))
        if often > 2 * once:
            break
    return round((often - once) / times * 1e6)


def instructions(tools, text):
    """Thousands of instructions of a run."""
    if not shutil.which("valgrind"):
        return "-"
    counts = []
    for times in "1", "2":
        words = ["valgrind", "--tool=callgrind", "--callgrind-out-file=/dev/null", tools, "solve", times]
        told = subprocess.run(words, input=text, capture_output=True, check=True).stderr.decode()
        counts.append(int(re.search(r"Collected : (\d+)", told)[1]))
    return round((counts[1] - counts[0]) / 1000)


def total(tools, text):
    answer = subprocess.run([tools, "solve"], input=text, capture_output=True, check=True).stdout.decode()
    found = re.search(r"^total (\d+)$", answer, re.MULTILINE)
    return found[1] if found else "short"


def measured(tools, lemon, text, ways):
    """The columns of a family: its classes, the times of ours and of LEMON's, and the instructions."""
    own = took(tools, text)
    row = ["-", own, "-", "-", "-", instructions(tools, text) if own < LONG * 1e6 else "-"]
    for place, words in ways if lemon else []:
        cost, count, row[place] = subprocess.run([lemon, *words], input=text, capture_output=True, check=True).stdout.decode().split()
        if place == 2:
            row[0] = count
        if cost != total(tools, text):
            sys.exit(f"LEMON's least cost is {cost}, ours {total(tools, text)}")
    return row


def main(tools, lemon=None):
    for last, rows in families.SIZES:
        print(f"{f'{rows} rows, {last} CPUs':32} {'classes':>8} {'ours':>8} {'LEMON':>8} {'plain':>8} {'on CPUs':>8} {'instructions / 1000':>20}")
        ways = [(2, ["classes", "5"]), (3, ["plain", "5"])] + [(4, ["cpus", "1"])] * (rows <= SINGLE)
        with tempfile.TemporaryDirectory() as folder:
            families.main(folder, last, rows)
            for name in families.FAMILIES | families.HARD:
                hard = [(place, [form, "1"]) for place, (form, _) in ways if form != "cpus"]
                row = measured(tools, lemon, Path(folder, name).read_bytes(), hard if name in families.HARD else ways)
                print(f"{name:32} {row[0]:>8} {row[1]:>8} {row[2]:>8} {row[3]:>8} {row[4]:>8} {row[5]:>20}", flush=True)


if __name__ == "__main__":
    main(*sys.argv[1:])
