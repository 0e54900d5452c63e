"""Counts instructions for tests, by callgrind, which counts the same however busy a machine is."""

import re
import shutil
import subprocess
import sys

from program import run

SECONDS = 600


def has_valgrind():
    """Whether there is valgrind. Where it is not there it is installed by apt-get, with a line."""
    if not shutil.which("valgrind"):
        print("bounds: there is no valgrind; installing it by apt-get", file=sys.stderr)
        subprocess.run("apt-get -qq update && apt-get -qq install -y valgrind", shell=True, stdout=subprocess.DEVNULL)
    if not shutil.which("valgrind"):
        print("bounds: nothing is counted without valgrind")
    return shutil.which("valgrind")


def instructions(words, given):
    """How many instructions a program takes, whose status has to be 0."""
    done = run(["valgrind", "--tool=callgrind", "--callgrind-out-file=/dev/null", *words], given, SECONDS)
    found = re.search(rb"Collected : (\d+)", done.stderr)
    if done.returncode or not found:
        sys.exit(f"bounds: {done}")
    return int(found[1])
