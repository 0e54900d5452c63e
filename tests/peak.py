"""Runs a program, and prints on standard error how many KiB it had at most: `peak.py PROGRAM WORD..`. It is a process of its own, since
the kernel counts what a process has when it starts a program as the program's."""

import os
import subprocess
import sys


def main(words: list[str]) -> int:
    process = subprocess.Popen(words)
    _, status, used = os.wait4(process.pid, 0)
    process.returncode = os.waitstatus_to_exitcode(status)
    print(used.ru_maxrss, file=sys.stderr)
    return process.returncode


if __name__ == "__main__":
    sys.exit(main(sys.argv[1:]))
