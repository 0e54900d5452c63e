"""Runs a command and prints the most memory that it held: `memory.py COMMAND WORD..`."""

import resource
import subprocess
import sys

subprocess.run(sys.argv[1:], stdout=subprocess.DEVNULL, check=True)
print("most memory:", resource.getrusage(resource.RUSAGE_CHILDREN).ru_maxrss, "KiB")
