"""Compares what scripts come to over a kernel of which a write fails, and over streams that fail, with what is written down:
`compare.py TOOLS`."""

import os
import sys
import tempfile

import by_pieces
import over_failing
from run import MACHINE, place


def main(tools):
    tools, counts = os.path.abspath(tools), []
    for part in (over_failing, by_pieces):
        runs = [run for cases in part.RUNS for run in cases()]
        with tempfile.TemporaryDirectory() as folder:
            os.chdir(folder)
            place(MACHINE, None, part.BUNDLES)
            for run in runs:
                wrong = run.wrong(tools, part.BUNDLES)
                if wrong:
                    sys.exit(f"runs: {wrong}")
            os.chdir("/")
        counts.append(f"{len(runs)} {part.__name__.replace('_', ' ')}")
    print("runs:", ", ".join(counts))


main(*sys.argv[1:])
