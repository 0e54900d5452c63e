#!/usr/bin/env bash
# Compares what the built program answers to problems: to those with a fault what a second reader answers, and to the others
# what a second checker says of the certificate and a plain solver that tries every plan of the cost. To problems on which rows
# contend for the same CPUs, the largest too, with totals that are known without a solver.
# PROGRAM in the environment is compared in place of the one that this builds.
set -euo pipefail
top=$(cd "$(dirname "$0")/.." && pwd)
. "$top/tests/build-program.sh"
python3 -B "$top/tests/solve/compare.py" "$program" "$top/examples"
python3 -B "$top/tests/solve/long.py" "$program"
python3 -B "$top/tests/solve/bounds.py" "$program"
