#!/usr/bin/env bash
# Compares what the built program answers to each command line of a table with what stands there: the exit status,
# and both streams byte by byte. PROGRAM in the environment is compared in place of the one that this builds.
set -euo pipefail
top=$(cd "$(dirname "$0")/.." && pwd)
. "$top/tests/build-program.sh"
python3 -B "$top/tests/command-line/compare.py" "$program" "$top/tests/command-line/table" "$top/crates/numarun/stdin"
