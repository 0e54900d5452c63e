#!/usr/bin/env bash
# Compares what the built programs answer to single inputs with tables: lists, distance tables, machine files and configs, each
# with its first fault or what it says. PROGRAM and TOOLS in the environment are compared in place of those that this builds.
set -euo pipefail
top=$(cd "$(dirname "$0")/.." && pwd)
. "$top/tests/build-program.sh"
. "$top/benches/build-tools.sh"
python3 -B "$top/tests/inputs/compare.py" "$program" "$tools"
