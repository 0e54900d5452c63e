#!/usr/bin/env bash
# Compares what the solver answers to some thousands of small problems, made by a fixed rule, with what a plain solver
# finds that tries every plan; and counts its instructions on the inputs that are worst for it. TOOLS in the environment is
# compared in place of the program that this builds.
set -euo pipefail
top=$(cd "$(dirname "$0")/.." && pwd)
. "$top/benches/build-tools.sh"
python3 -B "$top/tests/solver/compare.py" "$tools"
python3 -B "$top/tests/solver/bounds.py" "$tools"
