#!/usr/bin/env bash
# Runs scripts over a kernel of which one write fails, and over streams that fail or come in pieces, and reads from the kernel what
# is left. TOOLS in the environment is compared in place of the program that this builds.
set -euo pipefail
top=$(cd "$(dirname "$0")/.." && pwd)
. "$top/benches/build-tools.sh"
python3 -B "$top/tests/runs/compare.py" "$tools"
