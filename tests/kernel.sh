#!/usr/bin/env bash
# Compares what the modelled kernel answers to calls with a table and with a second kernel that is written in another language.
# What a kernel asks of the files of a cgroup tree is compared too. TOOLS in the environment is compared in place of the program that this builds.
set -euo pipefail
top=$(cd "$(dirname "$0")/.." && pwd)
. "$top/benches/build-tools.sh"
python3 -B "$top/tests/kernel/compare.py" "$tools"
python3 -B "$top/tests/kernel/mirror.py" "$tools"
