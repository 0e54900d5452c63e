#!/usr/bin/env bash
# Times the first `rebalance` of 1,023 containers on 4,096 CPUs of 128 nodes over plain folders that stand for a cgroup tree, beside
# the same over the model alone; and counts what a write takes: calls of the system, and instructions.
set -eu
here=$(cd "$(dirname "$0")" && pwd)
top=$(cd "$here/../.." && pwd)
BUILD=1  # what is not named is proved and built first
. "$top/tests/build-program.sh"
python3 -B "$here/measure.py" "$program"
