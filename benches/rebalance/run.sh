#!/usr/bin/env bash
# Times `rebalance` of 255 or 256 containers on 1,024 CPUs of 2, 8 and 64 nodes, numbered in turn over them and node by node, of 443 on
# 2,048 in turn over 2, and of 1,000 to 1,024 containers on 4,096 CPUs of 8 and of 128: with CPU lists of their own, with few CPUs of
# their own, with the distances of a ring, and of 2,048 cores, whose CPUs are far apart or side by side, beside the same without cores;
# from nothing, after one container went, and after a CPU went off; beside the solver alone on the same rows. And counts what a
# `create` takes. `run.sh [--count] [NAME..]` counts instructions alone, and does some of the jobs.
set -eu
here=$(cd "$(dirname "$0")" && pwd)
top=$(cd "$here/../.." && pwd)
BUILD=1  # what is not named is proved and built first
. "$top/tests/build-program.sh"
. "$here/../build-tools.sh"
python3 -B "$here/measure.py" "$program" "$tools" "$@"
