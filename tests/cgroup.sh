#!/usr/bin/env bash
# Runs the built program in plain folders that stand for cgroup v2 trees: with each call of the system and each allocation refused in
# turn, killed behind each call, over roots that are not taken or are no partition, two at once, with a look at the folders that a refused
# `create` leaves, with the files marked that an update may write, and beside folders of a run before that wait for their adoption.
# PROGRAM in the environment is run in place of the one that this builds.
set -euo pipefail
top=$(cd "$(dirname "$0")/.." && pwd)
work=$(mktemp -d)
trap 'rm -rf "$work"' EXIT
. "$top/tests/build-preloads.sh"
. "$top/tests/build-program.sh"
cd "$top"
python3 -B tests/cgroup/refusals.py "$program" examples/machines/two-socket.json
python3 -B tests/cgroup/two_programs.py "$program" examples/machines/two-socket.json
python3 -B tests/cgroup/left.py "$program" examples/machines/two-socket.json
python3 -B tests/cgroup/updates.py "$program" examples/machines/two-socket.json
python3 -B tests/cgroup/each_call.py "$program" "$work/folders.so" examples/machines/two-socket.json tests/cgroup/script
python3 -B tests/cgroup/each_call.py "$program" "$work/folders.so" examples/machines/two-socket.json tests/cgroup/direct-script
python3 -B tests/cgroup/sets.py "$program" "$work/folders.so"
python3 -B tests/cgroup/strangers.py "$program" "$work/folders.so"
python3 -B tests/cgroup/partitions.py "$program" "$work/folders.so" examples/machines/two-socket.json
python3 -B tests/cgroup/memory.py "$program" "$work/folders.so" "$work/refuse.so" examples/machines/two-socket.json
