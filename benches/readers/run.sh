#!/usr/bin/env bash
# Times the readers of machine files, lists and configs, beside common tools.
set -eu
here=$(cd "$(dirname "$0")" && pwd)
BUILD=1  # what is not named is proved and built first
. "$here/../build-tools.sh"
work=$(mktemp -d)
trap 'rm -rf "$work"' EXIT

python3 "$here/inputs.py" "$work"
ls -l "$work" | awk 'NR > 1 { print $9 ": " $5 " bytes" }'
timed 'machine file, read 25 times' "$tools" machine 25 <"$work/machine.json"
timed 'config of 1 MiB, read 10 times' "$tools" config 10 <"$work/config.json"
timed 'set of 2,048 CPUs, printed and read 25,000 times' "$tools" lists 25000
if command -v jq >/dev/null; then
    timed 'jq . on the config, 10 times' bash -c 'for i in {1..10}; do jq . "$1"; done' - "$work/config.json"
fi
if command -v hwloc-calc >/dev/null; then
    timed 'hwloc-calc, 25 lists of 2,048 CPUs' hwloc-calc --input pu:4096 -q <"$work/lists"
fi
