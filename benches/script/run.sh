#!/usr/bin/env bash
# Times `numarun run` on scripts of 100,000 and of 1,000,000 lines over 1,024 containers, beside `cat` of the same bytes, and
# prints the most memory that it held on each.
set -eu
here=$(cd "$(dirname "$0")" && pwd)
top=$(cd "$here/../.." && pwd)
work=$(mktemp -d)
trap 'rm -rf "$work"' EXIT

BUILD=1  # what is not named is proved and built first
. "$top/tests/build-program.sh"

exec 2>&1
TIMEFORMAT='%3R s'
for count in 100000 1000000; do
    python3 -B "$here/lines.py" "$work" "$count"
    cd "$work"
    for round in 1 2 3; do
        echo -n "$count lines, numarun run: "; time "$program" run machine.json <script >answers
        echo -n "$count lines, cat: "; time cat script >/dev/null
    done
    python3 -B "$here/memory.py" "$program" run machine.json <script
done
