#!/usr/bin/env bash
# Times `numarun check` on four certificates of as many rows as the limits admit, beside `cat` and `wc -l`, and
# counts its instructions where valgrind is there.
set -eu
here=$(cd "$(dirname "$0")" && pwd)
top=$(cd "$here/../.." && pwd)
work=$(mktemp -d)
trap 'rm -rf "$work"' EXIT

(cd "$top/crates/numarun" && rt run <stdin >"$work/log" 2>&1) || { tail -5 "$work/log"; exit 1; }
program=$top/crates/numarun/out/numarun

exec 2>&1
TIMEFORMAT='%3R s'
for name in 'largest.py 1' 'largest.py 4' 'largest.py 512' 'singles.py 1024'; do
    certificate=$work/certificate
    read -r script number <<<"$name"
    python3 -B "$here/$script" "$number" >"$certificate"
    bytes=$(wc -c <"$certificate")
    echo "$name: $bytes bytes"
    for round in 1 2 3; do
        echo "round $round"
        echo -n 'numarun check: '; time "$program" check "$certificate" >"$work/answer"
        echo -n 'cat: '; time cat "$certificate" >/dev/null
        echo -n 'wc -l: '; time wc -l "$certificate" >/dev/null
    done
    cat "$work/answer"
    if command -v valgrind >/dev/null; then
        valgrind --tool=callgrind --callgrind-out-file=/dev/null "$program" check "$certificate" 2>&1 >/dev/null |
            awk -v bytes="$bytes" '/Collected/ { printf "instructions: %d, %.1f a byte\n", $4, $4 / bytes }'
    fi
done
