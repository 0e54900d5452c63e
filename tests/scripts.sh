#!/usr/bin/env bash
# Runs the built program on the worked transcripts, on events between the steps of one, and on some hundreds of random scripts,
# beside a second runtime that is written in another language from docs/formats.md alone; on scripts at each limit; and on
# one that uses up all pids. PROGRAM in the environment is run in place of the one that this builds.
set -euo pipefail
top=$(cd "$(dirname "$0")/.." && pwd)
. "$top/tests/build-program.sh"
for script in "$top"/examples/scripts/*.answers; do
    (cd "$top" && timeout 60 "$program" run examples/machines/two-socket.json <"${script%.answers}") | diff "$script" -
done
sed -n '/^numarun-certificate/,/^end$/p' "$top/examples/scripts/plans.answers" | timeout 60 "$program" check | grep -qx "plan total 30 moves 1"
python3 -B "$top/tests/scripts/worked.py" "$program"
python3 -B "$top/tests/scripts/interleaved.py" "$program"
python3 -B "$top/tests/scripts/compare.py" "$program"
python3 -B "$top/tests/scripts/direct.py" "$program"
python3 -B "$top/tests/scripts/every_direct.py" "$program"
python3 -B "$top/tests/scripts/adopted.py" "$program"
python3 -B "$top/tests/scripts/whole_cores.py" "$program"
python3 -B "$top/tests/scripts/largest.py" "$program"
python3 -B "$top/tests/scripts/last_pid.py" "$program"
