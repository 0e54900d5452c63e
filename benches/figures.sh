#!/usr/bin/env bash
# Measures what the tables of benches/README.md and of 'What it gains' in README.md are filled with, each behind a line that says which:
# figures.sh [counts|peers|times]..., all three where none is named. Counts of instructions (valgrind) and of CPUs are the same
# whatever else the machine does, and are made by four at once; times want a machine that does nothing else. PROGRAM and TOOLS in
# the environment are run in place of those that this builds.
set -euo pipefail
here=$(cd "$(dirname "$0")" && pwd)
top=$(cd "$here/.." && pwd)
for part in "${@:-counts}"; do
    case $part in
        counts | peers | times) ;;
        *) sed -n '2,/^set/{/^set/d;s/^# \{0,1\}//;p}' "$0" >&2; exit 2 ;;
    esac
done
BUILD=1  # what is not named is proved and built first
. "$top/tests/build-program.sh"
. "$here/build-tools.sh"
export PROGRAM=$program TOOLS=$tools
folder=$(mktemp -d)
trap 'rm -rf "$folder"' EXIT

# together NAME COMMAND..: runs the command into a file of this name, beside others
together() {
    while [ "$(jobs -rp | wc -l)" -ge 4 ]; do wait -n || exit 1; done
    "${@:2}" > "$folder/$1" &
}

# shown TEXT NAME..: what fills the tables that the text names
shown() {
    printf '\n== %s\n' "$1"
    (cd "$folder" && cat "${@:2}")
}

counts() {
    local jobs name
    jobs=$(cd "$here/rebalance" && python3 -B -c 'import measure; print(*measure.JOBS)')
    for name in $jobs; do
        together "$name" bash "$here/rebalance/run.sh" --count "$name"
    done
    wait
    shown "benches/README.md, 'Figures', the first table, and that of whole cores: thousands of instructions" $jobs
}

peers() {
    together peers bash "$here/peers/run.sh"
    together moves bash "$here/moves/run.sh"
    wait
    shown "README.md, 'What it gains', the rows 'all 5' and 'all 3'; benches/README.md, 'How peers compares'" peers
    shown "benches/README.md, 'How moves counts', the columns 'now'" moves
}

times() {
    bash "$here/solver/run.sh" > "$folder/solver"
    shown "benches/README.md, the solver beside LEMON" solver
    bash "$here/kernel/run.sh" > "$folder/kernel" 2>&1
    shown "benches/README.md, the kernel and scripts" kernel
    bash "$here/script/run.sh" > "$folder/script" 2>&1
    shown "the same, scripts" script
}

[ $# -gt 0 ] || set -- counts peers times
for part in "$@"; do
    "$part"
done
