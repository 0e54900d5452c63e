#!/usr/bin/env bash
# A plan on a recorded machine in one to three minutes: quick-look.sh [MACHINE [SCRIPT]]
#
# Builds the program without its proofs and runs a script over a machine file, which are a machine of two sockets and
# examples/scripts/plans where none are named. Wants the Rattle kit, and Python 3.9 or later for it. For the proved program,
# which takes up to an hour once: bash build.sh, which leaves it as crates/numarun/out/numarun.
#
# Each command is printed, behind `>`, before its answer.
#
# Example: examples/quick-look.sh examples/machines/two-socket.json examples/scripts/a-cpu-goes
set -euo pipefail
top=$(cd "$(dirname "$0")/.." && pwd)

say() { echo "quick-look.sh: $1" >&2; }
refuse() { say "$1"; exit 1; }
case ${1:-} in
    -h | --help) sed -n '2,/^set/{/^set/d;s/^# \{0,1\}//;p}' "$0"; exit 0 ;;
    -*) say "$1: no such option"; exit 2 ;;
esac
[ $# -le 2 ] || { say "usage: quick-look.sh [MACHINE [SCRIPT]]"; exit 2; }
machine=${1:-$top/examples/machines/two-socket.json}
script=${2:-$top/examples/scripts/plans}
for file in "$machine" "$script"; do
    [ -f "$file" ] && [ -r "$file" ] || refuse "$file: no such file, or it can't be read"
done
command -v rt > /dev/null || refuse "rt: not there; it is the command of the Rattle kit"

# The program sees the files that it is given by name: the machine, and the config of each bundle that the script names.
data=(--data "machine.json=$(realpath "$machine")")
while read -r bundle; do
    case /$bundle/ in
        //* | */../*) refuse "$script: $bundle: a quick look sees only bundles that are named from the top of the repository" ;;
    esac
    config=$bundle/config.json
    [ -f "$config" ] || config=$top/$bundle/config.json
    [ ! -f "$config" ] || data+=(--data "$bundle/config.json=$(realpath "$config")")
done < <(awk '($1 == "create" || $1 == "update") && NF == 3 || $1 == "adopt" && NF == 4 { print $3 }' "$script" | sort -u)

# Prints each command of the script in $1 before its answer, which is a line, or lines up to `end`.
with_commands() {
    awk -v script="$1" '
        function command(line) {
            word = ""
            while ((getline line < script) > 0)
                if (split(line, words, /[ \t\r]+/) && line ~ /[^ \t\r]/) {
                    word = words[words[1] == "" ? 2 : 1]
                    print "> " line
                    return
                }
        }
        !inside { command() }
        { print }
        inside { inside = $0 != "end"; next }
        word ~ /^(rebalance|begin|list|certificate)$/ && !/^refused E/ { inside = $0 != "end" }'
}

say "built without its proofs, which takes one to three minutes each time; nothing is proved by this"
script=$(realpath "$script")
cd "$top/crates/numarun"
answers=$(rt try "${data[@]}" -- run machine.json < "$script") || status=$?
[ -z "$answers" ] || with_commands "$script" <<< "$answers"
exit "${status:-0}"
