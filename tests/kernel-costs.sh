#!/usr/bin/env bash
# What calls of the modelled kernel and steps of a hand-over take with 1,024 groups, in instructions, which are the same
# whatever else a machine does: none may take more than its bound, far above what it takes and far below what a walk over all
# groups or processes would, or, where a CPU goes or comes, all sets in effect worked out anew, or, where a deep group is read,
# a walk up its path, or, where a name is sought that no group has, a look at each group's name. Direct hand-overs are those of
# `numarun run`. TOOLS and PROGRAM in the environment are counted in place of the programs that this builds. Where there is no
# valgrind it says so, and shows nothing.
set -euo pipefail
top=$(cd "$(dirname "$0")/.." && pwd)
. "$top/benches/build-tools.sh"
. "$top/tests/build-program.sh"
if ! command -v valgrind >/dev/null; then
    echo 'kernel-costs: no valgrind, so nothing was counted'
    exit 0
fi

# chain COUNT: the lines of a kernel with 1,000 groups, each below the one before, and of so many reads of what the last has in effect
chain() {
    echo '0-63 0 0-63 0 2'
    seq -f 'make %g deep' 0 999
    for ((k = 0; k < $1; k++)); do echo 'cpus.effective 1000'; done
}

# siblings COUNT: the lines of a kernel with 1,000 groups below its root, and of so many looks for a name that none has
siblings() {
    echo '0-63 0 0-63 0 2'
    seq -f 'make 0 container-%g' 0 999
    for ((k = 0; k < $1; k++)); do echo 'find 0 container-x'; done
}

# 1,024 containers of three CPUs, each of which is to have those of the next one, the last those of the first; and as many that are
# to change places in pairs
work=$(mktemp -d)
trap 'rm -rf "$work"' EXIT
echo '{"nodes": ["0-4095"], "distances": [[10]], "reserved": "0"}' >"$work/machine.json"
place() { echo "$((3 * ($1 % 1024) + 1))-$((3 * ($1 % 1024) + 3))"; }
# bundle NAME K: a bundle whose container is to have the CPUs of place K
bundle() {
    mkdir "$work/$1"
    printf '{"ociVersion": "1.0.2", "root": {"path": "r"}, "linux": {"resources": {"cpu": {"cpus": "%s"}}}}' "$(place "$2")" >"$work/$1/config.json"
}
for ((k = 0; k < 1024; k++)); do
    bundle "b$k" $((k + 1))
    echo "adopt c$k b$k $(place "$k")" >>"$work/there"
    echo "create c$k b$k" >>"$work/new"
    bundle "p$k" $((k ^ 1))
    echo "adopt c$k p$k $(place "$k")" >>"$work/paired"
done

# steps COUNT: the lines of so many steps of their hand-over
steps() {
    cat "$work/there"
    echo 'begin direct'
    for ((k = 0; k < $1; k++)); do echo step; done
}

# moved COUNT: the lines of a plan for them, handed over once or not at all; for those in pairs; and for containers that come to
# these CPUs
moved() { cat "$work/there" && whole "$1"; }
pairs() { cat "$work/paired" && whole "$1"; }
first() { cat "$work/new" && whole "$1"; }
whole() { [ "$1" -gt 0 ] && echo 'rebalance direct' || echo 'begin direct'; }

# counted WORD COUNT: the instructions of a benchmark, or of the lines of a kernel, or of a script
counted() {
    local words=("$tools" "$1" "$2") lines=
    case $1 in
    chain | siblings) words=("$tools" kernel 0) lines=$("$1" "$2") ;;
    steps | moved | pairs | first) words=("$program" run machine.json) lines=$("$1" "$2") ;;
    esac
    (cd "$work" && valgrind --tool=callgrind --callgrind-out-file=/dev/null "${words[@]}" <<<"$lines" 2>&1 >/dev/null) |
        awk '/Collected/ { print $4 }'
}

# takes WHAT WORD FEW MANY BOUND: one turn of a benchmark, by the difference of so few and so many
failed=0
takes() {
    local one=$((($(counted "$2" "$4") - $(counted "$2" "$3")) / ($4 - $3)))
    echo "kernel-costs: $1: $one instructions, at most $5"
    ((one > 0 && one <= $5)) || failed=1
}

takes 'a write of a leaf, and what it has in effect' leaf-writes 100 1100 8000
takes 'a CPU that goes or comes, and what a leaf has in effect' online-changes 100 1100 200000
takes 'a fork and an exit with 10,000 children alive' forks 20000 30000 3000
takes 'a fork, and an exit once all have forked' forks-and-exits 10000 40000 3000
takes 'a read of what the last of 1,000 nested groups has in effect, with its line' chain 100 1100 30000
takes 'a look for a name that none of 1,000 groups has, with its line' siblings 100 1100 8000
takes 'a hand-over of 1,024 containers, 2,048 writes' hand-overs 0 1 560000000
takes 'a step of a direct one that takes a target' steps 100 900 4000000
takes 'a direct hand-over of 1,024 containers in a ring, 1,025 writes' moved 0 1 30000000
takes 'a direct hand-over of 1,024 containers in 512 rings of two, 1,536 writes' pairs 0 1 33000000
takes 'a direct hand-over of 1,024 containers that come' first 0 1 6000000
exit "$failed"
