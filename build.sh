#!/usr/bin/env bash
# Proves what the program needs and nothing else, and builds it: first the crates that others can be proved beside, as many at a time
# as there are processors or as are said, then one after another those that wait for all before, since one check alone takes more
# processors than one of several. That is done in out/build, where the list of crates has these alone, beside links to their files;
# what is kept moves there and back.
# Usage: bash build.sh [CRATES]
set -euo pipefail
cd "$(dirname "${BASH_SOURCE[0]}")"
crates=${1:-$(nproc)}
room=$PWD/out/build

back() {
    for kept in "$room"/crates/*/out; do
        [ ! -d "$kept" ] || mv -T "$kept" "crates/$(basename "$(dirname "$kept")")/out"
    done
    rm -rf "$room"
}

# Puts a crate into out/build.
put() {
    mkdir -p "$room/crates/$1"
    find "crates/$1" -mindepth 1 -maxdepth 1 ! -name out -exec cp -al {} "$room/crates/$1" \;
    [ ! -d "crates/$1/out" ] || mv "crates/$1/out" "$room/crates/$1"
}

back
trap back EXIT
mkdir -p "$room"
cp HANDLES "$room"
# The lowest crates stand first: from the end on, each that is needed is named before its own line comes.
tac crates.txt | awk -F'[: ]+' 'BEGIN { need["numarun"] } !/^#/ && $1 in need { print; for (i = 2; i <= NF; i++) need[$i] }' \
    | tac >"$room/needed.txt"
# `solution` waits for nearly all of them, and so does what names it.
mapfile -t last < <(awk -F'[: ]+' 'BEGIN { late["solution"] } { for (i = 2; i <= NF; i++) if ($i in late) late[$1] } $1 in late { print $1 }' \
    "$room/needed.txt")
grep -vE "^($(IFS='|'; echo "${last[*]}")):" "$room/needed.txt" >"$room/crates.txt"
for name in $(cut -d: -f1 "$room/crates.txt"); do
    put "$name"
done
(cd "$room" && rt all check --jobs "$crates")
mv "$room/needed.txt" "$room/crates.txt"
for name in "${last[@]}"; do
    put "$name"
done
for name in "${last[@]}"; do
    (cd "$room/crates/$name" && rt check)
done
back
(cd crates/numarun && rt run -- --version)
