#!/usr/bin/env bash
# Compiles the tables of this folder and iasl's own template with ACPICA's iasl (Debian: acpica-tools), prints
# each with `numarun slit`, and compares what is printed with the rows as they were written.
set -eu
top=$(cd "$(dirname "$0")/../.." && pwd)
work=$(mktemp -d)
trap 'rm -r "$work"' EXIT
(cd "$top/crates/numarun" && rt run <stdin >"$work/log" 2>&1) || { tail -5 "$work/log"; exit 1; }
program=$top/crates/numarun/out/numarun
cp "$top"/examples/slit/*.asl "$work"
(cd "$work" && iasl -T SLIT > log 2>&1)
mv "$work/slit.asl" "$work/template.asl"

# The rows of a table's source, in decimal.
rows() {
    sed -e ':join' -e '/\\$/{N;s/\\\n//;bjoin' -e '}' "$1" | sed -n 's/.*Locality *[0-9]* : //p' |
        while read -r row; do
            entries=()
            for entry in $row; do entries+=("$((16#$entry))"); done
            echo "${entries[*]}"
        done
}

for source in "$work"/*.asl; do
    name=$(basename "$source" .asl)
    iasl -p "$work/$name" "$source" > "$work/log" 2>&1
    rows "$source" > "$work/$name.rows"
    { echo "localities $(wc -l < "$work/$name.rows")"; cat "$work/$name.rows"; } > "$work/$name.written"
    "$program" slit "$work/$name.aml" > "$work/$name.printed"
    diff "$work/$name.written" "$work/$name.printed"
    echo "$name: as written"
done
