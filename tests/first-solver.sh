#!/usr/bin/env bash
# Compares what the solver answers to made problems, to the letter, with what its first form answers: which of the optimal plans
# it finds, with which dual variables, which shortage, and in how many turns, of which contracts fix none.
# tests/solver/first-form keeps the sources of that form as they were, and they are built here without their proofs, in a minute.
# TOOLS in the environment is compared in place of the program that this builds.
set -euo pipefail
top=$(cd "$(dirname "$0")/.." && pwd)
. "$top/benches/build-tools.sh"
work=$(mktemp -d)
trap 'rm -rf "$work"' EXIT

cp "$top/crates.txt" "$work"
for crate in "$top"/crates/*; do
    mkdir -p "$work/crates/$(basename "$crate")"
    cp -r "$crate/src" "$work/crates/$(basename "$crate")"
done
for crate in twins transport; do
    rm -r "$work/crates/$crate/src"
    mkdir "$work/crates/$crate/src"
    for file in "$top/tests/solver/first-form/$crate"/*.rt.txt; do
        cp "$file" "$work/crates/$crate/src/$(basename "$file" .txt)"
    done
done

# `solution` has a second way by now, which asks for what the first form has not; it is not what is compared here.
cp "$top/tests/solver/first-form/quick.rt.txt" "$work/crates/solution/src/quick.rt"

mkdir "$work/cases"
python3 -B "$top/tests/solver/first_form.py" "$work/cases"
for case in "$work"/cases/*; do
    timeout 60 "$tools" solve < "$case" > "$work/answer"
    mv "$work/answer" "$case.stdout"
done
python3 -B "$top/tests/solver/first_form.py" --seen "$work/cases"
cd "$work/crates/tools"
rt try --cases "$work/cases" -- solve
