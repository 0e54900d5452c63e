#!/usr/bin/env bash
# Times the solver on problems of 256 rows and 1,023 CPUs, and of 1,024 rows and 4,095 CPUs, beside LEMON's network simplex
# (Debian: liblemon-dev, g++) where that is there.
set -eu
here=$(cd "$(dirname "$0")" && pwd)
BUILD=1  # what is not named is proved and built first
. "$here/../build-tools.sh"

folder=$(mktemp -d)
trap 'rm -rf "$folder"' EXIT
lemon=
if g++ -O2 -std=c++17 -o "$folder/lemon" "$here/lemon.cc" 2>"$folder/log"; then
    lemon=$folder/lemon
else
    echo "without LEMON: $(head -n 1 "$folder/log")"
fi
python3 -B "$here/measure.py" "$tools" $lemon
