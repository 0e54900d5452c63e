#!/usr/bin/env bash
# Runs the built program with streams that fail at each byte and at each write, or that give one byte a read, and counts what
# its commands allocate. PROGRAM in the environment is run in place of the one that this builds.
set -euo pipefail
top=$(cd "$(dirname "$0")/.." && pwd)
work=$(mktemp -d)
trap 'rm -rf "$work"' EXIT
. "$top/tests/build-preloads.sh"
. "$top/tests/build-program.sh"
python3 -B "$top/tests/scripts/streams.py" "$program" "$work/streams.so" "$top/tests/scripts/worked/lifecycle"
python3 -B "$top/tests/scripts/memory.py" "$program" "$work/refuse.so"
