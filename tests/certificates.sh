#!/usr/bin/env bash
# Compares what the built program answers to some thousands of certificates with what a second checker answers,
# which is written in another language from docs/formats.md alone, and to those at each limit, and to texts as long as an input may
# be, with what is counted by hand.
# PROGRAM in the environment is compared in place of the one that this builds.
set -euo pipefail
top=$(cd "$(dirname "$0")/.." && pwd)
. "$top/tests/build-program.sh"
python3 -B "$top/tests/certificates/compare.py" "$program" "$top/crates/numarun/stdin"
python3 -B "$top/tests/certificates/largest_texts.py" "$program"
