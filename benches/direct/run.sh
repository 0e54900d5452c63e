#!/usr/bin/env bash
# Counts the writes of hand-overs in both orders, and who is squeezed onto the reserved CPUs meanwhile, in ten families of plans: run.sh [FAMILY..]
# PROGRAM in the environment is run in place of the one that this builds.
set -eu
here=$(cd "$(dirname "$0")" && pwd)
top=$(cd "$here/../.." && pwd)
case ${1:-} in
    -h | --help) exec python3 -B "$here/measure.py" --help ;;
esac
BUILD=1  # what is not named is proved and built first
. "$top/tests/build-program.sh"
exec python3 -B "$here/measure.py" "$program" "$@"
