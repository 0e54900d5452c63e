#!/usr/bin/env bash
# Prints what bundles ask for on a machine: ask.sh MACHINE CONFIG..
set -eu
tools=$(cd "$(dirname "$0")/../crates/tools" && pwd)
(cd "$tools" && rt run -- lists 3 > /dev/null)
exec "$tools/out/tools" ask "$@"
