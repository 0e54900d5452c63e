#!/usr/bin/env bash
# Times the modelled kernel, beside the plain recursion, and hand-overs over it.
set -eu
here=$(cd "$(dirname "$0")" && pwd)
BUILD=1  # what is not named is proved and built first
. "$here/../build-tools.sh"

timed '100,000 writes of a leaf of 1,024' "$tools" leaf-writes 100000
timed 'the same with all effective sets worked out anew' "$tools" plain-leaf-writes 100000
timed '100,000 changes of the online CPUs' "$tools" online-changes 100000
timed 'the same by the plain recursion' "$tools" plain-online-changes 100000
timed '1,000,000 forks and exits with 10,000 children alive' "$tools" forks 1000000
timed '100,000 forks, and then 100,000 exits, the oldest first' "$tools" forks-and-exits 100000
timed '25 hand-overs of 1,024 containers, 51,200 writes' "$tools" hand-overs 25
