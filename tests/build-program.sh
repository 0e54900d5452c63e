# Names the program that PROGRAM in the environment says, or builds it first, which proves it, where BUILD says so.
program=${PROGRAM:-}
if [ -z "$program" ] && [ -z "${BUILD:-}" ]; then
    echo "$0: no program: PROGRAM names one, and BUILD=1 lets this prove and build it first, which takes up to an hour" >&2
    exit 2
fi
if [ -z "$program" ]; then
    numarun_crate=$(cd "$(dirname "${BASH_SOURCE[0]}")/../crates/numarun" && pwd)
    built=$(cd "$numarun_crate" && rt run <stdin 2>&1) || { tail -5 <<<"$built"; exit 1; }
    program=$numarun_crate/out/numarun
fi
