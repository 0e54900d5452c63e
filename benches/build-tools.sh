# Names the program `tools` that TOOLS in the environment says, or builds it first, which proves it, where BUILD says so.
tools=${TOOLS:-}
if [ -z "$tools" ] && [ -z "${BUILD:-}" ]; then
    echo "$0: no program: TOOLS names one, and BUILD=1 lets this prove and build it first, which takes up to an hour" >&2
    exit 2
fi
if [ -z "$tools" ]; then
    tools_crate=$(cd "$(dirname "${BASH_SOURCE[0]}")/../crates/tools" && pwd)
    (cd "$tools_crate" && rt run -- lists 3 >/dev/null) || exit 1
    tools=$tools_crate/out/tools
fi

# timed LABEL COMMAND..: runs the command, and prints what it took
TIMEFORMAT='%3R s'
timed() {
    local label=$1
    shift
    printf '%s: ' "$label"
    time "$@" >/dev/null
}
