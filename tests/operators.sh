#!/usr/bin/env bash
# Tries the scripts of operators/ and benches/, and a quick look: operators.sh [NAME[/CASE]..], by operators/run.py, whose --list has the names.
# Types come first, where all is run: mypy, pyflakes and the length of functions. What a machine lacks for a case is passed over, and named.
# PROGRAM in the environment is the program that they try; TESTS are names too.
set -euo pipefail
top=$(cd "$(dirname "$0")/.." && pwd)
. "$top/tests/build-program.sh"
work=$(mktemp -d)
trap 'rm -rf "$work"' EXIT
. "$top/tests/build-preloads.sh"
export PROGRAM=$program GROUPS_LIBRARY=$work/groups.so
read -ra named <<<"${TESTS:-} $*"

# Debian's hypothesis, by which decisions.py makes its cases, and what makes the package: no case installs anything, since two at once would stand
# in each other's way.
lacking=()
/usr/bin/python3 -c "import hypothesis" 2>/dev/null || lacking+=(python3-hypothesis)
command -v dh_python3 >/dev/null || lacking+=(debhelper dh-python)
command -v lintian >/dev/null || lacking+=(lintian)
if [ ${#lacking[@]} -gt 0 ]; then
    echo "operators: installing ${lacking[*]} by apt-get" >&2
    { apt-get -qq update && apt-get -qq install -y --no-install-recommends "${lacking[@]}"; } >/dev/null 2>&1 || true
fi
[ ${#named[@]} -gt 0 ] || bash "$top/tests/operators/types.sh"
python3 -B "$top/tests/operators/run.py" "${named[@]}"
