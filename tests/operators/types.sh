#!/usr/bin/env bash
# Checks the types of operators/ and of its tests by Debian's mypy, strictly, and of operators/ as Python 3.9 has them; their names by pyflakes; and
# that no function is longer than 40 lines. What is not there is installed by apt-get, or passed over and named where it can't be had.
set -euo pipefail
top=$(cd "$(dirname "$0")/../.." && pwd)

# have PROGRAM PACKAGE: whether the program is there, or could be installed.
have() {
    [ -x "/usr/bin/$1" ] && return
    echo "types.sh: there is no $1; installing $2 by apt-get" >&2
    { apt-get -qq update && apt-get -qq install -y "$2"; } > /dev/null 2>&1 && [ -x "/usr/bin/$1" ] && return
    echo "types: passed over, as there is no $1 and $2 can't be installed"
    return 1
}

cd "$top/operators"
programs=(numarun-agent numarun-hook numarun-dry-run numarun-explain numarun-draw-plan numarun-describe numarun-runc)
if have mypy mypy; then
    mypy --strict --python-version 3.9 --no-error-summary --cache-dir=/dev/null --scripts-are-modules numarun_host "${programs[@]}"
fi
tests=("$top"/tests/operators/*.py)
if have mypy mypy; then
    MYPYPATH=. mypy --strict --no-error-summary --cache-dir=/dev/null "${tests[@]}"
fi
if have pyflakes3 pyflakes3; then
    pyflakes3 numarun_host "${programs[@]}" "$top"/tests/operators/*.py
fi
python3 -B - numarun_host/*.py "$top"/tests/operators/*.py <<'SCRIPT'
import ast
import sys

long = []
for path in sys.argv[1:]:
    with open(path) as file:
        tree = ast.parse(file.read())
    for node in ast.walk(tree):
        if isinstance(node, (ast.FunctionDef, ast.AsyncFunctionDef)) and node.end_lineno - node.lineno >= 40:
            long.append(f"{path}: {node.name} has {node.end_lineno - node.lineno + 1} lines")
if long:
    sys.exit("\n".join(long))
SCRIPT
echo "types: as expected"
