#!/usr/bin/env bash
# Tries tests/run, which runs the other tests, over made ones; and its types and those of what reads the pages, where mypy is there or
# can be installed.
set -euo pipefail
cd "$(dirname "$0")/.."
if ! command -v mypy >/dev/null; then
    echo "driver: there is no mypy; installing it by apt-get" >&2
    { apt-get -qq update && apt-get -qq install -y --no-install-recommends mypy; } >/dev/null 2>&1 || true
fi
if command -v mypy >/dev/null; then
    for script in tests/run tests/driver/cases.py tests/pages/imports.py tests/pages/look_up.py tests/pages/rows.py; do
        mypy --strict --cache-dir=/dev/null "$script"
    done
else
    echo "driver: the types are passed over: there is no mypy, and it can't be installed"
fi
exec python3 -B tests/driver/cases.py
