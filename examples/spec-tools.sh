#!/usr/bin/env bash
# Shows that the config.json which `crun spec` and `runc spec` write is read, can be started, and asks for no CPUs of its
# own. It wants Debian's packages crun and runc, and the Rattle kit. tests/all.sh does not run it.
set -eu
top=$(cd "$(dirname "$0")/.." && pwd)
work=$(mktemp -d)
trap 'rm -rf "$work"' EXIT
for tool in crun runc; do
    mkdir "$work/$tool"
    (cd "$work/$tool" && "$tool" spec)
done
echo '{"nodes":["0-15","16-31"],"distances":[[10,21],[21,10]],"reserved":"0"}' > "$work/machine.json"
"$top/examples/ask.sh" "$work/machine.json" "$work"/*/config.json | tee "$work/answers"
if [ "$(grep -c ': runnable, shared, homes 0-1$' "$work/answers")" != 2 ]; then
    echo 'one of them is not read as runnable and shared' >&2
    exit 1
fi
