# Compiles refuse.c, streams.c, cgroup/folders.c and operators/groups.c into the folder that `work` names, as libraries to be loaded before the program.
if ! command -v gcc >/dev/null; then
    echo "$0: there is no C compiler; installing gcc by apt-get" >&2
    { apt-get -qq update && apt-get -qq install -y gcc libc6-dev; } >/dev/null || exit 1
fi
for library in refuse streams cgroup/folders operators/groups; do
    gcc -O2 -shared -fPIC -o "$work/$(basename "$library").so" "$(dirname "${BASH_SOURCE[0]}")/$library.c" || exit 1
done
