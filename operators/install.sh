#!/usr/bin/env bash
# Installs numarun and its scripts below a folder, or takes away what it installed there, or makes a Debian package of them.
# Usage: operators/install.sh [--uninstall] PREFIX
#        operators/install.sh --deb FOLDER
#
# PREFIX/bin has numarun and the scripts: numarun-agent, numarun-draw-plan, numarun-dry-run, numarun-explain,
# numarun-hook, numarun-runc, numarun-describe. PREFIX/lib/systemd/system has a unit for the agent, which is not
# enabled. PREFIX/share/man has the man pages; PREFIX/share/doc/numarun has the pages of operators/, docs/formats.md and, in examples/,
# the bundles, machine files, scripts, certificates and problems, below the names that they have here. The program is the one that PROGRAM in the
# environment names, or the proved one of this checkout, from bash build.sh.
# Nothing but the unit names PREFIX, so that the rest may be moved. To install again is to bring it up to date: what the last
# time installed, and this time does not, is taken away. PREFIX/lib/numarun/installed is the list of all that was installed,
# with the folders that were made for it, which are taken away again where nothing else is in them. --uninstall refuses while a hook file or a
# runtime's configuration names a program of PREFIX, because containers would not start without it.
#
# --deb makes FOLDER/numarun_VERSION_ARCHITECTURE.deb by debhelper, from what debian/ says, with the same files below /usr, and the folder
# /etc/numarun. It is installed by dpkg -i and taken away by dpkg -r. Its version is that of CHANGELOG.md.
#
# Example: operators/install.sh /usr/local
#          operators/install.sh --deb . && dpkg -i numarun_*.deb
set -euo pipefail
export LC_ALL=C
top=$(cd "$(dirname "$(realpath "$0")")/.." && pwd)
scripts=(agent draw-plan dry-run explain hook runc describe)

say() { echo "install.sh: $1" >&2; }
fail() { say "$1"; exit 1; }
uninstall='' deb='' prefix=''
case ${1:-} in
    -h | --help) sed -n '2,/^set/{/^set/d;s/^# \{0,1\}//;p}' "$0"; exit 0 ;;
    --uninstall) uninstall=yes; shift ;;
    --deb) deb=yes; shift ;;
    -*) say "$1: no such option (see --help)"; exit 2 ;;
esac
[ $# = 1 ] && [ -n "$1" ] || { say "usage: install.sh [--uninstall] PREFIX, or install.sh --deb FOLDER"; exit 2; }
prefix=$1
list=$prefix/lib/numarun/installed
unit=lib/systemd/system/numarun-agent.service

# Takes away what is named below PREFIX, files before their folders.
take_away() {
    local name
    sort -r | while read -r name; do
        case /$name in
            / | //* | */../* | */./* | */.. | */.) fail "$list: $name is no name of what is installed" ;;
            */)
                [ ! -d "$prefix/${name}__pycache__" ] || rmdir --ignore-fail-on-non-empty "$prefix/${name}__pycache__"
                [ ! -d "$prefix/$name" ] || rmdir --ignore-fail-on-non-empty "$prefix/$name"
                ;;
            *.py) rm -f "$prefix/$name" "$prefix/$(dirname "$name")/__pycache__/$(basename "$name" .py)".*.pyc ;;
            *) rm -f "$prefix/$name" ;;
        esac
    done
}

# Makes a folder below PREFIX and those that it is in, and lists what was not there.
folder() {
    local part name=
    for part in ${1//\// }; do
        name+=$part/
        if [ ! -d "$prefix/$name" ]; then
            mkdir "$prefix/$name"
            made+="$name"$'\n'
        fi
    done
}

# The files of runtimes that name a program below PREFIX.
naming() {
    local path
    path=$(realpath "$prefix")/bin
    grep -lsF -e "\"$path/numarun-hook\"" -e "\"$path/numarun-runc\"" /usr/share/containers/oci/hooks.d/*.json \
        /etc/containers/oci/hooks.d/*.json /etc/docker/daemon.json /etc/containerd/config.toml || true
}

# Puts one file in its place at once, so that what runs keeps its own: put MODE FROM TO, TO below PREFIX.
put() {
    folder "$(dirname "$3")"
    cp "$2" "$prefix/$3.new"
    chmod "$1" "$prefix/$3.new"
    mv -f "$prefix/$3.new" "$prefix/$3"
    made+="$3"$'\n'
}

put_all() {
    local name script
    put 755 "$program" bin/numarun
    for name in "$top"/operators/numarun_host/*.py; do
        put 644 "$name" "lib/numarun/numarun_host/$(basename "$name")"
    done
    for script in "${scripts[@]}"; do
        put 755 "$top/operators/numarun-$script" "lib/numarun/numarun-$script"
        ln -sfn "../lib/numarun/numarun-$script" "$prefix/bin/numarun-$script"
        made+="bin/numarun-$script"$'\n'
    done
    put 644 "$top/operators/numarun-agent.service" "$unit"
    put 644 "$top/docs/numarun.1" share/man/man1/numarun.1
    for name in "$top"/operators/numarun-*.[18]; do
        put 644 "$name" "share/man/man${name##*.}/$(basename "$name")"
    done
    for name in "$top"/operators/*.md; do
        put 644 "$name" "share/doc/numarun/operators/$(basename "$name")"
    done
    for name in formats.md two-socket.svg; do
        put 644 "$top/docs/$name" "share/doc/numarun/docs/$name"
    done
    while read -r name; do
        put 644 "$top/$name" "share/doc/numarun/$name"
    done < <(cd "$top" && find examples/bundles examples/dashboards examples/machines examples/scripts examples/*.certificate examples/*.problem -type f | sort)
}

# Names the agent in the unit by its whole path, as systemd wants it where PREFIX is a folder of one's own.
name_agent() {
    local path=${1//\\/\\\\}
    path=${path//\"/\\\"} path=${path//%/%%}
    UNIT_PATH=$path awk '/^ExecStart=/ { sub(/^ExecStart=[^ ]*/, ""); print "ExecStart=\"" ENVIRON["UNIT_PATH"] "\"" $0; next } { print }' \
        "$top/operators/numarun-agent.service" > "$prefix/$unit.new"
    mv -f "$prefix/$unit.new" "$prefix/$unit"
}

# Makes the package by debhelper, in a copy of what it is made of.
pack() {
    local source=$stage/numarun name
    mkdir -p "$source"
    cp -r "$top/debian" "$top/operators" "$top/docs" "$top/examples" "$top/CHANGELOG.md" "$source"
    find "$source" -name __pycache__ -prune -exec rm -rf {} +
    chmod -R u+w,go-w,a+rX "$source"
    export SOURCE_DATE_EPOCH=${SOURCE_DATE_EPOCH:-$(stat -c %Y "$program")} PROGRAM=$program DH_VERBOSE=
    python3 -B "$source/debian/changelog_of.py" > "$stage/changelog" || fail "CHANGELOG.md: no changelog can be made of it"
    mv "$stage/changelog" "$source/debian/changelog"
    (cd "$source" && dpkg-buildpackage -b -us -uc > "$stage/log" 2>&1) || { tail -n 20 "$stage/log" >&2; fail "dpkg-buildpackage: no package is made"; }
    for name in "$stage"/*.deb; do
        cp "$name" "$1" || fail "$1: no package can be made there"
        echo "$1/$(basename "$name") is made; dpkg -i installs it"
    done
}

if [ -n "$uninstall" ]; then
    [ -f "$list" ] || fail "$list: no such file: nothing is installed there"
    names=$(naming)
    [ -z "$names" ] || fail "${names//$'\n'/, }: no container starts by this once the programs are gone: take their names away there first"
    named=$(cat "$list")
    take_away <<< "$named"
    [ ! -e /run/numarun/taken.json ] && [ ! -e /run/numarun/partition.json ] ||
        say "the groups have what the agent gave them; operators/numarun-agent release --cgroup /sys/fs/cgroup gives it back"
    exit 0
fi

program=${PROGRAM:-$top/crates/numarun/out/numarun}
[ -f "$program" ] && [ -x "$program" ] ||
    fail "$program: no program: build it by bash build.sh, or name it in PROGRAM"
if [ -n "$deb" ]; then
    [ -d "$prefix" ] || fail "$prefix: no folder"
    for tool in dpkg-buildpackage dh dh_python3; do
        command -v "$tool" > /dev/null || fail "$tool: not there: apt-get install dpkg-dev debhelper dh-python"
    done
    program=$(realpath "$program")
    stage=$(mktemp -d)
    trap 'rm -rf "$stage"' EXIT
    umask 022
    pack "$prefix"
    exit 0
fi
before=
[ ! -f "$list" ] || before=$(cat "$list")
mkdir -p "$prefix"
made=lib/numarun/installed$'\n'
folder lib/numarun
put_all
name_agent "$(realpath "$prefix")/bin/numarun-agent"
comm -23 <(grep -v '/$' <<< "$before" | sort) <(sort <<< "$made") | take_away
{ printf %s "$made"; grep '/$' <<< "$before" || true; } | sort -u > "$list.new"
mv -f "$list.new" "$list"
echo "numarun and its scripts are in $prefix/bin; operators/install.sh --uninstall $prefix takes them away"
