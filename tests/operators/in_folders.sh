#!/bin/sh
# Runs PROGRAM over plain folders that stand for a cgroup v2 tree, by the library that GROUPS_LIBRARY names (groups.c).
before='' GROUPS_ROOT=''
for word; do
    [ "$before" != --cgroup ] || GROUPS_ROOT=$word
    before=$word
done
export GROUPS_ROOT
LD_PRELOAD=$GROUPS_LIBRARY exec "$PROGRAM" "$@"
