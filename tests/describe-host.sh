#!/usr/bin/env bash
# Compares what operators/numarun-describe host writes of trees of files, as Linux has them under /sys/devices/system, with the
# machine file that stands beside each; and of two recorded machines with those in examples/machines, which were read off the
# same records by hand. What it writes of these is run, too. PROGRAM in the environment is run in place of the one that this
# builds.
set -euo pipefail
top=$(cd "$(dirname "$0")/.." && pwd)
scratch=$(mktemp -d)
trap 'rm -rf "$scratch"' EXIT
failed=0
. "$top/tests/build-program.sh"

# tree NAME PRESENT ONLINE begins a tree, and node NUMBER DISTANCES CPU.. adds a node to it.
tree() {
    name=$1
    mkdir -p "$scratch/$name/cpu"
    echo "$2" > "$scratch/$name/cpu/present"
    echo "$3" > "$scratch/$name/cpu/online"
}
node() {
    local folder=$scratch/$name/node/node$1 cpus=("${@:3}")
    mkdir -p "$folder" "${cpus[@]/#/$folder/cpu}"
    echo "$2" > "$folder/distance"
}
nodes() { echo "$1" > "$scratch/$name/node/online"; }

# says EXPECTED WORD.. compares standard output, or, with a word "refused" before, standard error of a status of 1, or, with
# a word "notes", standard error of a status of 0.
says() {
    local expected=$1 stream=1 wanted=0 status=0 answer
    shift
    if [ "${1:-}" = refused ]; then stream=2 wanted=1; shift; fi
    if [ "${1:-}" = notes ]; then stream=2; shift; fi
    if [ "$stream" = 1 ]; then
        answer=$(timeout 60 "$top/operators/numarun-describe" host --sys "$scratch/$name" "$@" 2>/dev/null) || status=$?
    else
        answer=$(timeout 60 "$top/operators/numarun-describe" host --sys "$scratch/$name" "$@" 2>&1 >/dev/null) || status=$?
    fi
    if [ "$answer" != "$expected" ] || [ "$status" != "$wanted" ]; then
        printf '%s %s: status %s\n%s\nexpected:\n%s\n' "$name" "$*" "$status" "$answer" "$expected"
        failed=1
    fi
}

# Two sockets with two threads a core, one CPU of the second offline.
tree two-sockets 0-7 0-6
node 0 "10 21" 0 1 4 5
node 1 "21 10" 2 3 6 7
nodes 0-1
says '{
  "nodes": ["0-1,4-5", "2-3,6-7"],
  "distances": [[10, 21], [21, 10]],
  "reserved": "0,4",
  "offline": "7"
}' --reserved 4,0
says 'numarun-describe: reserved CPUs that are not online: 7-8' refused --reserved 6-8

# Cores: siblings CPU LIST.. says which CPUs have this list of siblings.
siblings() {
    local cpu
    for cpu in "${@:2}"; do
        mkdir -p "$scratch/$name/cpu/cpu$cpu/topology"
        echo "$1" > "$scratch/$name/cpu/cpu$cpu/topology/thread_siblings_list"
    done
}
siblings 0,4 0 4
siblings 1,5 1 5
siblings 2,6 2 6
siblings 3 3
says 'numarun-describe: --cores: of CPU 7 no siblings are told, as of one that is offline; without --cores each CPU is a core' refused --cores
echo 0-7 > "$scratch/$name/cpu/online"
siblings 7 7
says 'numarun-describe: --cores: cores have different numbers of CPUs: 0,4 and 3' refused --cores
siblings 3,7 3 7
with_cores='{
  "nodes": ["0-1,4-5", "2-3,6-7"],
  "distances": [[10, 21], [21, 10]],
  "reserved": "0,4",
  "offline": "",
  "cores": ["0,4", "1,5", "2,6", "3,7"]
}'
says "$with_cores" --cores
says "$with_cores" --cores --reserved 0,4
says 'numarun-describe: --cores: the core 1,5 is reserved in part' refused --reserved 0,4,1 --cores
# The system's own CPUs are left out, in whole cores, and the lowest core of the others is reserved.
says '{
  "nodes": ["1,5", "2-3,6-7"],
  "distances": [[10, 21], [21, 10]],
  "reserved": "1,5",
  "offline": "",
  "cores": ["1,5", "2,6", "3,7"]
}' --cores --system 0,4
says '{
  "nodes": ["", "2-3,6-7"],
  "distances": [[10, 21], [21, 10]],
  "reserved": "3",
  "offline": ""
}' --system 0-1,4-5 --reserved 3
says 'numarun-describe: --system: the core 0,4 is left to the system in part' refused --cores --system 0
says 'numarun-describe: --system: CPUs that no node has: 8' refused --system 8
says 'numarun-describe: --system: no CPU that is online is left to containers' refused --system 0-7
says 'numarun-describe: reserved CPUs that are not online: 0' refused --system 0 --reserved 0-1
echo '{"ociVersion": "1.0.2", "root": {"path": "r"}, "linux": {"resources": {"cpu": {"quota": 100000}}}}' > "$scratch/config.json"
echo "$with_cores" > "$scratch/cores.json"
answers=$(printf 'create a %s\nrebalance\n' "$scratch" | timeout 60 "$program" run "$scratch/cores.json" | paste -s -d ,)
[ "$answers" = "pid 2,plan total 20,hold a 1,5,pool 0,2-4,6-7,end" ] || { echo "cores: the written machine file is not run: $answers"; failed=1; }
siblings 2-3 2 3
siblings 3,6 6
says 'numarun-describe: --cores: CPU 3 is in two cores' refused --cores
siblings 1,6 1
says 'numarun-describe: --cores: the core 1,6 is in two nodes' refused --cores
siblings 1,9 1
says 'numarun-describe: --cores: CPU 9 of the core 1,9 is in no node' refused --cores
siblings x 1
says "numarun-describe: $scratch/$name/cpu/cpu1/topology/thread_siblings_list: x is no list" refused --cores

# The nodes 0 and 2, and memory alone at 3.
tree gap 0-3,10 0-3,10
node 0 "10 40 80" 0 1
node 2 "40 10 80" 2 3 10
node 3 "80 80 10"
nodes 0,2-3
says '{
  "nodes": ["0-1", "", "2-3,10", ""],
  "distances": [[10, 255, 40, 80], [255, 10, 255, 255], [40, 255, 10, 80], [80, 255, 80, 10]],
  "reserved": "0",
  "offline": ""
}'
says '{
  "nodes": ["0-1", "2-3,10", ""],
  "distances": [[10, 40, 80], [40, 10, 80], [80, 80, 10]],
  "reserved": "0",
  "offline": ""
}' --renumber

# Memory of graphics processors at nodes with high numbers.
tree high 0-1 0-1
node 0 "10 80" 0 1
node 255 "80 10"
nodes 0,255
says 'numarun-describe: node 255: a machine file has nodes 0 to 127 (see --renumber)' refused
says '{
  "nodes": ["0-1", ""],
  "distances": [[10, 80], [80, 10]],
  "reserved": "1",
  "offline": ""
}' --renumber --reserved 1

# A kernel without node folders.
tree plain 0-3 0,2-3
says '{
  "nodes": ["0-3"],
  "distances": [[10]],
  "reserved": "0",
  "offline": "1"
}'

# What the words may not be.
says 'numarun-describe: --reserved: x is no list of CPUs' refused --reserved x
says 'numarun-describe: --reserved: no CPU is named' refused --reserved 3-2
says 'numarun-describe: /no-such-folder/cpu/online: no such file, or it can'"'"'t be read' refused --sys /no-such-folder
if ! "$top/operators/numarun-describe" host --help | grep -q '^  operators/numarun-describe host '; then
    echo 'numarun-describe host --help: no example'
    failed=1
fi

# More CPUs than a machine file may have.
tree large 0-4096 0-4096
says 'numarun-describe: CPU 4096: a machine file has CPUs 0 to 4095' refused

# Nodes that are not at 10 from themselves, as some firmware has it; and CPU 0 is in no node.
tree odd 0-4 0-4
node 0 "21 20" 1 2
node 1 "20 0" 3 4
nodes 0-1
says '{
  "nodes": ["1-2", "3-4"],
  "distances": [[10, 20], [20, 10]],
  "reserved": "1",
  "offline": ""
}'
says 'numarun-describe: node 0 is at 21 from itself; written is 10, as a machine file has to have it
numarun-describe: node 1 is at 0 from itself; written is 10, as a machine file has to have it
numarun-describe: left out, as no node has them: CPUs 0' notes
says 'numarun-describe: node 0 is at 21 from itself; written is 10, as a machine file has to have it
numarun-describe: node 1 is at 0 from itself; written is 10, as a machine file has to have it
numarun-describe: left out, as no node has them: CPUs 0
numarun-describe: reserved CPUs that are not online: 0' refused --reserved 0-1

# CPUs of `isolcpus=` are said, but for those that are left out; where there are none the kernel's line is empty.
tree isolated 0-3 0-3
node 0 "10" 0 1 2 3
nodes 0
echo > "$scratch/isolated/cpu/isolated"
says '' notes
echo 2-3 > "$scratch/isolated/cpu/isolated"
says 'numarun-describe: no load is balanced among CPUs 2-3: boot without isolcpus=, or leave them out by --system' notes
says 'numarun-describe: no load is balanced among CPUs 3: boot without isolcpus=, or leave them out by --system' notes --system 2
says '' notes --system 2-3

# What is no machine file is not written: the first refusal is the last line.
bad() {
    local line=$1
    shift
    if answer=$(timeout 60 "$top/operators/numarun-describe" host --sys "$scratch/$name" "$@" 2> "$scratch/err") || [ -n "$answer" ] ||
        [ "$(tail -n 1 "$scratch/err")" != "numarun-describe: $scratch/$name/$line" ]; then
        printf '%s: found\n%s%s\nexpected\n%s\n' "$name" "$answer" "$(cat "$scratch/err")" "$line"
        failed=1
    fi
}
tree bad 0-3 0-3
node 0 "10 9" 0 1
node 1 "20 10" 2 3
nodes 0-1
bad 'node/node0/distance: 9, where a distance from 10 to 255 to node 1 must be'
node 0 "10 256" 0 1
bad 'node/node0/distance: 256, where a distance from 10 to 255 to node 1 must be'
node 0 "10" 0 1
bad 'node/node0/distance: nothing, where a distance from 10 to 255 to node 1 must be'
node 0 "10 x" 0 1
bad 'node/node0/distance: x, where a distance from 10 to 255 to node 1 must be'
node 0 "10 20" 0 1
nodes 0-x
bad 'node/online: 0-x is no list'
nodes 0-1
echo > "$scratch/bad/cpu/online"
bad 'cpu/online:  is no list'
echo 4-5 > "$scratch/bad/cpu/online"
says 'numarun-describe: left out, as no node has them: CPUs 4-5
numarun-describe: no CPU of a node is online' refused
echo 0-3 > "$scratch/bad/cpu/online"
node 1 "20 10" 1
says 'numarun-describe: CPU 1 is in two nodes' refused

# Nodes without CPUs alone.
tree empty 0 0
node 0 "10"
nodes 0
says 'numarun-describe: no node has CPUs' refused

# recorded NAME RESERVED lays out a recorded machine: a line has a file and what stands in it, or a folder alone.
recorded() {
    local path text
    name=$1
    grep -v '^#' "$top/tests/describe-host/$name" | while read -r path text; do
        mkdir -p "$scratch/$name/$(dirname "$path")"
        if [ -n "$text" ]; then echo "$text" > "$scratch/$name/$path"; else mkdir "$scratch/$name/$path"; fi
    done
    "$top/operators/numarun-describe" host --sys "$scratch/$name" --reserved "$2" "${@:3}" > "$scratch/$name.json"
    if ! python3 -B "$top/tests/describe-host/same.py" "$top/examples/machines/$name.json" "$scratch/$name.json"; then
        failed=1
    elif [ "$(echo list | timeout 60 "$program" run "$scratch/$name.json")" != end ]; then
        echo "$name: the written machine file is not run"
        failed=1
    fi
}
# As many nodes and CPUs as a machine file may have, and one node more.
tree most 0-4095 0-4094
lists= rows=
for k in {0..127}; do
    before=$(printf '20 %.0s' $(seq 1 "$k")) after=$(printf ' 20%.0s' $(seq "$((k + 1))" 127))
    [ "$k" != 0 ] || before=
    [ "$k" != 127 ] || after=
    node "$k" "${before}10$after" $(seq $((32 * k)) $((32 * k + 31)))
    lists+="${lists:+, }\"$((32 * k))-$((32 * k + 31))\""
    row="${before}10$after"
    rows+="${rows:+, }[${row// /, }]"
done
nodes 0-127
says "{
  \"nodes\": [$lists],
  \"distances\": [$rows],
  \"reserved\": \"0\",
  \"offline\": \"4095\"
}"
mkdir -p "$scratch/most/cpu/cpu"{0..4095}/topology
for k in {0..4095}; do
    echo "$((k & ~1))-$((k | 1))" > "$scratch/most/cpu/cpu$k/topology/thread_siblings_list"
done
echo 0-4095 > "$scratch/most/cpu/online"
"$top/operators/numarun-describe" host --sys "$scratch/most" --cores > "$scratch/most.json"
answers=$(echo list | timeout 60 "$program" run "$scratch/most.json")
[ "$answers $(grep -o '"[0-9]*-[0-9]*[13579]"' "$scratch/most.json" | wc -l)" = "end 2177" ] || { echo "most: cores: $answers"; failed=1; }
echo 0-4094 > "$scratch/most/cpu/online"
"$top/operators/numarun-describe" host --sys "$scratch/most" > "$scratch/most.json"
answers=$(printf 'online 4095\nonline 4096\nlist\n' | timeout 60 "$program" run "$scratch/most.json" | paste -s -d ,)
[ "$answers" = "ok,refused E52 NoCpu,end" ] || { echo "most: the written machine file is not run: $answers"; failed=1; }
nodes 0-128
node 128 "20"
says 'numarun-describe: node 128: a machine file has nodes 0 to 127 (see --renumber)' refused

recorded two-socket 0,16 --cores
recorded two-nodes-a-socket 0-1,64-65

[ "$failed" = 0 ] && echo "numarun-describe: all machine files as expected"
exit "$failed"
