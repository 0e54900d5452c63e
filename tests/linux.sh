#!/usr/bin/env bash
# Runs the built programs on a real kernel: Debian's, in a machine that qemu emulates (8 CPUs on 4 nodes), over its own cgroup v2
# tree. What it needs it installs where it may: qemu-system-x86, cpio, crun, a C compiler. The kernel's package, containerd's and docker's
# are only unpacked. Where it can't, it says so and is passed over. PROGRAM and TOOLS in the environment are run in place of those that this
# builds. PARTS are the parts of linux/parts/ that are run, behind a slash which share of their work is done: `killed/4` is every
# fourth call. MACHINES of them run side by side, SEED chooses what is random, KERNEL is an image in place of Debian's, LIMIT the
# seconds that a machine has in place of 2,100, since a part may take 1,800, KEEP a folder for all that the machines print, and CPUS how
# many CPUs it has in place of 8, for `direct`.
set -euo pipefail
top=$(cd "$(dirname "$0")/.." && pwd)
parts=(${PARTS:-gone strangers calls/4 refused/4 killed/4})
seed=${SEED:-1} cpus=${CPUS:-8}
work=$(mktemp -d)
trap 'rm -rf "$work"' EXIT

pass_over() {
    echo "linux: passed over: $1"
    exit 0
}

# has PART..: whether one of these is run.
has() {
    local part
    for part; do
        case " ${parts[*]} " in *" $part "*) return ;; esac
    done
    return 1
}

inside=crun desk='' packages='' daemons='' libraries='' megabytes=320
! has podman walk partition_page || inside+=" podman conmon"
! has runc containerd docker || inside+=" runc"
! has docker || inside+=" dash"
! has walk partition_page || desk=--desk
if has containerd docker; then
    packages=containerd daemons="usr/bin/containerd usr/bin/ctr usr/bin/containerd-shim-runc-v2" megabytes=512
fi
if has docker; then
    packages+=" docker.io" daemons+=" usr/sbin/dockerd usr/bin/docker" libraries=libdevmapper1.02.1
fi
needed="qemu-system-x86 cpio gcc libc6-dev $inside${libraries:+ $libraries}"
has_all() {
    local one
    for one in qemu-system-x86_64 cpio gcc $inside; do
        command -v "$one" >/dev/null || return
    done
    [ -z "$libraries" ] || ldconfig -p | grep -q libdevmapper
}

if ! has_all; then
    echo "linux: installing $needed by apt-get" >&2
    { apt-get -qq update && apt-get -qq install -y --no-install-recommends $needed; } >/dev/null 2>&1 || true
    has_all || pass_over "there is no $needed, and they can't be installed"
fi
# unpack PACKAGE: downloads a package and unpacks it below $work/unpacked.
unpack() {
    echo "linux: downloading $1, to be unpacked" >&2
    (cd "$work" && apt-get -qq download "$1" && dpkg -x "$1"_*.deb unpacked) >/dev/null 2>&1 || pass_over "$1 can't be had"
}

kernel=${KERNEL:-}
if [ -z "$kernel" ]; then
    package=$({ apt-cache depends linux-image-cloud-amd64 2>/dev/null || true; } | awk '/Depends: linux-image/ {print $2; exit}')
    [ -n "$package" ] || pass_over "apt-cache knows no linux-image-cloud-amd64"
    unpack "$package"
    kernel=$(echo "$work"/unpacked/boot/vmlinuz-*)
fi
for package in $packages; do
    unpack "$package"
done
daemons=$(printf "$work/unpacked/%s " $daemons)
. "$top/tests/build-program.sh"

root=$work/root
gcc -O2 -shared -fPIC -o "$work/stop.so" "$top/tests/linux/stop.c"
for name in sleeper looker ticks; do
    gcc -O2 -static -o "$work/$name" "$top/tests/linux/$name.c"
done
python=/usr/bin/python3 # the machine gets the interpreter that makes its image: Debian's, since one of a user's own may be half as fast
[ -x "$python" ] || python=python3
# shellcheck disable=SC2046,SC2086 # they are words
"$python" -B "$top/tests/linux/image.py" "$root" $desk "$program" "$work/stop.so" "$work/sleeper" "$work/looker" $(command -v $inside) ${packages:+$daemons}
for part in "${parts[@]}"; do
    if [ "${part%%/*}" = calls ]; then
        . "$top/benches/build-tools.sh"
        share=${part#calls}
        python3 -B "$top/tests/linux/lists.py" "$tools" "$seed" "${share#/}" >"$root/calls"
    fi
done
(cd "$root" && find . | cpio -o -H newc --quiet | gzip -1) >"$work/initrd.gz"
nodes=() each=$((cpus / 4)) threads=1 processor=max turns=multi clock=''
if [ "$cpus" -gt 8 ]; then
    turns=single # one thread for all CPUs: of many threads those that wait for another take the host's processors from it
fi
ticks=$("$work/ticks") # thousands a second: else each CPU is measured when it comes, for seconds, and each look at the clock is one at a device
[ -z "$ticks" ] || clock="tsc=reliable tsc_early_khz=$ticks lpj=$((4 * ticks))" # as many loops as ticks in a 250th of a second
if has cores; then
    threads=2 processor=max,vendor=GenuineIntel # an AMD one tells of its threads by a feature that is not emulated
fi
for node in 0 1 2 3; do
    range=$((each * node))-$((each * (node + 1) - 1))
    nodes+=(-object "memory-backend-ram,id=m$node,size=${megabytes}M" -numa "node,nodeid=$node,memdev=m$node,cpus=$range")
done
for row in 0,1,20 0,2,20 0,3,30 1,2,30 1,3,20 2,3,20; do
    IFS=, read -r from to distance <<<"$row"
    nodes+=(-numa "dist,src=$from,dst=$to,val=$distance")
done

# emulate N PART..: a machine that runs these parts, which stand in a second archive behind the first; what it prints is in out-N,
# and what the parts say is printed. Where the kernel writes over its own code while it runs, the emulator may go on with a breakpoint
# that is there no more: such a machine shows nothing, and is started anew. By QEMU 7.2 one boot of 28 ended so, but five of eight in
# a row on Linux 6.12, three of them behind each other.
emulate() {
    local number=$1 tries=8 try
    shift
    mkdir "$work/$number"
    echo "$seed $*" >"$work/$number/parts"
    { cat "$work/initrd.gz"; cd "$work/$number" && echo parts | cpio -o -H newc --quiet | gzip -1; } >"$work/initrd-$number.gz"
    for try in $(seq "$tries"); do
        timeout "${LIMIT:-2100}" qemu-system-x86_64 -M q35 -cpu $processor -accel tcg,thread=$turns -m $((4 * megabytes)) -smp "$cpus,sockets=4,cores=$((each / threads)),threads=$threads" \
            "${nodes[@]}" -nodefaults -display none -serial stdio -no-reboot -kernel "$kernel" -initrd "$work/initrd-$number.gz" \
            -append "console=ttyS0 quiet panic=-1 loglevel=1 mitigations=off no_timer_check $clock rdinit=/init" </dev/null 2>&1 |
            sed -u 's/\r$//' | tee "$work/out-$number" | grep -a --line-buffered '^linux: ' || true
        grep -aq 'int3: 0000 \[#1\]' "$work/out-$number" || break
        echo "linux: machine $number ended at a breakpoint that the emulator had left, at try $try of $tries"
    done
}

count=${MACHINES:-1} machines=()
for number in $(seq "$count"); do
    its=()
    for ((k = number - 1; k < ${#parts[@]}; k += count)); do its+=("${parts[k]}"); done
    [ ${#its[@]} -gt 0 ] || break
    emulate "$number" "${its[@]}" &
    machines+=($!)
done
wait "${machines[@]}"
[ -z "${KEEP:-}" ] || cp "$work"/out-* "$KEEP"
for number in $(seq ${#machines[@]}); do
    if ! grep -aq '^linux: all parts passed' "$work/out-$number"; then
        grep -av '^linux: ' "$work/out-$number" | tail -40
        echo "linux: an emulated machine did not come to its end, or a part failed"
        exit 1
    fi
done
