#!/bin/sh
# Installs, upgrades, removes and purges the package in a layer over this machine, which is thrown away: layer.sh FOLDER FIRST.deb SECOND.deb.
# FOLDER has `words`, the words of the agent that is started there, `tree`, which stands for the cgroup tree, and `etc`. No service manager
# is started: in its place a script notes what it is told, and does that with the agent. It is to be run in namespaces of its own, of mounts
# and of processes.
set -eu
folder=$1 first=$2 second=$3
mount -t tmpfs layer "$folder/layer"
mkdir "$folder/layer/upper" "$folder/layer/work" "$folder/layer/root"
mount -t overlay -o "lowerdir=/,upperdir=$folder/layer/upper,workdir=$folder/layer/work" overlay "$folder/layer/root"
root=$folder/layer/root
mkdir -p "$root/run/systemd/system" "$root/sys/fs/cgroup" "$root/etc/numarun"
mount -t proc proc "$root/proc"
mount --bind /dev "$root/dev"
rm -f "$root/var/lib/man-db/auto-update"  # else the index of all man pages is made anew at each step
cp -r "$folder/etc/." "$root/etc/numarun"
cp -r "$folder/tree/." "$root/sys/fs/cgroup"
cat > "$root/usr/bin/deb-systemd-invoke" <<'SCRIPT'
#!/bin/sh
# In the place of systemd, for one unit: starts nobody who is not enabled, as systemd has it, but one that runs already.
echo "$*" >> /told
stop() { [ ! -s /agent ] || { kill "$(cat /agent)" && while [ -d "/proc/$(cat /agent)" ]; do sleep 0.05; done; rm /agent; }; }
case $1 in
    stop) stop ;;
    restart | try-restart) [ ! -s /agent ] || { stop; sh /start; } ;;
esac
SCRIPT
ln -sf /bin/true "$root/bin/systemctl"
cat > "$root/start" <<'SCRIPT'
rm -f /log  # else what the agent before said is taken for this one's
setsid sh -c 'echo $$ > /agent; . /words' > /log 2>&1 < /dev/null &
until grep -qs "^[^ ]* done" /log; do sleep 0.05; done
SCRIPT
cp "$folder/words" "$root/words"
here() { chroot "$root" "$@"; }
files() { (cd "$root" && find usr/lib/numarun usr/share/doc/numarun usr/bin/numarun* run/numarun/taken.json -type f 2> /dev/null | wc -l); }
note() { touch "$root/told"; echo "$1: $(tr '\n' ',' < "$root/told") $(cat "$root/sys/fs/cgroup/numarun/a/cpuset.cpus")"; rm -f "$root/told"; }

here dpkg --force-depends -i "$first" > "$folder/installed" 2>&1
note installed
here dpkg --verify numarun
here numarun-agent --help > /dev/null && here numarun-hook --help > /dev/null && here numarun-dry-run --help > /dev/null
here sh -c 'ls /etc/systemd/system/*.wants 2> /dev/null | grep -c numarun' || true
here sh /start
note started
before=$(cat "$root/agent")
here dpkg --force-depends -i "$second" > "$folder/upgraded" 2>&1
note upgraded
[ "$before" != "$(cat "$root/agent")" ] && echo "another agent runs"
mkdir -p "$root/usr/share/containers/oci/hooks.d"
echo '{"hook": {"path": "/usr/bin/numarun-hook"}}' > "$root/usr/share/containers/oci/hooks.d/layer.json"
here dpkg --force-depends -r numarun > "$folder/removed" 2>&1
note removed
grep -o "/[^ ]*/layer.json names a program" "$folder/removed"
grep "^given back" "$folder/removed" | sed 's/.*cpus/cpus/'
echo "files left: $(files), agents left: $(ls "$root/agent" 2> /dev/null | wc -l), etc: $(ls "$root/etc/numarun")"
here dpkg -P numarun > "$folder/purged" 2>&1
echo "purged: $(here dpkg-query -W -f '${Status}' numarun 2> /dev/null || echo none) $(ls -d "$root/run/numarun" 2> /dev/null || echo nothing)"
