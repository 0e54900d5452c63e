"""Writes a machine of 4,096 CPUs, a bundle, and a script of so many lines over 1,024 containers: `lines.py FOLDER COUNT`. Behind
the creations come forks and ends of the forked processes, the sets and states of containers, CPUs that go and come back, and now and
then a container that is killed, deleted and created again."""

import json
import os
import random
import sys

CONTAINERS, CPUS = 1024, 4096

# after so many rounds a container is killed, deleted and created again
ROUNDS = 50


def lines(count):
    told = [f"create c{k} bundle" for k in range(CONTAINERS)]
    first = [k + 2 for k in range(CONTAINERS)]
    pid = CONTAINERS + 2
    while len(told) < count:
        name, cpu = random.randrange(CONTAINERS), random.randrange(1, CPUS)
        told += [f"fork {first[name]}", f"sets c{name}", f"state c{name}", f"offline {cpu}", f"exit {pid}", f"online {cpu}"]
        pid += 1
        if pid % ROUNDS == 0:
            told += [f"kill c{name} KILL", f"delete c{name}", f"create c{name} bundle"]
            first[name], pid = pid, pid + 1
    return told[:count]


def main(folder, count):
    random.seed(1)
    os.chdir(folder)
    nodes = [f"{CPUS // 8 * k}-{CPUS // 8 * (k + 1) - 1}" for k in range(8)]
    distances = [[10 if i == j else 21 for j in range(8)] for i in range(8)]
    json.dump({"nodes": nodes, "distances": distances, "reserved": "0"}, open("machine.json", "w"))
    os.makedirs("bundle", exist_ok=True)
    json.dump({"ociVersion": "1.0.2", "root": {"path": "rootfs"}, "process": {"args": ["run"]}}, open("bundle/config.json", "w"))
    open("script", "w").write("\n".join(lines(int(count))) + "\n")


main(*sys.argv[1:])
