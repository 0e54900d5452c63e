"""Writes the inputs of the benchmarks into a folder: machine.json, config.json and lists."""

import json
import sys
from pathlib import Path

NODES = 128
CPUS_A_NODE = 32
MEBIBYTE = 1024 * 1024


def machine():
    nodes = [f"{CPUS_A_NODE * n}-{CPUS_A_NODE * (n + 1) - 1}" for n in range(NODES)]
    distances = [[10 if i == j else 20 + abs(i - j) for j in range(NODES)] for i in range(NODES)]
    return json.dumps({"nodes": nodes, "distances": distances, "reserved": "0"})


def config():
    """A config of exactly 1 MiB: its size is made up by an annotation, which pinning passes over."""
    value = {
        "ociVersion": "1.0.2",
        "root": {"path": "rootfs"},
        "process": {"args": ["sh"]},
        "linux": {"resources": {"cpu": {"quota": 200000, "period": 100000}}},
        "annotations": {"size": ""},
    }
    value["annotations"]["size"] = "x" * (MEBIBYTE - len(json.dumps(value)))
    return json.dumps(value)


def lists():
    line = " ".join(f"pu:{n}" for n in range(0, NODES * CPUS_A_NODE, 2))
    return "\n".join([line] * 25) + "\n"


folder = Path(sys.argv[1])
(folder / "machine.json").write_text(machine())
(folder / "config.json").write_text(config())
(folder / "lists").write_text(lists())
