#!/usr/bin/env python3
"""Runs every part of tests/linux.sh by hand, some with three seeds, and says at the end which passed.

tests/linux/all_parts.py [--beside N] [--only WORD].. FOLDER [KERNEL..]

PROGRAM and TOOLS in the environment name what is run. What the machines print is kept in FOLDER. With no KERNEL, an image as
vmlinuz-6.12, Debian's own is taken. N machines run side by side (2), but for the part that measures time, which runs by itself at
the end. With --only, those runs alone are made whose name has one of the words. The status is 0 if all passed.
"""

from __future__ import annotations

import argparse
import os
import pathlib
import re
import subprocess
import sys
import time
from concurrent.futures import ThreadPoolExecutor
from dataclasses import dataclass
from typing import Iterator, List, Mapping, Sequence, Tuple

SCRIPT = pathlib.Path(__file__).resolve().parents[1] / "linux.sh"
BY_CHANCE = "partitions agent calls chance"  # those that read SEED, but for the shares of refused and killed, which are whole here
SEEDS = (1, 2, 3)
# Those that do the same by each seed. Some stand in two machines, so that they follow others there.
WITHOUT_CHANCE = ("partition_kills", "docker containerd limits", "walk podman updates runc crun", "partition_page", "cores",
                  "refused killed gone came strangers slices limits updates direct")
SECONDS = "7200"  # that a machine has


@dataclass(frozen=True)
class Run:
    """One call of the script."""

    name: str
    parts: str
    kernel: str = ""
    seed: int = 1
    cpus: int = 8
    alone: bool = False

    def environment(self, folder: pathlib.Path) -> Mapping[str, str]:
        own = {"PARTS": self.parts, "SEED": str(self.seed), "CPUS": str(self.cpus), "KEEP": str(folder / self.name), "LIMIT": SECONDS}
        return {**own, **({"KERNEL": self.kernel} if self.kernel else {})}


@dataclass(frozen=True)
class Part:
    """What became of a part."""

    run: str
    part: str
    passed: bool
    seconds: int


def short(kernel: str) -> str:
    """A kernel's version, as it stands in the name of its image."""
    found = re.search(r"\d+\.\d+", os.path.basename(kernel))
    return found[0] if found else "debian"


def runs_on(kernel: str) -> Iterator[Run]:
    name = short(kernel)
    for seed in SEEDS:
        yield Run(f"{name}-seed-{seed}", BY_CHANCE, kernel, seed)
    for parts in WITHOUT_CHANCE:
        yield Run(f"{name}-{parts.split()[0]}", parts, kernel)
    yield Run(f"{name}-64-cpus", "direct", kernel, cpus=64)
    yield Run(f"{name}-waits", "waits", kernel, alone=True)


def chosen(kernels: Sequence[str], words: Sequence[str]) -> List[Run]:
    """The runs whose name has one of these words, or all, those of the kernels by turns."""
    by_kernel = [list(runs_on(kernel)) for kernel in kernels or ("",)]
    by_turns = [run for at_once in zip(*by_kernel) for run in at_once]
    return [run for run in by_turns if not words or any(word in run.name for word in words)]


def parts_of(run: Run, printed: str, status: int) -> List[Part]:
    """What the script said of each part; one of which it said nothing has failed, and so has the last one where the script did."""
    said = {part: (how == "passed", int(seconds))
            for part, how, seconds in re.findall(r"^linux: (\S+): (passed|FAILED) in (\d+) s$", printed, re.M)}
    parts = [Part(run.name, part, *said.get(part, (False, 0))) for part in run.parts.split()]
    if status and all(part.passed for part in parts):
        return [*parts, Part(run.name, "the machine", False, 0)]
    return parts


def made(run: Run, folder: pathlib.Path) -> List[Part]:
    (folder / run.name).mkdir(parents=True, exist_ok=True)
    done = subprocess.run(["bash", str(SCRIPT)], env={**os.environ, **run.environment(folder)}, text=True, errors="replace",
                          stdin=subprocess.DEVNULL, stdout=subprocess.PIPE, stderr=subprocess.STDOUT)
    (folder / f"{run.name}.log").write_text(done.stdout)
    parts = parts_of(run, done.stdout, done.returncode)
    for part in parts:
        print(line_of(part), flush=True)
    return parts


def line_of(part: Part) -> str:
    return f"{time.strftime('%H:%M:%S')} {part.run}: {part.part}: {'passed' if part.passed else 'FAILED'} in {part.seconds} s"


def options(words: Sequence[str]) -> Tuple[argparse.Namespace, List[Run]]:
    parser = argparse.ArgumentParser(description="Runs every part of tests/linux.sh.")
    parser.add_argument("--beside", type=int, default=2, metavar="N", help="machines side by side (default: %(default)s)")
    parser.add_argument("--only", action="append", default=[], metavar="WORD", help="the runs whose name has this word")
    parser.add_argument("folder", type=pathlib.Path, metavar="FOLDER")
    parser.add_argument("kernels", nargs="*", metavar="KERNEL")
    given = parser.parse_args(words)
    return given, chosen(given.kernels, given.only)


def main(words: Sequence[str]) -> int:
    given, runs = options(words)
    with ThreadPoolExecutor(given.beside) as pool:
        parts = [part for of_run in pool.map(lambda run: made(run, given.folder), [run for run in runs if not run.alone]) for part in of_run]
    for run in runs:
        if run.alone:
            parts += made(run, given.folder)
    failed = [part for part in parts if not part.passed]
    print(f"linux: {len(parts) - len(failed)} passed, {len(failed)} failed: {', '.join(f'{part.run}/{part.part}' for part in failed) or 'none'}")
    return 1 if failed or not parts else 0


if __name__ == "__main__":
    sys.exit(main(sys.argv[1:]))
