"""The runtimes whose state the agent knows to find: in which folders each of them keeps what it knows of its containers."""

from __future__ import annotations

from dataclasses import dataclass
from enum import Enum
from typing import Dict, Iterable, List, Mapping, Sequence, Tuple

from .script import Refused

ALL = "all"
EACH = "/*"  # behind a folder: each folder in it is one


class Runtime(Enum):
    """Who makes containers."""

    DOCKER = "docker"
    CONTAINERD = "containerd"
    PODMAN = "podman"
    CRI_O = "cri-o"
    CRUN = "crun"
    RUNC = "runc"


# containerd has a folder for each of its namespaces, and docker one in a folder of its own. podman and CRI-O leave it
# to crun or runc.
FOLDERS: Mapping[Runtime, Tuple[str, ...]] = {
    Runtime.DOCKER: ("/run/docker/runtime-runc/moby",),
    Runtime.CONTAINERD: ("/run/containerd/runc/*",),
    Runtime.PODMAN: ("/run/crun", "/run/runc"),
    Runtime.CRI_O: ("/run/crun", "/run/runc"),
    Runtime.CRUN: ("/run/crun",),
    Runtime.RUNC: ("/run/runc",),
}
NAMES = tuple(runtime.value for runtime in Runtime)


@dataclass(frozen=True)
class Watch:
    """A folder that is watched, or with `/*` behind it each folder in one; whether a runtime's name stands for it."""

    path: str
    by_runtime: bool = False

    @property
    def is_family(self) -> bool:
        return self.by_runtime and self.path.endswith(EACH)

    @property
    def parent(self) -> str:
        """The folder whose folders are watched."""
        return self.path[:-len(EACH)]


def runtimes_named(words: Iterable[str]) -> List[Runtime]:
    """The runtimes of words that have names with commas between them; `all` is each of them."""
    names = [name for word in words for name in word.split(",") if name]
    strange = next((name for name in names if name not in (*NAMES, ALL)), None)
    if strange is not None:
        raise Refused(f"{strange!a} is no runtime: {', '.join(NAMES)}, or {ALL}")
    return [runtime for name in names for runtime in (list(Runtime) if name == ALL else [Runtime(name)])]


def watches_of(runtimes: Iterable[str], folders: Sequence[str]) -> List[Watch]:
    """What is watched for these runtimes, and besides: each folder once."""
    found: Dict[str, Watch] = {}
    for runtime in runtimes_named(runtimes):
        for path in FOLDERS[runtime]:
            found.setdefault(path, Watch(path, True))
    for path in folders:
        found.setdefault(path, Watch(path))
    return list(found.values())
