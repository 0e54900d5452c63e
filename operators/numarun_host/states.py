"""What is kept of a container in a folder that is watched: a bundle, or the state of a runtime, as runc's `state.json`."""

from __future__ import annotations

import os
from dataclasses import dataclass
from typing import Optional

from .cgroups import below_root, group_in, read_json, state_of_runtime
from .configs import Config, at
from .script import Refused

BUNDLE = "bundle="  # begins the label of runc's that names the bundle


@dataclass(frozen=True)
class Kept:
    """The container's bundle, or why there is none; its group below the root, where that is said; the list of CPUs that runc's state has,
    which may be empty; whether a runtime keeps it, and not a hook; and the list of nodes that runc's state has."""

    bundle: str = ""
    fault: Optional[str] = None
    group: Optional[str] = None
    listed: Optional[str] = None
    by_runtime: bool = False
    nodes: Optional[str] = None


def kept_in(folder: str, root: str) -> Optional[Kept]:
    """What a folder has of a container; nothing where it is none's."""
    state = os.path.join(folder, "state.json")
    if os.path.isfile(os.path.join(folder, "config.json")):
        return kept_as_bundle(folder, root)
    if not os.path.lexists(state):
        return None
    if not os.path.isfile(state):
        return Kept(fault=f"{state}: no file")
    try:
        return kept_by_runc(read_json(state), state, root)
    except Refused as why:
        return Kept(fault=str(why))


def kept_as_bundle(folder: str, root: str) -> Kept:
    """A bundle; crun's state beside it names a process, and that of a hook does not."""
    try:
        state = state_of_runtime(folder)
    except Refused:
        return Kept(folder)  # where its group is, is asked again, and refused then
    return Kept(folder, None, placed(root, state), None, isinstance(at(state, "pid"), int))


def kept_by_runc(state: Config, path: str, root: str) -> Kept:
    """What runc keeps: the bundle is one of the labels, and what the group is to request stands in the config."""
    labels, cgroups = at(state, "config", "labels"), at(state, "config", "cgroups")
    texts = [label for label in labels if isinstance(label, str)] if isinstance(labels, list) else []
    bundle = next((text[len(BUNDLE):] for text in texts if text.startswith(BUNDLE)), "")
    if not bundle:
        return Kept(fault=f"{path}: it names no bundle")
    return Kept(bundle, None, placed(root, state), list_in(cgroups, "cpuset_cpus"), True, list_in(cgroups, "cpuset_mems"))


def list_in(cgroups: object, name: str) -> Optional[str]:
    """A list in runc's state, which may be empty."""
    text = at(cgroups, name)
    return text.strip() if isinstance(text, str) else None


def placed(root: str, state: Optional[Config]) -> Optional[str]:
    """The group that a state names, as it is below the root."""
    group = group_in(state)
    return below_root(root, group) if group else None
