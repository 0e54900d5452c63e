"""Where a device is: a network interface, a block device, or a PCI address, by what the kernel tells below /sys."""

from __future__ import annotations

import os
import re
from typing import Optional

from .cgroups import read_file

NAME = re.compile(r"[A-Za-z0-9][A-Za-z0-9:._-]{0,63}")
PLACES = ("class/net/{}/device/numa_node", "class/block/{}/device/numa_node", "class/block/{}/device/device/numa_node",
          "class/block/{}/../device/numa_node", "bus/pci/devices/{}/numa_node")


def node_of_device(name: str, folder: str = "/sys") -> Optional[int]:
    """The node of a device; nothing where there is no such device, or it is at no node."""
    if not NAME.fullmatch(name):
        return None
    for place in PLACES:
        found = re.fullmatch(r"[0-9]{1,4}", read_file(os.path.join(folder, place.format(name))) or "")
        if found:
            return int(found[0])
    return None
