"""Writes a machine file: `host` that of the machine it runs on, from what Linux tells under /sys/devices/system; `hwloc` that of any machine,
from what hwloc's `lstopo --disallowed --of xml` tells of it.

With --cores the CPUs of each physical core are told, its hardware threads (SMT siblings), so that plans give whole cores; this is refused
where cores have different numbers of CPUs, or a CPU is in no core, as one that is offline mostly is. Where no reserved CPUs are named, the
lowest online one is, or with --cores all CPUs of its core. Nodes keep their numbers: a number that no node has becomes a node without CPUs,
at distance 255 (unreachable) from all others; --renumber leaves these out and numbers the nodes anew from 0. A machine without nodes is one
node. A node that is not at 10 from itself is written as 10, since a machine file has to have it, and a CPU of no node is left out. What of
this was done, and what the source can't tell, is said on standard error. What is no machine file is not written, so with --output a file that
is there stays as it was then."""

from __future__ import annotations

import argparse
from typing import Optional

from .cpus import read_list
from .describe_host import describe_host
from .script import replace_file

EXAMPLE = """examples:
  operators/numarun-describe host --cores > host.json
  lstopo --disallowed --of xml | operators/numarun-describe hwloc --reserved 0,16 > machine.json"""


def add_words(parser: argparse.ArgumentParser) -> None:
    parser.add_argument("--cores", action="store_true", help="tell the CPUs of each core, so that plans give whole cores")
    parser.add_argument("--reserved", metavar="LIST", help="the reserved CPUs")
    parser.add_argument("--system", default="", metavar="LIST", help="leave these CPUs out, which are the system's own beside a cpuset partition")
    parser.add_argument("--renumber", action="store_true", help="number the nodes anew from 0")
    parser.add_argument("--output", metavar="FILE", help="write it there at once, in place of what is there; else it goes to standard output")


def main() -> int:
    parser = argparse.ArgumentParser(description=__doc__, epilog=EXAMPLE, formatter_class=argparse.RawDescriptionHelpFormatter)
    sources = parser.add_subparsers(dest="source", metavar="SOURCE", required=True)
    host = sources.add_parser("host", help="this machine", epilog=EXAMPLE, formatter_class=argparse.RawDescriptionHelpFormatter)
    host.add_argument("--sys", default="/sys/devices/system", metavar="FOLDER", help="where Linux tells of the machine (%(default)s)")
    hwloc = sources.add_parser("hwloc", help="what lstopo tells", epilog=EXAMPLE, formatter_class=argparse.RawDescriptionHelpFormatter)
    hwloc.add_argument("file", nargs="?", default="-", metavar="FILE", help="what lstopo wrote; none, or -, is standard input")
    for source in (host, hwloc):
        add_words(source)
    words = parser.parse_args()
    named: Optional[str] = words.reserved
    system = read_list(words.system, "--system")
    if words.source == "host":
        described = describe_host(words.sys, named, words.renumber, words.cores, system)
    else:
        from .describe_hwloc import describe_hwloc  # not above: not every Python has the parser of XML that it needs
        reserved = None if named is None else read_list(named, "--reserved")
        described = describe_hwloc(words.file, reserved, words.renumber, words.cores, system)
    if words.output:
        replace_file(words.output, f"{described.text()}\n")
    else:
        print(described.text())
    return 0
