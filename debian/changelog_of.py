"""Prints debian/changelog, made of CHANGELOG.md: `changelog_of.py [CHANGELOG.md]`. Each version is an entry; what is not released yet is one
behind the last version, as 1.0.0+unreleased, with the time that SOURCE_DATE_EPOCH says, or now."""

from __future__ import annotations

import os
import pathlib
import re
import sys
import textwrap
import time
from dataclasses import dataclass
from datetime import datetime, timezone
from email.utils import format_datetime
from typing import List, Tuple

TOP = pathlib.Path(__file__).resolve().parents[1]
WIDTH = 78
RELEASED = re.compile(r"\[(\d+\.\d+\.\d+)\] - (\d{4}-\d\d-\d\d)")


@dataclass(frozen=True)
class Entry:
    version: str
    suite: str
    when: datetime
    sections: Tuple[Tuple[str, Tuple[str, ...]], ...]


def sections_of(text: str) -> Tuple[Tuple[str, Tuple[str, ...]], ...]:
    """The headings with their points, each point on one line."""
    found = []
    for part in re.split(r"^### ", text, flags=re.M)[1:]:
        heading, _, rest = part.partition("\n")
        points = re.split(r"^- ", rest, flags=re.M)[1:]
        found.append((heading.strip(), tuple(" ".join(point.split()) for point in points)))
    return tuple(found)


def entries_of(changelog: str, now: datetime) -> List[Entry]:
    parts = [part.partition("\n") for part in re.split(r"^## ", changelog, flags=re.M)[1:]]
    releases = [found[1] for found in (RELEASED.match(heading) for heading, _, _ in parts) if found]
    entries = []
    for heading, _, text in parts:
        sections, released = sections_of(text), RELEASED.match(heading)
        if released:
            entries.append(Entry(released[1], "unstable", datetime.fromisoformat(f"{released[2]}T00:00:00+00:00"), sections))
        elif sections:
            entries.append(Entry(f"{releases[0] if releases else '0'}+unreleased", "UNRELEASED", now, sections))
    return entries


def plain(point: str) -> str:
    """Without the marks of Markdown."""
    return re.sub(r"\[([^\]]*)\]\([^)]*\)", r"\1", point).replace("`", "").replace("*", "")


def text_of(entry: Entry, maintainer: str) -> str:
    lines = [f"numarun ({entry.version}) {entry.suite}; urgency=low"]
    for heading, points in entry.sections:
        lines += ["", f"  [ {heading} ]"]
        for point in points:
            lines += textwrap.wrap(plain(point), WIDTH, initial_indent="  * ", subsequent_indent="    ", break_long_words=False)
    return "\n".join([*lines, "", f" -- {maintainer}  {format_datetime(entry.when)}", ""])


def maintainer_of(control: str) -> str:
    found = re.search(r"^Maintainer: (.+)$", control, re.M)
    assert found
    return found[1]


def main() -> None:
    path = pathlib.Path(sys.argv[1]) if len(sys.argv) > 1 else TOP / "CHANGELOG.md"
    maintainer = maintainer_of((TOP / "debian" / "control").read_text())
    now = datetime.fromtimestamp(int(os.environ.get("SOURCE_DATE_EPOCH") or time.time()), timezone.utc)
    print("\n".join(text_of(entry, maintainer) for entry in entries_of(path.read_text(), now)), end="")


if __name__ == "__main__":
    main()
