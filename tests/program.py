"""Runs programs for tests: one that does not come to its end ends the test."""

import pathlib
import re
import subprocess
import sys

SECONDS = 60
CHANGES = pathlib.Path(__file__).resolve().parents[1] / "CHANGELOG.md"


def version():
    """The line that `--version` prints: the number of the newest release of CHANGELOG.md."""
    found = re.search(r"^## \[([0-9]+\.[0-9]+\.[0-9]+)\]", CHANGES.read_text(encoding="utf-8"), re.MULTILINE)
    return f"numarun {found[1]}\n".encode()


def run(words, given=b"", seconds=SECONDS, **more):
    """What came of these words, with these bytes or this open file on standard input and both other streams kept."""
    source = {"input": given} if isinstance(given, bytes) else {"stdin": given}
    try:
        return subprocess.run(words, capture_output=True, timeout=seconds, **source, **more)
    except subprocess.TimeoutExpired:
        sys.exit(f"{words} did not come to its end within {seconds} seconds; its input was {repr(given)[:1000]}")
