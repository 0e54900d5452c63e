"""The lines that the agent says, on standard output: with the time before them, or, where that is journald's stream, with their priority
as sd-daemon(3) has it, since journald keeps the time itself."""

from __future__ import annotations

import logging
import os
import sys
from datetime import datetime

from .commands import Level


class Lines(logging.StreamHandler):  # type: ignore[type-arg]
    """A line that can't be written ends the agent."""

    def handleError(self, record: logging.LogRecord) -> None:
        raise


class Stamped(logging.Formatter):
    def format(self, record: logging.LogRecord) -> str:
        return f"{datetime.fromtimestamp(record.created).isoformat(timespec='milliseconds')} {record.getMessage()}"


class Prioritised(logging.Formatter):
    def format(self, record: logging.LogRecord) -> str:
        return f"<{getattr(record, 'priority', Level.INFO.value)}>{record.getMessage()}"


def is_journal() -> bool:
    """Whether standard output is journald's stream (systemd.exec(5), JOURNAL_STREAM)."""
    try:
        found = os.fstat(sys.stdout.fileno())
    except (OSError, ValueError):
        return False
    return os.environ.get("JOURNAL_STREAM") == f"{found.st_dev}:{found.st_ino}"


def logger() -> logging.Logger:
    found = logging.getLogger("numarun-agent")
    handler = Lines(sys.stdout)
    handler.setFormatter(Prioritised() if is_journal() else Stamped())
    found.handlers, found.propagate = [handler], False
    found.setLevel(logging.INFO)
    return found


def printable(line: str) -> str:
    """A line in which what is no printable sign is escaped, since names and paths that others chose may have line ends in them."""
    return line if line.isprintable() else "".join(sign if sign.isprintable() else ascii(sign)[1:-1] for sign in line)


def say(log: logging.Logger, line: str, level: Level) -> None:
    log.log(logging.WARNING if level is Level.WARNING else logging.INFO, "%s", printable(line), extra={"priority": level.value})
