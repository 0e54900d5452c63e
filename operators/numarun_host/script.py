"""What each of the programs needs: files that are read as far as they may be, files that are replaced at once, and how what can't be
had is refused by a line."""

from __future__ import annotations

import os
import shutil
import sys
from typing import Callable, Union

# As much as numarun takes of an input.
BYTES = 64 << 20


class Refused(Exception):
    """What can't be had, as one line that names the file and the place."""


def read_bytes(path: str, most: int = BYTES) -> bytes:
    """The bytes of a file; `-` is standard input."""
    try:
        if path == "-":
            found = sys.stdin.buffer.read(most + 1)
        else:
            with open(path, "rb") as file:
                found = file.read(most + 1)
    except (OSError, ValueError) as why:
        raise Refused(f"{path}: {getattr(why, 'strerror', None) or why}") from None
    if len(found) > most:
        raise Refused(f"{path}: more than {most} bytes")
    return found


def read_text(path: str, most: int = BYTES) -> str:
    """The text of a file; `-` is standard input."""
    try:
        return read_bytes(path, most).decode()
    except UnicodeDecodeError as why:
        raise Refused(f"{path}: byte {why.start}: not UTF-8") from None


def read_kept(path: str, most: int = BYTES) -> str:
    """The text of a file that an agent has left. What is no file there is refused; nobody waits for a pipe."""
    if not os.path.isfile(path):
        raise Refused(f"{path}: no file")
    return read_text(path, most)


def replace_file(path: str, text: str) -> None:
    """The file has all of the text at once."""
    try:
        with open(f"{path}.new", "w", encoding="utf-8", errors="surrogateescape") as file:
            file.write(text)
        os.rename(f"{path}.new", path)
    except OSError as why:
        raise Refused(f"{path}: {why.strerror}") from None


def find_program() -> str:
    """numarun: the one that was built in this checkout, or installed with these scripts, or else that of PATH."""
    here = os.path.dirname(os.path.dirname(os.path.realpath(__file__)))
    built = os.path.join(os.path.dirname(here), "crates", "numarun", "out", "numarun")
    installed = os.path.normpath(os.path.join(here, "..", "..", "bin", "numarun"))
    found = [path for path in (built, installed) if os.path.isfile(path) and os.access(path, os.X_OK)]
    return found[0] if found else shutil.which("numarun") or built


def check_program(path: str) -> None:
    if not shutil.which(path):
        raise Refused(f"{path}: no program (see --program)")


def run(main: Callable[[], int]) -> None:
    """Runs a program's `main`; what it refuses is one line on standard error and status 1."""
    name = os.path.basename(sys.argv[0])
    if sys.stdin is None or sys.stdout is None:
        sys.exit(f"{name}: standard input or standard output is closed")
    if hasattr(sys.stdout, "reconfigure"):
        sys.stdout.reconfigure(encoding="utf-8", errors="backslashreplace")
    sys.exit(status_of(main, name))


def status_of(main: Callable[[], int], name: str) -> Union[int, str]:
    try:
        status = main()
        sys.stdout.flush()
        return status
    except Refused as why:
        return f"{name}: {why}"
    except BrokenPipeError:
        os.dup2(os.open(os.devnull, os.O_WRONLY), 1)
        return 1
    except KeyboardInterrupt:
        return 130
    except MemoryError:
        return f"{name}: memory is short"
    except OSError as why:
        return f"{name}: {why.filename or 'standard output'}: {why.strerror}"
