"""The definitions of a page of specs/: of each its comment and its text."""

from __future__ import annotations

import pathlib
import re
from typing import NamedTuple

# The line with which a definition begins, and not `record x { field = ..`, which is a value. Those in modules are indented.
DEFINITION = re.compile(r" *(?P<pub>pub )?(?:abbrev|unfoldable|record|data) (?P<also>pub )?(?P<name>[A-Za-z_][^\s:]*)(?! \{ ?\w+ =)")


class Definition(NamedTuple):
    name: str
    public: bool
    comment: list[str]
    text: list[str]


def above(lines: list[str], at: int, mark: str) -> list[str]:
    """The text of the comment lines right above a line."""
    first = at
    while first > 0 and lines[first - 1].strip().startswith(mark):
        first -= 1
    return [line.strip()[len(mark):].strip() for line in lines[first:at]]


def head(lines: list[str], mark: str) -> list[str]:
    """The text of the comment lines that a file begins with."""
    end = next((at for at, line in enumerate(lines) if not line.startswith(mark)), len(lines))
    return above(lines, end, mark)


def lines_of(path: pathlib.Path) -> list[str]:
    return path.read_text(encoding="utf-8").splitlines()


def definitions(lines: list[str]) -> list[Definition]:
    """The definitions of a page, in its order. One goes as far as the next empty line, or the next definition with its comment."""
    found: list[Definition] = []
    for at, line in enumerate(lines):
        begins = DEFINITION.match(line)
        if not begins:
            continue
        end = at + 1
        while end < len(lines) and lines[end].strip() and not DEFINITION.match(lines[end]):
            end += 1
        while lines[end - 1].strip().startswith("--"):
            end -= 1
        public = bool(begins["pub"] or begins["also"])
        found.append(Definition(begins["name"], public, above(lines, at, "--"), lines[at:end]))
    return found
