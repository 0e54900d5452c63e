"""Words that stand in files. In one of --config, which is TOML, each key is an option by its long name, a list has several values of one that
may be said several times, and `machine` is the machine file. For `@FILE` stand the words in a file: of each line some, as a shell splits them,
and a comment behind #."""

from __future__ import annotations

import argparse
import contextlib
import importlib
import re
import shlex
from typing import Any, Dict, List, NoReturn, Optional, Sequence, Tuple

from .script import Refused, read_text

FILE_BYTES = 1 << 20
MACHINE = "machine"
AT = "@"    # begins a word that names a file of words
NUL = "\0"  # no word of the system's has it
OF_ONE_RUN = ("help", "version", "config", "release", "rounds")  # what no file can say


class Parser(argparse.ArgumentParser):
    """What a file of --config says is refused by its place there."""

    place: Optional[str] = None

    def error(self, message: str) -> NoReturn:
        if self.place is not None:
            raise Refused(f"{self.place}: " + re.sub(r"^argument [^:]*: ", "", message))
        super().error(message)

    def action(self, key: str) -> Optional[argparse.Action]:
        """What an option of this name does, if a file can say it."""
        return None if key in OF_ONE_RUN else self._option_string_actions.get(f"--{key}")

    def try_word(self, word: str, place: str) -> None:
        """Refuses a word that can't be had."""
        self.place = place
        try:
            self.parse_args([word])
        finally:
            self.place = None


def words_told(told: Sequence[str], inside: Tuple[str, ...] = ()) -> List[str]:
    """These words, and in the place of each `@FILE` those in the file. `inside` are the files in which they stand."""
    words: List[str] = []
    for word in told:
        path = word[len(AT):]
        if not word.startswith(AT):
            words.append(word)
        elif path in inside:
            raise Refused(f"{path}: it names itself")
        else:
            words += words_told(words_of_file(path), (*inside, path))
    return words


def words_of_file(path: str) -> List[str]:
    words: List[str] = []
    for number, line in enumerate(read_text(path, FILE_BYTES).splitlines(), 1):
        try:
            words += shlex.split(line, comments=True)
        except ValueError as why:
            raise Refused(f"{path}: line {number}: {why}") from None
        if NUL in line:
            raise Refused(f"{path}: line {number}: a NUL")
    return words


def read_toml(path: str) -> Dict[str, object]:
    text = read_text(path, FILE_BYTES)
    library = library_of_toml()
    if library is None:
        raise Refused(f"{path}: this Python reads no TOML: install python3-tomli, or put the words themselves into a file, and name that by @FILE")
    try:
        found: Dict[str, object] = library.loads(text)
    except (ValueError, RecursionError) as why:
        raise Refused(f"{path}: not TOML: {why}") from None
    return found


def library_of_toml() -> Any:
    """What Python reads TOML by, since version 3.11; or Debian's python3-tomli before."""
    for name in ("tomllib", "tomli"):
        with contextlib.suppress(ImportError):
            return importlib.import_module(name)
    return None


def words_in(path: str, parser: Parser) -> Tuple[List[str], Optional[str]]:
    """The words that a file stands for, and the machine file that it names."""
    words: List[str] = []
    found = read_toml(path)
    machine = found.pop(MACHINE, None)
    if machine is not None and not isinstance(machine, str):
        raise Refused(f"{path}: {MACHINE}: no text")
    if machine is not None and NUL in machine:
        raise Refused(f"{path}: {MACHINE}: a NUL")
    for key, value in found.items():
        place = f"{path}: {key}"
        action = parser.action(key)
        if action is None:
            raise Refused(f"{place}: no option of a file (see --help)")
        for word in words_for(key, value, action, place):
            parser.try_word(word, place)
            words.append(word)
    return words, machine


def words_for(key: str, value: object, action: argparse.Action, place: str) -> List[str]:
    """The words for a key, of which a list has several values."""
    if action.nargs == 0:
        if not isinstance(value, bool):
            raise Refused(f"{place}: neither true nor false")
        return [f"--{key}"] if value else []
    several = isinstance(action, argparse._AppendAction)
    if isinstance(value, list) and not several:
        raise Refused(f"{place}: a list, and it takes one value")
    return [f"--{key}={text_for(item, action, place)}" for item in (value if isinstance(value, list) else [value])]


def text_for(item: object, action: argparse.Action, place: str) -> str:
    if isinstance(item, str):
        if NUL in item:
            raise Refused(f"{place}: a NUL")
        return item
    if isinstance(item, (int, float)) and not isinstance(item, bool) and action.type is not None:
        return str(item)
    raise Refused(f"{place}: {'no text' if action.type is None else 'neither a number nor a text'}")
