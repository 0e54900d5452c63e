"""No page of specs/ or proofs/ and no source imports what nothing there uses.

imports.py          fails where one does
imports.py --write  drops what is not used
"""

from __future__ import annotations

import pathlib
import re
import sys

TOP = pathlib.Path(__file__).resolve().parents[2]
# A line that imports names.
USE = re.compile(r"^(?P<head> *(?:ghost )?use [\w.]+)(?:\.\{(?P<names>.*)\}| as (?P<other>\w+))(?P<end>;?)$")


def used(name: str, text: str) -> bool:
    """Whether the text has the name, or of an operator each of its signs."""
    if "◌" in name:
        return all(sign in text for sign in name.split("◌") if sign)
    return re.search(r"(?<![\w'-])%s(?![\w'-])" % re.escape(name), text) is not None


def kept(line: str, text: str) -> str | None:
    """The line with the names alone that the text uses, or None where there are none."""
    use = USE.match(line)
    if not use:
        return line
    if use["other"]:
        return line if used(use["other"], text) else None
    names = [name.strip() for name in use["names"].split(",")]
    left = [name for name in names if used(name.split(" as ")[-1].strip(), text)]
    if left == names:
        return line
    return f"{use['head']}.{{{', '.join(left)}}}{use['end']}" if left else None


def main() -> None:
    wrong, write = [], "--write" in sys.argv
    for path in sorted((TOP / "crates").glob("*/*/**/*")):
        if path.suffix not in (".antt", ".rt") or "out" in path.relative_to(TOP).parts:
            continue
        lines = path.read_text(encoding="utf-8").splitlines()
        text = "\n".join(line for line in lines if not USE.match(line) and not line.lstrip().startswith(("--", "//")))
        new = [kept(line, text) for line in lines]
        if lines == new:
            continue
        wrong += [f"{path.relative_to(TOP)}: {line.strip()}" for line, left in zip(lines, new) if line != left]
        if write:
            path.write_text("".join(f"{line}\n" for line in new if line is not None), encoding="utf-8")
    if wrong and not write:
        sys.exit("\n".join(["imports that nothing uses:", *wrong]))


main()
