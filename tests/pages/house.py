"""How sources and definitions are laid out: no comment line of a source is above 120 characters; each source says at its head what it is;
and lemmas stand on the pages of specs/ that are named after them, so that whoever reads definitions can pass them over.

house.py  fails where a file is otherwise, or where a fault that is planted here is not found
"""

import pathlib
import re
import sys
from typing import Callable, Dict, Iterator, List, Set, Tuple

TOP = pathlib.Path(__file__).resolve().parents[2]
MOST = 120
# A public item with the line above it.
ITEM = re.compile(r"^( *///[^\n]*|#\[[^\n]*)\npub(?:\(\w+\))? (?:\w+ )*?(?:struct|enum|trait|fn|const) (\w+)", re.MULTILINE)
# The line that states what a lemma proves, and that of its proof; a definition begins with `abbrev`, `record` or `data`.
STATED = re.compile(r"^( *)(?:pub )?([^\s():,={}\[\];]+) :(?: |$)")
# A definition with all of its lines: what it cites belongs to it, as the proof that a code gives back what was encoded.
DEFINED = re.compile(r"^(?:abbrev|unfoldable) pub [^\n]*\n(?:[^\n]+\n)+", re.MULTILINE)
def long_comments(text: str) -> Iterator[str]:
    """The comment lines that are too long."""
    for number, line in enumerate(text.split("\n"), 1):
        if line.lstrip().startswith("//") and len(line) > MOST:
            yield f"line {number} has {len(line)} characters"


def snake(name: str) -> str:
    return re.sub(r"(?<=[a-z0-9])(?=[A-Z])", "_", name).lower()


def names_its_item(stem: str, text: str) -> bool:
    """Whether a documented public item has the file's name, in one number or the other: its doc comment is the head then."""
    items = [snake(found[2]) for found in ITEM.finditer(text)]
    wanted = {stem, stem.rstrip("s"), stem + "s"}
    return any(name in wanted or any(name.endswith("_" + word) for word in wanted) for name in items)


def headless(stem: str, text: str) -> Iterator[str]:
    """A file that begins with no `//!` and has no item after which it is named."""
    if not text.startswith("//!") and not names_its_item(stem, text):
        yield "begins with no `//!`, and no documented public item has its name"


def lemmas(text: str) -> List[str]:
    """The names of what a page proves: each has a line that states it, and one that begins with its name and is its proof."""
    lines = text.split("\n")
    found = []
    for number, line in enumerate(lines):
        stated = STATED.match(line)
        if not stated:
            continue
        proof = re.compile(rf"{stated[1]}{re.escape(stated[2])}(?= )(?! :).*(?<!;)$")
        if any(proof.match(later) for later in lines[number + 1 :]):
            found.append(stated[2])
    return found


def cited(text: str) -> Set[str]:
    """The words of the definitions of a page."""
    return {word for definition in DEFINED.findall(text) for word in re.split(r"[\s():,={}\[\];]+", definition)}


def misnamed(stem: str, text: str) -> Iterator[str]:
    """A page of lemmas under another name, or a page without any that is named after them."""
    found, named = lemmas(text), re.search(r"(Laws|Lemmas)$", stem)
    alone = [name for name in found if name not in cited(text)]
    if alone and not named:
        yield f"holds lemmas ({', '.join(alone[:3])}), and its name ends in neither Laws nor Lemmas"
    if not found and stem.endswith("Lemmas"):
        yield "is named after lemmas, and holds none"
    if not found and stem.endswith("Laws") and not re.search(r": Type 0$", text, re.MULTILINE):
        yield "is named after laws, and states none"


Rule = Callable[[str, str], Iterator[str]]
# Each rule with its files, and a file in which it has to find a fault.
RULES: Dict[str, Tuple[Rule, str, Tuple[str, str]]] = {
    "comments": (lambda stem, text: long_comments(text), "crates/*/src/**/*.rt", ("a", "    /// " + "a" * 113)),
    "heads": (headless, "crates/*/src/**/*.rt", ("walks", "/// A step.\npub fn step() {}\n")),
    "lemmas": (misnamed, "crates/*/specs/*.antt", ("Facts", "pub same : 1 ≡ 1\nsame = refl\n\nabbrev pub one : ℕ\none = 1\n")),
    "pages of lemmas": (misnamed, "crates/*/specs/*.antt", ("KeptLemmas", "abbrev pub kept : ℕ\nkept = 1\n")),
}


def faults() -> Iterator[str]:
    for rule, pattern, planted in RULES.values():
        if not list(rule(*planted)):
            yield f"a planted fault is not found: {planted}"
        for path in sorted(TOP.glob(pattern)):
            name = path.relative_to(TOP)
            if "out" not in name.parts:
                yield from (f"{name}: {why}" for why in rule(path.stem, path.read_text(encoding="utf-8")))


def main() -> None:
    found = sorted(set(faults()))
    if found:
        sys.exit("\n".join(found))


main()
