"""The rows of docs/claims.md, which are the comments of the crates; and that each definition has a comment.

rows.py                        fails where the page differs from what it makes, or where a comment is missing
rows.py --write                writes the rows into the page
rows.py --text [CRATE [PAGE]]  prints the definitions of specs/, each with its comment and its text

docs/claims.md says by hand which rows it has, and in what order. The section of a crate gets the bullets that stand under `# Proved`
at the heads of its files in src/. A bullet `NAME`, `TYPE::NAME` or `laws::NAME` in it gets the first paragraph of that function's
doc, of a law all of it, and the comment above each clause. Where that clause is a record, the comment may be a list with an item
"- `FIELD`: .." for each field, and each is a row. Each public function with such comments has a bullet, and so has each public function
of laws.rt. A section with the line `<!-- by hand -->` stays as it is.

A public definition of specs/ has a comment above it, and a page has one at its head. Those that have none yet are named in
tests/pages/without-comments, which only gets shorter: a line `CRATE PAGE: NAME..`, where `(head)` stands for the head of the page.
"""

from __future__ import annotations

import pathlib
import re
import signal
import sys
import textwrap
from typing import Iterator

from specs import above, definitions, head, lines_of

TOP = pathlib.Path(__file__).resolve().parents[2]
CLAIMS, WITHOUT = TOP / "docs/claims.md", TOP / "tests/pages/without-comments"
WIDTH = 126
CLAIMED = re.compile(r"- `((?:\w+::)?\w+)`(?::|$)")
FUNCTION = re.compile(r"( *)(pub )?(?:const )?fn (\w+)")
OWNER = re.compile(r"(?:impl|pub trait)\b[^{]*?(\w+)(?:<[^{]*)? *(?:where[^{]*)?\{")
CLAUSE = re.compile(r" *ensures (\w+ )?\{")
# The claim of a field in a comment above a clause that is a record, that clause, and a field of a record.
OF_FIELD = re.compile(r"- `(\w+)`: (.*)")
RECORD = re.compile(r" *ensures \{ (\w+)\b")
FIELD = re.compile(r"^  pub (\w+) :", re.MULTILINE)
# A link that only the docs of code have.
LINK = re.compile(r"\[(`[^`\]]*`)\](?:\([^)\s]*\))?")
LEAST_ROWS, LEAST_DEFINITIONS = 170, 1700


def wrapped(text: str, first: str = "", rest: str = "") -> list[str]:
    return textwrap.wrap(text, WIDTH, initial_indent=first, subsequent_indent=rest, break_long_words=False, break_on_hyphens=False)


def crates() -> list[str]:
    """The crates, the lowest first."""
    return re.findall(r"^(\w+):", (TOP / "crates.txt").read_text(encoding="utf-8"), re.MULTILINE)


class Source:
    """What the files of a crate's src/ claim, and of each function what its doc and the comments above its clauses say; which of them have
    such comments, and which are laws."""

    def __init__(self, crate: str) -> None:
        self.claims: list[str] = []
        self.functions: dict[str, tuple[str, list[tuple[str, str]]]] = {}
        self.commented: set[str] = set()
        self.laws: set[str] = set()
        library = TOP / "crates" / crate / "src/lib.rt"
        exported = set(re.findall(r"\w+", library.read_text(encoding="utf-8"))) if library.is_file() else set()
        for path in sorted(library.parent.rglob("*.rt"), key=lambda path: (path != library, path)):
            self.read(lines_of(path), path.name == "laws.rt", exported)

    def read(self, lines: list[str], is_laws: bool, exported: set[str]) -> None:
        self.claims += claims(lines)
        owner = ""
        for at, line in enumerate(lines):
            of, found = OWNER.match(line), FUNCTION.match(line)
            if of or line.startswith("}"):
                owner = of[1] if of and not line.endswith("}") else ""
            if found:
                title = "::".join(filter(None, ["laws" if is_laws else owner, found[3]]))
                says = doc(lines, at, is_laws), list(clauses(lines, at, found[1]))
                self.functions.setdefault(title, says)
                if found[2] and says[1] and exported & {owner or found[3]}:
                    self.commented.add(title)
                if found[2] and is_laws:
                    self.laws.add(title)


def plain(text: str) -> str:
    return LINK.sub(r"\1", text).replace("`crate::", "`")


def claims(lines: list[str]) -> list[str]:
    """The bullets under `# Proved` at the head of a file."""
    text, found = head(lines, "//!"), list[str]()
    for line in text[text.index("# Proved") + 1:] if "# Proved" in text else ():
        if line.startswith("- "):
            found.append(line[2:])
        elif line:
            found[-1] += f" {line}"
    return [plain(text) for text in found]


def doc(lines: list[str], at: int, whole: bool) -> str:
    """The first paragraph of a function's doc, or all of it up to its first heading. Attributes and a comment may stand below it."""
    while lines[at - 1].endswith("]") or lines[at - 1].lstrip().startswith("// "):
        start = "#[" if lines[at - 1].endswith("]") else "// "
        at = next(first for first in range(at - 1, -1, -1) if lines[first].strip().startswith(start))
    said = []
    for line in above(lines, at, "///"):
        if line.startswith("# ") or not (line or whole):
            break
        said.append(line)
    return plain(" ".join(filter(None, said)))


def clauses(lines: list[str], at: int, indent: str) -> Iterator[tuple[str, str]]:
    """The name of each clause of a function that has a comment above it, and that comment. A function without a body ends with a semicolon
    that stands in no braces; one in braces is of a value in a clause, as `record { adopt = true; }`."""
    depth = 0
    while at < len(lines) and not lines[at].startswith((f"{indent}{{", f"{indent}}}")):
        clause = CLAUSE.match(lines[at])
        said = above(lines, at, "// ") if clause else []
        if said and OF_FIELD.match(said[0]):
            yield from fields(said)
        elif clause and said:
            yield (clause[1] or "").strip(), plain(" ".join(said))
        depth += lines[at].count("{") - lines[at].count("}")
        if lines[at].endswith(";") and depth == 0:
            break
        at += 1


def fields(said: list[str]) -> Iterator[tuple[str, str]]:
    """The name of each field that a comment lists, and what it says of it."""
    name, claim = "", list[str]()
    for line in said:
        begins = OF_FIELD.match(line)
        if begins and name:
            yield name, plain(" ".join(claim))
        if begins:
            name, claim = begins[1], []
        claim.append(begins[2] if begins else line)
    yield name, plain(" ".join(claim))


def misnamed(crate: str) -> Iterator[str]:
    """Comments that list other fields than those of the record above which they stand."""
    there = [definition for _, path in pages(crate) for definition in definitions(lines_of(path))]
    records = {definition.name: FIELD.findall("\n".join(definition.text)) for definition in there}
    for path in sorted((TOP / "crates" / crate / "src").rglob("*.rt")):
        lines = lines_of(path)
        for at, line in enumerate(lines):
            record, said = RECORD.match(line), above(lines, at, "// ")
            listed = [name for name, _ in fields(said)] if record and said and OF_FIELD.match(said[0]) else []
            if record and listed and listed != records.get(record[1]):
                yield f"{crate}: the fields above {record[1]} in {path.name} are not its own, each once and in order"


def section(crate: str, names: list[str]) -> tuple[str, list[str]]:
    """The section of a crate with rows for these functions, and what is missing."""
    source, made = Source(crate), [f"## {crate}", ""]
    wrong = [f"{crate}: {name} has comments above its clauses and no row" for name in sorted(source.commented - set(names))]
    wrong += [f"{crate}: the law {name} has no row" for name in sorted(source.laws - source.commented - set(names))]
    wrong += misnamed(crate)
    for claim in source.claims:
        made += wrapped(f"- {claim}", "", "  ")
    for name in names:
        says, of_clauses = source.functions.get(name, ("", []))
        if not says:
            wrong.append(f"{crate}: no function {name} with a doc")
            continue
        made += wrapped(f"- `{name}`: {says}", "", "  ")
        for clause, claim in of_clauses:
            made += wrapped(f"- `{clause}`: {claim}" if clause else f"- {claim}", "  ", "    ")
    return "\n".join(made) + "\n", wrong


def claimed(text: str) -> tuple[str, int, list[str]]:
    """docs/claims.md with the sections of crates made anew, how many rows that are, and what is missing."""
    rows, wrong, known = 0, list[str](), crates()
    first, *parts = re.split(r"\n(?=## )", text)
    made = [first]
    for part in parts:
        crate = part.partition("\n")[0].removeprefix("## ")
        if crate not in known or "<!-- by hand -->" in part:
            made.append(part.rstrip("\n") + "\n")
            continue
        names = [row[1] for row in map(CLAIMED.match, part.splitlines()) if row]
        new, missing = section(crate, names)
        made.append(new)
        rows += len(names)
        wrong += missing
    return "\n".join(made), rows, wrong


def pages(crate: str) -> Iterator[tuple[str, pathlib.Path]]:
    """The pages of a crate's specs/, but for the one that only passes others on."""
    folder = TOP / "crates" / crate / "specs"
    for path in sorted(folder.rglob("*.antt")):
        if path.name != "Lib.antt":
            yield path.relative_to(folder).with_suffix("").as_posix(), path


def uncommented() -> tuple[set[tuple[str, str, str]], int]:
    """Public definitions and heads of pages that have no comment, and how many definitions have one."""
    without, many = set(), 0
    for crate in crates():
        for page, path in pages(crate):
            lines = lines_of(path)
            if not any(head(lines, "--")):
                without.add((crate, page, "(head)"))
            for definition in definitions(lines):
                if definition.public and any(definition.comment):
                    many += 1
                elif definition.public:
                    without.add((crate, page, definition.name))
    return without, many


def known_without() -> set[tuple[str, str, str]]:
    found = set()
    for line in lines_of(WITHOUT):
        place, _, names = line.partition(": ")
        crate, page = place.split(" ")
        found |= {(crate, page, name) for name in names.split()}
    return found


def listed(places: set[tuple[str, str, str]]) -> str:
    """The lines that name these."""
    order, by_page = crates(), dict[tuple[int, str], list[str]]()
    for crate, page, name in sorted(places):
        by_page.setdefault((order.index(crate), page), []).append(name)
    return "".join(f"{order[at]} {page}: {' '.join(names)}\n" for (at, page), names in sorted(by_page.items()))


def print_text(words: list[str]) -> None:
    """The definitions of all crates, of one, or of one of its pages."""
    for crate in words[:1] or crates():
        for page, path in pages(crate):
            lines = lines_of(path)
            found = [definition for definition in definitions(lines) if definition.public]
            if not found or words[1:] not in ([], [page]):
                continue
            print("\n".join([f"## {crate} {page}", "", *filter(None, head(lines, "--")), ""]))
            for definition in found:
                print("\n".join([*(f"-- {line}" for line in definition.comment), *definition.text, ""]))


def main() -> None:
    if sys.argv[1:2] == ["--text"]:
        signal.signal(signal.SIGPIPE, signal.SIG_DFL)  # who reads it may have seen enough
        print_text(sys.argv[2:])
        return
    text = CLAIMS.read_text(encoding="utf-8")
    new, rows, wrong = claimed(text)
    without, many = uncommented()
    known = known_without()
    wrong += [f"{crate} {page}: no comment above {name}" for crate, page, name in sorted(without - known)]
    if "--write" in sys.argv:
        CLAIMS.write_text(new, encoding="utf-8")
        WITHOUT.write_text(listed(known & without), encoding="utf-8")
    else:
        if new != text:
            wrong.append("docs/claims.md: a row is not what its comment says")
        wrong += [f"{WITHOUT.relative_to(TOP)}: {' '.join(place)} has a comment by now, or is gone" for place in sorted(known - without)]
    if rows < LEAST_ROWS or many < LEAST_DEFINITIONS:
        wrong.append(f"{rows} rows, or {many} definitions with a comment, are few")
    if wrong:
        sys.exit("\n".join([*wrong, "rows and lists are made anew by: python3 -B tests/pages/rows.py --write"]))
    print(f"{rows} rows of docs/claims.md, {many} definitions with a comment, {len(without)} without")


main()
