"""What the pages name is there: links with their headings, paths, names of code, clauses behind claims, crates, transcripts, the
version; each decision has a heading of its own; README.md is short; and no crate cites the proofs of another."""

from __future__ import annotations

import pathlib
import re
import sys
from typing import Iterator

TOP = pathlib.Path(__file__).resolve().parents[2]
# Folders at the top that a path in backticks may begin with.
FOLDERS = ("crates", "docs", "tests", "examples", "operators", "benches", "bench", ".ci")
PATH = re.compile(r"`((?:%s)/[\w./+-]*)`" % "|".join(map(re.escape, FOLDERS)))
LINK = re.compile(r"\[[^\]]*\]\(([^)\s]+)\)")
BLOCK = re.compile(r"^ *```(\w*)\n(.*?)^ *```$", re.DOTALL | re.MULTILINE)
# What a built checkout has and a fresh one has not.
MADE = re.compile(r"/out(/|$)")
README_LINES = 200


def pages() -> dict[pathlib.Path, str]:
    found = [*TOP.glob("*.md"), *(TOP / "docs").rglob("*.md"), *(TOP / "operators").glob("*.md"), *(TOP / f / "README.md" for f in ("examples", "bench", "benches", "tests"))]
    return {path: path.read_text(encoding="utf-8") for path in sorted(found)}


def headings(text: str) -> set[str]:
    """The names of a page's headings, as links name them."""
    found = re.findall(r"^#+ (.*)$", re.sub(BLOCK, "", text), re.MULTILINE)
    return {re.sub(r"[^\w\- ]", "", heading.strip().lower()).replace(" ", "-") for heading in found}


def links(path: pathlib.Path, text: str, texts: dict[pathlib.Path, str]) -> Iterator[str]:
    """Links that lead nowhere."""
    for link in LINK.findall(re.sub(BLOCK, "", text)):
        if re.match(r"[a-z]+:", link):
            continue
        place, _, heading = link.partition("#")
        target = (path.parent / place).resolve() if place else path
        if not target.exists():
            yield f"{link} is not there"
        elif heading and heading not in headings(texts.get(target, "")):
            yield f"{link}: no such heading"


def is_case(name: str) -> bool:
    """Whether it is a file of a test's cases, or one of these, as tests/run has them."""
    file, _, case = name.rpartition("/")
    whole, cases = (TOP / "tests" / f"{path}.py" for path in (name, file))
    return whole.exists() or (cases.exists() and f"\ndef {case}(" in cases.read_text(encoding="utf-8"))


def paths(text: str) -> Iterator[str]:
    """Paths in backticks, and words of shell blocks, that are not there."""
    shell = "\n".join(body for kind, body in BLOCK.findall(text) if kind == "sh")
    named = PATH.findall(re.sub(BLOCK, "", text)) + re.findall(r"(?<![\w./-])((?:%s)/[\w./+-]+)" % "|".join(FOLDERS[:-1]), shell)
    for name in named:
        if not MADE.search(name) and "NAME" not in name and "CRATE" not in name and not (TOP / name).exists() and not is_case(name):
            yield f"{name} is not there"


def crates(texts: dict[pathlib.Path, str]) -> Iterator[str]:
    """Crates that the map lacks, or that it has and crates.txt has not."""
    listed = re.findall(r"^(\w+):", (TOP / "crates.txt").read_text(encoding="utf-8"), re.MULTILINE)
    mapped = re.findall(r"^\| `(\w+)` \|", texts[TOP / "docs/architecture.md"].split("\n## ")[0], re.MULTILINE)
    yield from (f"{name} is not in the table" for name in listed if name not in mapped)
    yield from (f"{name} is no crate" for name in mapped if name not in listed)


def cited_proofs() -> Iterator[str]:
    """Proofs of a crate here that another crate names."""
    listed = re.findall(r"^(\w+):", (TOP / "crates.txt").read_text(encoding="utf-8"), re.MULTILINE)
    for name in listed:
        for path in sorted(path for kind in ("src/**/*.rt", "specs/**/*.antt", "proofs/**/*.antt") for path in TOP.glob(f"crates/{name}/{kind}")):
            for of in set(re.findall(r"\b(\w+)(?:\.|::)proofs\b", path.read_text(encoding="utf-8"))):
                if of in listed and of != name:
                    yield f"{path.relative_to(TOP)} names the proofs of {of}"


def decisions(text: str) -> Iterator[str]:
    """Decisions that can't be linked: whose heading is that of another one too, or that have none."""
    found = [next(iter(headings(line))) for line in re.sub(BLOCK, "", text).splitlines() if line.startswith("### ")]
    yield from (f"#{name} is the heading of two decisions" for name in sorted(set(found)) if found.count(name) > 1)
    yield from (f"{line[:40]}.. has no heading" for line in text.splitlines() if line.startswith("**"))


def scripts(text: str) -> Iterator[str]:
    """Scripts of tests/ that tests/README.md or the table of tests/run lack."""
    run = (TOP / "tests/run").read_text(encoding="utf-8")
    for path in sorted((TOP / "tests").glob("*.sh")):
        if path.name == "all.sh" or path.name.startswith("build-"):
            continue
        if f"| `{path.name}` |" not in text:
            yield f"{path.name} has no row"
        if f'Test("{path.stem}"' not in run:
            yield f"{path.name} is not run by tests/run"


def words(*patterns: str) -> set[str]:
    """All words of the files of these patterns."""
    found = set()
    for path in (path for pattern in patterns for path in TOP.glob(pattern) if path.is_file()):
        found.update(re.findall(r"[A-Za-z_][\w'-]*", path.read_text(encoding="utf-8", errors="replace")))
    return found


def names(texts: dict[pathlib.Path, str]) -> Iterator[str]:
    """Names of code in the pages that stand nowhere in it."""
    known = words("crates/*/src/**/*.rt", "crates/*/specs/*.antt", "crates/*/proofs/*.antt", "tests/**/*.py", "tests/*.sh", "tests/run", "crates.txt")
    for page in ("docs/proved.md", "docs/claims.md", "docs/architecture.md", "docs/reading.md", "docs/glossary.md", "CONTRIBUTING.md", "tests/README.md"):
        for name in re.findall(r"`([^`\n]+)`", re.sub(BLOCK, "", texts[TOP / page])):
            parts = name.split("::")
            if all(re.fullmatch(r"[A-Za-z_]\w*", part) for part in parts) and not name.startswith("NAME"):
                yield from (f"{page}: {name} is nowhere" for part in parts if part not in known)


def clauses(text: str) -> Iterator[str]:
    """Names behind a claim of docs/claims.md that are no clause, function or definition of its crate."""
    for section in text.split("\n## ")[1:]:
        title, _, body = section.partition("\n")
        of = [crate.strip() for crate in title.split(",")]
        there = "\n".join(path.read_text(encoding="utf-8") for crate in of for kind in ("src/**/*.rt", "specs/*.antt")
                          for path in TOP.glob(f"crates/{crate}/{kind}"))
        for brackets in re.findall(r"\(([^()]*`[^()]*)\)", body):
            for name in re.findall(r"`([a-z_]+)`", brackets):
                if not re.search(rf"\b(ensures|fn|mod|pub|abbrev) {name}\b", there) and not (TOP / "crates" / name).is_dir():
                    if not re.search(rf"specs\.\w+\.\{{[^}}]*\b{name}\b", there):
                        yield f"docs/claims.md: {title}: {name} is no clause, function or definition there"


def transcripts(texts: dict[pathlib.Path, str]) -> Iterator[str]:
    """Answers that the pages show and that are not those of the scripts."""
    scripts = TOP / "examples/scripts"
    first = [body for kind, body in BLOCK.findall(texts[TOP / "README.md"]) if not kind]
    lines = first[0].splitlines() if len(first) == 1 else []
    for file, kept in (("plans", [line[2:] for line in lines if line.startswith("> ")]),
                       ("plans.answers", [line for line in lines if not line.startswith("> ")])):
        there = (scripts / file).read_text(encoding="utf-8").splitlines()
        if not lines or there[: len(kept)] != kept:
            yield f"README.md: the transcript is not what examples/scripts/{file} begins with"
    shown = [body for kind, body in BLOCK.findall(texts[TOP / "examples/README.md"]) if body.startswith("> ")]
    lines = shown[0].splitlines() if len(shown) == 1 else []
    for file, kept in (("a-cpu-goes", [line[2:] for line in lines if line.startswith("> ")]),
                       ("a-cpu-goes.answers", [line for line in lines if not line.startswith("> ")])):
        if (scripts / file).read_text(encoding="utf-8").splitlines() != kept:
            yield f"examples/README.md: the transcript is not examples/scripts/{file}"


def version(text: str) -> Iterator[str]:
    """That the newest release of the changelog has the version that the program prints."""
    release = re.search(r"^## \[([0-9.]+)\]", text, re.MULTILINE)
    source = (TOP / "crates/command_line/src/command_line.rt").read_text(encoding="utf-8")
    printed = re.search(r'^const VERSION: &str = "([0-9.]+)";', source, re.MULTILINE)
    if not release or not printed or release[1] != printed[1]:
        yield "the newest release is not the version that the program prints"


def main() -> None:
    texts, wrong = pages(), []
    for path, text in texts.items():
        wrong += [f"{path.relative_to(TOP)}: {what}" for what in [*links(path, text, texts), *paths(text)]]
    wrong += [f"docs/architecture.md: {what}" for what in crates(texts)]
    wrong += [f"docs/architecture.md: {what}, and no crate cites lemmas in the proofs of another" for what in cited_proofs()]
    wrong += [f"docs/DECISIONS.md: {what}" for what in decisions(texts[TOP / "docs/DECISIONS.md"])]
    wrong += [f"tests/README.md: {what}" for what in scripts(texts[TOP / "tests/README.md"])]
    wrong += names(texts)
    wrong += clauses(texts[TOP / "docs/claims.md"])
    wrong += transcripts(texts)
    wrong += [f"CHANGELOG.md: {what}" for what in version(texts[TOP / "CHANGELOG.md"])]
    lines = texts[TOP / "README.md"].count("\n")
    if lines > README_LINES:
        wrong.append(f"README.md has {lines} lines, and {README_LINES} are the most")
    if wrong:
        sys.exit("\n".join(wrong))
    print(f"{len(texts)} pages looked through")


main()
