"""What the scripts can say, as it stands in their source: of the agent's log the first word of each line, and the phrases by which an
operator looks a line up. A line whose first word is not to be seen there has to be in BY_HAND, so that a new one can't go unnoticed."""

from __future__ import annotations

import ast
import pathlib
from typing import Dict, Iterator, List, Set, Tuple

# What is said that stands in the source as no text, and the words that it begins with.
BY_HAND: Dict[str, Tuple[str, ...]] = {
    "problem.line": (),                   # of a Kind
    "ledger.problems[key].line": (),      # the same
    "line": ("plan", "hold", "pool"),     # a plan, and what it changes
    "event": ("offline", "online"),
    "f'{reply.first}: {event}'": ("refused",),
    "late": ("late",),
}
PHRASE = 3  # words that a piece of a text has which is looked up as a whole


def calls(tree: ast.AST, name: str) -> Iterator[ast.Call]:
    for node in ast.walk(tree):
        if isinstance(node, ast.Call) and isinstance(node.func, ast.Name) and node.func.id == name:
            yield node


def texts(node: ast.expr) -> List[ast.expr]:
    """The expressions that a text may come from."""
    if isinstance(node, ast.IfExp):
        return texts(node.body) + texts(node.orelse)
    if isinstance(node, ast.BinOp):
        return texts(node.left)
    return [node]


def first_word(node: ast.expr) -> str:
    """The first word of a text that begins with one; nothing of others."""
    piece = node.values[0] if isinstance(node, ast.JoinedStr) and node.values else node
    text = piece.value if isinstance(piece, ast.Constant) and isinstance(piece.value, str) else ""
    return text.split()[0].rstrip(":") if text.strip() else ""


def first_words(package: pathlib.Path) -> Tuple[Set[str], Set[str]]:
    """The words with which lines begin that are said as they stand there, and what is said otherwise."""
    words: Set[str] = set()
    others: Set[str] = set()
    for path in sorted(package.glob("*.py")):
        for call in calls(ast.parse(path.read_text(encoding="utf-8")), "Say"):
            for node in texts(call.args[0]):
                word = first_word(node)
                words, others = (words | {word}, others) if word else (words, others | {ast.unparse(node)})
    return words, others


def is_text(node: ast.AST) -> bool:
    return isinstance(node, ast.Constant) and isinstance(node.value, str)


def all_texts(package: pathlib.Path) -> str:
    """All texts of the source, one after another."""
    trees = [ast.parse(path.read_text(encoding="utf-8")) for path in sorted(package.glob("*.py"))]
    return "\n".join(str(node.value) for tree in trees for node in ast.walk(tree) if isinstance(node, ast.Constant))


def docstrings(tree: ast.AST) -> Set[int]:
    """The places of the texts that stand alone."""
    return {id(node.value) for node in ast.walk(tree) if isinstance(node, ast.Expr) and is_text(node.value)}


def phrases(package: pathlib.Path) -> Set[str]:
    """The pieces of texts, in the files that say what is logged, that have several words."""
    found: Set[str] = set()
    for path in sorted(package.glob("*.py")):
        tree = ast.parse(path.read_text(encoding="utf-8"))
        if not any(next(calls(tree, name), None) for name in ("Say", "report")):
            continue
        alone = docstrings(tree)
        for node in ast.walk(tree):
            if isinstance(node, ast.Constant) and isinstance(node.value, str) and id(node) not in alone:
                piece = " ".join(node.value.split()).strip(" :;,")
                found |= {piece} if len(piece.split()) >= PHRASE else set()
    return found
