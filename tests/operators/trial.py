"""What the tests of the operators' scripts share: a case is a function that stands behind `@case`, which run.py lists and runs; a script is run,
and what it says is compared; and what is otherwise than expected is printed, and makes the case fail."""

from __future__ import annotations

import os
import subprocess
import sys
from typing import Callable, Dict, List, Mapping, Optional, Sequence, Tuple

TOP = os.path.dirname(os.path.dirname(os.path.dirname(os.path.abspath(__file__))))
EXAMPLES, OPERATORS = os.path.join(TOP, "examples"), os.path.join(TOP, "operators")
sys.path.insert(0, OPERATORS)
PROGRAM = os.path.abspath(os.environ.get("PROGRAM", "no-program"))
SLOWER = max(1.0, float(os.environ.get("SLOWER", "1")))  # how many times longer all may take than on a machine that does nothing else
SECONDS = 120 * SLOWER  # that a script has
CASES: Dict[str, Callable[[], None]] = {}
failed: List[str] = []


def case(function: Callable[[], None]) -> Callable[[], None]:
    """A case of the file that it stands in, by its name."""
    CASES[f"{function.__module__}/{function.__name__}"] = function
    return function


def long_case(function: Callable[[], None]) -> Callable[[], None]:
    """A case that takes long, and is begun before others."""
    return case(function)


def scratch(*names: str) -> str:
    """A path in the folder of the case that runs, which is empty at its beginning and removed at its end."""
    return os.path.join(os.environ["SCRATCH"], *names)


def written(path: str, text: str, mode: int = 0o644) -> str:
    """A file with this text; its path."""
    with open(path, "w", encoding="utf-8", newline="") as file:
        file.write(text)
    os.chmod(path, mode)
    return path


def text_of(path: str) -> str:
    with open(path, encoding="utf-8") as file:
        return file.read()


def command(script: str, *words: str) -> List[str]:
    """A script of operators/, or of examples/, and the first words of it."""
    script, *first = script.split(" ")
    interpreter = ["bash"] if script.endswith(".sh") else [sys.executable, "-B"]
    folder = EXAMPLES if script == "quick-look.sh" else OPERATORS
    return [*interpreter, os.path.join(folder, script), *first, *words]


Told = Tuple[int, str, str]


def told(script: str, *words: str, text: str = "", folder: str = TOP, env: Optional[Mapping[str, str]] = None) -> Told:
    """Status, standard output and standard error of a script of operators/, or of examples/."""
    ran = subprocess.run(command(script, *words), input=text.encode(), capture_output=True, cwd=folder, timeout=SECONDS, env=env, check=False)
    return ran.returncode, ran.stdout.decode(), ran.stderr.decode()


def check(name: str, found: object, expected: object) -> None:
    if found != expected:
        failed.append(name)
        print(f"{name}: found\n{found}\nexpected\n{expected}")


def name_of(script: str) -> str:
    """What a script calls itself on standard error."""
    return script.split(" ")[0]


def refuses(script: str, *words: str, says: str, status: int = 1, first: Optional[str] = None, text: str = "",
            env: Optional[Mapping[str, str]] = None) -> None:
    """It ends with this status and one line that has these words in it, and writes nothing."""
    found, out, err = told(script, *words, text=text, env=env)
    right = found == status and not out and err.count("\n") == 1 and err.startswith(first or f"{name_of(script)}: ") and says in err
    check(f"{script} {' '.join(words)}", "refused" if right else (found, out, err), "refused")


def bad_files(script: str, before: Sequence[str], after: Sequence[str] = (), empty: str = "line 1") -> None:
    """In place of a file between these words: none, a folder, one that is not UTF-8, an empty one, a number of 5,000 digits."""
    for name, content, says in (("utf", b"\xff\xff", ""), ("empty", b"", empty), ("huge", b'{"nodes": ' + b"9" * 5000 + b"}", "")):
        path = scratch(f"bad-{name}")
        with open(path, "wb") as file:
            file.write(content)
        refuses(script, *before, path, *after, says=f"{path}: {says}")
    bounded(script, *before, "/dev/zero", *after)
    refuses(script, *before, EXAMPLES, *after, says=f"{EXAMPLES}: Is a directory")
    refuses(script, *before, "no-such-file", *after, says="no-such-file: No such file or directory")


def bad_output(script: str, *words: str, text: str = "") -> None:
    """Where what it prints can't be written, or nobody reads it, or its output is closed: status 1, and one line at most."""
    with open("/dev/full", "wb") as full:
        ran = subprocess.run(command(script, *words), input=text.encode(), stdout=full, stderr=subprocess.PIPE, cwd=TOP, timeout=100, check=False)
    lines = f"{name_of(script)}: standard output: No space left on device\n"
    check(f"{script}: a full output", (ran.returncode, ran.stderr.decode()), (1, lines))
    reader, writer = os.pipe()
    os.close(reader)
    ran = subprocess.run(command(script, *words), input=text.encode(), stdout=writer, stderr=subprocess.PIPE, cwd=TOP, timeout=100, check=False)
    os.close(writer)
    check(f"{script}: nobody reads", (ran.returncode, ran.stderr), (1, b""))
    closed = ["bash", "-c", 'exec "$@" >&-', "-", *command(script, *words)]
    ran = subprocess.run(closed, input=text.encode(), stderr=subprocess.PIPE, cwd=TOP, timeout=100, check=False)
    lines = f"{name_of(script)}: standard input or standard output is closed\n"
    check(f"{script}: a closed output", (ran.returncode, ran.stderr.decode()), (1, lines))


def piped(script: str, *words: str, text: str = "", env: Optional[Mapping[str, str]] = None) -> None:
    """Into a reader that takes a line and goes: nothing is said, as by other programs."""
    line = ["bash", "-c", 'set -o pipefail; "$@" | head -n 1 | wc -l', "-", *command(script, *words)]
    ran = subprocess.run(line, input=text.encode(), capture_output=True, cwd=TOP, timeout=100, env=env, check=False)
    said = [line for line in ran.stderr.decode().splitlines() if not line.startswith("quick-look.sh: built without")]
    check(f"{script} | head", (ran.stdout.strip(), said), (b"1", []))


def bounded(script: str, *words: str, limit: int = 1_500_000) -> None:
    """An input without an end is refused by a line, in as much memory as this (KiB), and is not read to no end."""
    line = ["bash", "-c", 'ulimit -v "$0"; exec "$@"', str(limit), *command(script, *words)]
    ran = subprocess.run(line, capture_output=True, cwd=TOP, timeout=100, check=False)
    err = ran.stderr.decode()
    check(f"{script} {' '.join(words)}: no end", (ran.returncode, ran.stdout, err.count("\n"), "more than" in err), (1, b"", 1, True))


def words_and_help(script: str, example: str) -> None:
    """Unknown words are status 2 and no traceback; the help names an example."""
    status, out, err = told(script, "--no-such-word")
    check(f"{script} --no-such-word", (status, out, "Traceback" in err), (2, "", False))
    status, out, err = told(script, "--help")
    check(f"{script} --help", (status, example in out, err), (0, True, ""))
