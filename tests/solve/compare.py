"""Compares what `numarun solve` answers to problems with what a second reader, a second checker and a plain solver answer:
`compare.py PROGRAM EXAMPLES`.

The problems are those of written.py with their written answers, the example, small random ones, most of them with random edits,
and the largest that may be. A text with a fault is refused with its first bad line, or as past the limits. Of any other the
answer is a certificate of version 1 of the very rows, which the second checker and `numarun check` accept: of small problems
every plan is tried, of large ones no exchange of CPUs makes the plan cheaper. Each kind of answer has to be seen in number.
"""

import os
import random
import re
import sys
from collections import Counter

HERE = os.path.dirname(os.path.abspath(__file__))
sys.path[:0] = [os.path.join(HERE, ".."), os.path.join(HERE, "..", "certificates"), os.path.join(HERE, "..", "solver")]
import written
from problems import classes, is_small, largest, least_of, made
from program import run
from reference import CPUS, ROWS, BadText, check, is_id, number, numbers, overlap, read, wanted

PROBLEMS = 1500
LEAST = 20
PIECES = [b" ", b"  ", b"\n", b"\r", b"\0", b"\t", b"\xff", b"-", b",", b":", b"0", b"4096", b"2-1", b"4294967296", b"33554432", b"..",
          b"x" * 65, b"row a 1 10:1\n", b"row r0 1 10:1\n", b"hold r0 1 10\n", b"total 0\n", b"short r0\n", b"end\n", b"numarun-problem 1\n",
          b"numarun-certificate 1\n"]


def rows_in(text):
    """The rows of a problem's text, or its first bad line."""
    lines, rows, ids = text.split(b"\n"), [], set()
    for at, line in enumerate(lines[:-1], 1):
        words = line.split(b" ")
        if at == 1:
            if line != b"numarun-problem 1":
                raise BadText(1)
        elif line == b"end":
            if lines[at:] != [b""]:
                raise BadText(at + 1)
            return rows
        elif words[0] == b"row" and len(words) >= 3 and is_id(words[1]) and words[1] not in ids:
            ids.add(words[1])
            offers = []
            for word in words[3:]:
                weight, colon, cpus = word.partition(b":")
                offers.append((wanted(number(weight, 32) if colon else None, at), wanted(numbers(cpus), at)))
            rows.append((words[1], wanted(number(words[2], 32), at), offers))
        else:
            raise BadText(at)
    raise BadText(len(lines))


def refusal_of(text):
    """The line that a problem's text is refused with, or none; and its rows."""
    try:
        rows = rows_in(text)
    except BadText as found:
        return f"refused E77 BadText {found.args[0]}", None
    beyond = len(rows) > ROWS or any(not 1 <= demand <= CPUS for _, demand, _ in rows)
    beyond |= any(weight > 33_554_431 for _, _, offers in rows for weight, _ in offers)
    beyond |= any(overlap([s for _, s in offers]) for _, _, offers in rows)
    return ("refused E70 BadProblem" if beyond else None), rows


def text_of(rows):
    lines = ["numarun-problem 1"]
    for name, demand, offers in rows:
        lines.append(" ".join([f"row {name} {demand}"] + [f"{w}:{','.join(map(str, sorted(s)))}" for w, s in offers]))
    return "\n".join(lines + ["end", ""]).encode()


def fault_of(rows, answer):
    """What is wrong with the certificate of these rows, if anything is; and the second checker's verdict."""
    verdict = check(answer)
    if not answer.startswith(b"numarun-certificate 1\n") or read(answer)[0] != rows:
        return "no certificate of version 1 of these rows", verdict
    lines = [line.split(" ")[:1] + line.split(" ")[2:] for line in answer.decode().splitlines() if line[:5] in ("hold ", "short")]
    least = least_of(rows, lines)
    if least is None:
        members = [line.split(b" ")[1] for line in answer.splitlines() if line.startswith(b"short ")]
        if any(least_of([row for row in rows if row[0] in members and row[0] != name], []) is None for name in members if is_small(rows)):
            return "a member of the shortage can be left out", verdict
        return (None if verdict.startswith("short demand ") else "there is no plan"), verdict
    owner = {cpu: k for k, (s, _) in enumerate(read(answer)[1]) for cpu in s}
    dealt = [[owner.get(cpu, len(rows)) for cpu in twin] for twin in classes(rows)]
    if any(owners != sorted(owners) for owners in dealt):
        return "alike CPUs are not dealt in order", verdict
    return (None if verdict == f"plan total {least}" else f"the least plan costs {least}"), verdict


def judged(program, text):
    """What is answered to a problem; its kind."""
    done = run([program, "solve"], text)
    refusal, rows = refusal_of(text)
    if refusal:
        if (done.returncode, done.stdout, done.stderr) != (1, refusal.encode() + b"\n", b""):
            sys.exit(f"solve: {text[:2000]!r}: expected {refusal!r}, found {done}")
        return refusal.split()[1], done.stdout
    fault, verdict = fault_of(rows, done.stdout) if (done.returncode, done.stderr) == (0, b"") else ("refused", "")
    if fault:
        sys.exit(f"solve: {text[:2000]!r}: {fault}, and the check says {verdict!r}: {str(done)[:3000]}")
    checked = run([program, "check"], done.stdout)
    if (checked.returncode, checked.stdout, checked.stderr) != (0, verdict.encode() + b"\n", b""):
        sys.exit(f"solve: {text[:2000]!r}: `numarun check` says {checked}")
    return verdict.split()[0], done.stdout


def edited(text):
    for _ in range(random.randint(1, 2)):
        at = random.randint(0, len(text))
        kind = random.random()
        if kind < 0.4:
            text = text[:at] + random.choice(PIECES) + text[at:]
        elif kind < 0.6:
            text = text[:at] + text[at + random.randint(1, 6) :]
        elif kind < 0.8:
            found = random.choice(list(re.finditer(rb"(?<=[ :,-])[0-9]+", text)) or [re.search(rb"1", text)])
            text = text[: found.start()] + random.choice([b"0", b"1", b"4096", b"4097", b"33554432", b"4294967296"]) + text[found.end() :]
        else:
            lines = text.split(b"\n")
            a, b = random.randrange(len(lines)), random.randrange(len(lines))
            lines[a], lines[b] = lines[b], lines[a]
            text = b"\n".join(lines)
    return text


def written_ones(program):
    """Compares the problems with written answers."""
    for text, line in written.REFUSED:
        if refusal_of(text)[0] != line:
            sys.exit(f"solve: {text[:2000]!r}: expected {line!r}, the second reader answers {refusal_of(text)[0]!r}")
        judged(program, text)
    for text, answer in written.ANSWERED:
        if judged(program, text)[1].decode() != answer:
            sys.exit(f"solve: {text[:2000]!r}: expected {answer!r}, found {judged(program, text)[1]!r}")
    for text, total, held in written.PLANNED:
        lines = judged(program, text)[1].decode().splitlines()
        found = [line.split(" ")[2] for line in lines if line.startswith("hold ")]
        if found != held or f"total {total}" not in lines:
            sys.exit(f"solve: {text[:2000]!r}: expected {held} and {total}, found {lines}")
    return len(written.REFUSED) + len(written.ANSWERED) + len(written.PLANNED)


def example(program, folder):
    """The example's certificate is the file beside it."""
    text, expected = (open(os.path.join(folder, name), "rb").read() for name in ("caches.problem", "caches.certificate"))
    if judged(program, text)[1] != expected:
        sys.exit(f"solve: the example: expected {expected!r}, found {judged(program, text)[1]!r}")


def main(program, folder):
    random.seed(1)
    count = written_ones(program)
    example(program, folder)
    whole = [text_of(rows) for rows in (made() for _ in range(PROBLEMS))]
    seen = Counter(judged(program, text)[0] for text in whole + [edited(random.choice(whole)) for _ in range(PROBLEMS)])
    large = Counter(judged(program, text_of(rows))[0] for rows, *_ in largest())
    print(f"solve: {count} problems with written answers, the example,", ", ".join(f"{name} {seen[name]}" for name in sorted(seen)))
    print("solve: large problems:", ", ".join(f"{name} {large[name]}" for name in sorted(large)))
    missing = [name for name in ("plan", "short", "E70", "E77") if seen[name] < LEAST] + [k for k in ("plan", "short") if not large[k]]
    if missing:
        sys.exit(f"solve: too few answers of the kinds {', '.join(missing)}")


main(*sys.argv[1:])
