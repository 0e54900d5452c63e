"""Compares what `tools solve` answers to some thousands of small problems with what a plain solver finds that tries
every plan: the plan's cost and how twins are dealt, the shortage, the prices and the turns."""

import os
import random
import sys
from collections import Counter

sys.path.insert(0, os.path.join(os.path.dirname(os.path.abspath(__file__)), ".."))
from problems import classes, largest, least_of, made, problem
from program import run
from reference import check, read

PROBLEMS = 3000


def faults(rows, answer):
    """What is wrong with an answer, if anything is."""
    lines = [line.split(" ") for line in answer.splitlines()]
    turns = int(lines.pop()[1])
    twins = classes(rows)
    if turns > sum(demand for _, demand, _ in rows) * (len(rows) + len(twins)):
        yield "too many turns"
    least = least_of(rows, lines)
    if lines and lines[0][0] == "short":
        members = [int(k) for _, k in lines]
        # the last search takes up the members and the classes that they may have; each row before its root took two at least
        may = set().union(*(cpus for k in members for _, cpus in rows[k][2]))
        if turns < 2 * members[-1] + len(members) + sum(twin[0] in may for twin in twins):
            yield "too few turns"
        text = problem(rows) + [f"short {rows[k][0]}" for k in members] + ["end", ""]
        if least is not None or not check("\n".join(text).encode()).startswith("short"):
            yield "no shortage"
        return
    holds, rest = lines[: len(rows)], lines[len(rows) :]
    text = problem(rows) + [f"hold {row[0]} {l} {v}" for row, (_, l, v) in zip(rows, holds)]
    text = "\n".join(text + [" ".join(words) for words in rest] + ["end", ""]).encode()
    if check(text) != f"plan total {least}":
        yield f"{check(text)}, and the least plan costs {least}"
        return
    _, sets, prices, *_ = read(text)
    owner = {cpu: k for k, (s, _) in enumerate(sets) for cpu in s}
    for twin in twins:
        owners = [owner.get(cpu, len(rows)) for cpu in twin]
        if owners != sorted(owners):
            yield f"{twin} are dealt to {owners}"
    if any(sorted(s) not in twins or not amount for amount, s in prices):
        yield "a price that is not one of a class"
    if turns < 2 * len(rows):
        yield "too few turns"


def answer_to(program, rows):
    """What the solver answers to one problem."""
    text = "\n".join(problem(rows) + [f"short {rows[0][0]}", "end", ""])
    done = run([program, "solve"], text.encode())
    if done.returncode or done.stderr:
        sys.exit(f"compare: {text[:1000]!r}: {done}")
    return done.stdout.decode()


def large_ones(program):
    """Compares what the solver answers to the largest problems."""
    counts = []
    for rows, members, turns in largest():
        answer = answer_to(program, rows)
        for fault in faults(rows, answer):
            sys.exit(f"compare: {str(rows)[:1000]}: {fault[:1000]}: {answer[:1000]!r}")
        if answer.count("short ") != members:
            sys.exit(f"compare: {answer.count('short ')} members in place of {members}: {str(rows)[:1000]}")
        if turns is not None and not answer.endswith(f"\nturns {turns}\n"):
            sys.exit(f"compare: not {turns} turns: {answer[-100:]!r}: {str(rows)[:1000]}")
        counts.append(len(classes(rows)))
    print("compare: large problems of", ", ".join(map(str, counts)), "classes")
    if max(counts) < 2048:
        sys.exit("compare: too few classes")


def main(program):
    random.seed(1)
    problems = [rows for rows in (made() for _ in range(PROBLEMS)) if rows]
    texts = ["\n".join(problem(rows) + [f"short {rows[0][0]}", "end", ""]) for rows in problems]
    done = run([program, "solve"], "".join(texts).encode())
    answers = done.stdout.decode().split("turns ")
    if done.returncode != 0 or done.stderr or len(answers) != len(problems) + 1:
        sys.exit(f"compare: status {done.returncode}, {len(answers) - 1} answers, {done.stderr!r}")
    seen = Counter()
    for rows, text, lines, more in zip(problems, texts, answers, answers[1:]):
        answer = lines[lines.find("\n") + 1 :] if lines[:1].isdigit() else lines
        answer += "turns " + more[: more.find("\n") + 1]
        for fault in faults(rows, answer):
            sys.exit(f"compare: {text!r}: {fault}: {answer!r}")
        seen["shortages" if answer.startswith("short") else "plans"] += 1
    print("compare:", ", ".join(f"{seen[name]} {name}" for name in ("plans", "shortages")))
    if min(seen["plans"], seen["shortages"]) < PROBLEMS // 10:
        sys.exit("compare: too few of one kind")


large_ones(*sys.argv[1:])
main(*sys.argv[1:])
