"""Compares what the program answers with what the second checker answers: `compare.py PROGRAM EXAMPLE`.

The texts are those of limits.py and worked.py with their written answers, every front of the example, the example and random
certificates with random edits, and random small certificates of both versions, most of them with values and prices that prove
the plan, or with members that are a shortage. Where the program says yes to a plan, no plan at all costs less, or, in version
2, none is of less distance, and none of that distance moves fewer CPUs; where it says that CPUs are short, there is no plan
at all. Each verdict has to be seen in number.
"""

import itertools
import os
import random
import re
import sys
from collections import Counter

sys.path.insert(0, os.path.join(os.path.dirname(os.path.abspath(__file__)), ".."))
import limits
import worked
from program import run
from reference import SCALE, answer_of, check, least, read

TOLD = limits.TEXTS + worked.TEXTS

PIECES = [b" ", b"  ", b"\n", b"\r", b"\0", b"\t", b"\xff", b"+", b"-", b",", b":", b"0", b"00", b"1", b"9" * 1000, b"4095",
          b"4096", b"1-3", b"2-1", b"4294967295", b"4294967296", b"18446744073709551615", b"18446744073709551616",
          b"1099511627776", b"1099511627777", b"33554431", b"33554432", b"..", b"x" * 65, b"row a 1 10:1\n",
          b"hold a 1 10\n", b"price 0 5\n", b"price 3 2\n", b"total 23\n", b"end\n", b"short a\n", b"short b\n", b" moves 0",
          b" moves 1", b"moves", b"65536", b"281474976710656", b"numarun-certificate 1\n", b"numarun-certificate 2\n", b"total 20 moves 0\n"]

NUMBERS = [b"0", b"1", b"2", b"3", b"10", b"11", b"12", b"4095", b"4096", b"4097", b"33554431", b"33554432", b"1099511627776",
           b"1099511627777", b"18446744073709551615", b"65535", b"65536", b"65537", b"65538", b"655360", b"655361", b"655362",
           b"281474976710655", b"281474976710656"]

LEAST = 20
VERDICTS = ["plan", "moves", "short", "E70", "E71", "E72", "E73", "E74", "E75", "E76", "E77"]


def edited(text):
    for _ in range(random.randint(1, 3)):
        at = random.randint(0, len(text))
        kind = random.random()
        if kind < 0.35:
            text = text[:at] + random.choice(PIECES) + text[at:]
        elif kind < 0.5:
            text = text[:at] + text[at + random.randint(1, 6) :]
        elif kind < 0.8:
            text = text[:at] + random.choice([b"0", b"1", b"2", b"9", b" ", b","]) + text[at + 1 :]
        else:
            lines = text.split(b"\n")
            a, b = random.randrange(len(lines)), random.randrange(len(lines))
            lines[a], lines[b] = lines[b], lines[a]
            text = b"\n".join(lines)
    return text


def with_other_numbers(text):
    """The text with one or two of its numbers changed."""
    for _ in range(random.randint(1, 2)):
        found = random.choice(list(re.finditer(rb"(?<=[ :,-])[0-9]+", text)))
        text = text[: found.start()] + random.choice(NUMBERS) + text[found.end() :]
    return text


def proof(rows, cost, cpus, scaled):
    """Values and prices that prove the cost, if a few tries find any."""
    amounts = [0, 0, 0, 1, SCALE - 1, SCALE, SCALE + 1] if scaled else [0, 0, 0, 1, 2, 3]
    for _ in range(300):
        price = {cpu: random.choice(amounts) for cpu in cpus}
        values = [min([w + price[c] for w, s in offers for c in s], default=0) for _, _, offers in rows]
        if sum(row[1] * value for row, value in zip(rows, values)) - sum(price.values()) == cost:
            return values, price
    return [random.randint(0, 5) for _ in rows], {cpu: random.randint(0, 2) for cpu in cpus}


def shortage(rows):
    """Numbers of rows, most often of rows that together ask for more than they may have, if there are any."""
    some = [ks for n in range(1, len(rows) + 1) for ks in itertools.combinations(range(len(rows)), n)]
    short = [ks for ks in some if sum(rows[k][1] for k in ks) > len({c for k in ks for _, s in rows[k][2] for c in s})]
    return random.choice(short if short and random.random() < 0.8 else some)


def weight_of(scaled):
    if not scaled:
        return random.randint(0, 4)
    return SCALE * random.randint(0, 2) + random.choices([0, 1, 2], [50, 50, 1])[0]


def head(rows, scaled):
    lines = [f"numarun-certificate {1 + scaled}"]
    for k, demand, offers in rows:
        lines.append(" ".join([f"row r{k} {demand}"] + [f"{w}:{','.join(map(str, s))}" for w, s in offers]))
    return lines


def made():
    """A random small certificate."""
    cpus, scaled = range(1, random.randint(2, 6)), random.random() < 0.5
    rows = []
    for k in range(random.randint(0, 3)):
        left, offers = random.sample(cpus, len(cpus)), []
        while left and random.random() < 0.85:
            count = random.randint(1, len(left))
            offers.append((weight_of(scaled), left[:count]))
            left = left[count:]
        rows.append((k, random.randint(1, 2), offers))
    if rows and random.random() < 0.4:
        return "\n".join(head(rows, scaled) + [f"short r{k}" for k in shortage(rows)] + ["end", ""]).encode()
    total = least(rows, scaled)
    cost = total and (SCALE * total[0] + total[1] if scaled else total[0])
    sets = [random.sample(cpus, min(len(cpus), demand)) for _, demand, _ in rows]
    for _ in range(200):
        weights = [{c: w for w, s in offers for c in s} for _, _, offers in rows]
        tried = [random.sample(cpus, min(len(cpus), demand)) for _, demand, _ in rows]
        if all(set(s) <= w.keys() for s, w in zip(tried, weights)) and len(set().union(*tried)) == sum(map(len, tried)):
            if sum(w[c] for s, w in zip(tried, weights) for c in s) == cost:
                sets = tried
                break
    values, price = proof(rows, cost, cpus, scaled)
    if values and random.random() < 0.1:
        values[0] += 1
    lines = head(rows, scaled)
    for k, s in enumerate(sets):
        lines.append(f"hold r{k} {','.join(map(str, s))} {values[k]}")
    lines += [f"price {amount} {cpu}" for cpu, amount in price.items() if amount]
    wrong = [number + (random.random() < 0.05) for number in total or least([], scaled)]
    lines += [answer_of(wrong).removeprefix("plan "), "end", ""]
    return "\n".join(lines).encode()


def judged(program, text, expected):
    """The verdict that the program's answer is, where it is the expected one."""
    answer = run([program, "check"], text)
    name = expected.split()[1] if expected.startswith("refused") else "moves" if "moves" in expected else expected.split()[0]
    status = 0 if name in ("plan", "moves", "short") else 1
    if (answer.stdout, answer.stderr, answer.returncode) != (expected.encode() + b"\n", b"", status):
        sys.exit(f"compare: {text[:2000]!r}: expected {expected!r}, found {answer}")
    return name


def solved(text, expected):
    """Compares an answer that is a plan's or a shortage's with what comes of trying every plan, of small problems."""
    rows, *_, scaled = read(text)
    if all(len(s) < 9 for _, _, offers in rows for _, s in offers):
        total = least(rows, scaled)
        if expected != (answer_of(total) if total else None) and not (expected.startswith("short") and total is None):
            sys.exit(f"compare: {text!r}: expected {expected!r}, but the least plan has {total}")


def main(program, example):
    random.seed(1)
    text = open(example, "rb").read()
    for told, expected in TOLD:
        judged(program, told, expected)
        if check(told) != expected:
            sys.exit(f"compare: {told[:2000]!r}: expected {expected!r}, the second checker answers {check(told)!r}")
    small = [made() for _ in range(3000)]
    texts = [text[:end] for end in range(len(text) + 1)] + small
    for one in (text, worked.whole(*worked.STAYS)):
        texts += [edited(one) for _ in range(1000)] + [with_other_numbers(one) for _ in range(1000)]
    texts += [with_other_numbers(random.choice(small)) for _ in range(1000)]
    seen = Counter()
    for text in texts:
        expected = check(text)
        name = judged(program, text, expected)
        if name in ("plan", "moves", "short"):
            solved(text, expected)
        seen[name] += 1
    print(f"compare: {len(TOLD)} texts with written answers,", ", ".join(f"{name} {seen[name]}" for name in VERDICTS))
    missing = [name for name in VERDICTS if seen[name] < LEAST]
    if missing:
        sys.exit(f"compare: fewer than {LEAST} texts were answered with {', '.join(missing)}")


main(*sys.argv[1:])
