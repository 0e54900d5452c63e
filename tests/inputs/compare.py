"""Compares what programs answer to single inputs with tables: `compare.py PROGRAM TOOLS`.

An input is a line of its kind and its text, and below it stands the answer, each line behind `| `, and what standard error says of
the file, behind `! `. The text has the escapes of Python's bytes; `<N TEXT>` is TEXT so many times, and `<FILE>` what a file of
examples/ holds. `fronts A B KIND TEXT` is each front of the text, from A bytes to B; where a config ends is by Python's JSON. The
kinds are explained in the tables. Besides, inputs of each command that have as many bytes as are read at a time, one less and one
more: the last byte of each counts."""

import json
import os
import re
import sys
import tempfile

HERE = os.path.dirname(os.path.abspath(__file__))
TOP = os.path.dirname(os.path.dirname(HERE))
sys.path[:0] = [os.path.join(HERE, ".."), os.path.join(HERE, "..", "scripts")]
from program import run
from transcripts import place

TABLES = ["lists", "distances", "machines", "configs", "lines", "problems", "writes"]
MACHINE = b'{"nodes":["0-3","4-7"],"distances":[[10,21],[21,10]],"reserved":"0"}'
SIZES = [8191, 8192, 8193]
FAULTS = ["BrokenPipe", "Interrupted", "StorageFull", "OutOfMemory", "WriteZero"]
CONFIG = b'{"ociVersion":"1.0.2","root":{"path":"r"},"process":{"args":["x"]},"linux":{"resources":{"cpu":%s}}}'


def repeated(text):
    return re.sub(rb"<(\d+) ([^>]+)>", lambda found: found[2] * int(found[1]), text)


def text_of(kind, written):
    """The bytes that a text of a table stands for; distance tables are written in hexadecimal."""
    text = re.sub(rb"<(examples/[^>]*)>", lambda found: open(os.path.join(TOP, found[1].decode()), "rb").read(), written)
    text = text.decode("unicode_escape").encode("latin-1")
    text = repeated(text)
    return bytes.fromhex(text.decode()) if kind in ("slit", "table") else text


def inputs(table):
    """(kind, text, the lines of the answer) of each input."""
    found = []
    for line in open(os.path.join(HERE, table), "rb").read().splitlines():
        kind, _, rest = line.partition(b" ")
        if kind == b"|":
            found[-1][2].append(repeated(rest).decode())
        elif kind == b"!":
            found[-1][2].append(line.decode())
        elif line and not line.startswith(b"#"):
            found.append((kind.decode(), rest, []))
    for kind, rest, answer in found:
        if kind == "fronts":
            first, last, kind, rest = rest.split(b" ", 3)
            for length in range(int(first), int(last) + 1):
                front = text_of(kind.decode(), rest)[:length]
                yield kind.decode(), front, answer + [f"! ends too early, {end_of(front)}"] * (kind == b"config")
        else:
            yield kind, text_of(kind, rest), answer


def end_of(front):
    """Where the front of a text ends: at its end, or where a word or a string begins that has no end."""
    try:
        json.loads(front)
    except json.JSONDecodeError as why:
        return f"line {why.lineno} column {min(why.colno, len(front))}"
    return "nowhere"


def noted(done):
    """What standard error says of files, by their names."""
    return re.findall(r"^error: (.*?): (.*)$", done.stderr.decode(), re.MULTILINE)


def answered(words, given=b""):
    """The lines of an answer, and what is said of a file; the status is 0, or 1 where it is a refusal."""
    done = run(words, given)
    notes = noted(done)
    if done.stderr.count(b"\n") != len(notes) or done.returncode != done.stdout.startswith(b"refused"):
        return [str(done)[:1000]]
    return done.stdout.decode().splitlines() + [f"! {note}" for _, note in notes]


def scripted(words, script):
    """The lines that answer a script, and what is said of each config."""
    done = run(words, script)
    notes = noted(done)
    if done.returncode or done.stderr.count(b"\n") != len(notes):
        return [str(done)[:1000]], {}
    return done.stdout.decode().splitlines(), dict(notes)


def by_distance(row):
    """A new container's row with distances for weights: each CPU that it is offered would move."""
    demand, *offers = row.split(" ")
    for k, offer in enumerate(offers):
        weight, cpus = offer.split(":")
        distance, moves = divmod(int(weight), 65536)
        offers[k] = f"{distance}:{cpus}" if moves == 1 else f"{offer}, which is not one move"
    return " ".join([demand, *offers])


class Machine:
    """A machine, its table where it has one, and what containers of configs get there, one after another."""

    def __init__(self, text):
        self.text, self.table, self.configs, self.expected = text, None, [], []

    def found(self, program):
        commands = [line for k in range(len(self.configs))
                    for line in (f"create c b{k}", "start c", "sets c", "rebalance", "certificate", "kill c 9", "delete c")]
        bundles = {f"b{k}": config for k, config in enumerate(self.configs)}
        lines, notes = scripted([program] + place(self.text, self.table, bundles), "\n".join(commands).encode())
        for k in range(len(self.configs)):
            created, started, sets, *lines = lines + [""] * 3
            certificate, lines = self.certificate(lines)
            note = [f"! {notes.pop(name)}" for name in [f"b{k}/config.json"] if name in notes]
            yield [created if created.startswith("refused") else self.shown(started, sets, certificate)] + note
        if notes:
            yield [str(notes)]

    @staticmethod
    def certificate(lines):
        """The certificate, and what follows behind the container's removal."""
        ends = [k for k, line in enumerate(lines) if line == "end"]
        if len(ends) < 2:
            return [], []
        return lines[ends[0] + 1 : ends[1]], lines[ends[1] + 3 :]

    @staticmethod
    def shown(started, sets, certificate):
        row = next((by_distance(line.split(" ", 2)[2]) for line in certificate if line.startswith("row ")), "shared")
        homes = sets.split(" ")[5:6]
        return ", ".join([row, f"homes {''.join(homes)}"] + [started] * (started != "ok"))


def compare(what, found, expected):
    if found != expected:
        sys.exit(f"inputs: {what}: expected {expected}, found {found}")


class Inputs:
    """What the programs answer to each kind of input."""

    def __init__(self, program, tools):
        self.program, self.tools, self.machines = program, tools, []

    def list(self, text):
        return answered([self.program, "list", "--", text])

    def below(self, text):
        limit, _, text = text.partition(b" ")
        return answered([self.tools, "list", limit], text)

    def slit(self, text):
        return answered([self.program, "slit", "-"], text)

    def machine(self, text):
        return answered([self.program] + place(text, None, {}), b"rebalance")

    def run(self, text):
        lines, notes = scripted([self.program] + place(MACHINE, None, {}), text)
        return lines + [f"! {note}" for note in notes.values()]

    def written(self, what, text):
        """What writers of some widths have in the end, of which each has a prefix of it before, and so many bytes for each write."""
        wholes = set()
        for width in (1, 2, 4, 9, 100_000):
            for fault in FAULTS:
                *parts, (end, whole) = (line.split(" ", 1) for line in answered([self.tools, "write", what, str(width), fault], text))
                texts = [json.loads(part) for _, part in parts]
                rising = all(len(a) < len(b) <= len(a) + width for a, b in zip(texts, texts[1:] + [json.loads(whole)]))
                starts = all(json.loads(whole).startswith(part) for part in texts) and texts[:1] in ([], [""])
                if end != "Ok" or not rising or not starts or {kind for kind, _ in parts} - {fault}:
                    return [f"{what}, {width} bytes a write, {fault}: {parts}, {end} {whole}"]
                wholes.add(json.loads(whole))
        return wholes.pop().split("\n") if len(wholes) == 1 else [str(wholes)]

    def bytes(self, text):
        return self.written("bytes", text)

    def parts(self, text):
        return self.written("parts", text)

    def set(self, text):
        return self.written("list", text)

    def copy(self, text):
        return self.written("certificate", text)

    @staticmethod
    def problem(text):
        rows = text.decode().split(" / ")
        return ["numarun-certificate 1"] + [f"row r{k} {row}" for k, row in enumerate(rows)]

    def alike(self, text):
        given = "\n".join(self.problem(text) + ["short r0", "end", ""]).encode()
        kinds, *classes = answered([self.tools, "twins"], given)
        return [kinds] + sorted(classes)

    def solved(self, text):
        """The answer without values and prices, which the check is given; of many rows the number of those that lack CPUs."""
        rows = self.problem(text)
        *lines, turns = answered([self.tools, "solve"], "\n".join(rows + ["short r0", "end", ""]).encode())
        words = [line.split(" ") for line in lines]
        holds = [it for it in words if it[0] == "hold"]
        told = [f"hold r{k} {it[1]} {it[2]}" for k, it in enumerate(holds)] + [" ".join(it) for it in words[len(holds) :] if it[0] != "short"]
        told += [f"short r{it[1]}" for it in words if it[0] == "short"]
        (verdict,) = answered([self.program, "check"], "\n".join(rows + told + ["end", ""]).encode())
        if verdict != f"plan {lines[-1]}" and not (lines[-1].startswith("short") and verdict.startswith("short demand ")):
            return [verdict]
        shown = [" ".join(it[:2]) for it in words if it[0] != "price"]
        if len(rows) > 100:
            shown = [f"members {len(shown)}"] if lines[-1].startswith("short") else shown[-1:]
        return shown + [turns]

    def check(self, text):
        return answered([self.program, "check"], text)

    def checked_solution(self, text):
        done = run([self.program, "solve"], text)
        return answered([self.program, "check"], done.stdout) if (done.returncode, done.stderr) == (0, b"") else [str(done)[:1000]]

    def gather(self, kind, text, answer):
        """Keeps what makes up a machine and its containers."""
        if kind == "on":
            self.machines.append(Machine(text))
        elif kind == "table":
            self.machines[-1].table = text
        else:
            self.machines[-1].configs.append(CONFIG % text if kind == "cpu" else text)
            self.machines[-1].expected.append(answer)


def rows_of(size, head, count, held):
    """A text of so many bytes: rows that are each offered a CPU of their own at 10, and the last one another at 11. The ids make it so
    long."""
    for other in (9, 99):
        wide = [10] * count
        while True:
            ids = [f"r{k}".ljust(width, "x") for k, width in enumerate(wide)]
            rows = [f"row {id} 1 10:{k + 1000}" for k, id in enumerate(ids)]
            holds = [f"hold {id} {k + 1000} 10" for k, id in enumerate(ids)] + [f"total {10 * count}"] if held else []
            text = "\n".join([head, *rows[:-1], f"{rows[-1]} 11:{other}", *holds, "end\n"])
            if len(text) == size:
                return text.encode()
            if len(text) > size:
                break
            wide[wide.index(min(wide))] += 1


def sized(tried):
    """Inputs of each size, with their answers: whole, and without the last byte where that is needed."""
    matrix = [" ".join("10" if j == i else "20" for j in range(90)) for i in range(90)]
    for size in SIZES:
        text = rows_of(size, "numarun-certificate 1", 100, True)
        compare(f"check of {size} bytes", tried.check(text), ["plan total 1000"])
        compare(f"check of {size} bytes, cut", tried.check(text[:-2]), ["refused E77 BadText 203"])
        text = rows_of(size, "numarun-problem 1", 200, False)
        compare(f"solve of {size} bytes", tried.checked_solution(text), ["plan total 2000"])
        compare(f"solve of {size} bytes, cut", answered([tried.program, "solve"], text[:-2]), ["refused E77 BadText 202"])
        table = b"SLIT" + (8144).to_bytes(4, "little") + bytes(28) + (90).to_bytes(8, "little")
        table += b"".join(bytes(10 if j == i else 20 for j in range(90)) for i in range(90))
        table = (table[:9] + bytes([-sum(table) % 256]) + table[10:]).ljust(size, b"\7")
        compare(f"slit of {size} bytes", tried.slit(table), ["localities 90", *matrix])
        text = MACHINE[:-1].ljust(size - 1) + b"}"
        compare(f"machine of {size} bytes", tried.machine(text), ["plan total 0", "pool 0-7", "end"])
        cut = ["refused E25 NotJson", f"! ends too early, line 1 column {size - 1}"]
        compare(f"machine of {size} bytes, cut", tried.machine(text[:-1]), cut)
    return f"{7 * len(SIZES)} sizes"


def main(program, tools):
    tried, counts = Inputs(os.path.abspath(program), os.path.abspath(tools)), []
    with tempfile.TemporaryDirectory() as folder:
        os.chdir(folder)
        for table in TABLES:
            rows = list(inputs(table))
            counts.append(f"{len(rows)} {table}")
            for kind, text, answer in rows:
                if kind in ("on", "table", "cpu", "config"):
                    tried.gather(kind, text, answer)
                else:
                    compare(text[:1000], getattr(tried, kind)(text), answer)
        counts.append(sized(tried))
        for machine in tried.machines:
            found = list(machine.found(tried.program))
            for config, answer, expected in zip(machine.configs, found, machine.expected):
                compare((machine.text[:300], config[:1000]), answer, expected)
            if not len(machine.configs) == len(machine.expected) == len(found):
                sys.exit(f"inputs: {len(machine.configs)} configs with {len(machine.expected)} answers, {found[len(machine.configs):]}")
        os.chdir("/")
    print("inputs:", ", ".join(counts))


main(*sys.argv[1:])
