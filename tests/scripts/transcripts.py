"""Transcripts: a machine file, bundles, and a script with its answers, as one text.

`machine TEXT` is the machine file, `slit HEX` the bytes of a distance table beside it, `bundle NAME SECTION` a bundle whose
config has this `linux.resources.cpu`, and `config NAME TEXT` one with this `config.json`. Then come the lines of the script,
each behind `$ `, and below each the lines of its answer, each behind `| `. Where another answer may be given, too, its lines
stand below, the first behind `/ `; and `= TEXT` stands for any certificate to which a check answers TEXT. In a line of the
script `[N bytes]` is a word of N bytes. A bundle behind a line of the script has this config from then on."""

import json
import os
import re
import sys

sys.path.insert(0, os.path.join(os.path.dirname(os.path.abspath(__file__)), ".."))
import program as programs
from program import SECONDS
from second_runtime import Wrong, check, numbers

# Lines of the longest answer: a certificate of 1,024 rows with a price for each CPU.
LONGEST = 2 * 1024 + 4096 + 3

# What standard error says of a config that is no JSON.
NO_JSON = rb"(is not UTF-8|ends too early|is no JSON), line [1-9][0-9]* column [0-9]+"
UNREAD = rb"no such file|can't be read|is a directory|not a directory|permission denied|has more than [0-9]+ bytes"
NOTE = re.compile(rb"^error: .*/config\.json: (" + NO_JSON + rb"|" + UNREAD + rb")\n", re.MULTILINE)


def config(section):
    told = {"ociVersion": "1.0.2", "root": {"path": "rootfs"}, "process": {"args": ["run"]}}
    told["linux"] = {"resources": {"cpu": section}}
    return json.dumps(told).encode()


class Answer:
    """What may be answered to a line."""

    def __init__(self):
        self.texts, self.verdict = [[]], None

    def length(self, found):
        """How many of the found lines are the answer, or None where they begin with none."""
        if self.verdict is not None:
            lines = found[: found.index("end") + 1] if "end" in found else []
            return len(lines) if check("".join(line + "\n" for line in lines).encode()) == self.verdict else None
        return next((len(text) for text in self.texts if found[: len(text)] == text), None)


class Transcript:
    def __init__(self, path):
        self.machine, self.slit, self.bundles, self.script, self.answers, self.changes = b"", None, {}, [], [], {}
        for line in open(path, encoding="utf-8"):
            word, _, rest = line.rstrip("\n").partition(" ")
            name, _, text = rest.partition(" ")
            if word == "machine":
                self.machine = rest.encode()
            elif word == "slit":
                self.slit = bytes.fromhex(rest)
            elif word in ("bundle", "config"):
                told = self.changes.setdefault(len(self.script), {}) if self.script else self.bundles
                told[name] = config(json.loads(text)) if word == "bundle" else text.encode()
            elif word == "$":
                self.script.append(re.sub(r"\[(\d+) bytes\]", lambda found: "x" * int(found[1]), rest).encode())
                self.answers.append(Answer())
            elif word == "|":
                self.answers[-1].texts[-1].append(rest)
            elif word == "/":
                self.answers[-1].texts.append([rest])
            elif word == "=":
                self.answers[-1].verdict = rest
            elif word not in ("", "#"):
                raise ValueError(f"{path}: {line!r} is no part of a transcript")

    def cut(self, found):
        """The found lines by the lines of the script that they answer; or the line that they do not answer."""
        answers = []
        for line, expected in zip(self.script, self.answers):
            length = expected.length(found)
            if length is None:
                return None, f"{line!r}: expected {expected.verdict or expected.texts}, found {found[:20]}"
            answers.append(found[:length])
            found = found[length:]
        return answers, f"more than was asked for: {found}" if found else None

    def lines(self):
        """The lines of its script, each once the bundles are as they are then."""
        for at, line in enumerate(self.script):
            put(self.changes.get(at, {}) if at else self.bundles)
            yield line

    def place(self):
        """Writes its files, and answers the words of a command line that runs it, but for the program's name."""
        return place(self.machine, self.slit, self.bundles)


def put(bundles):
    """Writes bundles into the working directory."""
    for name, data in bundles.items():
        os.makedirs(name, exist_ok=True)
        open(os.path.join(name, "config.json"), "wb").write(data)


def place(machine, slit, bundles):
    """Writes files into the working directory, and answers the words that name them."""
    put(bundles)
    open("machine.json", "wb").write(machine)
    if slit is None:
        return ["run", "machine.json"]
    open("table", "wb").write(slit)
    return ["run", "machine.json", "--slit", "table"]


def run(program, words, script, **more):
    return programs.run([program] + words, script, **more)


def unwanted(done, notes_lack=False):
    """What is wrong with standard error: it has a note for each refusal of a config that can't be read or is no JSON, and nothing else."""
    rest, notes = NOTE.subn(b"", done.stderr)
    refusals = sum(done.stdout.count(refusal) for refusal in (b"refused E56 NotJson\n", b"refused E111 NoBundle\n"))
    return rest or (notes > refusals if notes_lack else notes != refusals)


def difference(runtime, script, output, note=lambda line, answer: None):
    """Where the program's output is not what the runtime answers to the lines; the runtime is told what comes. Each line is
    noted with its answer."""
    found, at = output.decode("utf-8", "backslashreplace").split("\n"), 0
    if found.pop() != "":
        return "the last line has no line feed"
    for line in script:
        runtime.coming = found[at : at + LONGEST]
        try:
            expected = runtime.answer(line)
        except Wrong as why:
            return f"{line[:100]!r}: {str(why)[:2000]}"
        if found[at : at + len(expected)] != expected:
            return f"{line[:100]!r}: expected {expected}, found {found[at : at + len(expected) + 1]}"
        note(line, expected)
        at += len(expected)
    return f"more than was asked for: {found[at:]}" if at < len(found) else None


def answer_to(outcome, certificate, threads=1):
    """What a check answers to the certificate of an outcome, by the outcome's first line; the moves are told by the certificate
    alone, and its other numbers are those of cores of so many CPUs."""
    words = outcome.split(" ")
    of_cores = lambda number: f"{number}/{threads}" if number % threads else number // threads
    if words[0] == "plan":
        return f"plan total {of_cores(int(words[2]))} moves " + certificate[-2].rstrip("\n").split(" ")[-1]
    return f"short demand {of_cores(int(words[2]))} cpus {of_cores(len(numbers(words[4])))}"


def doubted(program, output, threads=1):
    """The first certificate in the output to which the program's own check answers anything but the outcome before it, on a
    machine whose cores have so many CPUs."""
    outcome, certificate = None, None
    for line in output.decode("utf-8", "backslashreplace").split("\n"):
        if line.startswith(("plan total ", "short demand ")):
            outcome = line
        elif line == "numarun-certificate 2":
            certificate = []
        if certificate is not None:
            certificate.append(line + "\n")
            if line == "end":
                done = run(program, ["check"], "".join(certificate).encode())
                if (done.returncode, done.stdout.decode()) != (0, answer_to(outcome, certificate, threads) + "\n"):
                    return f"{outcome}: its certificate is answered by {done}: {certificate}"
                certificate = None
    return None
