"""Runs scripts with streams that fail: `streams.py PROGRAM STREAMS.SO TRANSCRIPT`. A read that fails after each count of the
transcript's bytes leaves the answers to all whole lines before it, and E113; a write that fails, or takes no byte, leaves the
writes before it. One byte a read leads to the same answers, and the bounds on reads are met exactly. So it is with the commands
that end with one answer, which is one write."""

import os
import sys
import tempfile

sys.path.insert(0, os.path.join(os.path.dirname(os.path.abspath(__file__)), ".."))
from program import version
from second_runtime import Machine, Runtime, config_of
from transcripts import Transcript, config, place, run

PAGE = 8192
READS = 1_000_000
READ_FAULT = b"refused E113 ReadFault\n"
NO_READ = b"error: standard input: can't be read\n"
MANY_READS = b"error: standard input: took more than 1000000 reads\n"
NO_WRITE = b"error: the answer can't be written\n"


class Program:
    def __init__(self, program, library):
        self.program, self.library = program, library

    def expect(self, what, words, script, expected, **settings):
        """Compares status, output and error under these settings of the library."""
        environment = dict(os.environ, LD_PRELOAD=self.library, **settings)
        done = run(self.program, words, script, env=environment)
        if (done.returncode, done.stdout, done.stderr) != expected:
            sys.exit(f"streams: {what}, {settings}: expected {str(expected)[:3000]}, found {str(done)[-3000:]}")


def answer_of(lines):
    return "".join(line + "\n" for line in lines).encode()


def each_read(program, words, machine, lines):
    """Reads that fail behind each byte of the lines, which end with a line feed each."""
    script = b"".join(line + b"\n" for line in lines)
    for count in range(len(script) + 1):
        runtime = Runtime(machine, config_of)
        whole = script[:count].split(b"\n")[:-1]
        output = b"".join(answer_of(runtime.answer(line)) for line in whole)
        program.expect("a read fails", words, script, (1, output + READ_FAULT, NO_READ), READ=str(count))
    return len(script) + 1


def each_write(program, words, machine, lines):
    """Each write that fails: an answer is one, or one for each page."""
    runtime = Runtime(machine, config_of)
    answers = [answer_of(runtime.answer(line)) for line in lines]
    writes = [answer[at : at + PAGE] for answer in answers for at in range(0, len(answer), PAGE)]
    script = b"\n".join(lines)
    program.expect("whole", words, script, (0, b"".join(writes), b""))
    program.expect("in pieces", words, script, (0, b"".join(writes), b""), PIECES="1")
    for number in range(len(writes)):
        front = b"".join(writes[:number])
        for kind in ({}, {"NOTHING": "1"}):
            program.expect("a write fails", words, script, (1, front, NO_WRITE), WRITE=str(number + 1), **kind)
    return len(writes)


def short_commands(program):
    """Commands that end with one answer: each read of their input fails in turn, each write of one byte, and the one write that
    the answer is."""
    certificate = b"numarun-certificate 1\nrow a 1 10:1\nhold a 1 10\ntotal 10\nend\n"
    moves = b"numarun-certificate 2\nrow a 1 655360:1\nhold a 1 655360\ntotal 10 moves 0\nend\n"
    problem = b"numarun-problem 1\nrow a 1\nend\n"
    table = b"SLIT\x30\0\0\0\x01\x53" + bytes(26) + b"\x02\0\0\0\0\0\0\0\x0a\x15\x15\x0a"
    commands = [
        (["check"], certificate, 0, b"plan total 10\n"), (["check", "-"], certificate[:-4], 1, b"refused E77 BadText 5\n"),
        (["check"], moves, 0, b"plan total 10 moves 0\n"), (["check", "-"], moves[:-13], 1, b"refused E77 BadText 4\n"),
        (["solve"], problem, 0, b"numarun-certificate 1\nrow a 1\nshort a\nend\n"), (["solve", "-"], problem[:-4], 1, b"refused E77 BadText 3\n"),
        (["slit", "-"], table, 0, b"localities 2\n10 21\n21 10\n"), (["list", "0-2,7"], b"", 0, b"0-2,7\n"),
        (["list", "5-3"], b"", 1, b"refused E12 Descending 0\n"), (["--version"], b"", 0, version()),
    ]
    for words, given, status, answer in commands:
        for settings in ({"PIECES": "1"}, {"SHORT": "1"}, {"WRITE": "2"}):
            program.expect("whole", words, given, (status, answer, b""), **settings)
        for count in range(len(given) + 1 if given else 0):
            program.expect("a read fails", words, given, (1, READ_FAULT, NO_READ), READ=str(count))
        for kind in ({}, {"NOTHING": "1"}):
            program.expect("the write fails", words, given, (1, b"", NO_WRITE), WRITE="1", **kind)
            for number in range(len(answer)):
                program.expect("a write fails", words, given, (1, answer[:number], NO_WRITE), WRITE=str(number + 1), SHORT="1", **kind)


def long_answers():
    """A script with an answer that takes three pages."""
    bundles = {f"b{k}": config({"quota": 100000, "cpus": ",".join(map(str, range(k, 300, 3)))}) for k in (1, 2, 3)}
    lines = [b"create c%d b%d" % (k, k % 3 + 1) for k in range(45)] + [b"list", b"rebalance", b"certificate", b"list"]
    return b'{"nodes":["0-299"],"distances":[[10]],"reserved":"0"}', bundles, lines


def bounds_on_reads(program, words):
    """Inputs of one byte a read that come to their end with the last read that they may take, and one byte later."""
    lines = (READS - 1) // 6
    script = b"phase\n" * lines + b" " * (READS - 1 - 6 * lines)
    answers = b"settled\n" * lines
    program.expect("as many reads as may be", words, script, (0, answers, b""), PIECES="1")
    program.expect("a read more", words, script + b" ", (1, answers + READ_FAULT, MANY_READS), PIECES="1")
    text = b"x" * (READS - 1)
    for command in ("check", "solve"):
        program.expect("as many reads as may be", [command], text, (1, b"refused E77 BadText 1\n", b""), PIECES="1")
        program.expect("a read more", [command], text + b"x", (1, READ_FAULT, MANY_READS), PIECES="1")


def main(program, library, transcript):
    told = Transcript(os.path.abspath(transcript))
    program = Program(os.path.abspath(program), os.path.abspath(library))
    with tempfile.TemporaryDirectory() as folder:
        os.chdir(folder)
        words, machine = told.place(), Machine(told.machine, None)
        reads = each_read(program, words, machine, told.script)
        writes = each_write(program, words, machine, told.script)
        bounds_on_reads(program, words)
        short_commands(program)
        machine, bundles, lines = long_answers()
        writes += each_write(program, place(machine, None, bundles), Machine(machine, None), lines)
        os.chdir("/")
    print(f"streams: {reads} reads and {writes} writes failed in turn")


main(*sys.argv[1:])
