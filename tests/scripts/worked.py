"""Runs the worked transcripts by the second runtime and by the program: `worked.py PROGRAM`. Each answer has to be the
written one, and each transcript is also typed: a line is sent once the one before has been answered. Each certificate is
given to the program's own check, which has to answer the outcome that it is of."""

import os
import subprocess
import sys
import tempfile
import threading

from second_runtime import Machine, Runtime, config_of, read_slit
from transcripts import SECONDS, Transcript, difference, doubted, run, unwanted

WORKED = os.path.join(os.path.dirname(os.path.abspath(__file__)), "worked")


def by_second_runtime(told, machine, program_output):
    """What is wrong with the second runtime's answers: to a script alone, and where it is told what the program answers."""
    alone = Runtime(machine, config_of)
    _, wrong = told.cut([answer for line in told.lines() for answer in alone.answer(line)])
    return wrong or difference(Runtime(machine, config_of), told.lines(), program_output)


def typed(program, words, told, lengths):
    """The answers to lines that are sent one after another."""
    with subprocess.Popen([program] + words, stdin=subprocess.PIPE, stdout=subprocess.PIPE, stderr=subprocess.DEVNULL, bufsize=0) as shell:
        alarm = threading.Timer(SECONDS, shell.kill)
        alarm.start()
        answers = open(shell.stdout.fileno(), "rb", closefd=False)
        found = b""
        try:
            for line, length in zip(told.lines(), lengths):
                shell.stdin.write(line + b"\n")
                found += b"".join(answers.readline() for _ in range(length))
        except BrokenPipeError:
            found += b"no answer came, or the program ended"
        alarm.cancel()
        return found


def check(program, told):
    """What is wrong with the program's answers, if anything is."""
    words = told.place()
    if told.changes:  # which come between two lines
        output = typed(program, words, told, [len(answer.texts[0]) for answer in told.answers])
    else:
        done = run(program, words, b"\n".join(told.script))
        if done.returncode or unwanted(done):
            return str(done)
        output = done.stdout
    answers, wrong = told.cut(output.decode().split("\n")[:-1])
    machine = Machine(told.machine, None if told.slit is None else read_slit(told.slit))
    wrong = wrong or by_second_runtime(told, machine, output) or doubted(program, output, machine.threads)
    if not wrong and typed(program, words, told, map(len, answers)) != output:
        return "typed, its answers are others, or do not come before the next line"
    return wrong


def main(program):
    program = os.path.abspath(program)
    names = sorted(os.listdir(WORKED))
    for name in names:
        with tempfile.TemporaryDirectory() as folder:
            os.chdir(folder)
            wrong = check(program, Transcript(os.path.join(WORKED, name)))
            os.chdir("/")
        if wrong:
            sys.exit(f"worked: {name}: {wrong}")
    print(f"worked: {len(names)} transcripts")


main(*sys.argv[1:])
