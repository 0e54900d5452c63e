"""Checks texts as long as an input may be, each with one kind of line or word as often as it goes in: `largest_texts.py PROGRAM`.
Each is answered within 4 GiB of memory, most of it for `hold` lines, and as is counted by hand: a CPU of two offers or of two prices,
and a row past the 1,024th, make a bad problem; a list may name a CPU again. What each takes is printed, for the table of SECURITY.md."""

import os
import resource
import subprocess
import sys
import tempfile

LONGEST = 67_108_864
SECONDS = 120
MEMORY = 4 << 30
BAD = b"refused E70 BadProblem\n"


def filled(before, piece, behind):
    """The piece as often as it goes in."""
    count = (LONGEST - len(before) - len(behind)) // len(piece)
    return before + piece * count + behind


def of_rows(lines_of, ids, behind):
    """Rows of these ids, and for each of them what else it is named by."""
    rows = b"".join(b"row %x 1\n" % k for k in ids)
    return b"numarun-certificate 1\n" + rows + b"".join(lines_of(k) for k in ids) + behind


ROW = b"numarun-certificate 1\nrow a 1"
HELD = ROW + b" 0:1\nhold a 1 0\n"
TEXTS = {
    "offers": lambda: (filled(ROW, b" 0:1", b"\nshort a\nend\n"), BAD),
    "offers of all CPUs": lambda: (filled(ROW, b" 0:0-4095", b"\nshort a\nend\n"), BAD),
    "a list": lambda: (filled(ROW + b" 0:", b"0-4095,", b"1\nshort a\nend\n"), b"refused E76 NoShortage\n"),
    "prices": lambda: (filled(HELD, b"price 1 2\n", b"total 0\nend\n"), BAD),
    "rows": lambda: (of_rows(lambda k: b"", range(5_200_000), b"short 0\nend\n"), BAD),
    "holds": lambda: (of_rows(lambda k: b"hold %x 1 0\n" % k, range(2_380_000), b"total 0\nend\n"), BAD),
    "members": lambda: (of_rows(lambda k: b"short %x\n" % k, range(2_660_000), b"end\n"), BAD),
}


def limit():
    resource.setrlimit(resource.RLIMIT_AS, (MEMORY, MEMORY))
    resource.setrlimit(resource.RLIMIT_CPU, (SECONDS, SECONDS))


def checked(program, text):
    """What the program answers to the text, its status, and what it took."""
    with tempfile.TemporaryFile() as file:
        file.write(text)
        file.seek(0)
        with subprocess.Popen([program, "check", "-"], stdin=file, stdout=subprocess.PIPE, stderr=subprocess.STDOUT, preexec_fn=limit) as it:
            answer = it.stdout.read()
            _, status, used = os.wait4(it.pid, 0)
            it.returncode = os.WEXITSTATUS(status) if os.WIFEXITED(status) else -os.WTERMSIG(status)
    return answer, it.returncode, used


def main(program):
    program = os.path.abspath(program)
    for name, made in TEXTS.items():
        text, expected = made()
        if len(text) > LONGEST:
            sys.exit(f"largest_texts: {name} has {len(text)} bytes")
        answer, status, used = checked(program, text)
        if answer != expected or status == 0:
            sys.exit(f"largest_texts: {name}: expected {expected}, found {answer} with status {status}")
        print(f"largest_texts: {name}: {used.ru_utime + used.ru_stime:.1f} processor seconds, {used.ru_maxrss / 2**20:.2f} GiB")


main(sys.argv[1])
