"""Compares what the program answers with a table: `compare.py PROGRAM TABLE CERTIFICATE`.

A case of the table is a line `$ numarun WORD..`, with `< INPUT`, `> PLACE` and `2> PLACE` behind it where the standard
streams are others than nothing, a pipe and a pipe; then `status N`; then standard output, each line behind `|`, and
standard error, each line behind `!`; `|< NAME` stands for the lines of a file. A word in `$'..'` has escapes, and `<N TEXT>` is
TEXT so many times. A stream at `closed` is closed. The program is run as a user who may not read the file `locked`.
"""

import os
import re
import resource
import shlex
import shutil
import subprocess
import sys
import tempfile

sys.path.insert(0, os.path.join(os.path.dirname(os.path.abspath(__file__)), ".."))
from program import SECONDS, version

SLIT = b"SLIT\x30\0\0\0\x01\x53" + bytes(26) + b"\x02\0\0\0\0\0\0\0\x0a\x15\x15\x0a"
# A plan that moves nothing.
MOVES = b"numarun-certificate 2\nrow a 2 655360:4-5 655361:2-3\nhold a 4-5 655360\ntotal 20 moves 0\nend\n"
FAR = b'{"nodes":["0-3","4-7"],"reserved":"0"}'
CONFIG = b'{"ociVersion":"1.0.2","root":{"path":"rootfs"},"process":{"args":["run"]}}'


NOBODY = 65534


def table(count, entries, **changed):
    """The bytes of a distance table that sum to 0, with these bytes changed."""
    made = bytearray(b"SLIT" + (44 + count * count).to_bytes(4, "little") + bytes(28) + count.to_bytes(8, "little"))
    made += bytes(entries)
    for place, byte in changed.items():
        made[int(place.removeprefix("at"))] = byte
    made[9] = -sum(made) % 256
    return bytes(made)


def tables():
    """Three localities, the most, and tables with a fault each."""
    three = [10, 11, 12, 21, 10, 23, 255, 254, 10]
    rows = [[10 if i == j else 11 + (3 * i + 5 * j) % 244 for j in range(128)] for i in range(128)]
    shown = "".join(" ".join(map(str, row)) + "\n" for row in rows).encode()
    sum_off = bytearray(SLIT)
    sum_off[9] += 1
    return {
        "three": table(3, three), "most": table(128, sum(rows, [])), "most-rows": shown, "behind": SLIT + b"more",
        "signature": table(2, three[:4], at3=0x53), "no-localities": table(2, three[:4], at36=0), "many": table(2, three[:4], at36=129),
        "large": table(2, three[:4], at43=1), "length": table(2, three[:4], at4=49), "past": SLIT[:47], "sum": bytes(sum_off),
        "diagonal": table(3, three[:8] + [11]), "nine": table(3, three[:8] + [9]), "empty": b"",
    }


def machines():
    """Machine files with a fault each, and one as long as may be."""
    def machine(nodes='["0-3","4-7"]', distances='"distances":[[10,21],[21,10]],', reserved='"reserved":"0"'):
        return f'{{"nodes":{nodes},{distances}{reserved}}}'.encode()

    good = machine()
    rows = ",".join(f'"{node}"' for node in range(129))
    return {
        "longest": good + b" " * (1_048_576 - len(good)), "longer": good + b" " * (1_048_577 - len(good)), "array": b"[]",
        "open": good[:-1], "no-nodes": machine("null"), "not-list": machine('["0-3","4-"]'), "too-large": machine('["0-3","4096"]'),
        "zero": machine("[]"), "many-nodes": machine(f"[{rows}]"), "twice": machine('["0-3","3-7"]'),
        "no-rows": machine(distances='"distances":7,'), "no-row": machine(distances='"distances":[[10,21],7],'),
        "a-row": machine(distances='"distances":[[10,21]],'), "a-column": machine(distances='"distances":[[10,21],[21]],'),
        "fraction": machine(distances='"distances":[[10,21],[21.5,10]],'), "near": machine(distances='"distances":[[10,9],[21,10]],'),
        "further": machine(distances='"distances":[[10,21],[256,10]],'), "not-ten": machine(distances='"distances":[[10,21],[21,11]],'),
        "unreserved": machine(reserved='"reserved":""'), "elsewhere": machine(reserved='"reserved":"8"'),
        "no-reserved": machine(reserved='"reserved":7'), "off": machine(reserved='"reserved":"0","offline":"0"'),
        "off-elsewhere": machine(reserved='"reserved":"0","offline":"9"'), "no-off": machine(reserved='"reserved":"0","offline":"x"'),
        "halved": machine(reserved='"reserved":"0","cores":["0,4"]'), "no-core": machine(reserved='"reserved":"0,1","cores":["0,1","2,3","4,5"]'),
        "no-cores": machine(reserved='"reserved":"0","cores":7'),
        "cores": machine(reserved='"reserved":"0-1","cores":["0,1","2-3","4-5","6,7"]'),
    }


def certificates(text):
    """The certificate with a fault each."""
    def changed(old, new):
        return text.replace(old, new)

    return {
        "limit": changed(b"hold a 2 11", b"hold a 2 1099511627777"), "count": changed(b"hold a 2 11", b"hold a 1-2 11"),
        "other": changed(b"hold a 2 11", b"hold a 3 11"), "both": changed(b"hold a 2 11", b"hold a 1 11"),
        "gap": changed(b"total 23", b"total 22"), "most-total": changed(b"total 23", b"total 18446744073709551615"),
        "past-total": changed(b"total 23", b"total 18446744073709551616"),
        "lack": b"numarun-certificate 1\nrow a 2 10:1-2\nrow b 1 10:1-2\nrow c 1 10:4-5\nshort a\nshort b\nend\n",
        "stays": MOVES, "more-moves": MOVES.replace(b"moves 0", b"moves 1"), "no-moves": MOVES.replace(b" moves 0", b""),
        "past-moves": MOVES.replace(b"moves 0", b"moves 65536"), "far-moves": MOVES.replace(b"20 moves", b"281474976710656 moves"),
        "two-moves": MOVES.replace(b"655361", b"655362"), "first-moves": text.replace(b"total 23", b"total 23 moves 0"),
        "third": MOVES.replace(b"certificate 2", b"certificate 3"),
        "no-lack": b"numarun-certificate 1\nrow a 2 10:1-2\nrow c 1 10:4-5\nshort a\nshort c\nend\n",
    }


def problems():
    """Problems with one answer, and with a fault each."""
    lack = b"numarun-problem 1\nrow a 2 10:1-2\nrow b 1 10:1-2\nrow c 1 10:4-5\nend\n"
    return {
        "nothing": b"numarun-problem 1\nend\n", "lack-rows": lack, "open-rows": lack.replace(b"end\n", b""),
        "twice-rows": lack.replace(b"row b", b"row a"), "beyond-rows": lack.replace(b"row c 1", b"row c 4097"),
    }


def make_files(certificate):
    """What the table's words name."""
    text = open(certificate, "rb").read()
    files = {
        "certificate": text,
        "version": version(),
        "dear": text.replace(b"price 1 1\n", b"price 0 1\n"),
        "short": text.replace(b"end\n", b""),
        "table": SLIT,
        "reserved": SLIT.replace(b"\x53", b"\x5f", 2).replace(b"\x15", b"\x09", 1).replace(b"\x5fLIT", b"SLIT"),
        "cut": SLIT[:43],
        "far": FAR,
        "machine": FAR.replace(b"}", b',"distances":[[10,21],[21,10]]}'),
        "script": b"create a bundle\nstart a\ncreate b no\nstate a\nlist",
        "unreadable": b"create a hollow\ncreate b endless\ncreate c bundle/config.json\ncreate d bundle\nlist",
    }
    for name, content in {**files, **tables(), **machines(), **certificates(text), **problems()}.items():
        open(name, "wb").write(content)
    open("locked", "wb").write(text)
    os.chmod("locked", 0)
    open("widest", "wb").truncate(67_108_864)
    open("long", "wb").truncate(67_108_865)
    os.mkdir("folder")
    os.mkdir("bundle")
    open("bundle/config.json", "wb").write(CONFIG)
    os.makedirs("hollow/config.json")
    os.mkdir("endless")
    open("endless/config.json", "wb").truncate(67_108_865)


def cases(table):
    """(line number, words, places of the streams, status, output, error)"""
    found = None
    for at, line in enumerate(open(table, encoding="utf-8"), 1):
        line = re.sub(r"<(\d+) ([^>]+)>", lambda found: found[2] * int(found[1]), line.rstrip("\n"))
        if line.startswith("$ "):
            if found:
                yield found
            words, places = read_words(line[2:])
            found = [at, words, places, None, b"", b""]
        elif line.startswith("status "):
            found[3] = int(line.split()[1])
        elif line.startswith("|< "):
            found[4] += open(line[3:], "rb").read()
        elif line[:1] in ("|", "!"):
            found[4 if line[0] == "|" else 5] += line[1:].removeprefix(" ").encode() + b"\n"
        elif line and not line.startswith("#"):
            sys.exit(f"command-line: line {at} of the table is no part of a case")
    if found:
        yield found


def read_words(line):
    escaped = re.fullmatch(r"(.*)\$'(.*)'", line)
    words = [word.encode() for word in shlex.split(escaped[1] if escaped else line)]
    if escaped:
        words.append(escaped[2].encode().decode("unicode_escape").encode("latin-1"))
    places = {}
    while len(words) > 1 and words[-2] in (b"<", b">", b"2>"):
        places[words[-2].decode()] = words[-1].decode()
        del words[-2:]
    return words[1:], places


def run(program, words, places):
    streams, closed = {}, []
    for number, (mark, name, default) in enumerate(
        [("<", "stdin", subprocess.DEVNULL), (">", "stdout", subprocess.PIPE), ("2>", "stderr", subprocess.PIPE)]
    ):
        place = places.get(mark)
        if place == "closed":
            closed.append(number)
        flags = os.O_WRONLY if number else os.O_RDONLY
        streams[name] = os.open(place, flags) if place not in (None, "closed") else default

    def prepare():
        for number in closed:
            os.close(number)
        if b"locked" in words and os.getuid() == 0:
            os.setuid(NOBODY)

    try:
        done = subprocess.run([program.encode()] + words, preexec_fn=prepare, timeout=SECONDS, **streams)
    except subprocess.TimeoutExpired:
        sys.exit(f"command-line: {words} {places} did not come to its end within {SECONDS} seconds")
    return done.returncode, done.stdout or b"", done.stderr or b""


def main(program, table, certificate):
    program, table, certificate = map(os.path.abspath, (program, table, certificate))
    resource.setrlimit(resource.RLIMIT_CORE, (0, 0))
    seen, wrong = 0, 0
    with tempfile.TemporaryDirectory() as folder:
        os.chdir(folder)
        os.chmod(folder, 0o755)
        program = shutil.copy(program, os.path.join(folder, "program"))
        make_files(certificate)
        for at, words, places, status, output, error in cases(table):
            seen += 1
            found = run(program, words, places)
            if found != (status, output, error):
                wrong += 1
                print(f"command-line: line {at}: {words} {places}\n  expected {(status, output, error)}\n  found    {found}")
        os.chdir("/")
    if wrong or not seen:
        sys.exit(f"command-line: {wrong} of {seen} cases are wrong")
    print(f"command-line: {seen} cases")


main(*sys.argv[1:])
