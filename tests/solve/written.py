"""Problems with their answers, worked out by hand from docs/formats.md: refusals, and what the certificate says where there is
no choice."""

import os
import sys

sys.path.insert(0, os.path.join(os.path.dirname(os.path.abspath(__file__)), "..", "certificates"))
from limits import bad

BEYOND = "refused E70 BadProblem"


def problem(*lines):
    return "".join(line + "\n" for line in ("numarun-problem 1", *lines, "end")).encode()


def head(line):
    return line.encode() + b"\nrow a 1 10:1\nend\n"


ROW = "row a 1 10:1"
TWO = ["row a 1 10:1 11:2", "row b 1 12:1 50:2"]
SHORT = ["row a 2 10:1-2", "row b 1 10:1-2", "row c 1 10:4-5"]
# b can be left out of a shortage, since a alone asks for more than there is.
LATE = ["row b 2 10:1-2", "row a 5 10:1-2"]
NONE = "numarun-certificate 1\ntotal 0\nend\n"


def lacking(*lines):
    return "".join(line + "\n" for line in ("numarun-certificate 1", *lines, "end"))


# A text, and the line that it is refused with.
REFUSED = [
    (b"", bad(1)), (b"\n", bad(1)), (b"numarun-problem 1", bad(1)), (b"numarun-problem 1\n", bad(2)), (head("numarun-problem 2"), bad(1)),
    (head("numarun-problem 01"), bad(1)), (head("numarun-problem"), bad(1)), (head("numarun-problem 1 "), bad(1)),
    (head(" numarun-problem 1"), bad(1)), (head("numarun-certificate 1"), bad(1)), (head("numarun-problem 1\r"), bad(1)),
    (b"end\n", bad(1)), (b"numarun-problem 1\nend", bad(2)), (b"numarun-problem 1\nend\n\n", bad(3)), (b"numarun-problem 1\nend\nx", bad(3)),
    (b"numarun-problem 1\nend\nend\n", bad(3)), (b"numarun-problem 1\nrow a 1 10:1\n", bad(3)), (b"numarun-problem 1\nrow a 1 10:1", bad(2)),
    (b"numarun-problem 1\nrow a 1 10:1\nend\nrow b 1 10:2\n", bad(4)), (b"numarun-problem 1\nnumarun-problem 1\nend\n", bad(2)),
    (problem(ROW, "numarun-certificate 1"), bad(3)), (problem(ROW, ""), bad(3)), (problem(ROW, ROW), bad(3)),
    (problem(ROW, "row b 1 10:2", "row a 2 10:3"), bad(4)), (problem(ROW, "hold a 1 10"), bad(3)), (problem(ROW, "price 1 1"), bad(3)),
    (problem(ROW, "total 10"), bad(3)), (problem(ROW, "short a"), bad(3)), (problem(ROW, "end "), bad(3)), (problem(ROW, " end"), bad(3)),
    (problem("Row a 1 10:1"), bad(2)), (problem("row"), bad(2)), (problem("row a"), bad(2)), (problem("row  a 1"), bad(2)),
    (problem("row a 1 "), bad(2)), (problem("row a 01"), bad(2)), (problem("row a 4294967296"), bad(2)), (problem("row a -1"), bad(2)),
    (problem("row . 1"), bad(2)), (problem("row .. 1"), bad(2)), (problem("row a/b 1"), bad(2)), (problem("row " + "x" * 65 + " 1"), bad(2)),
    (problem("row a 1 11"), bad(2)), (problem("row a 1 11:"), bad(2)), (problem("row a 1 11:,"), bad(2)), (problem("row a 1 11:2:3"), bad(2)),
    (problem("row a 1 11:4096"), bad(2)), (problem("row a 1 011:2"), bad(2)), (problem("row a 1 4294967296:2"), bad(2)),
    (problem("row a 1 10:x 11:2"), bad(2)), (problem("row a 0 10:1"), BEYOND), (problem("row a 4097 10:1"), BEYOND),
    (problem("row a 4294967295 10:1"), BEYOND), (problem("row a 1 33554432:1"), BEYOND), (problem("row a 1 4294967295:1"), BEYOND),
    (problem("row a 1 10:1-3 11:3"), BEYOND), (problem("row a 1 10:1-3 10:3-4"), BEYOND), (problem(ROW, "row b 0"), BEYOND),
    (problem(*(f"row r{k} 1 10:{k}" for k in range(1025))), BEYOND),
    # the line comes before the limits
    (problem("row a 0 10:1", "row a 1 10:1"), bad(3)),
]

# A text, and the whole answer, where there is but one.
ANSWERED = [
    (problem(), NONE), (problem("row a 1"), lacking("row a 1", "short a")), (problem(*SHORT), lacking(*SHORT, "short a", "short b")),
    (problem(*LATE), lacking(*LATE, "short a")),
    (problem("row a 5 10:3,1-2,,2 7:08"), lacking("row a 5 10:1-3 7:8", "short a")),
    (problem("row a 4096 0:0-4094"), lacking("row a 4096 0:0-4094", "short a")),
    (problem("row ... 2 0:1 33554431:4095", "row x 1"), lacking("row ... 2 0:1 33554431:4095", "row x 1", "short x")),
]

# A text, what the certificate's plan costs, and which CPUs its rows hold, where there is but one least plan.
PLANNED = [
    (problem(ROW), 10, ["1"]), (problem(*TWO), 23, ["2", "1"]), (problem("row a 1 0:1"), 0, ["1"]),
    (problem("row a 2 33554431:1,4095"), 67_108_862, ["1,4095"]), (problem("row a 3 10:3,1-2,,2"), 30, ["1-3"]),
    (problem("row a 4096 33554431:0-4095"), 4096 * 33_554_431, ["0-4095"]),
    (problem("row a 1 1:1 5:2", "row b 1 1:1 4:2", "row c 1 1:1 9:2 2:3"), 7, ["1", "2", "3"]),
    # a weight of 65,536 and more is a cost like any other
    (problem("row a 1 65536:1 65535:2", "row b 1 65537:2"), 131_073, ["1", "2"]),
    (problem(*(f"row r{k} 4 {k}:{4 * k}-{4 * k + 3}" for k in range(1024))), 4 * sum(range(1024)), [f"{4 * k}-{4 * k + 3}" for k in range(1024)]),
]
