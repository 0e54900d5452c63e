"""Certificates with a line of their own each, and what a check answers to them, by docs/formats.md: words and numbers that are
none, lines out of their order, members of a shortage, the first of several causes, and texts of version 2."""

from limits import GAP, PROBLEM, bad, text, two

LINES = ["numarun-certificate 1", "row a 1 10:1 11:2", "row b 1 12:1 50:2", "hold a 2 11", "hold b 1 13", "price 1 1", "total 23",
         "end"]


def changed(number, line):
    """The certificate with another line of this number, counted from 1."""
    return "".join(old + "\n" for old in LINES[: number - 1] + [line] + LINES[number:]).encode()


def whole(*lines):
    return "".join(line + "\n" for line in lines).encode()


def named(word):
    """One row of this id."""
    return text(f"row {word} 1 1:1", f"hold {word} 1 1", "total 1")


# A line of this number, and the line that is bad.
BAD_LINES = [
    (1, "numarun-certificate 3", 1), (1, "numarun-certificate 0", 1), (1, "numarun-certificate 12", 1), (1, "numarun-certificate", 1),
    (1, "numarun-certificate 02", 1), (1, "numarun-certificate 2 ", 1), (1, "numarun-certificate 01", 1), (1, " numarun-certificate 1", 1),
    (2, "", 2), (2, "row  a 1", 2), (2, "row a 1 ", 2), (2, "row a 01", 2), (2, "row a 4294967296", 2), (2, "row a +1", 2),
    (2, "row . 1", 2), (2, "row .. 1", 2), (2, "row a/b 1", 2), (2, "row \u00e9 1", 2), (2, "row a\0 1", 2), (2, "Row a 1", 2),
    (2, "row a 1 11", 2), (2, "row a 1 11:", 2), (2, "row a 1 11:,", 2), (2, "row a 1 11:2:3", 2), (2, "row a 1 11:4096", 2),
    (2, "row a 1 011:2", 2), (2, "row a 1 10:x 11:2", 2), (3, "row a 1 12:1 50:2", 3), (4, "hold b 2 11", 4),
    (4, "hold a 2 18446744073709551616", 4), (4, "price 1 1", 4), (4, "short a", 5), (5, "short b", 5), (5, "hold a 1 13", 5),
    (5, "total 23", 5), (6, "hold b 1 13", 6), (6, "row c 1", 6), (7, "total 18446744073709551616", 7),
    (7, "total 23 moves 0", 7), (7, "total 0 moves 23", 7), (7, "total 23 moves", 7),
    (7, "total 1000000000000000000000000000000000000000000000", 7), (7, "end", 7), (8, "end ", 8), (8, "end\nend", 9),
]
# A line of this number that is none of a bad text.
READ_LINES = [
    (2, "row a 0", PROBLEM), (2, "row a 4294967295 4294967295:01-03,,2 4294967295:1", PROBLEM),
    (4, "hold a 0-4095 18446744073709551615", PROBLEM), (6, "price 0 0\nprice 0 0", PROBLEM), (6, "price 1 01,,1-1", "plan total 23"),
    (7, "total 18446744073709551615", GAP), (2, "row a 1 10:1 655362:2", GAP),
]
BYTES = [
    (b"numarun-certificate 1\nrow \xff 1\n", bad(2)), (b"\0\0\n", bad(1)), (b"numarun-certificate 1\r\n", bad(1)),
    (b"numarun-certificate 1\ntotal 0\nend\n", "plan total 0"), (b"numarun-certificate 1\nprice 1 1\nrow a 1\n", bad(3)),
    (b"", bad(1)), (b"\n", bad(1)), (b"numarun-certificate 1\ntotal 0\nend\n\n", bad(4)), (b"numarun-certificate 1\ntotal 0\nend", bad(3)),
]
IDS = [(named(word), "plan total 1") for word in ("a", "a_b-c.d+e9Z", "...")] + [
    (named(word), bad(2)) for word in ("", ".", "..", "a b", "a/b", "\u00e9")]

ROWS = ["row a 2 10:1-2", "row b 1 10:1-2", "row c 2 10:1-3 11:4-7", "row d 8 10:1-3 11:4-7"]


def members(*lines, rows=ROWS):
    return text(*rows, *lines)


def beside(last):
    """Two rows that lack a CPU, and one that is no member."""
    return members("short a", "short b", rows=ROWS[:2] + [last])


SHORTAGES = [
    (members("short a", "short b"), "short demand 3 cpus 2"), (members("short d"), "short demand 8 cpus 7"),
    (members("short a", "short b", "short c", "short d"), "short demand 13 cpus 7"), (members("short a", "short d"), "short demand 10 cpus 7"),
    (members("short a"), "refused E76 NoShortage"), (members("short a", "short b", "short c"), "refused E76 NoShortage"),
    (members("short b", "short c"), "refused E76 NoShortage"), (members("short b", "short a"), bad(7)),
    (members("short a", "short a"), bad(7)), (members("short a", "short b", "short b"), bad(8)), (members("short e"), bad(6)),
    (members(), bad(6)), (members("short"), bad(6)), (members("short a b"), bad(6)), (members("short  a"), bad(6)),
    (members("short a", "row e 1"), bad(7)), (members("short a", "hold a 1 1"), bad(7)), (members("short a", "price 1 1"), bad(7)),
    (members("short a", "total 1"), bad(7)), (members("hold a 1 1", "short a"), bad(7)), (members("short a", "end"), bad(8)),
    (beside("row c 4096"), "short demand 3 cpus 2"), (beside("row c 4097"), PROBLEM), (beside("row c 0"), PROBLEM),
    (beside("row c 1 10:1-4 11:4-7"), PROBLEM),
]

ONE, TWO = "1 10:1 11:2-3", "2 10:1 11:2-3"


def holding(first, second, *holds):
    return text(f"row a {first}", f"row b {second}", *holds, "total 23")


# The first row, the least CPU, and the first cause of all.
CAUSES = [
    (two(first="row a 0 10:1 11:2"), PROBLEM),
    (text("row a 1 10:1 11:2-3", "hold a 1 10", "total 10"), "plan total 10"),
    (text("row a 1 10:1 11:2-3", "hold a 1 10", "price 1 2,5", "price 2 5", "total 10"), PROBLEM),
    (holding(TWO, ONE, "hold a 7,5 99", "hold b 1-2 0"), "refused E72 NotAllowed 0 5"),
    (holding(ONE, ONE, "hold a 3 99", "hold b 1-2 0"), "refused E71 WrongCount 1"),
    (holding(TWO, TWO, "hold a 2-3 99", "hold b 2-3 0"), "refused E73 HeldTwice 2"),
    (holding(ONE, ONE, "hold a 1 10", "hold b 2 12", "price 2 1"), "refused E74 ValueTooHigh 1 2"),
    (text("row a 1 10:64,4095", "hold a 64 11", "price 1 64", "total 10"), "refused E74 ValueTooHigh 0 4095"),
]

TEXTS = [(changed(number, line), bad(at)) for number, line, at in BAD_LINES]
TEXTS += [(changed(number, line), answer) for number, line, answer in READ_LINES]
TEXTS += BYTES + IDS + SHORTAGES + CAUSES

# Version 2. A container that held 4-5 stays there, though 2-3 are as near: those are a move each.
STAYS = ["numarun-certificate 2", "row a 2 655360:4-5 655361:2-3", "hold a 4-5 655360", "total 20 moves 0", "end"]


def stays(number, line):
    """That certificate with another line of this number."""
    return whole(*STAYS[: number - 1], line, *STAYS[number:])


def version_2(*lines):
    return whole("numarun-certificate 2", *lines, "end")


def lacking(row):
    """Two rows that lack a CPU, and one that is no member."""
    return version_2("row a 2 655360:1 655361:2", "row b 1 655361:1-2", row, "short a", "short b")


def whole_machine_moves(value, moves):
    """As many rows as may be, each with four CPUs that it did not hold and that weigh what a weight may at most."""
    rows, each = range(1024), 511 * 65_536 + 1
    holds = [f"hold c{k} {4 * k}-{4 * k + 3} {value}" for k in rows]
    return version_2(*[f"row c{k} 4 {each}:0-4095" for k in rows], *holds, f"total {4096 * 511} moves {moves}")


# A total line, and the answer.
TOTALS = [
    ("total 20 moves 1", GAP), ("total 21 moves 0", GAP), ("total 19 moves 65535", GAP), ("total 0 moves 20", GAP),
    ("total 281474976710655 moves 0", GAP), ("total 281474976710655 moves 65535", GAP),
] + [(line, bad(4)) for line in (
    "total 20", "total 1310720", "total 20 moves 65536", "total 19 moves 65536", "total 20 moves 4294967296",
    "total 281474976710656 moves 0", "total 18446744073709551616 moves 0", "total 20 moves 18446744073709551616",
    "total 20 moves", "total 20 moves ", "total 20 0", "total moves 0", "total  moves 0", "total 20 move 0", "total 20 Moves 0", "total 20 moves 00", "total 020 moves 0", "total 20 moves +0",
    "total 20 moves -0", "total 20 moves x", "total x moves 0", "total 20  moves 0", "total 20 moves  0", "total 20 moves 0 ",
    "total 20 moves 0 0", "total 20 moves 0 moves 0", "total 20\tmoves\t0", "moves 0 total 20", "moves 0", "end",
)]
# Weights of which some leave a remainder above 1: in a row that is no member, in an offer of which nothing is held, beside other faults.
SCALED = [
    (stays(2, "row a 2 655360:4-5 655362:2-3"), PROBLEM), (stays(2, "row a 2 655359:4-5 655361:2-3"), PROBLEM),
    (stays(2, "row a 2 655360:4-5 2:2-3"), PROBLEM), (stays(2, "row a 2 655360:4-5 65535:2-3"), PROBLEM),
    (stays(2, "row a 2 655360:4-5 655361:2-3 10:4095"), PROBLEM), (stays(2, "row a 2 655360:4-5 33488897:2-3"), "plan total 20 moves 0"),
    (stays(2, "row a 2 655360:4-5 33488898:2-3"), PROBLEM), (stays(2, "row a 2 655360:4-5 33554431:2-3"), PROBLEM),
    (stays(2, "row a 2 655360:4-5 33554432:2-3"), PROBLEM), (stays(2, "row a 3 655360:4-5 655362:2-3"), PROBLEM),
    (stays(2, "row a 0 655360:4-5 655361:2-3"), PROBLEM), (stays(2, "row a 3 655360:4-5 655361:2-3"), "refused E71 WrongCount 0"),
    (version_2("row a 1 0:1 1:2", "row b 1 0:1", "hold a 2 1", "hold b 1 1", "price 1 1", "total 0 moves 1"), "plan total 0 moves 1"),
    (version_2("row a 1 0:1 1:2", "row b 1 0:1", "hold a 2 1", "hold b 1 1", "price 1 1", "total 1 moves 0"), GAP),
    (version_2("total 0 moves 0"), "plan total 0 moves 0"), (version_2("total 0"), bad(2)), (version_2("total 0 moves 1"), GAP),
    (whole_machine_moves(511 * 65_536 + 1, 4096), f"plan total {4096 * 511} moves 4096"),
    (whole_machine_moves(511 * 65_536 + 1, 4095), GAP), (whole_machine_moves(511 * 65_536, 4096), GAP),
    (whole_machine_moves(511 * 65_536 + 2, 4096), "refused E74 ValueTooHigh 0 0"),
    (lacking("row c 1 1:3"), "short demand 3 cpus 2"), (lacking("row c 1"), "short demand 3 cpus 2"), (lacking("row c 1 2:3"), PROBLEM),
    (lacking("row c 1 65537:3 65538:4"), PROBLEM), (version_2("row a 2 655362:1", "short a"), PROBLEM),
    (version_2("row a 1 655362:1", "short a"), PROBLEM), (version_2("row a 1 655361:1", "short a"), "refused E76 NoShortage"),
    (version_2("row a 2 655361:1", "short a", "total 0 moves 0"), bad(4)), (version_2("row a 2 655362:1", "short b"), bad(3)),
    (text("row a 2 655360:4-5 655362:2-3", "hold a 4-5 655360", "total 1310720"), "plan total 1310720"),
    (text("row a 2 655360:4-5 655361:2-3", "hold a 4-5 655360", "total 20 moves 0"), bad(4)),
]
# A fault each; with 655362 for 655361 there is E70 in its place.
LATER = [
    (stays(3, "hold a 4,6 655360"), "refused E72 NotAllowed 0 6"), (stays(3, "hold a 4-5 655361"), "refused E74 ValueTooHigh 0 4"),
    (version_2("row a 1 0:4 655361:2", "row b 1 0:4", "hold a 4 0", "hold b 4 0", "total 0 moves 0"), "refused E73 HeldTwice 4"),
    (stays(4, "total 20 moves 1"), GAP),
]
LATER += [(told.replace(b"655361", b"655362"), PROBLEM) for told, _ in LATER]
# CPU 3, which went, is back, so a container that held 1-2 and 4 comes home: to keep 4 is farther, though it moves nothing.
HOME = "row a 3 655360:1-2 655361:3 1376256:4 1376257:5-7"
COMES_HOME = version_2(HOME, "hold a 1-3 655361", "price 1 1-2", "total 30 moves 1")
PROVED = [
    (whole(*STAYS), "plan total 20 moves 0"), (stays(3, "hold a 2-3 655360"), GAP),
    (stays(3, "hold a 2-3 655361"), "refused E74 ValueTooHigh 0 4"),
    (COMES_HOME, "plan total 30 moves 1"),
    (version_2(HOME, "hold a 1-3 655361", "price 1 1-2", "total 30 moves 0"), GAP),
    (version_2(HOME, "hold a 1-2,4 655361", "price 1 1-2", "total 41 moves 0"), GAP),
    (version_2(HOME, "hold a 1-2,4 1376256", "price 720896 1-2", "total 41 moves 0"), "refused E74 ValueTooHigh 0 3"),
]
FRONTS = [(front, bad(front.count(b"\n") + 1)) for told in (whole(*STAYS), COMES_HOME, lacking("row c 1 1:3")) for front in (
    told[:end] for end in range(len(told)))]

TEXTS += PROVED + [(stays(4, line), answer) for line, answer in TOTALS] + SCALED + LATER + FRONTS
