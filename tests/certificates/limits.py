"""Certificates at each limit and one past it, each with what a check answers: counted here, by nobody's program."""

CPUS, ROWS = 4096, 1024
VALUE = 1_099_511_627_776
WEIGHT = 33_554_431
PROBLEM = "refused E70 BadProblem"
GAP = "refused E75 Gap"


def bad(line):
    return f"refused E77 BadText {line}"


def text(*lines):
    return "".join(line + "\n" for line in ("numarun-certificate 1",) + lines + ("end",)).encode()


def two(first="row a 1 10:1 11:2", hold="hold a 2 11", price="price 1 1", total="total 23"):
    """Two rows of which each would have CPU 1, with one line changed."""
    return text(first, "row b 1 12:1 50:2", hold, "hold b 1 13", price, total)


def one(row, hold, price, total):
    return text(row, hold, price, total)


def valued(value, amount, weight=0):
    """A row whose value is a price and a weight together."""
    return one(f"row a 1 {weight}:7", f"hold a 7 {value}", f"price {amount} 7", f"total {weight}")


def asking(demand):
    """One row that asks for so many of 4,096 CPUs."""
    return one(f"row a {demand} 1:0-4095", f"hold a 0-4095 {VALUE}", f"price {VALUE - 1} 0-4095", "total 4096")


def name(number):
    """One of many names of 64 bytes."""
    return f"{number:04}" + "Az_-.+09" * 7 + "tail"


def rows(count, offers=lambda k: f"{WEIGHT}:0-4095", demand=4):
    return [f"row {name(k)} {demand} {offers(k)}" for k in range(count)]


def whole_machine(count, last_weight=WEIGHT, amount=VALUE - WEIGHT):
    """As many rows, each with four CPUs of its own, all numbers as large as they may be."""
    lines = rows(count)
    lines[-1] = f"row {name(count - 1)} 4 {last_weight}:0-4095"
    holds = [f"hold {name(k)} {4 * k % CPUS}-{4 * k % CPUS + 3} {VALUE}" for k in range(count)]
    return text(*lines, *holds, f"price {amount} 0-4095", f"total {CPUS * WEIGHT}")


def short(count, members, demand=CPUS):
    return text(*rows(count, demand=demand), *[f"short {name(k)}" for k in members])


def scattered(k):
    """Offers of many CPUs, one of each at a place and all at a distance that go by the row."""
    return " ".join(f"{7 * n + k}:{','.join(str(cpu) for cpu in range(n, CPUS, 8) if cpu % 64 // 8 == n)},{n + 8 * (k % 500)}"
                    for n in range(8))


def own_offers(count):
    """A shortage of many rows with many offers of their own, in a text that takes several reads."""
    return text(*rows(count, scattered, 5), *[f"short {name(k)}" for k in range(count)])


def allowed(count):
    return len({n + 8 * (k % 500) for k in range(count) for n in range(8)}
               | {cpu for n in range(8) for cpu in range(n, CPUS, 8) if cpu % 64 // 8 == n})


def each_apart(priced=range(CPUS)):
    """One row whose CPUs all weigh another number each, in as many offers, and prices that make up for it."""
    offers = " ".join(f"{cpu}:{cpu}" for cpu in range(CPUS))
    return text(f"row a {CPUS} {offers}", f"hold a 0-{CPUS - 1} {CPUS - 1}", *[f"price {CPUS - 1 - cpu} {cpu}" for cpu in priced],
                f"total {CPUS * (CPUS - 1) // 2}")


EVEN, ODD = (",".join(map(str, range(first, CPUS, 2))) for first in (0, 1))


def every_other(demand=CPUS // 2, amount=1):
    """A row of two offers that each have every other CPU, so as many ranges as there may be; it holds one of them."""
    return one(f"row a {demand} 1:{EVEN} 2:{ODD}", f"hold a {EVEN} 2", f"price {amount} {EVEN}", f"total {CPUS // 2}")


def many(count):
    """Many more members, holds, offers and prices than a check takes up: they are read all the same."""
    rows, names = [f"row r{k} 1 1:5" for k in range(count)], [f"r{k}" for k in range(count)]
    return [text(*rows, *[f"short {it}" for it in names]), text(*rows, *[f"hold {it} 5 1" for it in names], "total 0"),
            one("row a 1" + " 1:5" * count, "hold a 5 1", "price 0 5", "total 1"),
            text("row a 1 1:5", "hold a 5 1", *["price 0 5"] * count, "total 1")]


def wide(count):
    """A row's offers, and prices, that have 2,048 ranges each: together more than 65,536 of them."""
    return [one(f"row a 1{f' 1:{EVEN}' * count}", "hold a 0 1", "price 0 0", "total 1"),
            text("row a 1 1:0", "hold a 0 1", *[f"price 0 {EVEN}"] * count, "total 1")]


def half_zero(amount=VALUE):
    """A row of weight 0 whose value is a price alone, which is the largest one."""
    return valued(amount, amount)


PLAIN = [
    (two(), "plan total 23"),
    (two(hold="hold a 1-2 11"), "refused E71 WrongCount 0"),
    (two(hold="hold a 3 11"), "refused E72 NotAllowed 0 3"),
    (two(hold="hold a 1 11"), "refused E73 HeldTwice 1"),
    (two(price="price 0 1"), "refused E74 ValueTooHigh 0 1"),
    (two(hold="hold a 2 10"), GAP),
    (two(total="total 22"), GAP),
    (two(total="total 18446744073709551615"), GAP),
    (two(total="total 18446744073709551616"), bad(7)),
    (two(first="row a 1 10:1 11:2 12:1"), PROBLEM),
    (two(first="row a 1 10:1 11:1-2"), PROBLEM),
    (two(price="price 1 1,1"), "plan total 23"),
    (text("row a 1 10:1", "hold a 1 12", "price 1 1", "price 1 1", "total 10"), PROBLEM),
    (text("row a 1 10:1 20:2", "hold a 2 20", "price 10 1", "total 20"), GAP),
]
NUMBERS = [
    (half_zero(), "plan total 0"),
    (half_zero(VALUE + 1), PROBLEM),
    (two(hold=f"hold a 2 {VALUE}"), "refused E74 ValueTooHigh 0 1"),
    (two(hold=f"hold a 2 {VALUE + 1}"), PROBLEM),
    (two(hold="hold a 2 18446744073709551615"), PROBLEM),
    (two(hold="hold a 2 18446744073709551616"), bad(4)),
    (two(price=f"price {VALUE} 1"), GAP),
    (two(price=f"price {VALUE + 1} 1"), PROBLEM),
    (two(price=f"price {VALUE + 1} 1000"), PROBLEM),
    (two(price="price 18446744073709551616 1"), bad(6)),
    (valued(WEIGHT, 0, WEIGHT), f"plan total {WEIGHT}"),
    (valued(VALUE, VALUE - WEIGHT, WEIGHT), f"plan total {WEIGHT}"),
    (valued(WEIGHT + 1, 0, WEIGHT + 1), PROBLEM),
    (two(first="row a 1 10:1 33554431:2"), GAP),
    (two(first="row a 1 10:1 33554432:2"), PROBLEM),
    (two(first="row a 1 10:1 11:2 33554432:900"), PROBLEM),
    (two(first="row a 1 10:1 4294967295:2"), PROBLEM),
    (two(first="row a 1 10:1 4294967296:2"), bad(2)),
    (asking(4096), "plan total 4096"),
    (asking(4095), "refused E71 WrongCount 0"),
    (asking(1024), "refused E71 WrongCount 0"),
    (asking(4097), PROBLEM),
    (asking(0), PROBLEM),
    (asking(4294967295), PROBLEM),
    (asking(4294967296), bad(2)),
    (one("row a 1 1:4095", "hold a 4095 1", "price 0 0", "total 1"), "plan total 1"),
    (one("row a 1 1:4096", "hold a 4095 1", "price 0 0", "total 1"), bad(2)),
    (one("row a 1 1:4095", "hold a 4096 1", "price 0 0", "total 1"), bad(3)),
    (one("row a 1 1:4095", "hold a 4095 1", "price 0 4096", "total 1"), bad(4)),
    (one("row a 1 1:2,0-0001", "hold a 0 1", "price 0 0", "total 1"), "plan total 1"),
    (one("row a 01 1:2", "hold a 0 1", "price 0 0", "total 1"), bad(2)),
]
ROWS = [
    (whole_machine(ROWS), f"plan total {CPUS * WEIGHT}"),
    (whole_machine(ROWS, last_weight=WEIGHT + 1), PROBLEM),
    (whole_machine(ROWS, amount=VALUE - WEIGHT + 1), GAP),
    (whole_machine(ROWS, amount=VALUE - WEIGHT - 1), "refused E74 ValueTooHigh 0 0"),
    (whole_machine(ROWS + 1), PROBLEM),
    (whole_machine(2000), PROBLEM),
    (short(ROWS, range(ROWS)), "short demand 4194304 cpus 4096"),
    (short(ROWS, range(1, ROWS)), "short demand 4190208 cpus 4096"),
    (short(ROWS, [0]), "refused E76 NoShortage"),
    (short(ROWS, [0, 1023]), "short demand 8192 cpus 4096"),
    (short(ROWS, range(ROWS), CPUS + 1), PROBLEM),
    (short(ROWS + 1, range(ROWS + 1)), PROBLEM),
    (short(ROWS + 1, [0]), PROBLEM),
    (short(ROWS, [1023, 0]), bad(1027)),
    (short(ROWS, [7, 7]), bad(1027)),
    (own_offers(ROWS), f"short demand 5120 cpus {allowed(ROWS)}"),
    (text("row " + "i" * 64 + " 1 1:1", "hold " + "i" * 64 + " 1 1", "total 1"), "plan total 1"),
    (text("row " + "i" * 65 + " 1 1:1", "hold " + "i" * 65 + " 1 1", "total 1"), bad(2)),
    (text("row " + "i" * 63 + "a 1 1:1", "row " + "i" * 63 + "b 1 1:2", "short " + "i" * 63 + "b"), "refused E76 NoShortage"),
    (text("row . 1 1:1", "hold . 1 1", "total 1"), bad(2)),
    (text("row .. 1 1:1", "hold .. 1 1", "total 1"), bad(2)),
    (text("row ... 1 1:1", "hold ... 1 1", "total 1"), "plan total 1"),
    (text("row a 1 1:1", "row a 1 1:2", "short a"), bad(3)),
    (text(), bad(2)),
    (text("total 0"), "plan total 0"),
]
SIZES = [
    (each_apart(), "plan total 8386560"),
    (each_apart(range(1, CPUS)), "refused E74 ValueTooHigh 0 0"),
    (each_apart([*range(CPUS), 7]), PROBLEM),
    (every_other(), "plan total 2048"),
    (every_other(amount=0), "refused E74 ValueTooHigh 0 0"),
    (every_other(demand=2047), "refused E71 WrongCount 0"),
    (text(f"row a 2049 1:{EVEN}", "short a"), "short demand 2049 cpus 2048"),
    (text(f"row a 2048 1:{ODD}", "short a"), "refused E76 NoShortage"),
] + [(told, PROBLEM) for told in many(20_000) + wide(40)]
TEXTS = PLAIN + NUMBERS + ROWS + SIZES
