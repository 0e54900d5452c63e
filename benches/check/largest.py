"""Writes a certificate of 1,024 rows that hold the 4,095 CPUs from 1 on, each row with eight offers over all of them:
`largest.py BLOCK`.

CPUs go to the offers in turn, BLOCK of them at a time, offer k at weight 10 + k: with 1 each CPU is
written alone, with 4 each list is 128 ranges, and with 512 it is one. The first 1,023 rows hold four CPUs each and the last
one three. Each CPU's price is what it is cheaper than the dearest offer, so that each row's value is that offer's weight.
"""

import sys

CPUS = range(1, 4096)
ROWS = 1024
OFFERS = 8
WEIGHT = 10
BLOCK = int(sys.argv[1])


def offer_of(cpu):
    return cpu // BLOCK % OFFERS


def listed(cpus):
    if BLOCK == 1:
        return ",".join(str(cpu) for cpu in cpus)
    starts = [cpu for cpu in cpus if cpu - 1 not in cpus]
    ends = [cpu for cpu in cpus if cpu + 1 not in cpus]
    return ",".join(f"{a}-{b}" if a < b else str(a) for a, b in zip(starts, ends))


def main():
    offers = [[cpu for cpu in CPUS if offer_of(cpu) == k] for k in range(OFFERS)]
    held = [list(CPUS)[4 * row : 4 * row + 4] for row in range(ROWS)]
    words = " ".join(f"{WEIGHT + k}:{listed(cpus)}" for k, cpus in enumerate(offers))
    value = WEIGHT + OFFERS - 1

    print("numarun-certificate 1")
    for row, cpus in enumerate(held):
        print(f"row container-{row} {len(cpus)} {words}")
    for row, cpus in enumerate(held):
        print(f"hold container-{row} {listed(cpus)} {value}")
    for k, cpus in enumerate(offers[:-1]):
        print(f"price {OFFERS - 1 - k} {listed(cpus)}")
    print(f"total {sum(WEIGHT + offer_of(cpu) for cpu in CPUS)}")
    print("end")


main()
