"""Writes a certificate of so many rows that hold the 4,095 CPUs from 1 on between them: `singles.py ROWS`.

Each row has an offer of its own for each CPU, all of weight 10, and each CPU has a price of its own, 5; so each row's value
is 15, which is above all weights, and the check has to find the price of each CPU of each row.
"""

import sys

CPUS = range(1, 4096)
ROWS = int(sys.argv[1])
WEIGHT, AMOUNT = 10, 5


def main():
    words = " ".join(f"{WEIGHT}:{cpu}" for cpu in CPUS)
    ends = [len(CPUS) * row // ROWS for row in range(ROWS + 1)]
    held = [CPUS[first:end] for first, end in zip(ends, ends[1:])]

    print("numarun-certificate 1")
    for row, cpus in enumerate(held):
        print(f"row container-{row} {len(cpus)} {words}")
    for row, cpus in enumerate(held):
        print(f"hold container-{row} {cpus[0]}-{cpus[-1]} {WEIGHT + AMOUNT}")
    for cpu in CPUS:
        print(f"price {AMOUNT} {cpu}")
    print(f"total {WEIGHT * len(CPUS)}")
    print("end")


main()
