#!/usr/bin/env python3
"""The counts that the program link_tests prints, worked out apart from its code.

    python3 tools/link_counts.py > crates/link_tests/stdout
"""

MASK = (1 << 32) - 1
SCRIPT = "1,0,2\r\n0,9,1\r\n3,1,1\r\n1,1,0\r\n0,0,4"
SEED, LOSS, SLOTS = 2463534242, 20000, 6
INNER = [2, 0, 3, 0, 1, 0, 0, 255]
OUTER = [3, 4, 0, 0, 0, 5, 0, 0]


def scripted():
    for line in SCRIPT.split("\r\n"):
        digits = [int(field) for field in line.split(",")]
        yield digits + [0] * (8 - len(digits))


def drawn(seed, loss):
    x = seed if seed else 1
    for _ in range(SLOTS):
        counts = []
        for _relay in range(8):
            x ^= (x << 13) & MASK
            x ^= x >> 17
            x ^= (x << 5) & MASK
            counts.append(0 if x // 65536 < loss else 1)
        yield counts


def erasing(counts, periods):
    for slot, line in enumerate(counts, 1):
        yield [0 if p and slot % p == 0 else c for p, c in zip(periods, line)]


def show(name, counts):
    print(name)
    for slot, line in enumerate(counts, 1):
        print(",".join(str(n) for n in [slot] + line))


show("scripted", scripted())
show("scripted under two layers", erasing(erasing(scripted(), INNER), OUTER))
show("drawn", drawn(SEED, LOSS))
show("drawn under two layers", erasing(erasing(drawn(SEED, LOSS), INNER), OUTER))
show("drawn from seed 0", drawn(0, 32768))
