#!/usr/bin/env python3
# Holds the decoding program to a decoder of its own on random recordings: which frames are accepted, which packet each shows, and
# which packets can be read are worked out by solving linear equations anew for every frame. Takes a number of rounds and a seed.
import os
import random
import subprocess
import sys
import tempfile

PACKETS, SYMBOLS = 4, 3
WIDTH = PACKETS + SYMBOLS


class Modulo257:
    size, name = 257, "modulo 257"

    def add(self, a, b):
        return (a + b) % 257

    def negative(self, a):
        return -a % 257

    def multiply(self, a, b):
        return a * b % 257


class Gf256:
    size, name = 256, "GF(256)"

    def add(self, a, b):
        return a ^ b

    def negative(self, a):
        return a

    def multiply(self, a, b):
        result = 0
        while b:
            if b & 1:
                result ^= a
            a <<= 1
            if a & 0x100:
                a ^= 0x11B
            b >>= 1
        return result


def inverse(field, a):
    return next(b for b in range(field.size) if field.multiply(a, b) == 1)


def rank(field, rows):
    rows, found = [list(r) for r in rows], 0
    for column in range(len(rows[0]) if rows else 0):
        pivot = next((r for r in range(found, len(rows)) if rows[r][column]), None)
        if pivot is None:
            continue
        rows[found], rows[pivot] = rows[pivot], rows[found]
        factor = inverse(field, rows[found][column])
        rows[found] = [field.multiply(factor, x) for x in rows[found]]
        for r in range(len(rows)):
            if r != found and rows[r][column]:
                take = field.negative(rows[r][column])
                rows[r] = [field.add(x, field.multiply(take, y)) for x, y in zip(rows[r], rows[found])]
        found += 1
    return found


def seen(field, frames):
    # a packet is seen where the packets before it leave one more dimension than the packets up to it
    return [k for k in range(1, PACKETS + 1) if rank(field, [f[:k] for f in frames]) > rank(field, [f[: k - 1] for f in frames])]


def consistent(field, frames):
    return rank(field, frames) == rank(field, [f[:PACKETS] for f in frames])


def determined(field, frames, packet):
    unit = [int(i == packet - 1) for i in range(PACKETS)]
    heads = [f[:PACKETS] for f in frames]
    return rank(field, heads + [unit]) == rank(field, heads)


def expected(field, frames, packets):
    lines, accepted = [field.name], []
    for frame in frames:
        text = "  heard  " + "".join(f" {c:>3}" for c in frame)
        if any(c >= field.size for c in frame):
            text += "  refused by field, number 5"
        elif not consistent(field, accepted + [frame]):
            text += "  refused by rows, number 16"
        else:
            before = seen(field, accepted)
            accepted.append(frame)
            new = [k for k in seen(field, accepted) if k not in before]
            text += f"  new {new[0] if new else 0}"
        text += "  seen" + "".join(f" {k}" for k in seen(field, accepted))
        lines.append(text)
    for k in range(1, PACKETS + 1):
        if determined(field, accepted, k):
            lines.append(f"  packet {k}" + "".join(f" {c:>3}" for c in packets[k - 1]))
        else:
            lines.append(f"  packet {k} is not determined")
    return lines


def recording(field, random):
    packets = [[random.randrange(field.size) for _ in range(SYMBOLS)] for _ in range(PACKETS)]
    frames = []
    for _ in range(random.randrange(0, 9)):
        head = [random.choice([0, 0, 1, random.randrange(field.size)]) for _ in range(PACKETS)]
        tail = []
        for j in range(SYMBOLS):
            total = 0
            for coefficient, packet in zip(head, packets):
                total = field.add(total, field.multiply(coefficient, packet[j]))
            tail.append(total)
        frame = head + tail
        damage = random.randrange(10)
        if damage == 0 and frames and not consistent(field, frames + [frame[:-1] + [field.add(frame[-1], 1)]]):
            frame[-1] = field.add(frame[-1], 1)
        elif damage == 1:
            frame[random.randrange(WIDTH)] = field.size
        if all(c < field.size for c in frame) and consistent(field, frames + [frame]):
            frames.append(frame)
        yield frame, packets


def main(rounds, seed):
    chance = random.Random(seed)
    program = os.path.abspath(os.path.join(os.path.dirname(__file__), "..", "crates", "decode", "out", "decode"))
    for turn in range(rounds):
        wanted = []
        with tempfile.TemporaryDirectory() as folder:
            for field, name in ((Modulo257(), "modulo_257.bin"), (Gf256(), "gf256.bin")):
                made = list(recording(field, chance))
                frames = [f for f, _ in made]
                packets = made[0][1] if made else [[0] * SYMBOLS] * PACKETS
                wanted += expected(field, frames, packets)
                with open(os.path.join(folder, name), "wb") as out:
                    out.write(b"".join(c.to_bytes(2, "big") for f in frames for c in f))
            told = subprocess.run([program], cwd=folder, capture_output=True, text=True, check=True).stdout.splitlines()
        if told != wanted:
            print("\n".join(wanted), "\n--- but the program wrote ---\n" + "\n".join(told))
            sys.exit(f"round {turn} differs")
    print(f"{rounds} rounds, all alike")


if __name__ == "__main__":
    main(int(sys.argv[1]) if len(sys.argv) > 1 else 100, int(sys.argv[2]) if len(sys.argv) > 2 else 1)
