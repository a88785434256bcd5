#!/usr/bin/env python3
# Writes the recordings that the decoding program hears, by arithmetic of its own: frames of four coefficients and three
# symbols, each code as two bytes, the higher one first. Prints them.
import os


def sum_257(a, b):
    return (a + b) % 257


def product_257(a, b):
    return a * b % 257


def sum_256(a, b):
    return a ^ b


def product_256(a, b):
    result = 0
    while b:
        if b & 1:
            result ^= a
        a <<= 1
        if a & 0x100:
            a ^= 0x11B
        b >>= 1
    return result


def coded(add, multiply, coefficients, packets):
    symbols = []
    for place in range(3):
        total = 0
        for coefficient, packet in zip(coefficients, packets):
            total = add(total, multiply(coefficient, packet[place]))
        symbols.append(total)
    return list(coefficients) + symbols


packets_257 = [[10, 20, 30], [256, 0, 128], [77, 5, 255], [1, 2, 3]]
packets_256 = [[0x57, 0x83, 0x13], [0x53, 0xCA, 0x00], [0xD4, 0xBF, 0x5D], [0x30, 0xFF, 0x01]]
chosen_257 = [(0, 3, 1, 0), (1, 0, 2, 0), (2, 6, 6, 0), (1, 3, 3, 0), (5, 1, 1, 1), (257, 0, 0, 0), (0, 0, 1, 1), (7, 7, 9, 100)]
chosen_256 = [(1, 2, 0, 0), (0x57, 0x53, 0, 0), (0, 0x83, 0xCA, 7), (1, 0x13, 0xCA, 7)]
frames_257 = [coded(sum_257, product_257, c, packets_257) for c in chosen_257]
# the fourth frame was damaged on the way, and the sixth has a number that is no code
frames_257[3][6] += 1
frames_257[5][4:] = [0, 0, 0]
frames_256 = [coded(sum_256, product_256, c, packets_256) for c in chosen_256]

folder = os.path.join(os.path.dirname(__file__), "..", "crates", "decode", "data")
for name, frames in (("modulo_257", frames_257), ("gf256", frames_256)):
    with open(os.path.join(folder, name + ".bin"), "wb") as out:
        for frame in frames:
            print(name, *frame)
            out.write(b"".join(code.to_bytes(2, "big") for code in frame))
