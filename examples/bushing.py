#!/usr/bin/env python3
"""Writes the example job of `outline`: one slice of a worn bushing, 24 x 20 samples of 8 bits, at level 257/2.

    python3 examples/bushing.py > crates/outline/stdin

The wall is solid where a sample is above the level. The bore has worn off centre.
"""
import math
import sys

WIDTH, HEIGHT = 24, 20
P, Q = 257, 2


def sample(x, y):
    outer = 8.6 - math.hypot(x - 11.5, y - 9.5)
    bore = math.hypot(x - 12.4, (y - 9.9) * 1.05) - 4.3
    return max(0, min(255, round(128 + 24 * min(outer, bore))))


def packed(fields):
    bits = "".join(format(value % (1 << width), f"0{width}b") for value, width in fields)
    bits += "0" * (-len(bits) % 8)
    return bytes(int(bits[i:i + 8], 2) for i in range(0, len(bits), 8))


job = [(0, 1), (P, 26), (Q - 1, 8), (0, 5)]
header = [(8 - 1, 4), (WIDTH - 1, 10), (HEIGHT - 1, 10), (1 - 1, 10), (0, 6)]
samples = [(sample(x, y), 8) for y in range(HEIGHT) for x in range(WIDTH)]
sys.stdout.buffer.write(packed(job + header + samples))
