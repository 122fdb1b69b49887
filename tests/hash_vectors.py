#!/usr/bin/env python3
"""The input of the program hash_vectors, and what it must print, from Python's hashlib (OpenSSL's SHA-256).

  hash_vectors.py stdin    FIPS 180's example messages and messages whose lengths lie about the ends of a block
  hash_vectors.py stdout   their digests
"""
import hashlib
import sys

from calls import field, literal, number, series

FIPS_180 = [
    b"",
    b"abc",
    b"abcdbcdecdefdefgefghfghighijhijkijkljklmklmnlmnomnopnopq",
    b"abcdefghbcdefghicdefghijdefghijkefghijklfghijklmghijklmnhijklmnoijklmnopjklmnopqklmnopqrlmnopqrsmnopqrstnopqrstu",
]
MILLION = [1000, 64]  # a million letters a, in parts of these sizes
LENGTHS = [55, 56, 57, 63, 64, 65, 119, 120, 127, 128]
calls, lines = b"", []


def line(message, how):
    lines.append(f"{len(message)} {how} {hashlib.sha256(message).hexdigest()}")


def both(message):
    global calls
    calls += b"\x01" + field(literal(message))
    line(message, "whole")
    line(message, "in parts")


for text in FIPS_180:
    both(text)
for size in MILLION:
    calls += b"\x02" + field(series(ord("a"), 0, size)) + number(1000000 // size)
    line(b"a" * 1000000, "in equal parts")
for n in LENGTHS:
    both(bytes((7 * i + 3) % 256 for i in range(n)))

if sys.argv[1] == "stdin":
    sys.stdout.buffer.write(calls)
else:
    print("\n".join(lines))
