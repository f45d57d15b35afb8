#!/usr/bin/env python3
"""Prints what convert_suite must print: crates/convert_suite/stdout. The pattern of n / 32,768 is put together from n's binary digits; no float is computed with."""


def pattern(n):
    sign, size = (1 << 31, 65536 - n) if n >= 32768 else (0, n)
    if size == 0:
        return 0
    digits = size.bit_length()
    return sign + ((digits + 111) << 23) + ((size << (24 - digits)) - (1 << 23))


PATTERNS = [pattern(n) for n in range(65536)]
NUMBERS = set(PATTERNS)
WORD = 1 << 32


def told(what, tried):
    print("%s: %d tried, %d of them numbers, 0 different" % (what, len(tried), sum(bits % WORD in NUMBERS for bits in tried)))


def hashed(patterns):
    h = 1
    for bits in patterns:
        h = (h * 16777619 + bits) % 4294967291
    return h


assert len(NUMBERS) == 65536
print("numbers both ways: 65536 tried, 0 different")
told("patterns beside them", [bits + step for bits in PATTERNS for step in (-1, 1)])
told("powers of two and patterns beside them", [(field << 23) + step for field in range(512) for step in (-1, 0, 1)])
told("strange patterns", [0x80000000, 0x3F800000, 0x3F7FFFFF, 0x3F800001, 0xBF800001, 0xBF7FFFFF, 1, 0x80000001, 0x7F7FFFFF, 0xFF7FFFFF, 0x7F800000, 0xFF800000, 0x7FC00000, 0xFFC00000, 0x7F800001, 0xFFFFFFFF])
print("the patterns of all numbers: hash %d" % hashed(PATTERNS))
