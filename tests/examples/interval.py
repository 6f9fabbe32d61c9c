#!/usr/bin/env python3
"""Compares the intervals of examples/ with Python's whole numbers: each lower bound must be the exact result rounded down, and each upper
one rounded up.

usage: interval.py PROGRAM    PROGRAM is tests/examples/interval.c with 320 bits on both sides of the point
"""
import random
import subprocess
import sys

POINT = 320
DIGITS = 160
CASES = 4000


def number(some, most):
    """Of any size below 2^most; every third is a whole number, whose results are exact."""
    raw = some.getrandbits(some.randrange(1, most))
    return raw >> POINT << POINT if some.randrange(3) == 0 else raw


def interval(some):
    """Bounds that stay below 2^150, so that a product and most quotients fit; every third pair is equal."""
    low, high = sorted((number(some, POINT + 150), number(some, POINT + 150)))
    return (low, low) if some.randrange(3) == 0 else (low, high)


def right(a, b):
    """What the program must print. The bounds of b are above 0."""
    added = (a[0] + b[0], a[1] + b[1])
    multiplied = (a[0] * b[0] >> POINT, -(-a[1] * b[1] >> POINT))
    divided = ((a[0] << POINT) // b[1], -(-(a[1] << POINT) // b[0]))
    return [*added, *multiplied, *divided, a[1] < b[0], a[0] == 0]


def cases():
    some = random.Random(320)
    while True:
        a, b = interval(some), interval(some)
        if b[0] > 0 and max(right(a, b)) < 1 << 2 * POINT:
            yield a, b


def main():
    tried = [case for case, _ in zip(cases(), range(CASES))]
    lines = "".join(" ".join(f"{n:0{DIGITS}x}" for n in (*a, *b)) + "\n" for a, b in tried)
    printed = subprocess.run(sys.argv[1:], input=lines, capture_output=True, check=True, text=True).stdout.splitlines()
    assert len(printed) == CASES, len(printed)
    for (a, b), line in zip(tried, printed):
        if [int(word, 16) for word in line.split()] != right(a, b):
            sys.exit(f"a {a}\nb {b}\ngive {line}\nnot {right(a, b)}")
    print(f"intervals: {CASES} cases as computed")


main()
