#!/usr/bin/env python3
"""Compares the exact table maker of examples/ with another computation of the same tables: each exponential by itself, in decimal numbers
of 160 digits. File and message must be the same, byte for byte, for tables and for refusals.

usage: gaussian.py TABLE COARSE    TABLE is the program; COARSE the same program with 192 bits behind the point
"""
import random
import subprocess
import sys
from decimal import Decimal, getcontext
from functools import lru_cache
from itertools import count, takewhile

getcontext().prec = 160
ROWS = 128
MARGIN = Decimal(10) ** -60

CASES = [
    ("6.15543", 128), ("6.15543", 100), ("6.15543", 64), ("6.15543", 32), ("6.15543", 12), ("0.8", 128), ("1.5", 128), ("2", 128),
    ("3.3", 128), ("8.5", 128), ("9.74", 128), ("1.8205", 72), ("13/2", 128), ("1/3", 128), ("0.0625", 128), ("1/16", 1), ("006.50", 8),
    ("3.14159265358979323846264338327950288420", 128), ("1000000000000000000/300000000000000001", 128),
    ("2", 2), ("2", 1), ("12", 85), ("12", 86), ("12", 128), ("20", 34), ("20", 35), ("50", 10), ("127.99", 8), ("127.99", 9),
    ("6.15543", 129), ("6.15543", 136), ("6.15543", 160), ("6.15543", 191), ("6.15543", 192), ("0.8", 129), ("0.8", 192), ("2", 192),
    ("7.91", 192), ("7.92", 192), ("8.68", 160), ("8.69", 160), ("9.70", 129), ("9.71", 129), ("13/2", 191), ("1/3", 192), ("1/16", 192),
    ("3.14159265358979323846264338327950288420", 192), ("127.99", 192),
]  # fmt: skip
RANGE = [("0", "below 1/16"), ("0.0624", "below 1/16"), ("128", "not below 128"), ("1/0", "not below 128"), ("900000", "not below 128")]
NO_SIGMA = ["", "-1", "+1", "6,5", "6.", ".5", "1e1", "1/", "/2", "1/2/3", "1.5/2", " 6", "6 ", "0x6", "0" * 40 + "2"]
NO_COLUMNS = ["", "0", "193", "200", "-1", "1.5", "12x", "18446744073709551617"]


@lru_cache(maxsize=None)
def curve(sigma):
    """The chances of distances 0 to 128, both signs together, of the whole curve."""
    over, _, under = sigma.partition("/")
    x = (Decimal(under or 1) / Decimal(over)) ** 2 / 2
    weights = list(takewhile(lambda w: w > Decimal(10) ** -150, ((2 if v else 1) * (-x * v * v).exp() for v in count())))
    weights += [Decimal(0)] * (ROWS + 1 - len(weights))
    total = sum(weights)
    return [w / total for w in weights[: ROWS + 1]]


def whole(x):
    """The whole part, where x is not so near a whole number that the rounding could decide it."""
    part = int(x)
    assert x < MARGIN or MARGIN < x - part < 1 - MARGIN
    return part


def expected(sigma, columns):
    """The file and the message."""
    chances = curve(sigma)
    rows = [whole(c * 2**columns) for c in chances]
    if rows[ROWS] > 0:
        most = max((n for n in range(columns) if whole(chances[ROWS] * 2**n) == 0))
        return b"", f"sigma {sigma}: {columns} columns would need more than 128 rows; {most} columns are the most\n"
    while rows and rows[-1] == 0:
        rows.pop()
    if not rows:
        return b"", f"sigma {sigma}: with {columns} columns every row is 0; take more\n"
    width = -(-columns // 8)
    header = [8 + len(rows) * width, 32, len(rows), columns]
    file = b"".join(f.to_bytes(2, "little") for f in header)
    file += b"".join((r << (8 * width - columns)).to_bytes(width, "big") for r in rows)
    misses = 2**columns - sum(rows)
    power = misses.bit_length() - columns
    return file, f"{len(rows)} rows, {columns} columns; {misses} of the 2^{columns} strings miss, a chance below 2^{power}\n"


def run(program, sigma, columns):
    ended = subprocess.run([program, sigma, str(columns)], capture_output=True)
    file, message = ended.stdout, ended.stderr.decode()
    assert ended.returncode == (0 if file else 1), (sigma, columns, ended.returncode)
    return file, message


def same(program, sigma, columns, right):
    got = run(program, sigma, columns)
    if got != right:
        sys.exit(f"table {sigma} {columns}: not as computed\n{got[1]}{got[0].hex()}\n{right[1]}{right[0].hex()}")


def drawn():
    """Sigmas and columns by chance, the same in each run."""
    some = random.Random(615543)
    for _ in range(60):
        yield f"{some.randrange(7000, 980000) / 100000:.5f}", some.choice([128, 128, some.randrange(1, 128)])
    for _ in range(30):
        yield f"{some.randrange(7000, 800000) / 100000:.5f}", some.choice([192, 192, some.randrange(129, 192)])


def check_coarse(program):
    """With too few bits a row is refused or right, never wrong. Both must happen."""
    refused = given = 0
    for sigma in ["0.8", "2", "6.15543", "7.9"]:
        for columns in range(154, 193):
            got = run(program, sigma, columns)
            if "is not certain; raise FRACTION_LIMBS" in got[1] and not got[0]:
                refused += 1
            elif got == expected(sigma, columns):
                given += 1
            else:
                sys.exit(f"table {sigma} {columns}: a wrong row with too few bits\n{got[1]}")
    assert refused > 20 and given > 20, (refused, given)
    return given, refused


def main():
    program, coarse = sys.argv[1:]
    cases = CASES + list(drawn())
    for sigma, columns in cases:
        same(program, sigma, columns, expected(sigma, columns))
    refusals = [(s, 128, f"sigma {s}: {why}\n") for s, why in RANGE]
    refusals += [(s, 128, f"sigma {s}: not a number such as 6.15543 or 13/2 of at most 40 characters\n") for s in NO_SIGMA]
    refusals += [("2", c, "the columns are not 1 to 192\n") for c in NO_COLUMNS]
    for sigma, columns, message in refusals:
        same(program, sigma, columns, (b"", message))
    given, doubtful = check_coarse(coarse)
    print(f"tables: {len(cases)} cases as computed, {len(refusals)} refused, with too few bits {given} right and {doubtful} refused")


main()
