#!/usr/bin/env python3
"""Writes the benchmark's table, the one of paper 002 (sigma 6.15543, 87 rows, 128 columns), in two forms: a matrix file for the engine,
and a C header with the cumulative sums for the scan.

usage: table.py MATRIX HEADER
"""
import sys
from decimal import Decimal, getcontext
from itertools import accumulate

SIGMA = Decimal("6.15543")
ROWS = 87
COLUMNS = 128


def table():
    """Row v is the largest 128-bit number not above 2^128 times the chance of distance v, zero counted once and every other distance
    twice."""
    getcontext().prec = 120
    weights = [(-Decimal(v * v) / (2 * SIGMA * SIGMA)).exp() for v in range(ROWS)]
    weights[0] /= 2
    total = sum(weights)
    return [whole(w / total * 2**COLUMNS) for w in weights]


def whole(x):
    """The whole part, where x is not so near a whole number that the rounding of 120 digits could decide it."""
    part = int(x)
    margin = Decimal(10) ** -60
    assert margin < x - part < 1 - margin
    return part


def matrix(rows):
    """The matrix file: length, kind 32, rows and columns, then each row, column 0 in the highest bit of its first byte."""
    width = COLUMNS // 8
    header = [8 + ROWS * width, 32, ROWS, COLUMNS]
    return b"".join(f.to_bytes(2, "little") for f in header) + b"".join(r.to_bytes(width, "big") for r in rows)


def constants(name, numbers):
    return f"static const uint64_t {name}[{ROWS}] = {{\n" + "".join(f"    0x{x:016x},\n" for x in numbers) + "};\n"


def header(rows):
    """Sum v is that of rows 0 to v, in two halves. All are below 2^128, or the scan could not hold them."""
    sums = list(accumulate(rows))
    assert sums[-1] < 2**128
    return constants("sum_high", [s >> 64 for s in sums]) + constants("sum_low", [s % 2**64 for s in sums])


def main():
    rows = table()
    with open(sys.argv[1], "wb") as file:
        file.write(matrix(rows))
    with open(sys.argv[2], "w") as file:
        file.write(header(rows))


main()
