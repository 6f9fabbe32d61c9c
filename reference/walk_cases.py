#!/usr/bin/env python3
"""Makes crates/walk_cases/stdin and stdout from the source documents: matrices, strings, and what 01's walk gives on them.

Written from 01, 02 and the papers alone, with exact integers and 120-digit decimals. Run it in the repository's root.
"""
import random
from decimal import Decimal, getcontext
from fractions import Fraction

getcontext().prec = 120
chance = random.Random(20260)


def walk(rows, n, bits):
    """01, "Matrix and walk", and 02, order 1: the row that is hit, or None, and the columns used."""
    d = 0
    for c in range(n):
        d = 2 * d + bits[c]
        for v in range(len(rows) - 1, -1, -1):
            if rows[v] >> (n - 1 - c) & 1:
                if d == 0:
                    return v, c + 1
                d -= 1
    return None, n


def packed(x, n):
    """n bits of x, the first in the highest bit of the first byte, spare low bits 0."""
    width = (n + 7) // 8
    return (x << (8 * width - n)).to_bytes(width, "big")


def matrix_file(rows, n):
    body = b"".join(packed(r, n) for r in rows)
    head = [8 + len(body), 32, len(rows), n]
    return b"".join(x.to_bytes(2, "little") for x in head) + body


def bits_of(x, n):
    return [x >> (n - 1 - i) & 1 for i in range(n)]


def string_for(rows, n, v, c):
    """A string that ends the walk in row v, column c, read backwards from there; the bits after column c are 0."""
    ones = [sum(r >> (n - 1 - i) & 1 for r in rows) for i in range(n)]
    d = sum(rows[u] >> (n - 1 - c) & 1 for u in range(v + 1, len(rows)))
    bits = [0] * n
    for i in range(c, -1, -1):
        bits[i] = d % 2
        d = d // 2 + (ones[i - 1] if i else 0)
    assert d == 0
    return sum(b << (n - 1 - i) for i, b in enumerate(bits))


class Cases:
    def __init__(self):
        self.lines, self.printed = [], []

    def note(self, text):
        self.lines.append("# " + text)
        self.printed.append("# " + text)

    def matrix(self, rows, n):
        assert all(0 <= r < 2**n for r in rows) and sum(rows) <= 2**n
        self.rows, self.n = rows, n
        self.lines.append("m " + matrix_file(rows, n).hex())

    def string(self, x):
        text = packed(x, self.n).hex()
        hit, used = walk(self.rows, self.n, bits_of(x, self.n))
        self.lines.append("s " + text)
        self.printed.append("%s %s %d" % (text, "miss" if hit is None else hit, used))
        return hit

    def used(self, x):
        return walk(self.rows, self.n, bits_of(x, self.n))[1]

    def batch(self, strings):
        """64 strings: what the walks on them have used together."""
        assert len(strings) == 64
        total = sum(self.used(x) for x in strings)
        assert 64 <= total <= 64 * self.n
        self.lines.append("u " + b"".join(packed(x, self.n) for x in strings).hex())
        self.printed.append(str(total))
        return total

    def moment(self, k):
        """The mean over all 2^n strings of the columns used, to the power k: a 1 in column c is hit by one of the 2^(c+1) beginnings of
        c + 1 bits, and what the rows leave of 2^n misses."""
        ones = [sum(r >> (self.n - 1 - c) & 1 for r in self.rows) for c in range(self.n)]
        hits = sum(Fraction((c + 1) ** k * many, 2 ** (c + 1)) for c, many in enumerate(ones))
        return hits + self.n**k * Fraction(2**self.n - sum(self.rows), 2**self.n)

    def total(self):
        self.lines.append("t")
        total = sum(self.rows)
        self.printed.append("%x" % (total >> self.n) + (total % 2**self.n).to_bytes((self.n + 7) // 8, "big").hex())

    def highest(self, columns):
        top = max(v for v, r in enumerate(self.rows) if r >> (self.n - columns))
        self.lines.append("h %02x" % columns)
        self.printed.append(str(top))
        return top

    def each_row(self):
        """For each row that is not 0, a string that hits it in its first 1, and one for another of its ones."""
        for v, r in enumerate(self.rows):
            columns = [c for c in range(self.n) if r >> (self.n - 1 - c) & 1]
            for c in dict.fromkeys(columns[:1] + chance.sample(columns, min(1, len(columns)))):
                assert self.string(string_for(self.rows, self.n, v, c)) == v

    def at_random(self, count):
        return [self.string(chance.getrandbits(self.n)) for _ in range(count)]


def hand(cases):
    cases.note("01, Checked by hand: one row 0: both miss")
    cases.matrix([0], 1)
    assert [cases.string(x) for x in (0, 1)] == [None, None]
    cases.note("one row 1: 0 hits, 1 misses, and each uses the one column there is; 64 strings use 64")
    cases.matrix([1], 1)
    assert [cases.string(x) for x in (0, 1)] == [0, None] and [cases.used(x) for x in (0, 1)] == [1, 1]
    assert cases.batch([0, 1] * 32) == 64
    cases.note("rows 10, 01, 01: 00 and 01 use one column, 10 and 11 use two; 16 of each use 96 together, all ones 128")
    cases.matrix([0b10, 0b01, 0b01], 2)
    assert [cases.string(x) for x in range(4)] == [0, 0, 2, 1] and [cases.used(x) for x in range(4)] == [1, 1, 2, 2]
    assert cases.batch([0, 1, 2, 3] * 16) == 96 and cases.batch([3] * 64) == 128 and cases.moment(1) == Fraction(3, 2)


def table_5(cases):
    """Source document 004, table 5: CDT(z) counts what lies above z, out of 2^80."""
    cdt = [
        519416855270223991024635, 101208528248637278136991, 7893637264903720998210, 233884566914685871813, 2580077773372372849,
        10517004221616016, 15796660852944, 8733832501, 1776829, 132,
    ]
    above = [2**80] + cdt + [0]
    rows = [a - b for a, b in zip(above, above[1:])]
    assert len(rows) == 11 and sum(rows) == 2**80
    cases.note("source document 004, table 5: 11 rows of 80 columns; T is 2^80")
    cases.matrix(rows, 80)
    cases.total()
    cases.note("a string for each row, the first and the last string, and strings at random: none misses")
    cases.each_row()
    assert None not in [cases.string(0), cases.string(2**80 - 1)] + cases.at_random(60)


def look_up(cases):
    """Source document 001, section 5.2, with its bits complemented."""
    w = sum(Decimal(2) ** (-i * i) for i in range(18))
    top = int(Decimal(2) ** 128 / w)
    assert "%x" % top == "a3a2446c95b5b00985dbb564c791ff8b"
    rows = [top >> v * v for v in range(12)]
    cases.note("source document 001, section 5.2: 12 rows of 128 columns; 0.. gives 0, 10.. gives 1, 110.. gives 0, 111.. needs more bits")
    cases.matrix(rows, 128)
    for start, length, row in ((0b0, 1, 0), (0b10, 2, 1), (0b110, 3, 0)):
        for _ in range(8):
            string = start << (128 - length) | chance.getrandbits(128 - length)
            assert cases.string(string) == row and cases.used(string) == length
    assert len({cases.string(0b111 << 125 | chance.getrandbits(125)) for _ in range(16)}) > 1
    cases.each_row()
    cases.note("its first 3 columns: only 111 misses")
    cases.matrix([r >> 125 for r in rows], 3)
    assert [cases.string(x) for x in range(8)] == [0, 0, 0, 0, 1, 1, 0, None]
    cases.note("its first 8 columns: only the strings that begin with seven ones miss, and the others that begin with 111 give 0, 1 or 2")
    cases.matrix([r >> 120 for r in rows], 8)
    hits = [cases.string(x) for x in range(256)]
    assert hits[254:] == [None, None] and set(hits[:224]) == {0, 1} and set(hits[224:254]) == {0, 1, 2}


def curve(count, n):
    """Source document 002: so many distances of the discrete Gaussian of deviation 6.15543, in n columns."""
    sigma = Decimal("6.15543")
    weights = [(-Decimal(v * v) / (2 * sigma * sigma)).exp() for v in range(400)]
    whole = 2 * sum(weights) - 1
    return [int((1 if v == 0 else 2) * weights[v] / whole * 2**n) for v in range(count)]


def gaussian(cases):
    """Its distances up to 14 deviations."""
    rows = curve(87, 128)
    cases.note("source document 002, deviation 6.15543: 87 rows of 128 columns; the highest row within 32 columns, then within 64")
    cases.matrix(rows, 128)
    assert cases.highest(32) == 39 and cases.highest(64) == 56
    cases.total()
    cases.each_row()
    cases.at_random(40)
    spent(cases)
    for columns, most in ((32, 39), (64, 56)):
        cases.note("its first %d columns: no row above %d" % (columns, most))
        cases.matrix([r >> (128 - columns) for r in rows], columns)
        cases.each_row()
        assert all(hit is None or hit <= most for hit in cases.at_random(60) + [cases.string(2**columns - 1)])


def spent(cases):
    """The mean of the columns used over all strings is 4.8806; that of many is nearer to it than five of its standard deviations."""
    mean, batches, bits = cases.moment(1), 32, random.Random(20261)
    assert round(mean, 4) == Fraction(48806, 10000)
    cases.note("%d batches of 64 strings at random; the mean over all strings is 4.8806 columns a string" % batches)
    total = sum(cases.batch([bits.getrandbits(cases.n) for _ in range(64)]) for _ in range(batches))
    assert (Fraction(total, 64 * batches) - mean) ** 2 < 25 * (cases.moment(2) - mean**2) / (64 * batches)


def fine(cases):
    """02, order 8: the same curve in 192 columns, with all distances that have a share there."""
    rows = curve(100, 192)
    assert rows[99] == 5 and curve(101, 192)[100] == 0 and [r >> 64 for r in rows[:87]] == curve(87, 128)
    cases.note("02, order 8, deviation 6.15543: 100 rows of 192 columns; the highest row within 128, and within all; T is 2^192 - 50")
    cases.matrix(rows, 192)
    assert cases.highest(128) == 81 and cases.highest(192) == 99
    cases.total()
    assert sum(rows) == 2**192 - 50
    cases.each_row()
    cases.at_random(20)
    cases.note("the last string that hits, the first that misses, and the last, which uses all columns")
    assert cases.string(2**192 - 51) is not None and cases.string(2**192 - 50) is None and cases.string(2**192 - 1) is None
    cases.note("the 50 strings that miss, 14 of them twice: 64 that use 12288 columns together; and 4 batches of 64 strings at random")
    assert cases.batch([2**192 - 1 - j % 50 for j in range(64)]) == 64 * 192 == 12288
    for _ in range(4):
        cases.batch([chance.getrandbits(192) for _ in range(64)])


def last_column(cases):
    """02, order 8, by hand: walks that go on to the last of 192 columns."""
    cases.note("one row of 192 columns, set in the last: zeros hit there, and a 1 in any column misses; in the first d becomes 2^191")
    cases.matrix([1], 192)
    cases.total()
    assert [cases.string(x) for x in (0, 1, 2**63, 2**64, 2**127, 2**128, 2**191)] == [0] + [None] * 6
    assert cases.batch([0, 2**191] * 32) == 12288
    cases.note("rows 1 0..0, 0 1..1 and 0..0 1 of 192 columns: T is 2^192, none misses, and the two last strings hit in the last column")
    cases.matrix([2**191, 2**191 - 1, 1], 192)
    cases.total()
    assert [cases.string(x) for x in (0, 2**191, 2**192 - 2, 2**192 - 1)] == [0, 1, 2, 1]
    assert [cases.used(x) for x in (0, 2**191, 2**192 - 4, 2**192 - 2, 2**192 - 1)] == [1, 2, 191, 192, 192]
    assert None not in cases.at_random(8) and cases.batch([2**192 - 1] * 64) == 12288 and cases.batch([0] * 64) == 64
    cases.note("two rows of 129 columns, 1 0..0 and 0..0 1: a string that begins with 1 hits in column 129, or misses")
    cases.matrix([2**128, 1], 129)
    assert [cases.string(x) for x in (0, 2**128 - 1, 2**128, 2**128 + 1, 2**129 - 1)] == [0, 0, 1, None, None]
    assert cases.batch([0, 2**128, 2**128 + 1, 2**129 - 1] * 16) == 16 * (1 + 129 + 129 + 129)


def main():
    cases = Cases()
    for part in (hand, table_5, look_up, gaussian, fine, last_column):
        part(cases)
    for name, lines in (("stdin", cases.lines), ("stdout", cases.printed)):
        with open("crates/walk_cases/" + name, "w", encoding="ascii") as f:
            f.write("\n".join(lines) + "\n")


main()
