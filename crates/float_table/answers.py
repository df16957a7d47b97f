"""Writes src/tables.rt and stdout: the seven functions on the edges that 01 names, worked out to 60 digits and rounded once to
the nearest single, with 01's rules for everything outside its ranges. Where the rules leave the result open the program only
says whether it is near, within 01's part. It calls nothing of the port.

    python3 crates/float_table/answers.py
"""
import os
import struct
from decimal import Decimal, getcontext
from fractions import Fraction

getcontext().prec = 60
NAN, INF, NEGINF = 0x7FC00000, 0x7F800000, 0xFF800000
LN2, LN10 = Decimal(2).ln(), Decimal(10).ln()


def value(bits):
    return struct.unpack("<f", struct.pack("<I", bits))[0]


def exact(bits):
    n, d = value(bits).as_integer_ratio()
    return Decimal(n) / Decimal(d)


def nearest(x):
    """The pattern of the single nearest to a number that is not near the overflow, a tie to the even one."""
    sign = 0x80000000 if x < 0 else 0
    q = abs(Fraction(x))
    if q == 0:
        return sign
    e = -149
    q *= 1 << 149
    while q >= 1 << 24:
        q /= 2
        e += 1
    return sign + (e + 149) * (1 << 23) + round(q)


def powers(log):
    """e^(x log) with the ends of 01's range."""

    def of(bits):
        x = value(bits)
        if x != x:
            return NAN
        if x in (float("inf"), float("-inf")):
            return INF if x > 0 else 0
        y = exact(bits) * log / LN2
        if y < -126:
            return 0
        if y > 127:
            return INF
        return nearest((exact(bits) * log).exp())

    return of


def sinh(bits):
    x = value(bits)
    if x == float("inf"):
        return INF
    if x != x or x < 2.0**-12:
        return NAN
    if x > 1000:
        return INF
    y = (exact(bits).exp() - (-exact(bits)).exp()) / 2
    return INF if y > 2**127 else nearest(y)


def log2(bits):
    x = value(bits)
    if x == 0:
        return NEGINF
    if x != x or x < 0 or x == float("inf"):
        return NAN
    return nearest(exact(bits).ln() / LN2)


def series(first):
    def of(bits):
        x = value(bits)
        if x != x or not 0 <= x <= 1e9 or exact(bits) * 5 > 16:
            return NAN
        if x == 0:
            return bits if first else 0x3F800000
        term, total, k = exact(bits) ** first, Decimal(0), first
        while k < 80:
            total += term
            k += 2
            term = -term * exact(bits) ** 2 / (k * (k - 1))
        return nearest(total)

    return of


EVERY = [0x00000000, 0x80000000, 0x00000001, 0x80000001, 0x3F800000, 0xBF800000, 0x3F000000, 0x7F7FFFFF, 0xFF7FFFFF, INF, NEGINF, NAN]
NAMES = [
    ("exp2", powers(LN2), [0xC2FC0000, 0xC2FC0001, 0xC2FBFFFF, 0x42FE0000, 0x42FE0001, 0x42FDFFFF, 0x41200000]),
    ("exp", powers(Decimal(1)), [0xC2AEAC4F, 0xC2AEAC50, 0x42B00F33, 0x42B00F34, 0xB58637BD, 0xC1100000, 0x41200000]),
    ("pow10", powers(LN10), [0xC217B818, 0xC217B819, 0x4218EC59, 0x4218EC5A, 0xBE99999A, 0x3D4CCCCD, 0x40400000]),
    ("log2", log2, [0x007FFFFF, 0x00800000, 0x3F7FFFFF, 0x3F800001, 0x41000000, 0x43DC0000, 0x3FB504F3]),
    ("sin", series(1), [0x39800000, 0x397FFFFF, 0x3FC00000, 0x3FC00001, 0x40490FDB, 0x404CCCCC, 0x404CCCCD]),
    ("cos", series(0), [0x39800000, 0x397FFFFF, 0x3FC90FDB, 0x3FC00001, 0x40490FDB, 0x404CCCCC, 0x404CCCCD]),
    ("sinh", sinh, [0x39800000, 0x397FFFFF, 0x39800001, 0x42B17217, 0x42B17218, 0x41200000, 0x3D4CCCCD]),
]
rows = [(k, b, of(b)) for k, (_, of, more) in enumerate(NAMES) for b in EVERY + more]


def tolerance(k, r):
    """None where 01 says what the result is; else how near it has to be."""
    if r in (0, 0x80000000, NAN, INF, NEGINF):
        return "None"
    return "Some(%s)" % {"log2": "PowerPart", "sin": "Bound", "cos": "Bound"}.get(NAMES[k][0], "Part")


def pattern(b):
    return f"0x{b >> 16:04x}_{b & 0xFFFF:04x}"


here = os.path.dirname(os.path.abspath(__file__))
with open(os.path.join(here, "src/tables.rt"), "w") as f:
    f.write("// The function, the argument's bits, those of the result to 60 digits as a single, and how near to it 01 asks; no tolerance where it\n")
    f.write("// says that the result is this one. answers.py writes this file.\n")
    f.write("use crate::function::Function::{self, Cos, Exp, Exp2, Log2, Pow10, Sin, Sinh};\n")
    f.write("use crate::tolerance::Tolerance::{self, Bound, Part, PowerPart};\n\n")
    f.write("// A tuple and no struct: a const fn that makes a struct was tried, and a constant takes no call; written out, a row is six lines.\n")
    f.write("pub type Row = (Function, u32, u32, Option<Tolerance>);\n\n")
    f.write(f"pub const ROWS: [Row; {len(rows)}] = [\n")
    for k, b, r in rows:
        f.write(f"    ({NAMES[k][0].capitalize()}, {pattern(b)}, {pattern(r)}, {tolerance(k, r)}),\n")
    f.write("];\n")
with open(os.path.join(here, "stdout"), "w") as f:
    for k, b, r in rows:
        f.write(f"{NAMES[k][0]} {b:08x} {'' if tolerance(k, r) == 'None' else 'near '}{r:08x}\n")
print(len(rows), "rows")
