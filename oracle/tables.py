#!/usr/bin/env python3
"""Writes the two tables of document 02 as a Rust file, from exact fractions: entry i is the whole number nearest to
2^24 * S(i/256), for the cosines to 2^24 * C(i/256), with document 01's sums S and C.
"""
from fractions import Fraction
from math import factorial, floor


def series(x, degrees):
    """The sum of the terms of a series, with signs by turns."""
    return sum((-1) ** (k // 2) * x**k / factorial(k) for k in degrees)


def entry(i, degrees):
    units = 2**24 * series(Fraction(i, 256), degrees)
    nearest = floor(units + Fraction(1, 2))
    assert abs(units - nearest) < Fraction(1, 2), f"entry {i} is a tie"
    assert abs(nearest) <= 2**24, f"entry {i} is above 1 in size"
    return nearest


for name, degrees in (("SINES", range(1, 24, 2)), ("COSINES", range(0, 25, 2))):
    entries = ", ".join(str(entry(i, degrees)) for i in range(1025))
    print(f"pub static {name}: [i64; 1025] = [{entries}];")
