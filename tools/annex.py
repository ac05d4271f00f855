#!/usr/bin/env python3
"""The annex, computed apart from the program under test: each step as an exact fraction, rounded once; then the printed loss limits.

The program's expected output was made from the project's folder by

    python3 tools/annex.py > crates/annex/stdout
"""
import sys
from fractions import Fraction
from itertools import zip_longest
from math import ceil, floor

sys.dont_write_bytecode = True
from sheet import SEASONAL, YEAR_ROUND


def under(i):
    """The unit strip from i to i + 1 by the midpoint rule, in units of 10^-12, rounded down."""
    return floor(10**12 * Fraction(2, 2 * i + 1))


def over(i):
    """The same by the trapezoidal rule, the mean of 1/i and 1/(i + 1), rounded up."""
    return ceil(10**12 * (Fraction(1, i) + Fraction(1, i + 1)) / 2)


def main():
    print("mm under over")
    low = high = 0
    for tenths in range(100, 16001):
        if tenths % 10 == 0:
            print(tenths // 10, low, high)
        low += under(tenths)
        high += over(tenths)
    print("limits")
    print(*(limit for row in zip_longest(YEAR_ROUND, SEASONAL, fillvalue=0) for limit in row))


main()
