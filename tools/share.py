#!/usr/bin/env python3
"""Yearly shares from a rate and a term, computed by themselves: plain, slow and exact, sharing nothing with the crates.

    python3 tools/share.py

goes over every rate i from 1 to 3,000 and every term n from 2 to 30. It prints the pairs for which the two ends round
differently, the least and the largest share given, how often a share is a half exactly, where the ends are farthest apart, and
the pairs whose exact share is nearest to a half. Shares count 0.0001.
"""
from fractions import Fraction
from heapq import nsmallest

ONE = 10**9
RATES, TERMS = range(1, 3_001), range(2, 31)


def growth(i, n):
    """Growth over n years in units of 10^-9, each year rounded down and each year rounded up."""
    low = high = ONE
    for _ in range(n):
        low = low * (10_000 + i) // 10_000
        high = -(-high * (10_000 + i) // 10_000)
    return low, high


def fraction(i, g):
    """The share of a growth as numerator and denominator: the rate times the growth, divided by the growth less one."""
    return i * g, g - ONE


def nearest(n, d):
    """n / d to the nearest whole number, a half going up."""
    return (2 * n + d) // (2 * d)


def exact(i, n):
    """The share from unrounded growth, as numerator and denominator."""
    grown, start = (10_000 + i)**n, 10_000**n
    return i * grown, grown - start


def from_half(n, d):
    """How far n / d is from the half between two whole numbers, with a minus sign below it."""
    return Fraction(2 * (n % d) - d, 2 * d)


def apart(i, n):
    """How far the two ends are apart, before they are rounded."""
    high, low = (Fraction(*fraction(i, g)) for g in growth(i, n))
    return high - low


def decimal(n, d, places=12):
    """n / d with that many decimals, cut off; n may be negative."""
    whole, rest = divmod(abs(n) * 10**places // d, 10**places)
    return f"{'-' if n < 0 else ''}{whole}.{rest:0{places}}"


def show_end(name, i, g):
    """The lines for one growth figure."""
    n, d = fraction(i, g)
    print(f"  growth rounded {name}: {g:,}")
    print(f"    share {n:,} / {d:,} = {n // d:,} remainder {n % d:,}")
    print(f"    twice the remainder {2 * (n % d):,}, less the denominator {2 * (n % d) - d:,}; nearest {nearest(n, d):,}")
    print(f"    share {decimal(n, d)}")


def show_parted(i, n):
    """The lines for a rate and a term for which the ends part."""
    low, high = growth(i, n)
    share = exact(i, n)
    print(f"i = {i:,}, n = {n}: the ends part")
    show_end("down", i, low)
    show_end("up", i, high)
    print(f"  exact growth {decimal((10_000 + i)**n * ONE, 10_000**n)}")
    print(f"  exact share {decimal(*share)}, nearest {nearest(*share):,}")
    print(f"  the ends are {decimal(*apart(i, n).as_integer_ratio())} apart")


def main():
    pairs = [(i, n) for i in RATES for n in TERMS]
    parted, given = [], {}
    for i, n in pairs:
        down, up = (nearest(*fraction(i, g)) for g in growth(i, n))
        if down != up:
            parted.append((i, n))
        else:
            given[i, n] = down
            assert down == nearest(*exact(i, n)), (i, n)

    for pair in parted:
        show_parted(*pair)
    print(f"pairs: {len(pairs):,}; the ends part for {len(parted):,} and round as the exact share does for {len(given):,}")
    for name, choose in (("least", min), ("largest", max)):
        share = choose(given.values())
        where = [f"i = {i:,}, n = {n}" for (i, n), other in given.items() if other == share]
        print(f"{name} share given: {share:,} at {'; '.join(where)}")

    halves = sum(from_half(*share) == 0 for i, n in pairs for share in (*(fraction(i, g) for g in growth(i, n)), exact(i, n)))
    print(f"exact halves among the shares of both ends and the exact shares: {halves:,}")
    i, n = max(pairs, key=lambda pair: apart(*pair))
    print(f"the ends are farthest apart at i = {i:,}, n = {n}: {decimal(*apart(i, n).as_integer_ratio())}")
    distances = {pair: from_half(*exact(*pair)) for pair in pairs}
    print("exact shares nearest to a half:")
    for i, n in nsmallest(3, pairs, key=lambda pair: abs(distances[pair])):
        print(f"  i = {i:,}, n = {n}: {decimal(*exact(i, n))}, from the half {decimal(*distances[i, n].as_integer_ratio())}")
    for pair in parted:
        nearer = sum(abs(distance) < abs(distances[pair]) for distance in distances.values())
        print(f"  nearer than i = {pair[0]:,}, n = {pair[1]}: {nearer:,} pairs")


main()
