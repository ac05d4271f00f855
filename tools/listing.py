#!/usr/bin/env python3
"""The listing program of document 01 by itself: plain, slow and exact, sharing nothing with the crates.

    python3 tools/listing.py < crates/listing/stdin > crates/listing/stdout

reads sheets one after another from standard input and prints the listing.
"""
import sys

sys.dont_write_bytecode = True
from sheet import answer, signed

HEADER = "line shape mm loss surface upto"
SHAPES = {1: "cylinder", 2: "flat"}
CHECKS = ["within", "over", "close", "none"]


def degrees(tenths):
    """Tenths of a degree in degrees: one decimal, and a minus sign below zero."""
    return f"{'-' if tenths < 0 else ''}{abs(tenths) // 10}.{abs(tenths) % 10}"


def line(chunk):
    """The line for one chunk: a sheet of 24 bytes; a chunk of another length has no line number."""
    result = answer(chunk)
    if len(chunk) != 24:
        return f"- refused {result}"
    number = 256 * chunk[2] + chunk[3]
    if isinstance(result, int):
        return f"{number} refused {result}"
    _, shape, high, low, loss, surface, *bound = result
    upto = degrees(signed(256 * bound[0] + bound[1]))
    return f"{number} {SHAPES[shape]} {256 * high + low} {CHECKS[loss]} {CHECKS[surface]} {upto}"


def listing(data):
    """The whole listing; the header stands first, also for empty input."""
    lines = [HEADER] + [line(data[i:i + 24]) for i in range(0, len(data), 24)]
    return "".join(text + "\n" for text in lines)


if __name__ == "__main__":
    sys.stdout.write(listing(sys.stdin.buffer.read()))
