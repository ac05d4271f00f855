#!/usr/bin/env python3
"""A duct with each service, at the temperature of each row of the loss table, a tenth below and above it, and halfway to the next; and
around 130.0 °C.

    python3 examples/rows.py > examples/rows.sheets
"""
import sys

sys.dont_write_bytecode = True
from plant import SERVICES, sheet

AIMS = {"year": "110.0", "season": "190.0", "year-i": "110.0", "season-i": "190.0"}  # by service, in W/m²


def duct(service, t):
    """A duct of 2 m at t tenths of a degree, in air of 20.0 °C, with 0.0400 W/(m·K) and 11.63 W/(m²·K), as a row of the plant's table."""
    line = 10_000 * SERVICES[service] + t
    return f"{line} loss {service} 2000.0 {t // 10}.{t % 10} 20.0 0.0400 11.63 0 0 0 0 {AIMS[service]}"


TEMPERATURES = sorted([1_299, 1_300, 1_301, *(500 * row + by for row in range(1, 14) for by in (-1, 0, 1, 250))])
sys.stdout.buffer.write(b"".join(sheet(duct(service, t)) for service in AIMS for t in TEMPERATURES if t <= 6_500))
