#!/usr/bin/env python3
"""The sheets of a chilled-water and refrigeration plant, as rows with plant.py's columns.

    python3 examples/cold.py > examples/cold.sheets
"""
import sys

sys.dont_write_bytecode = True
from plant import write

# The columns are those of plant.py; the price is that of cold, in yuan/GJ. Where a row names a dew point, its aim is 1.0 °C above it.
SHEETS = """
201 cold-economy season  273.0    7.0  25.0 0.0350 11.63  75.00 2880 3400 0.2296     0  # chilled water supply
202 cold-economy season  273.0   12.0  25.0 0.0350 11.63  75.00 2880 3400 0.2296     0  # chilled water return
203 cold-surface season  273.0    7.0  32.0 0.0350  8.14      0    0    0      0  29.0  # supply, dew point 28.0 °C
204 cold-surface season   27.0    7.0  32.0 0.0350  8.14      0    0    0      0  29.0  # a small branch of it
210 cold-economy year    159.0   -5.0  25.0 0.0350 11.63  90.00 8000 3400 0.2296     0  # brine line
211 cold-surface year    159.0  -15.0  30.0 0.0260  8.14      0    0    0      0  27.2  # brine to a freezer, dew point 26.2 °C
220 cold-economy year    219.0  -40.0  30.0 0.0240 11.63 120.00 8000 2700 0.2296     0  # ammonia suction line
230 cold-economy year     57.0 -196.0  20.0 0.0250 11.63 400.00 8000 4500 0.2296     0  # liquid nitrogen
231 cold-surface year     57.0 -196.0  20.0 0.0250  8.14      0    0    0      0  14.0  # the same, dew point 13.0 °C
240 cold-surface year   5000.0  -25.0  25.0 0.0240  8.14      0    0    0      0  22.4  # cold-room wall, dew point 21.4 °C
241 cold-surface year   5000.0  -30.0  -5.0 0.0240  8.14      0    0    0      0  -7.0  # wall to an anteroom, dew point -8.0 °C
250 cold-economy year   3000.0    0.5  25.0 0.0350 11.63  75.00 8000 1800 0.2296     0  # ice-water tank, wall
260 cold-economy season  108.0   16.0  20.0 0.0350 11.63   1.00   60 3400 0.2296     0  # well water: bare pipe will do
290 cold-surface season  273.0    7.0  32.0 0.0350  8.14      0    0    0      0  33.0  # aim above the air: refused 16
291 cold-economy year     57.0 -253.0  20.0 0.0250 11.63 400.00 8000 4500 0.2296     0  # liquid hydrogen: refused 13
"""

if __name__ == "__main__":
    write(SHEETS)
