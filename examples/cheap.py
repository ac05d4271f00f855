#!/usr/bin/env python3
"""The sheets of a plant with cheap heat, as rows with plant.py's columns.

    python3 examples/cheap.py > examples/cheap.sheets
"""
import sys

sys.dont_write_bytecode = True
from plant import write

# The columns are those of plant.py. Lines 301 and 302 are the same but for the goal, and so are 340 and 341, and 390 and 391.
SHEETS = """
301 economy         year    325.0 150.0  25.0 0.0450 11.63  4.00 4000 3000 0.2296     0  # waste-heat steam, economy alone
302 economy-limited year    325.0 150.0  25.0 0.0450 11.63  4.00 4000 3000 0.2296     0  # over the limit: found by its loss
310 economy-limited year-i  219.0 130.0  20.0 0.0430 11.63  4.00 6000 2600 0.2296     0  # hot water: a limit between two rows
320 economy-limited year    108.0  95.0  20.0 0.0420 11.63 30.00 8000 1600 0.2296     0  # dear heat: within, so it stays
330 economy-limited year    159.0  45.0  20.0 0.0400 11.63  4.00 6000 2600 0.2296     0  # no limit below 50.0 °C: it stays
340 economy         season  108.0  50.0  40.0 0.0400 11.60  4.00  500 2600 0.2296     0  # drain: bare, it loses the limit
341 economy-limited season  108.0  50.0  40.0 0.0400 11.60  4.00  500 2600 0.2296     0  # check too close: refused 18
390 economy         year   3000.0 600.0  25.0 0.1500 11.63  4.00 4000  900 0.2296     0  # hot gas duct, economy alone
391 economy-limited year   3000.0 600.0  25.0 0.1500 11.63  4.00 4000  900 0.2296     0  # second pass misses: refused 17
"""

if __name__ == "__main__":
    write(SHEETS)
