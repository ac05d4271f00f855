#!/usr/bin/env python3
"""The sheets of a plant with priced jackets, as rows with plant.py's columns.

    python3 examples/jackets.py > examples/jackets.sheets
"""
import sys

sys.dont_write_bytecode = True
from plant import write

# The columns are those of plant.py. Of each line there is first the sheet without a jacket; 452 is 451 with more conductivity.
SHEETS = """
401 economy        year    219.0 215.0  25.0 0.0480 11.63 20.00 7500 1800 0.2296     0  # feed water line
402 economy-jacket year    219.0 215.0  25.0 0.0480 11.63 20.00 7500 1800 0.2296     0  # a jacket for nothing
403 economy-jacket year    219.0 215.0  25.0 0.0480 11.63 20.00 7500 1800 0.2296   150  # galvanized steel
404 economy-jacket year    219.0 215.0  25.0 0.0480 11.63 20.00 7500 1800 0.2296   300  # stainless steel
410 economy        year    159.0 250.0  25.0 0.0500 11.63  9.00 6000 2000 0.2296     0  # steam branch, cheap heat
411 economy-jacket year    159.0 250.0  25.0 0.0500 11.63  9.00 6000 2000 0.2296   120  # with its jacket, over the limit
420 economy        year-i  426.0 130.0  20.0 0.0430 11.63 10.00 6000 1600 0.2296     0  # hot water supply
421 economy-jacket year-i  426.0 130.0  20.0 0.0430 11.63 10.00 6000 1600 0.2296   120  # with its jacket
430 economy        year     10.0 270.0  25.0 0.0430 10.00 29.00 4000 1600 0.2296     0  # sampling tube
431 economy-jacket year     10.0 270.0  25.0 0.0430 10.00 29.00 4000 1600 0.2296   160  # 20 mm too close: refused 18
440 economy        year     18.0  60.0  25.0 0.1000  5.00  1.00  500 3000 0.2296     0  # tube, cheap heat: bare
441 economy-jacket year     18.0  60.0  25.0 0.1000  5.00  1.00  500 3000 0.2296    90  # no difference up to 10 mm
450 economy        year     45.0 150.0  25.0 0.1120  5.00 20.00 6000 1600 0.2296     0  # poor insulation, still air
451 economy-jacket year     45.0 150.0  25.0 0.1120  5.00 20.00 6000 1600 0.2296    90  # hardly any difference when bare
452 economy-jacket year     45.0 150.0  25.0 0.1130  5.00 20.00 6000 1600 0.2296    90  # none when bare
490 economy        year   3000.0 150.0  25.0 0.0450 11.63 20.00 7500 1600 0.2296     0  # hot gas duct, flat
491 economy-jacket year   3000.0 150.0  25.0 0.0450 11.63 20.00 7500 1600 0.2296    90  # no cylinder: refused 43
"""

if __name__ == "__main__":
    write(SHEETS)
