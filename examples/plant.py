#!/usr/bin/env python3
"""A plant's sheets, written from a table of figures in everyday units.

    python3 examples/plant.py > examples/plant.sheets

A figure that the bytes of its field cannot hold exactly stops the script before any sheet is written.
"""
import sys
from fractions import Fraction

GOALS = {"economy": 1, "loss": 2, "surface": 3, "cold-surface": 4, "cold-economy": 5, "economy-limited": 6, "economy-jacket": 7}
SERVICES = {"year": 1, "season": 2, "year-i": 3, "season-i": 4}  # -i: the loss limit is interpolated between the rows
UNSIGNED, SIGNED = (0, 65_535), (-32_768, 32_767)  # what two bytes hold

# The fields of two bytes in the sheet's order, each with its unit. The last one, the aim, goes by the goal.
FIELDS = {
    "line": ("1", UNSIGNED),
    "diameter": ("0.1 mm", UNSIGNED),
    "pipe temperature": ("0.1 °C", SIGNED),
    "air temperature": ("0.1 °C", SIGNED),
    "conductivity": ("0.0001 W/(m·K)", UNSIGNED),
    "surface coefficient": ("0.01 W/(m²·K)", UNSIGNED),
    "heat price": ("0.01 yuan/GJ", UNSIGNED),
    "hours a year": ("1 h", UNSIGNED),
    "insulation price": ("1 yuan/m³", UNSIGNED),
    "yearly share": ("0.0001", UNSIGNED),
}
AIMS = {"economy": ("0.1", UNSIGNED), "loss": ("0.1 W/m²", UNSIGNED), "surface": ("0.1 °C", SIGNED),
        "cold-surface": ("0.1 °C", SIGNED), "cold-economy": ("0.1", UNSIGNED), "economy-limited": ("0.1", UNSIGNED),
        "economy-jacket": ("1 yuan/m²", UNSIGNED)}

# By column: line; goal; service; diameter, mm; pipe and air, °C; conductivity, W/(m·K); surface coefficient, W/(m²·K);
# heat price, yuan/GJ; hours a year; insulation price, yuan/m³; yearly share; aim, W/m² for a loss, °C for a surface and, for
# economy-jacket, the price of the jacket in yuan/m².
SHEETS = """
101 economy year      273.0 540.0  25.0 0.0600 11.63 50.00 7500 2000 0.2296     0  # main steam line
102 loss    year      273.0 540.0  25.0 0.0600 11.63     0    0    0      0 240.0  # main steam, by its loss
103 surface year      273.0 540.0  25.0 0.0600 11.63     0    0    0      0  42.0  # main steam, by its surface
110 economy year      219.0 215.0  25.0 0.0480 11.63 50.00 7500 1800 0.2296     0  # feed water line
111 loss    year       89.0 215.0  25.0 0.0480 11.63     0    0    0      0 120.0  # feed water, branch
120 economy year      108.0  95.0  20.0 0.0420 11.63 55.00 8000 1600 0.2296     0  # condensate line
130 economy year      426.0 130.0  20.0 0.0430 11.63 55.00 6000 1600 0.2296     0  # hot water supply
131 economy year      426.0  70.0  20.0 0.0400 11.63 55.00 6000 1600 0.2296     0  # hot water return
132 loss    year      426.0 130.0  20.0 0.0430 11.63     0    0    0      0 106.8  # supply, for the loss between two rows
133 loss    year-i    426.0 130.0  20.0 0.0430 11.63     0    0    0      0 106.8  # the same, checked between them
140 economy season    325.0 110.0  -5.0 0.0350 11.63 75.00 2880 1600 0.2296     0  # heating line, supply
141 loss    season    325.0  70.0  -5.0 0.0350 11.63     0    0    0      0 100.0  # heating line, return
142 loss    season-i  325.0 110.0  -5.0 0.0350 11.63     0    0    0      0 171.0  # supply, checked between two rows
150 loss    year     1600.0 320.0  30.0 0.0520 11.63     0    0    0      0 180.0  # hot air duct, flat
151 surface year     2400.0 150.0  30.0 0.0450 11.63     0    0    0      0  45.0  # flue gas duct, flat
152 loss    year     2400.0 150.0  30.0 0.0450 11.63     0    0    0      0 400.0  # flue gas duct, thinner
160 economy year     6000.0  85.0  15.0 0.0400 11.63 55.00 8000  800 0.2296     0  # hot water tank, wall
161 surface year     6000.0  85.0  15.0 0.0400 11.63     0    0    0      0  20.0  # tank, by its surface
170 loss    year       14.0 180.0  25.0 0.0450 11.63     0    0    0      0 110.0  # instrument tube
171 surface year       10.0 540.0  30.0 0.0600 11.63     0    0    0      0  55.0  # steam sampling tube
180 surface season    159.0  60.0 -25.0 0.0380 23.26     0    0    0      0 -22.0  # outdoor line in winter
181 economy season     57.0  -2.0 -30.0 0.0360 23.26 80.00 2880 2000 0.2296     0  # brine line in hard frost
190 loss    year      108.0  45.0  20.0 0.0400 11.63     0    0    0      0 300.0  # drain: bare pipe will do
191 surface year      108.0  40.0  20.0 0.0400 11.63     0    0    0      0  45.0  # aim above t: refused 16
192 loss    year      159.0   7.0  25.0 0.0360 11.63     0    0    0      0  50.0  # chilled water: refused 15
193 loss    year     1800.0 400.0  30.0 0.0550 11.63     0    0    0      0  50.0  # all rungs miss: refused 17
194 loss    year     1200.0  30.0  20.0 0.0400 11.63     0    0    0      0 116.3  # its bare loss: refused 18
195 economy year      219.0 215.0  25.0 0.0480 11.63 50.00 7500 1800 0.2296 120.0  # an aim left: refused 14
"""


def code(line, name, word, codes):
    """The byte of a goal or a service."""
    if word not in codes:
        sys.exit(f"line {line}: the {name} is {word}, but it must be one of {', '.join(codes)}")
    return bytes([codes[word]])


def encoded(line, name, figure, unit, low, high):
    """The two bytes of a field. A figure that they cannot hold exactly stops the script."""
    try:
        count = Fraction(figure) / Fraction(unit.split()[0])
        held = count.denominator == 1 and low <= count <= high
    except (ValueError, ZeroDivisionError):
        held = False
    if not held:
        sys.exit(f"line {line}: the {name} is {figure}, but its field holds {low:,} to {high:,} whole units of {unit}")
    return int(count).to_bytes(2, "big", signed=low < 0)


def sheet(row):
    """The 24 bytes of a row of the table."""
    columns = row.partition("#")[0].split()
    if len(columns) != 13:
        sys.exit(f"{row.strip()}: this row has {len(columns)} columns, but a sheet takes 13")
    line, goal, service, *figures = columns
    head = code(line, "goal", goal, GOALS) + code(line, "service", service, SERVICES)
    fields = {**FIELDS, "aim": AIMS[goal]}.items()
    return head + b"".join(encoded(line, name, x, unit, *bounds) for (name, (unit, bounds)), x in zip(fields, [line, *figures]))


def write(table):
    """Writes the sheets of a table to standard output."""
    sys.stdout.buffer.write(b"".join(map(sheet, table.strip().splitlines())))


if __name__ == "__main__":
    write(SHEETS)
