#!/usr/bin/env python3
"""Named sheets with what documents 01 and 02 demand of each: plain, slow and exact, sharing nothing with the crates.

    python3 tools/vectors.py vectors > crates/vectors/stdin
    python3 tools/vectors.py expected > crates/vectors/stdout

A vector is a line: its name, the sheet's bytes in hexadecimal (- for none), and the answer's bytes, or refused and the number.
Each group states what it wants of its sheets, and the script fails where tools/sheet.py gives something else. Every answer and
every refusal 17 and 18 are compared with the figures of tools/near.py too, each sheet of goal 6 with what goals 1 and 2 give, and each of
goal 7 with the equation as DL/T 5072 prints it.
The figures take `judge`, `ratio`, `root`, `up`, `direction`, the groups of goals and `loss_limit` with its table from tools/sheet.py:
an error there is seen by the vectors worked by hand and by the comparison with the Rust crates only. Some sheets are found by trying,
with Python 3.11; other versions may find others.
"""
import re
import sys
from itertools import combinations
from math import log, sqrt
from random import Random

sys.dont_write_bytecode = True
from listing import line
from near import (LADDER, aimed, allowed, between, by_loss, check_edge, chosen, close_loss, close_surface, difference, economy_square,
                  edge, fields, given, have, layer, limited, loss_check, loss_need, missed_again, missed_below, moved, open_at,
                  open_then_missed, over_loss, packed, second_aim, second_edge, second_met, second_missed, second_open, shapes, sides,
                  small_difference, surface_check, surface_limit, surface_need, thickness, verdict, within_loss)
from sheet import (COLD_GOALS, ECONOMY_GOALS, JACKETED, MEETS, MISSES, OPEN, SEASONAL, SURFACE_GOALS, YEAR_ROUND, answer, direction,
                   judge, loss_limit, ratio, root, signed, up)

UNUSED = dict(f=0, tau=0, P=0, S=0)
ECONOMY = dict(goal=1, service=1, line=1, D=270, t=207, ta=70, L=333, alpha=2_048, f=7_500, tau=2_880, P=1_600, S=2_296, aim=0)
LOSS = dict(goal=2, service=1, line=2, D=2_190, t=1_500, ta=200, L=400, alpha=1_163, **UNUSED, aim=1_000)
SURFACE = dict(goal=3, service=1, line=3, D=1_080, t=1_500, ta=200, L=400, alpha=1_163, **UNUSED, aim=600)
WARM = {**ECONOMY, "t": 1_500, "ta": 200}
COLD_SURFACE = dict(goal=4, service=1, line=4, D=1_080, t=-100, ta=300, L=400, alpha=1_163, **UNUSED, aim=250)
COLD_ECONOMY = {**ECONOMY, "goal": 5, "line": 5, "t": -100, "ta": 300}
ECONOMY_LIMITED = {**WARM, "goal": 6, "line": 6}
ECONOMY_JACKETED = {**WARM, "goal": 7, "line": 7, "aim": 100}
ONE_EACH = [WARM, LOSS, SURFACE, COLD_SURFACE, COLD_ECONOMY, ECONOMY_LIMITED, ECONOMY_JACKETED]  # the goals in order
F = dict(goal=2, service=1, line=7, D=12_000, t=1_300, ta=200, L=400, alpha=800, **UNUSED, aim=800)
G = dict(goal=2, service=1, line=9, D=10_001, t=300, ta=200, L=400, alpha=1_163, **UNUSED, aim=1_163)
SERVICES = {1: "year-round", 2: "seasonal", 3: "year-round-interpolated", 4: "seasonal-interpolated"}
SHAPES = {False: "cylinder", True: "flat"}
CHECKS = ["within", "over", "close", "none"]
BY_REQUEST = ((1, 2, 3), (4, 5), (6,), (7,))  # the goals of 01, N4, N5 and N6: those of a later request are drawn after the others

# Walls worked by hand for goal 6, with a heat price so low that the first pass gives bare wall: of bare wall the loss need and have are
# both L × 10⁷ / 1,160 at 50.0 °C, and at 150.0 °C the second need and have at 100 mm are both 10⁹ / 9.
CHEAP = {**ECONOMY_LIMITED, "D": 20_000, "f": 1, "P": 65_535, "S": 10_000}
CLOSE = {**CHEAP, "t": 500, "ta": 450, "alpha": 1_160}
SECOND_OPEN = {**CHEAP, "t": 1_500, "ta": 340, "L": 1_000, "alpha": 900}
SECOND_BEYOND = {**CHEAP, "t": 1_500, "ta": -171, "L": 2_000, "alpha": 1_000}

# Tables 3, 4 and 5 of source document 002 as printed: pipe diameter and computed thickness, both in m.
TABLE_3 = """
0.027 0.02001    0.032 0.02071    0.038 0.02140    0.045 0.02205    0.057 0.02299    0.076 0.02408    0.089 0.02463
0.108 0.02529    0.133 0.02596    0.159 0.02646    0.219 0.02729    0.273 0.02782    0.325 0.02814
0.377 0.02843    0.426 0.02860    0.480 0.02878    0.530 0.02892    0.630 0.02913    0.730 0.02930    0.830 0.02942
1.030 0.02960
"""
TABLE_4 = """
0.027 0.01950    0.032 0.02015    0.038 0.02082    0.045 0.02148    0.057 0.02237    0.076 0.02340    0.089 0.02394
0.108 0.02457    0.133 0.02520    0.159 0.02570    0.219 0.02648    0.273 0.02695    0.325 0.02728
0.377 0.02753    0.426 0.02772    0.480 0.02789    0.530 0.02802    0.630 0.02822    0.730 0.02837    0.830 0.02849
1.030 0.02866
"""
TABLE_5 = """
0.027 0.02561    0.032 0.02650    0.038 0.02757    0.045 0.02861    0.057 0.02988    0.076 0.03114    0.089 0.03209
0.108 0.03309    0.133 0.03405    0.159 0.03483    0.219 0.03610    0.273 0.03684    0.325 0.03745
0.377 0.03798    0.426 0.03833    0.480 0.03864    0.530 0.03882    0.630 0.03883    0.730 0.03916    0.830 0.03972
1.030 0.04004
"""


def word(number):
    """A number as part of a name."""
    return f"minus-{-number}" if number < 0 else str(number)


def parts(result):
    """The parts of an answer, each by its name."""
    second, shape, high, low, loss, surface, *bound = result
    return dict(second=second, shape=shape, mm=256 * high + low, loss=loss, surface=surface, bound=signed(256 * bound[0] + bound[1]))


def bound_from_air(x, k):
    """How far from ta the surface of k mm lies at most, rounded up: 01's quotient 2L × 10⁷ × Δ / (α × under-have)."""
    return up(sides(x) * x["L"] * 10**7 * abs(x["t"] - x["ta"]), x["alpha"] * have(x, k)[0])


def cold(x, k):
    """What is wanted of a cold sheet of k mm, by N4."""
    return dict(mm=k, loss=3, surface=0, bound=max(x["t"], x["ta"] - bound_from_air(x, k)))


def hot(x, k):
    """What is wanted of a hot sheet of k mm, by 01."""
    return dict(mm=k, loss=loss_check(x, k), surface=surface_check(x, k), bound=min(x["t"], x["ta"] + bound_from_air(x, k)))


def ordinary(x):
    """What is wanted of a sheet that is not refused with 11 to 16 or 43: all parts of its answer; or refusal 17 or 18."""
    result = given(x)
    if isinstance(result, int):
        return result
    k, second = result
    return dict(second=second, shape={2: 1, 1: 2}[sides(x)], **(cold if x["goal"] in COLD_GOALS else hot)(x, k))


def by_both(x):
    """02, N5: "Goal 6 is goal 1 with that second pass": what is wanted of a sheet of goal 6 by what goal 1 gives for the same fields and,
    if its loss check says over, goal 2 with the second aim."""
    first = answer(packed({**x, "goal": 1}))
    if isinstance(first, int):
        return first
    loss = parts(first)["loss"]
    if loss == 1:
        again = answer(packed(by_loss(x, second_aim(x))))
        return again if isinstance(again, int) else [1, *again[1:]]
    return 18 if loss == 2 else first


def printed_thickness(x):
    """001, 5.2.1-2, as printed, in floating point: the first thickness for which the left side is not above the right one, 17 where it is
    above it up to 300 mm, or None where they are too near to each other to tell."""
    for k in LADDER:
        inner, outer, film = x["D"] / 10, x["D"] / 10 + 2 * k, 2_000 * (x["L"] / 10_000) / (x["alpha"] / 100)
        rest = 1 - film / outer
        if rest < 1e-9:
            continue
        cost = x["L"] / 10_000 * x["tau"] * (x["f"] / 100) * (x["t"] - x["ta"]) / 10
        left = 3.795 * sqrt(cost / ((x["P"] + 2_000 / outer * x["aim"]) * (x["S"] / 10_000)))
        right = (outer * log(outer / inner) + film) / sqrt(rest)
        if abs(left / right - 1) < 1e-4:
            return None
        if left < right:
            return k
    return 17


def as_printed(x, result):
    """Whether the result of a sheet of goal 7 without a fault is the one of the equation as printed, where that tells."""
    thickness = printed_thickness(x)
    return thickness in (None, result if isinstance(result, int) else parts(result)["mm"])


def diameters():
    """01: "D 10,000 is a cylinder, 10,001 flat"."""
    yield "diameter-10000-cylinder", {**LOSS, "D": 10_000}, dict(shape=1)
    yield "diameter-10001-flat", {**LOSS, "D": 10_001}, dict(shape=2)
    for x in (WARM, SURFACE, COLD_SURFACE, COLD_ECONOMY, ECONOMY_LIMITED):
        yield f"diameter-10000-goal-{x['goal']}", {**x, "D": 10_000}, dict(shape=1)
        yield f"diameter-10001-goal-{x['goal']}", {**x, "D": 10_001}, dict(shape=2)


def economy():
    """01: "Economy with L 333, α 2,048, f 7,500, τ 2,880, P 1,600, S 2,296, t 207, ta 70: D 270 gives 20, D 320 gives 30"."""
    yield "economy-d-270", ECONOMY, dict(mm=20)
    yield "economy-d-320", {**ECONOMY, "D": 320}, dict(mm=30)


def table_4():
    """01: "table 4 of source document 002 up to D 10,000, with the two temperatures exchanged and the printed thickness, before
    its correction factor, taken up to the next 10 mm"."""
    for D, k in printed(TABLE_4):
        yield f"table-4-d-{D}", {**ECONOMY, "D": D}, dict(mm=k)


def printed(table):
    """The diameters of a table up to 10,000, in tenths of a millimetre, each with its thickness up to the next 10 mm."""
    figures = [int(figure.replace(".", "")) for figure in table.split()]
    return [(10 * D, 10 * up(hundredths, 1_000)) for D, hundredths in zip(figures[::2], figures[1::2]) if D <= 1_000]


def cold_tables():
    """The tables of source document 002 as they are, for cold lines: table 4, economy, with the water at 7 °C in air of 20.7 °C;
    table 3, against condensation, with water at 7 °C, the surface at 31.3 °C and air of 34.8 °C; table 5 likewise with -10 °C.
    Tables 3 and 5 take a surface coefficient of 8.141, and the field holds 8.14. D 270 of table 3 is left out: with 8.141 the
    equation gives 19.9996 mm, so 20; with 8.14 it gives 20.0016 mm, so 30; the printed 20.01 taken up is 30."""
    wet = {**COLD_SURFACE, "ta": 348, "alpha": 814, "aim": 313}
    sheets = {3: {**wet, "t": 70, "L": 357}, 4: {**ECONOMY, "goal": 5, "t": 70, "ta": 207}, 5: {**wet, "t": -100, "L": 287}}
    for number, table in ((4, TABLE_4), (3, TABLE_3), (5, TABLE_5)):
        for D, k in printed(table):
            if (number, D) != (3, 270):
                x = {**sheets[number], "D": D}
                yield f"table-{number}-cold-d-{D}", x, cold(x, k)


def lengths():
    """01: "11: length is not 24." A sheet cut, or followed by zeros."""
    for x in ONE_EACH:
        for length in (0, 1, 23, 24, 25, 40):
            other = packed(x)[:length].ljust(length, b"\0")
            yield f"length-{length}-goal-{x['goal']}", x if length == 24 else other, {} if length == 24 else 11


def codes():
    """01: "12: goal or service code unknown"; 02, N2: "refusal 12 admits the two new codes"; N4: "Goal 4 is cold surface", "goal
    5 is cold economy"; N5: "Goal 6 is goal 1 with that second pass"; N6: "Goal 7 takes it for cylinders"; and each has every service."""
    sheets = {x["goal"]: x for x in ONE_EACH}
    for goal in (0, 1, 2, 3, 4, 5, 6, 7, 8, 129, 130, 132, 134, 255):
        x = {**sheets.get(goal, LOSS), "goal": goal}
        for service in (0, 1, 2, 3, 4, 5, 129, 130, 255):
            known = goal in sheets and service in SERVICES
            if goal in sheets or service in SERVICES:
                yield f"code-goal-{goal}-service-{service}", {**x, "service": service}, {} if known else 12


def ranges():
    """01: "13: a field outside its range": at each end of each range one inside and one outside, where the field's 16 bits hold
    it. 02, N4: a cold t is "down to −1,960". At the other end of its range t is on the wrong side of all air: 15. N6: the price of a
    jacket is "0 to 65,535", all that the field holds; and a D inside its range, but above 10,000, gives goal 7 43."""
    hot_t, cold_t = ("t", (6_500,), (6_501, 32_767, -1_960, -32_768)), ("t", (-1_960,), (-1_961, -32_768, 6_501, 32_767))
    common = [("D", (100, 65_535), (0, 99)), ("ta", (-500, 500), (-501, 501, 32_767, -32_768)),
              ("L", (1, 2_000), (0, 2_001, 65_535)), ("alpha", (100, 10_000), (0, 99, 10_001, 65_535))]
    prices = [("f", (1, 65_535), (0,)), ("tau", (1, 8_784), (0, 8_785, 65_535)), ("P", (1, 65_535), (0,)),
              ("S", (1, 10_000), (0, 10_001, 65_535))]
    for x in ONE_EACH:
        goal = x["goal"]
        for line in (0, 255, 256, 65_535):
            yield f"range-line-{line}-goal-{goal}", {**x, "line": line}, {}
        own = [cold_t if goal in COLD_GOALS else hot_t] + (prices if goal in ECONOMY_GOALS else [])
        own += [("aim", (0, 65_535), ())] if goal == JACKETED else []
        for name, inside, outside in own + common:
            for value in sorted(inside + outside):
                y = {**x, name: value}
                if name in ("P", "S") and value <= 1:
                    y["f"] = 10
                if goal in COLD_GOALS and name == "ta" and value < 0:
                    y.update(t=-1_000, aim=-550 if goal == 4 else 0)
                wanted = 13 if value in outside else 43 if goal == JACKETED and name == "D" and value > 10_000 else {}
                yield f"range-{name.lower()}-{word(value)}-goal-{goal}", y, wanted
        for t, ta, wanted in [(6_500, 500, 15)] if goal in COLD_GOALS else [(-501, -500, 13), (-500, -500, 15)]:
            yield f"range-t-{word(t)}-goal-{goal}", {**x, "t": t, "ta": ta}, wanted


def single_bytes():
    """01: "All files are big-endian": each field by its low byte alone, 255, and by its high byte alone, 256 and 512; a cold aim,
    which is below ta, by 255, 256 and -256."""
    for x in ONE_EACH:
        goal = x["goal"]
        own = ["f", "tau", "P", "S", "aim"] if goal == JACKETED else ["f", "tau", "P", "S"] if goal in ECONOMY_GOALS else ["aim"]
        for name in ["D", "L", "alpha", *own]:
            deep = goal == 4 and name == "aim"
            for value in (255, 256, -256) if deep else (255, 256, 512):
                y = {**x, name: value, **(dict(f=100) if name in ("P", "S") else {}), **(dict(t=-600) if deep else {})}
                yield f"bytes-{name.lower()}-{word(value)}-goal-{goal}", y, {}
        pairs = [(256, 255), (257, 256), (512, 256), (511, 255), (0, -256), (1, -255), (-254, -256), (-255, -257)]
        if goal in COLD_GOALS:
            pairs = [(255, 256), (-256, 0), (-255, 1), (-256, -254), (-1_793, -256), (-1_792, -255), (-1_791, 256), (-1_280, 255)]
        for t, ta in pairs:
            fit = {2: dict(aim=50), 3: dict(aim=(t + ta) // 2), 4: dict(aim=(t + ta) // 2)}.get(goal, {})
            wanted = 16 if goal in SURFACE_GOALS and abs(t - ta) == 1 else {}
            yield f"bytes-t-{word(t)}-ta-{word(ta)}-goal-{goal}", {**x, "t": t, "ta": ta, **fit}, wanted


def unused():
    """01: "14: an unused field not zero, or goal 1 with an aim not zero"; 02, N4: "Goal 5 uses offsets 14–21 as goal 1 does and
    its aim is zero"; N5, of goal 6: "its aim is zero", also where the loss aim of the second pass would be right."""
    for x in (LOSS, SURFACE, COLD_SURFACE):
        yield f"unused-all-zero-goal-{x['goal']}", x, {}
        for name in UNUSED:
            for value in (1, 256, 65_535):
                yield f"unused-{name.lower()}-{value}-goal-{x['goal']}", {**x, name: value}, 14
    for x in (WARM, COLD_ECONOMY, ECONOMY_LIMITED):
        for aim in (0, 1, 256, 32_768, 65_535):
            yield f"unused-aim-{aim}-goal-{x['goal']}", {**x, "aim": aim}, 14 if aim else {}
    for aim in (0, 1_044, 1_160):
        yield f"unused-aim-{aim}-second-pass", {**CHEAP, "aim": aim}, 14 if aim else dict(second=1)


def wrong_side():
    """01: "15: t not above ta." 02, N4: "Here t is below ta." Under goals 3 and 4 no aim lies between temperatures a tenth apart:
    16 then. A sheet of the other direction is refused, also where its aim lies between the two temperatures."""
    for x in ONE_EACH:
        goal = x["goal"]
        for ta in (-500, -1, 0, 500) if goal in COLD_GOALS else (-300, -1, 0, 200):
            for by in (-1, 0, 1, 2):
                t = ta + direction(goal) * by
                fit = {2: dict(aim=10), 3: dict(aim=ta + 1), 4: dict(aim=ta - 1)}.get(goal, {})
                wanted = 15 if by <= 0 else 16 if by == 1 and goal in SURFACE_GOALS else {}
                yield f"t-{word(t)}-air-{word(ta)}-goal-{goal}", {**x, "t": t, "ta": ta, **fit}, wanted
    for x, goal in ((WARM, 5), (SURFACE, 4), (COLD_ECONOMY, 1), (COLD_SURFACE, 2), (COLD_SURFACE, 3), (COLD_ECONOMY, 6),
                    (COLD_ECONOMY, 7)):
        yield f"{'cold' if x['goal'] in COLD_GOALS else 'hot'}-sheet-goal-{goal}", {**x, "goal": goal}, 15


def aims():
    """01: "16: goal 2 with aim 0; goal 3 unless ta < aim < t"; and a loss aim is unsigned. 02, N4: "with t < aim < ta"."""
    thin = {**LOSS, "L": 1, "t": 230}
    for aim in (0, 1, 2, 32_767, 32_768, 65_535):
        yield f"aim-{aim}-goal-2", {**thin, "aim": aim}, {} if aim else 16
    for aim in (32_767, 32_768, 40_000, 65_535):
        yield f"aim-{aim}-hot-goal-2", {**LOSS, "t": 6_500, "L": 2_000, "aim": aim}, dict(mm=10 if aim == 65_535 else 20)
    for t, ta in ((220, 200), (-280, -300), (10, -10), (0, -20), (20, 0), (-1, -21), (21, 1)):
        for aim in sorted({ta - 1, ta, ta + 1, -1, 0, 1, t - 1, t, t + 1, 32_767, -32_768}):
            name = f"aim-{word(aim)}-t-{word(t)}-ta-{word(ta)}-goal-3"
            yield name, {**SURFACE, "t": t, "ta": ta, "aim": aim}, {} if ta < aim < t else 16
    for t, ta in ((-1_960, -500), (-510, -490), (-10, 10), (-2, 0), (-1, 1), (0, 2), (498, 500)):
        for aim in sorted({t - 1, t, t + 1, 0, ta - 1, ta, ta + 1} | ({32_767, -32_768} if t == -10 else set())):
            name = f"aim-{word(aim)}-t-{word(t)}-ta-{word(ta)}-goal-4"
            yield name, {**COLD_SURFACE, "t": t, "ta": ta, "aim": aim, "L": 10}, {} if t < aim < ta else 16


def around_zero():
    """01: "t, ta and a surface aim are signed 16-bit two's complement": each at and around zero, and at the lower end."""
    pairs = [(v + by, v) for v in (-500, -2, -1, 0, 1, 2) for by in (2, 300)]
    pairs += [(v, v - by) for v in (-498, -2, -1, 0, 1, 2) for by in (2, 300) if v - by >= -500]
    for x in (WARM, LOSS, SURFACE, ECONOMY_LIMITED):
        for t, ta in sorted(set(pairs)):
            fit = {2: dict(aim=10 if t - ta == 2 else 100), 3: dict(aim=ta + up(t - ta, 3))}.get(x["goal"], dict(f=50_000))
            yield f"zero-t-{word(t)}-ta-{word(ta)}-goal-{x['goal']}", {**x, "t": t, "ta": ta, **fit}, {}
    for flat in (False, True):
        for aim in (-10, -2, -1, 0, 1, 2, 10):
            x = {**SURFACE, "t": 400, "ta": -20, "aim": aim, "D": 20_000 if flat else 570}
            yield f"zero-aim-{word(aim)}-{SHAPES[flat]}", x, {}


def cold_around_zero():
    """02, N4: "A signed temperature near zero behaves like every other": t, ta, aim and bound are moved by as much, across zero
    and to both ends of ta, and the thickness stays."""
    for x in ({**COLD_SURFACE, "D": 20_000, "t": 198, "ta": 200, "aim": 199}, {**COLD_SURFACE, "t": -100, "ta": 200, "aim": 100},
              {**COLD_ECONOMY, "t": 199, "ta": 200}, {**COLD_ECONOMY, "D": 20_000, "t": -100, "ta": 200}):
        first = ordinary(x)
        places = [x["ta"], x["t"], x["aim"] or x["t"], first["bound"]]
        for by in sorted({-700, 300} | {v - place for place in places for v in (-1, 0, 1)}):
            t, ta, aim = (x[name] + by for name in ("t", "ta", "aim"))
            y = {**x, "t": t, "ta": ta, "aim": aim if x["goal"] == 4 else 0}
            yield f"moved-t-{word(t)}-ta-{word(ta)}-goal-{x['goal']}", y, {**first, "bound": first["bound"] + by}


def bounds():
    """01: "Bytes 6–7: surface bound in 0.1 °C, signed": both temperatures moved until the bound is the one named."""
    for flat in (False, True):
        for delta, aim in ((40, 10), (600, 600)):
            x = {**LOSS, "D": 20_000 if flat else 1_590, "t": delta, "ta": 0, "aim": aim}
            rise = bound_from_air(x, thickness(x)[0])
            for bound in (-499, -257, -256, -255, -100, -11, -10, -9, -5, -1, 0, 1, 5, 9, 10, 255, 256, 500):
                ta = bound - rise
                if -500 <= ta <= 500:
                    name = f"bound-{word(bound)}-ta-{word(ta)}-{SHAPES[flat]}"
                    yield name, {**x, "t": ta + delta, "ta": ta}, dict(bound=bound)


def cold_bounds():
    """02, N4: "The surface bound is now a lower one: ta minus the quotient rounded up": both temperatures moved until the bound
    is the one named, from next to the coldest t up to a tenth below the warmest air."""
    for flat in (False, True):
        thick = {**COLD_ECONOMY, "D": 20_000 if flat else 1_590, "t": -40, "ta": 0}
        thin = {**thick, "t": -1_400, "L": 2_000, "alpha": 100, "f": 5_300}
        for x, values in ((thick, (-501, -257, -256, -10, -9, -1, 0, 1, 255, 256)), ({**thick, "t": -9, "f": 65_535}, (499,)),
                          (thin, (-1_793, -1_792, -1_025, -1_024))):
            k = thickness(x)[0]
            for bound in values:
                ta = bound + bound_from_air(x, k)
                name = f"cold-bound-{word(bound)}-ta-{word(ta)}-{SHAPES[flat]}"
                yield name, {**x, "t": ta + x["t"], "ta": ta}, dict(mm=k, loss=3, surface=0, bound=bound)


def two_faults():
    """01: "Tests run in this order": two or more of the cases 11 to 16 hold at once, and the first one decides. 02, N6: "43, after
    16, for goal 7 with D above 10,000"; it uses all fields and takes every aim, so 14 and 16 never hold."""
    for x in ONE_EACH:
        goal, ta = x["goal"], x["ta"]
        unused = "aim" if goal in ECONOMY_GOALS else "tau"
        cases = {12: dict(service=5), 13: dict(alpha=99), 14: {unused: 1}, 15: dict(t=ta)}
        if goal not in ECONOMY_GOALS:
            cases[16] = dict(aim=0 if goal == 2 else ta)
        if goal == JACKETED:
            del cases[14]
            cases[43] = dict(D=10_001)
        assert all(answer(packed({**x, **cases[case]})) == case for case in cases)
        for first, second in combinations(cases, 2):
            y = {**x, **cases[first], **cases[second]}
            yield f"cases-{first}-and-{second}-goal-{goal}", y, first
        for second in cases:
            yield f"cases-11-and-{second}-goal-{goal}", packed({**x, **cases[second]})[:23], 11
        worst = {name: value for second in cases for name, value in cases[second].items()}
        yield f"cases-11-to-{max(cases)}-goal-{goal}", packed({**x, **worst}) + b"\0", 11
        for first in list(cases)[:-2]:
            worst = {name: value for second in cases if second >= first for name, value in cases[second].items()}
            yield f"cases-{first}-to-{max(cases)}-goal-{goal}", {**x, **worst}, first

    # A t below every range, beside a later case.
    yield "cases-13-by-t-and-14-goal-4", {**COLD_SURFACE, "t": -1_961, "tau": 1}, 13
    yield "cases-13-by-t-and-16-goal-4", {**COLD_SURFACE, "t": -1_961, "aim": 300}, 13
    yield "cases-13-by-t-and-14-goal-5", {**COLD_ECONOMY, "t": -1_961, "aim": 1}, 13


# Every rung misses at a loss of 0.1 W/m² or a surface 0.1 °C from the air, and at none from it all the more.
FAR = {**LOSS, "D": 20_000, "t": 6_500, "L": 2_000, "aim": 1}
STEAM = {**FAR, "goal": 3, "alpha": 100, "aim": 201}
FROST = {**STEAM, "goal": 4, "t": -1_960, "aim": 199}
DEAR = {**COLD_ECONOMY, "t": -1_960, "L": 2_000, "P": 1, "S": 1}
# The need of G is what bare wall provides, whatever L is, and no whole number of nanometres: rung 0 is open. Under goal 4 it is
# open where the need is 1,000.4 nm and bare wall provides 1,000, a tenth colder too.
FILM = {**COLD_SURFACE, "D": 20_000, "t": -1_960, "ta": 500, "L": 1, "alpha": 10_000, "aim": -1_959}


def fault_before_rungs():
    """01: "Tests run in this order": one of the cases 11 to 14 holds beside 17 or 18, and decides; under goal 6 beside those of its
    check and its second pass too."""
    for name, x, last in (("loss", FAR, 17), ("surface", STEAM, 17), ("cold-surface", FROST, 17), ("cold-economy", DEAR, 17),
                          ("loss", G, 18), ("cold-surface", FILM, 18), ("limited", {**DEAR, "goal": 6, "t": 6_500}, 17)):
        yield f"case-{last}-{name}", x, last
        yield f"cases-11-and-{last}-{name}", packed(x) + b"\0", 11
        for first, fault in ((12, dict(service=5)), (13, dict(t=-1_961, aim=-1_960) if x is FILM else dict(L=2_001)),
                             (14, dict(aim=1) if x["goal"] in ECONOMY_GOALS else dict(S=1))):
            y = {**x, **fault}
            assert ordinary(y) == last
            yield f"cases-{first}-and-{last}-{name}", y, first
    for name, x, last in (("close", CLOSE, 18), ("second-open", SECOND_OPEN, 18), ("second-beyond", SECOND_BEYOND, 17)):
        yield f"case-{last}-{name}", x, last
        yield f"cases-11-and-{last}-{name}", packed(x)[:23], 11
        for first, fault in ((13, dict(tau=8_785)), (14, dict(aim=1))):
            y = {**x, **fault}
            assert ordinary(y) == last
            yield f"cases-{first}-and-{last}-{name}", y, first


def temperatures_before_rungs():
    """01: "Tests run in this order": 15 or 16 holds beside 17 or 18, and decides.

    15 goes with neither 17 nor 18 but under goals 3 and 4: where Δ is not above zero, neither is need, and bare pipe meets it,
    unless s is below zero too."""
    for first, name, x, last in ((15, "surface", {**FROST, "goal": 3, "t": -500, "ta": 500, "aim": 499}, 17),
                                 (15, "cold-surface", {**STEAM, "goal": 4}, 17),
                                 (15, "surface", {**FILM, "goal": 3, "t": -500, "alpha": 9_999, "aim": -499}, 18),
                                 (15, "cold-surface", {**FILM, "t": 6_500, "ta": -500, "aim": 6_499}, 18),
                                 (16, "surface", {**G, "goal": 3, "aim": 300}, 18),
                                 (16, "cold-surface", {**G, "goal": 4, "t": 200, "ta": 300, "aim": 200}, 18)):
        assert ordinary(x) == last
        yield f"cases-{first}-and-{last}-{name}", x, first
    yield "cases-16-and-17-loss", {**FAR, "aim": 0}, 16
    yield "cases-16-and-17-surface", {**STEAM, "aim": 200}, 16
    yield "cases-16-and-17-cold-surface", {**FROST, "aim": 200}, 16
    yield "case-15-beyond-if-read-unsigned", {**FAR, "t": -1, "ta": 0}, 15
    yield "case-15-cold-if-read-unsigned", {**FROST, "t": 0, "ta": -1, "aim": 1}, 15


def last_rung():
    """17 and 18 never hold at once: 18 needs a rung that doesn't miss. The nearest to both: all rungs miss but the last, which is
    open; and the nearest sheet of more need, where the last one misses too."""
    r = Random(17)
    for goals in BY_REQUEST:
        for flat in shapes(goals[0]):
            for goal in goals:
                more = None
                while more is None:
                    x = open_at(r, goal, flat, 300)
                    more = beside(x, 300, MISSES)
                yield f"last-rung-open-goal-{goal}-{SHAPES[flat]}", x, 18
                yield f"last-rung-missed-goal-{goal}-{SHAPES[flat]}", more, 17


def beside(x, k, wanted):
    """The nearest sheet for which k mm meet, or miss, as wanted: by heat price or aim. None where that isn't allowed."""
    step = (1 if wanted == MISSES else -1) * (1 if x["goal"] in ECONOMY_GOALS else -1)
    while allowed(x) and verdict(x, k) != wanted:
        x = moved(x, step)
    return x if allowed(x) else None


def rows():
    """01: "The row is the highest one not above t. Below 50.0, or seasonal from 450.0, none is printed."

    A wall that loses more than the row below allows, and less than the row itself: at t - 1 it is over, from t on within."""
    for service, column in ((1, YEAR_ROUND), (2, SEASONAL)):
        for row in range(13):
            t = 500 * (row + 1)
            below = 10 * column[row - 1] if 1 <= row <= len(column) else None
            limit = 10 * column[row] if row < len(column) else None
            loss = (below + limit) // 2 if below and limit else (limit or below or 3_000) * 9 // 10
            x = {**LOSS, "service": service, "D": 20_000, "t": t, "aim": (loss + limit) // 2 if below and limit else loss + 20}
            x = next(y for y in walls(x, loss) if 300 <= y["L"] <= 700)
            for at in (t - 1, t, t + 1):
                printed = limit if at >= t else below
                check = 3 if printed is None else 1 if at < t and limit else 0
                if at <= 6_500:
                    yield f"row-t-{at}-{SERVICES[service]}", {**x, "t": at}, dict(loss=check)
    for t, ta in ((-1, -200), (0, -200), (1, -200), (-400, -500), (300, 200)):
        for service in SERVICES:
            yield f"row-t-{word(t)}-{SERVICES[service]}", {**LOSS, "service": service, "t": t, "ta": ta}, dict(loss=3)


def walls(x, loss):
    """The flat wall x with the conductivity that makes k mm lose that much, for each k."""
    for k in range(10, 301, 10):
        yield {**x, "L": loss * k * 10**6 * x["alpha"] // ((x["t"] - x["ta"]) * 10**5 * x["alpha"] - loss * 10**7)}


def limits():
    """01: "Limits in W/m² by t in °C (001, table 5.1.1), year-round / seasonal: 50: 58/116; ..." For each limit two sheets at each
    end of its row, as far as t goes."""
    r = Random(511)
    for service, column in ((1, YEAR_ROUND), (2, SEASONAL)):
        for row, limit in enumerate(column):
            for t, flat in ((500 * (row + 1), True), (500 * (row + 1) + 499, False)):
                if t <= 6_500:
                    yield from beside_limit(r, service, t, 10 * limit, flat)


def interpolated_limits():
    """02, N2: "a straight line between neighbouring rows of the loss table. The limit is in tenths of W/m², rounded down. At 130.0 °C
    year-round it is 106.8." "Seasonal at 400.0 gives 314; above it none is printed." At the temperature of each row, a tenth below
    and above it, and halfway to the next; and around 130.0 °C."""
    r = Random(130)
    for service, column in ((3, YEAR_ROUND), (4, SEASONAL)):
        for t in [1_299, 1_300, 1_301, *(500 * row + by for row in range(1, 14) for by in (-1, 0, 1, 250))]:
            if 500 <= t <= 500 * len(column):
                row, beyond = divmod(t - 500, 500)
                both = 10 * column[row] * (500 - beyond) + (10 * column[row + 1] * beyond if beyond else 0)
                yield from beside_limit(r, service, t, 1_068 if (service, t) == (3, 1_300) else both // 500, t % 2 == 0)
            elif t <= 6_500:
                yield f"no-limit-t-{t}-{SERVICES[service]}", chosen(r, 2, t % 2 == 0, 40, service=service, t=t), dict(loss=3)


def beside_limit(r, service, t, limit, flat):
    """A sheet that is within the limit, in tenths of W/m², and would be over one that is a tenth lower; and a sheet that is over it, and
    would be within one that is a tenth higher."""
    assert loss_limit(service, t) == limit, (service, t)
    end = f"{limit}-t-{t}-{SERVICES[service]}"
    yield f"limit-within-{end}", within_loss(r, 2, flat, 40, service=service, t=t), dict(loss=0)
    yield f"limit-over-{end}", over_loss(r, 2, flat, 40, service=service, t=t), dict(loss=1)


def surface_limits():
    """01: "A t at or below the surface limit is within." "Surface limit: 50.0 °C for ta up to 27.0, else ta + 25.0." All bare."""
    for flat in (False, True):
        for ta, limit in ((-500, 500), (0, 500), (269, 500), (270, 500), (271, 521), (272, 522), (500, 750)):
            for t in sorted({limit - 1, limit, limit + 1, 521}):
                if t > ta:
                    x = {**LOSS, "D": 20_000 if flat else 890, "t": t, "ta": ta, "aim": 65_535}
                    yield f"surface-limit-ta-{word(ta)}-t-{t}-{SHAPES[flat]}", x, dict(mm=0, surface=int(t > limit))


def checks():
    """01: "Byte 4, loss check: 0 within, 1 over, 2 too close, 3 none printed. Byte 5, surface check: 0, 1, 2 likewise"."""
    r = Random(5_072)
    for flat in (False, True):
        for goal in (1, 2, 3):
            end = f"goal-{goal}-{SHAPES[flat]}"
            for check in (0, 1, 3):
                yield f"loss-{CHECKS[check]}-{end}", checked(r, goal, flat, dict(loss=check)), dict(loss=check)
            for check in (0, 1):
                x = checked(r, goal, flat, dict(surface=check), warm=True)
                yield f"surface-{CHECKS[check]}-{end}", x, dict(surface=check)
            for k in (10, 50, 100):
                yield f"loss-close-{k}-mm-{end}", close_loss(r, goal, flat, k), dict(mm=k, loss=2)
                yield f"surface-close-{k}-mm-{end}", close_surface(r, goal, flat, k), dict(mm=k, surface=2)
        yield f"loss-close-0-mm-{SHAPES[flat]}", close_loss(r, 2, flat, 0), dict(mm=0, loss=2)
        k = 300 if flat else 200
        yield f"loss-close-{k}-mm-{SHAPES[flat]}", close_loss(r, 2, flat, k), dict(mm=k, loss=2)
        yield f"surface-close-{k}-mm-{SHAPES[flat]}", close_surface(r, 2, flat, k), dict(mm=k, surface=2)
    bare = {**WARM, "D": 20_000, "t": 501, "ta": -500, "L": 1, "alpha": 9_999, "f": 1, "tau": 1}
    yield "surface-close-0-mm-flat", bare, dict(mm=0, surface=2)
    both = {**LOSS, "D": 20_000, "t": 790, "ta": 250, "L": 400, "alpha": 232, "aim": 581}
    yield "both-close-flat", both, dict(mm=20, loss=2, surface=2)
    yield "both-close-cylinder", both_close(r), dict(loss=2, surface=2)
    for loss, surface in ((0, 0), (0, 1), (1, 0), (1, 1)):
        for flat in (False, True):
            x = checked(r, 2, flat, dict(loss=loss, surface=surface), warm=True)
            yield f"loss-{CHECKS[loss]}-surface-{CHECKS[surface]}-{SHAPES[flat]}", x, dict(loss=loss, surface=surface)


def cold_checks():
    """02, N4: "Both checks of a cold sheet read 0 for surface and 3 for loss", with every service, thick and bare, from the
    coldest t to the warmest. The rules of hot lines would say the same: t is below ta and so below 50.0 °C, where no loss limit
    is printed, and below the surface limit. So there is no cold sheet with another check, and none near one."""
    for flat, D in ((False, 890), (True, 20_000)):
        for service in SERVICES:
            for t, ta in ((-1_960, 500), (499, 500)):
                x = {**COLD_ECONOMY, "service": service, "D": D, "t": t, "ta": ta}
                x = x if service % 2 else {**x, "P": 65_535, "S": 10_000, "f": 1}
                yield f"checks-t-{word(t)}-ta-{word(ta)}-goal-5-service-{service}-{SHAPES[flat]}", x, dict(loss=3, surface=0)
            x = {**COLD_SURFACE, "service": service, "D": D, "t": 400, "ta": 500, "aim": 480}
            yield f"checks-t-400-ta-500-goal-4-service-{service}-{SHAPES[flat]}", x, dict(loss=3, surface=0)


def checked(r, goal, flat, wanted, warm=False, **fixed):
    """A hot sheet of up to 100 mm whose checks come out as wanted; a warm one is above every surface limit."""
    while True:
        x = between(r, fields(r, goal, flat, **fixed), 10 * r.randint(1, 10))
        if x and not (warm and x["t"] <= 750) and wanted.items() <= ordinary(x).items():
            return x


def both_close(r):
    """A small pipe for which both checks are too close: the two limits allow the same loss, and the conductivity is fitted."""
    while True:
        x, k = {**fields(r, 2, False), "D": r.randint(100, 150), "t": r.randint(510, 2_000)}, 10 * r.randint(1, 5)
        limit = loss_limit(x["service"], x["t"])
        rises = [s for s in range(230, 1_001) if 100 * limit % s == 0 and s <= limit]
        if not rises:
            continue
        rise = r.choice(rises)
        x.update(ta=500 - rise, alpha=100 * limit // rise)
        n, d = loss_need({**x, "L": 1}, limit)
        x["L"] = up(layer(x, k)[0] * d * x["alpha"], n * x["alpha"] - 2 * 10**7 * d)
        if 1 <= x["L"] <= 2_000:
            needs = ratio(*loss_need(x, limit)), ratio(*surface_need(x, 500))
            y = between(r, x, k) if all(judge(have(x, k), required) == OPEN for required in needs) else None
            if y:
                return y


def rungs():
    """01: "The first rung that doesn't miss is the thickness if it meets." "17: all 31 rungs miss." Rungs by name, the last sheet
    that 300 mm meet, and the first that they miss. Under goals 3 and 4 bare pipe never meets, since the aim is not t: a tenth
    from t it takes 10 mm."""
    r = Random(31)
    for goals in BY_REQUEST:
        for flat in shapes(goals[0]):
            for goal in goals:
                end = f"goal-{goal}-{SHAPES[flat]}"
                for k in (0, 10, 20, 150, 280, 290, 300):
                    if goal not in SURFACE_GOALS or k > 0:
                        yield f"thickness-{k}-{end}", chosen(r, goal, flat, k), dict(mm=k)
                last = more = None
                while not (last and more):
                    x = chosen(r, goal, flat, 300)
                    last, more = (beside(aimed(x, have(x, 300)[0], 300), 300, wanted) for wanted in (MEETS, MISSES))
                yield f"thickness-300-last-{end}", last, dict(mm=300)
                yield f"beyond-{end}", more, 17
    for x in (SURFACE, COLD_SURFACE):
        for flat, D in ((False, 1_080), (True, 20_000)):
            y = {**x, "D": D, "aim": x["t"] - direction(x["goal"])}
            yield f"hardly-more-than-bare-goal-{x['goal']}-{SHAPES[flat]}", y, dict(mm=10)


def open_rungs():
    """01: "18: the first rung that doesn't miss is open." With the nearest sheets of less need, which that rung meets, and of
    more, which it misses. The rung above an open one meets, so that "jumping an open one below it" would give an answer. No
    sheet of less need goes with an open rung 0 under goals 3 and 4, where bare pipe never meets."""
    r = Random(18)
    widths = {"small-cylinder": dict(D=150), "cylinder": dict(D=2_730), "wide-cylinder": dict(D=9_999), "flat": dict(D=10_001)}
    few = ["small-cylinder", "flat"]
    for goals, places in zip(BY_REQUEST, (list(widths), few, few, ["small-cylinder", "wide-cylinder"])):
        for width in places:
            for goal in goals:
                for place, k in (("first", 0), ("second", 10), ("middle", 120), ("last", 300)):
                    x, less, more = three(r, goal, width == "flat", k, **widths[width])
                    assert k == 300 or verdict(x, k + 10) == MEETS
                    name = f"{place}-goal-{goal}-{width}"
                    yield f"open-{name}", x, 18
                    if less:
                        yield f"open-less-{name}", less, ordinary(less)
                    yield f"open-more-{name}", more, ordinary(more)


def three(r, goal, flat, k, **fixed):
    """A sheet for which k mm are open, the nearest of less need, which they meet, and the nearest of more need, which they miss;
    None in place of a less that cannot be: bare pipe doesn't meet under goals 3 and 4."""
    while True:
        x = open_at(r, goal, flat, k, **fixed)
        less, more = beside(x, k, MEETS), beside(x, k, MISSES)
        if more and (less or goal in SURFACE_GOALS and k == 0):
            return x, less, more


def edges():
    """01: "A rung meets if under-have is at or above high need. It misses if over-have is below low need. Otherwise it is open."
    High need equal to under-have and 1 nm above it; low need equal to over-have and 1 nm above it. Under goal 7 both needs are the least
    whole number whose square is not below the difference times the square of need."""
    r = Random(12)
    widths = [("small-cylinder", 150), ("cylinder", 2_730), ("wide-cylinder", 9_999), ("flat", 10_001)]
    for goals, places in (((1, 2), widths), ((5,), [widths[0], widths[-1]]), ((7,), widths[:1])):
        for width, D in places:
            for goal in goals:
                for k in (0, 10, 120, 300):
                    end = f"{k}-mm-goal-{goal}-{width}"
                    yield f"edge-meets-{end}", edge(r, goal, width == "flat", k, 0, 0, D=D), dict(mm=k)
                    yield f"edge-first-open-{end}", edge(r, goal, width == "flat", k, 0, 1, D=D), 18
                    yield f"edge-last-open-{end}", edge(r, goal, width == "flat", k, 1, 0, D=D), 18
                    yield f"edge-misses-{end}", edge(r, goal, width == "flat", k, 1, 1, D=D), 17 if k == 300 else dict(mm=k + 10)


def equal():
    """01: "A rung meets if under-have is at or above high need": they are equal; and the next sheet of more need."""
    pipe, wall = {**WARM, "alpha": 10_000}, {**WARM, "alpha": 10_000, "D": 20_000}
    sheets = [
        ("goal-1-cylinder", 0, {**pipe, "L": 759, "f": 16, "tau": 100, "t": 300, "P": 759, "S": 1_000}),
        ("goal-1-flat", 0, {**wall, "L": 1_897, "f": 1_000, "tau": 2_000, "t": 201, "P": 1_897, "S": 2_000}),
        ("goal-1-flat", 30, {**wall, "L": 352, "f": 1_000, "tau": 1_600, "t": 1_200, "P": 1_100, "S": 2_000}),
        ("goal-2-cylinder", 0, {**LOSS, "t": 300, "alpha": 800, "aim": 800}),
        ("goal-2-flat", 0, {**F, "t": 300}),
        ("goal-2-flat", 50, F),
        ("goal-3-flat", 50, {**F, "goal": 3, "aim": 300}),
        ("goal-4-flat", 50, {**F, "goal": 4, "t": -900, "aim": 100}),
        ("goal-5-cylinder", 0, {**pipe, "goal": 5, "L": 759, "f": 16, "tau": 100, "t": 100, "P": 759, "S": 1_000}),
        ("goal-5-flat", 30, {**wall, "goal": 5, "L": 352, "f": 1_000, "tau": 1_600, "t": -800, "P": 1_100, "S": 2_000}),
    ]
    for name, k, x in sheets:
        assert have(x, k)[0] == have(x, k)[1] and verdict(x, k) == MEETS and verdict(beside(x, k, MISSES), k) == MISSES
        more = moved(x, 1 if x["goal"] in ECONOMY_GOALS else -1)
        yield f"equal-{name}-{k}-mm", x, dict(mm=k)
        yield f"equal-{name}-{k}-mm-more", more, ordinary(more)


def wrong_turns():
    """01: "Halving 3.795 for the flat wall: the standard prints 1.897." "Keeping the product below the root in 64 bits: it can
    need 87." Sheet G shows the one about rounding, and the groups above the ones about the ladder."""
    r = Random(87)
    for goal, start in ((1, ""), (5, "cold-"), (6, "limited-")):
        for k in (20, 100, 300):
            yield f"{start}flat-coefficient-{k}-mm", telling(r, goal, k), dict(mm=k)
    hot, frost = {**WARM, "t": 6_500, "ta": -500}, {**COLD_ECONOMY, "t": -1_960, "ta": 500}
    for start, widest, t in (("", hot, 201), ("cold-", frost, 199), ("limited-", {**hot, "goal": 6, "service": 2}, 201)):
        for name, D in (("cylinder", 10_000), ("small-cylinder", 100), ("flat", 10_001)):
            most = {**widest, "D": D, "L": 2_000, "f": 65_535, "tau": 8_784}
            least = {**widest, "D": D, "t": t, "ta": 200, "L": 1, "f": 1, "tau": 1}
            yield f"{start}product-largest-{name}", {**most, "P": 1, "S": 1}, 17
            yield f"{start}product-large-{name}", {**most, "P": 65_535, "S": 10_000}, {}
            yield f"{start}product-least-{name}", {**least, "P": 65_535, "S": 10_000}, dict(mm=0)


def telling(r, goal, k):
    """An economy sheet of a flat wall that k mm meet, and would miss with half of 3.795 as the coefficient."""
    while True:
        x = chosen(r, goal, True, k)
        x = beside(aimed(x, have(x, k)[0], k), k, MEETS)
        n, d = economy_square(x, k)
        if root(n * x["f"] * 18_975**2, d * 18_970**2)[0] > have(x, k)[1]:
            return x


def held():
    """01: "Surface bound: ... rounded up, ... and never above t." On bare pipe it would be t + 1 where have is rounded down."""
    for flat in (False, True):
        for t, ta in ((300, 200), (1_500, 200), (0, -100), (-1, -300), (1, -1)):
            for alpha, name in ((1_163, "held"), (1_000, "exact")):
                x = {**LOSS, "D": 30_000 if flat else 1_080, "t": t, "ta": ta, "alpha": alpha, "aim": 65_535}
                n = 10**7 * x["L"] * (1 if flat else 2)
                assert (ta + up(n * (t - ta), alpha * (n // alpha)) > t) == (name == "held")
                yield f"bound-{name}-t-{word(t)}-ta-{word(ta)}-{SHAPES[flat]}", x, dict(mm=0, bound=t)


def cold_held():
    """02, N4: "ta minus the quotient rounded up, and never below t." On bare pipe it would be t - 1 where have is rounded down.
    Only goal 5 leaves pipe bare."""
    for flat in (False, True):
        for t, ta in ((-1_960, 500), (-1_960, -500), (200, 300), (-100, 0), (-1, 1), (498, 500)):
            for alpha, name in ((1_163, "held"), (1_000, "exact")):
                x = {**COLD_ECONOMY, "D": 30_000 if flat else 1_080, "t": t, "ta": ta, "L": 400, "alpha": alpha, "f": 1}
                n = 10**7 * x["L"] * (1 if flat else 2)
                assert (ta - up(n * (ta - t), alpha * (n // alpha)) < t) == (name == "held")
                end = f"t-{word(t)}-ta-{word(ta)}-{SHAPES[flat]}"
                yield f"cold-bound-{name}-{end}", x, dict(mm=0, loss=3, surface=0, bound=t)


def mirrored():
    """02, N4: "Δ becomes ta − t", "s = ta − aim" and the bound is "ta minus the quotient": a cold sheet has the thickness of the
    hot one whose t and aim are as far above ta, and its bound is as far from ta."""
    r = Random(4)
    for flat in (False, True):
        for goal, other in ((4, 3), (5, 1)):
            for k in (10, 40, 100, 200):
                x = chosen(r, goal, flat, k)
                twin = {**x, "goal": other, **{name: 2 * x["ta"] - x[name] for name in (("t", "aim") if goal == 4 else ("t",))}}
                warm = parts(answer(packed(twin)))
                wanted = dict(mm=warm["mm"], loss=3, surface=0, bound=2 * x["ta"] - warm["bound"])
                yield f"mirrored-{k}-mm-goal-{goal}-{SHAPES[flat]}", x, wanted


def worked():
    """01: "P4: ... so 50. P5: aim 799: ... so 60. P6: aim 145: 300. P7: aim 144: refusal 17. P8: sheet G: ... refusal 18. P9:
    goal 3, aim = t: 16"."""
    yield "worked-p4", F, dict(mm=50, loss=0, surface=0, bound=300)
    yield "worked-p5", {**F, "aim": 799}, dict(mm=60)
    yield "worked-p6", {**F, "aim": 145}, dict(mm=300)
    yield "worked-p7", {**F, "aim": 144}, 17
    yield "worked-p8", G, 18
    yield "worked-p9", {**F, "goal": 3, "aim": F["t"]}, 16


def worked_cold():
    """Cold sheets worked by hand with the equations of 01. A wall like F's: have k × 10⁶ + 5,000,000, need 5.5 × 10⁹ / s, bound
    ta less 5.5 × 10⁹ / have. Liquid nitrogen: have k × 10⁶ + 200,000, need 4.8 × 10⁸ / s. Goal 5: have k × 10⁶ + 352,000, need
    18,970 × 1,600, which is 30,352,000, or a little more at a higher price."""
    wall = {**F, "goal": 4, "t": -900}
    yield "worked-cold-aim-100", {**wall, "aim": 100}, dict(shape=2, mm=50, loss=3, surface=0, bound=100)
    yield "worked-cold-aim-101", {**wall, "aim": 101}, dict(shape=2, mm=60, loss=3, surface=0, bound=115)
    yield "worked-cold-aim-181", {**wall, "aim": 181}, dict(shape=2, mm=290, loss=3, surface=0, bound=181)
    yield "worked-cold-aim-182", {**wall, "aim": 182}, 17
    yield "worked-cold-aim-minus-899", {**wall, "aim": -899}, dict(shape=2, mm=10, loss=3, surface=0, bound=-167)
    yield "worked-cold-aim-minus-900", {**wall, "aim": -900}, 16
    yield "worked-cold-aim-200", {**wall, "aim": 200}, 16
    nitrogen = {**wall, "t": -1_960, "ta": 440, "L": 200, "alpha": 10_000}
    yield "worked-nitrogen-aim-430", {**nitrogen, "aim": 430}, dict(mm=50, bound=430)
    yield "worked-nitrogen-t-minus-1961", {**nitrogen, "t": -1_961, "aim": 430}, 13
    paid = {**COLD_ECONOMY, "D": 20_000, "t": -800, "ta": 200, "L": 352, "alpha": 10_000, "tau": 1_600, "P": 1_100, "S": 2_000}
    yield "worked-cold-economy-f-1000", {**paid, "f": 1_000}, dict(shape=2, mm=30, loss=3, surface=0, bound=188)
    yield "worked-cold-economy-f-1001", {**paid, "f": 1_001}, dict(shape=2, mm=40, loss=3, surface=0, bound=191)
    yield "worked-cold-economy-t-200", {**paid, "f": 1_000, "t": 200}, 15


def upper_case():
    """The digits A to F: these vectors are printed in upper case."""
    letters = {**LOSS, "line": 0xFEDC, "D": 0xABCD}
    yield "upper-case-flat", letters, dict(shape=2, bound=284)
    yield "upper-case-cylinder", {**ECONOMY, "line": 0xABCD}, dict(mm=20)
    yield "upper-case-below-zero", {**letters, "t": -10, "ta": -300}, dict(mm=10, bound=-225)
    yield "upper-case-refused", {**letters, "service": 0xAF}, 12
    frost = {**COLD_ECONOMY, "line": 0xFEDC, "D": 0xABCD, "t": -1_366, "ta": -20}
    yield "upper-case-cold", frost, dict(shape=2, loss=3, surface=0)
    yield "upper-case-second-pass", {**CHEAP, "line": 0xFEDC, "D": 0xABCD, "t": 0x5DC, "ta": -0x36}, dict(second=1, bound=-5)
    yield "upper-case-jacketed", {**ECONOMY_JACKETED, "line": 0xFEDC, "f": 0xBCDE, "aim": 0xABCD}, dict(shape=1)


def limited_checks():
    """02, N5: "Goal 6 is goal 1 with that second pass". Where goal 1's check says within, or none is printed, goal 6 gives the same
    eight bytes. "If the loss check says over, the rung is found again by the loss method with 90 per cent of the limit in tenths,
    rounded down. Byte 0 of the answer is then 1 in place of 0": the rest is what goal 2 gives with that aim. With each service, on a
    cylinder between two rows and on a wall at a row; none is printed below 50.0 °C and above the seasonal rows."""
    r = Random(6)
    for flat in (False, True):
        for service in SERVICES:
            for check in (0, 3, 1):
                t = 500 * r.randint(1, 7) + (0 if flat else r.randint(1, 499))
                if check == 3:
                    t = r.randint(4_501, 6_500) if flat and service in (2, 4) else r.randint(300, 499)
                x = limited(r, flat, check, service=service, t=t, ta=r.randint(-500, 250))
                name = f"limited-{CHECKS[check]}-service-{service}-{SHAPES[flat]}"
                yield f"{name}-goal-1", {**x, "goal": 1}, dict(second=0, loss=check)
                if check == 1:
                    yield f"{name}-goal-2", by_loss(x, second_aim(x)), dict(second=0, loss=0)
                yield f"{name}-goal-6", x, parts(by_both(x))


def limited_close():
    """02, N5: "If the check says too close, the sheet gets 18." Goal 1 gives such a sheet an answer. With the nearest surface
    coefficients by which the check says within, so that the first pass stands, and over, so that the second follows."""
    r = Random(80)
    for width, D in (("small-cylinder", 150), ("cylinder", 2_730), ("flat", 10_001)):
        for k in (0, 10, 50):
            x = less = more = None
            while not (less and more and given(less) == (k, 0) and not isinstance(given(more), int)):
                x = close_loss(r, 6, width == "flat", k, D=D)
                limit = loss_limit(x["service"], x["t"])
                less, more = (beside_film(x, k, limit, wanted) for wanted in (MEETS, MISSES))
            name = f"limited-close-{k}-mm-{width}"
            yield f"{name}-goal-1", {**x, "goal": 1}, dict(mm=k, loss=2)
            yield f"{name}-goal-6", x, 18
            yield f"{name}-within", less, dict(second=0, mm=k, loss=0)
            yield f"{name}-over", more, dict(second=1, loss=0)


def beside_film(x, k, loss, wanted):
    """The sheet with the nearest surface coefficient by which k mm meet, or miss, at a loss, as wanted. None where its range ends."""
    while 100 <= x["alpha"] <= 10_000 and judge(have(x, k), ratio(*loss_need(x, loss))) != wanted:
        x = {**x, "alpha": x["alpha"] + (1 if wanted == MISSES else -1)}
    return x if 100 <= x["alpha"] <= 10_000 else None


def limited_edges():
    """01: "A rung meets if under-have is at or above high need. It misses if over-have is below low need. Otherwise it is open." So of
    the check after the first pass, and of the second pass: a nanometre tells them apart. Where the second pass misses the rung, the next one meets."""
    r = Random(121)
    for width, D, k in (("small-cylinder", 150, 10), ("flat", 10_001, 50)):
        flat = width == "flat"
        yield f"check-edge-within-{width}", check_edge(r, flat, k, 0, 0, D=D), dict(second=0, mm=k, loss=0)
        yield f"check-edge-first-close-{width}", check_edge(r, flat, k, 0, 1, D=D), 18
        yield f"check-edge-last-close-{width}", check_edge(r, flat, k, 1, 0, D=D), 18
        yield f"check-edge-over-{width}", check_edge(r, flat, k, 1, 1, D=D), dict(second=1, loss=0)
        yield f"second-edge-meets-{width}", second_edge(r, flat, 0, k, 0, 0, D=D), dict(second=1, mm=k, loss=0)
        yield f"second-edge-first-open-{width}", second_edge(r, flat, 0, k, 0, 1, D=D), 18
        yield f"second-edge-last-open-{width}", second_edge(r, flat, 0, k, 1, 0, D=D), 18
        yield f"second-edge-misses-{width}", second_edge(r, flat, 0, k, 1, 1, D=D), dict(second=1, mm=k + 10, loss=0)


def second_aims():
    """02, N5: "90 per cent of the limit in tenths, rounded down", and N2 of a limit between two rows: "in tenths of W/m², rounded
    down". For each row a rung that the second pass finds with that aim and would miss with one 0.1 W/m² lower, and a rung that it
    misses and would find with one 0.1 W/m² higher. Between two rows the limit ends in each of the digits 1 to 9, and a tenth of a
    degree further on it is higher, so that 90 per cent of the straight line itself, rounded down once, would mostly be more."""
    r = Random(90)
    for service, column in ((1, YEAR_ROUND), (2, SEASONAL)):
        for row, limit in enumerate(column):
            yield from beside_aim(r, service, 500 * (row + 1), 9 * limit)
    for service, column in ((3, YEAR_ROUND), (4, SEASONAL)):
        for row, (low, high) in enumerate(zip(column, column[1:])):
            limits = [(10 * low * (500 - beyond) + 10 * high * beyond) // 500 for beyond in range(501)]
            beyond = next(i for i in range(1, 500) if limits[i] % 10 == 1 + row % 9 and limits[i] < limits[i + 1])
            yield from beside_aim(r, service, 500 * (row + 1) + beyond, limits[beyond] * 90 // 100)


def beside_aim(r, service, t, aim):
    """A sheet of 40 mm by its second pass, with hardly more than that aim needs; and one that needs hardly more than 40 mm."""
    for name, sheet, k in (("met", second_met, 40), ("missed", second_missed, 50)):
        x = sheet(r, r.random() < 0.5, r.choice((0, 10, 20)), 40, service=service, t=t, ta=r.randint(-500, 400))
        assert second_aim(x) == aim, (service, t)
        yield f"second-{name}-{aim}-t-{t}-service-{service}", x, dict(second=1, mm=k, loss=0)


def second_shares():
    """02, N5: "80 to 90 per cent of the allowed loss", and of these "90 per cent": sheets where 100, 95, 90, 85 and 80 per cent lead
    to five rungs."""
    r = Random(5_121)
    for flat in (False, True):
        x, rungs = None, []
        while len(set(rungs)) < 5 or None in rungs:
            x = limited(r, flat, 1, L=r.randint(1_000, 2_000))
            limit = loss_limit(x["service"], x["t"])
            rungs = [thickness(by_loss(x, limit * share // 100)) for share in (100, 95, 90, 85, 80)]
        yield f"second-90-per-cent-{SHAPES[flat]}", x, dict(second=1, mm=rungs[2][0], loss=0)


def second_rungs():
    """02, N5: "the rung is found again": one just above the first, and one far above it; also from bare pipe, and up to the last."""
    r = Random(310)
    for flat in (False, True):
        for first, k in ((0, 10), (0, 150), (0, 300), (10, 20), (40, 50), (20, 250), (200, 230), (260, 300)):
            x = second_met(r, flat, first, k)
            yield f"second-rung-{k}-after-{first}-{SHAPES[flat]}", x, dict(second=1, mm=k, loss=0)


def second_open_rungs():
    """02, N5: "The second pass can meet 17 and 18 as the first can." Its first rung that doesn't miss is open. With the nearest surface
    coefficients by which it meets, and by which it misses: the rung above then meets."""
    r = Random(118)
    for width, D, pairs in (("small-cylinder", 150, ((0, 10), (20, 50))), ("cylinder", 2_730, ((10, 30), (0, 120))),
                            ("flat", 10_001, ((0, 10), (40, 50), (0, 200)))):
        for first, k in pairs:
            x = less = more = None
            while not (less and more and given(less) == (k, 1) and given(more) == (k + 10, 1)):
                x = second_open(r, width == "flat", first, k, D=D)
                less, more = (beside_film(x, k, second_aim(x), wanted) for wanted in (MEETS, MISSES))
            assert verdict(by_loss(x, second_aim(x)), k + 10) == MEETS
            name = f"second-open-{k}-mm-after-{first}-{width}"
            yield name, x, 18
            yield f"{name}-less", less, dict(second=1, mm=k, loss=0)
            yield f"{name}-more", more, dict(second=1, mm=k + 10, loss=0)


def second_last_rung():
    """02, N5: "The second pass can meet 17 and 18 as the first can", at the last rung: 300 mm meet, are open, and miss. Goal 1 gives
    these sheets an answer."""
    r = Random(117)
    for flat in (False, True):
        yield f"second-last-rung-meets-{SHAPES[flat]}", second_met(r, flat, 20, 300), dict(second=1, mm=300, loss=0)
        yield f"second-last-rung-open-{SHAPES[flat]}", second_open(r, flat, 20, 300), 18
        x = second_missed(r, flat, 20, 300)
        yield f"second-beyond-{SHAPES[flat]}-goal-1", {**x, "goal": 1}, dict(second=0, mm=20, loss=1)
        yield f"second-beyond-{SHAPES[flat]}-goal-2", by_loss(x, second_aim(x)), 17
        yield f"second-beyond-{SHAPES[flat]}-goal-6", x, 17


def first_refused():
    """02, N5: goal 6 has a second pass only "if the loss check says over", and a sheet whose first pass ends in 17 or 18 has no
    check: it is refused as goal 1 refuses it, though the loss method would find a rung, and though the highest rung or the open one
    would be over."""
    r = Random(617)
    for flat in (False, True):
        for name, sheet, check, wanted in (("17-loss-met", beyond_first, MEETS, 17), ("17-loss-over", beyond_first, MISSES, 17),
                                           ("18-loss-met", open_first, MEETS, 18), ("18-loss-over", open_first, MISSES, 18)):
            x = sheet(r, flat, check)
            for goal in (1, 6):
                yield f"first-{name}-{SHAPES[flat]}-goal-{goal}", {**x, "goal": goal}, wanted


def beyond_first(r, flat, check):
    """A sheet of goal 6 that all rungs miss in the first pass, where the check of 300 mm would be as given. Where it would be within, the
    loss method finds a rung."""
    while True:
        x = fields(r, 6, flat)
        y = aimed(x, have(x, 300)[1] * r.randint(1_001, 2_000) // 1_000, 300)
        if allowed(y) and loss_check(y, 300) == check and (check == MISSES or found_by_loss(y)):
            return y


def open_first(r, flat, check):
    """A sheet of goal 6 with an open rung in the first pass, where the check of that rung would be as given, and for which the loss
    method finds a rung."""
    while True:
        k = 10 * r.randint(0, 10)
        x = open_at(r, 6, flat, k)
        if loss_check(x, k) == check and found_by_loss(x):
            return x


def found_by_loss(x):
    """Whether the loss method finds a rung at the aim of the second pass."""
    return not isinstance(given(by_loss(x, second_aim(x))), int)


def limited_surfaces():
    """02, N5: "Checks and bound are then those of the second rung": its surface check, where the first rung's is another, and where it
    is the same. The loss check is within: a rung that meets at 90 per cent of the limit meets at the limit. Where the first pass
    stands, the checks are those of its rung."""
    r = Random(335)
    for flat in (False, True):
        for check, first, surface in ((0, 0, 0), (0, 1, 1), (1, 0, 0), (1, 1, 0), (1, 1, 1)):
            x = None
            while not x or (surface_check(x, thickness(x)[0]), ordinary(x)["surface"]) != (first, surface):
                ta = r.randint(-500, 500)
                x = limited(r, flat, check, ta=ta, t=r.randint(751, 6_500))
            name = f"limited-{CHECKS[check]}-surface-{CHECKS[first]}-{CHECKS[surface]}-{SHAPES[flat]}"
            yield name, x, dict(second=check, surface=surface)
        yield f"limited-within-surface-close-{SHAPES[flat]}", close_surface(r, 6, flat, 50), dict(second=0, mm=50, surface=2)
        x = close_surface(r, 6, flat, 50, first=20)
        yield f"limited-over-surface-close-{SHAPES[flat]}", x, dict(second=1, mm=50, loss=0, surface=2)


def limited_rows():
    """01: "The row is the highest one not above t. Below 50.0, or seasonal from 450.0, none is printed." 02, N2: "Seasonal at 400.0 gives
    314; above it none is printed." Under goal 6 the second pass begins and ends there. And the same sheet is over the limit of the row
    below, a tenth of a degree under a row, and within that row's."""
    ends = {1: (500, 6_500), 2: (500, 4_499), 3: (500, 6_500), 4: (500, 4_000)}
    for service, (least, most) in ends.items():
        for t in (least - 1, least, most, most + 1):
            if t <= 6_500:
                second = int(least <= t <= most)
                x = {**CHEAP, "service": service, "t": t, "ta": -200}
                yield f"second-from-{least}-to-{most}-t-{t}-service-{service}", x, dict(second=second, loss=0 if second else 3)
    r = Random(512)
    for service in (1, 2):
        for t, flat in ((1_000, False), (3_000, True)):
            x = below = None
            while not below or given(below) == given(x) or isinstance(given(below), int):
                x = limited(r, flat, 0, service=service, t=t)
                below = {**x, "t": t - 1}
            yield f"limited-row-t-{t - 1}-service-{service}", below, dict(second=1, loss=0)
            yield f"limited-row-t-{t}-service-{service}", x, dict(second=0, loss=0)


def second_bounds():
    """02, N5: "Checks and bound are then those of the second rung", and 01: "surface bound in 0.1 °C, signed". Both temperatures are
    moved by as much, within a row, until the bound is the one named, and the rest stays."""
    for flat in (False, True):
        x = {**CHEAP, "D": 20_000 if flat else 1_590, "t": 999, "ta": 0, "alpha": 1_163}
        first = ordinary(x)
        assert first["second"] == 1
        for bound in (-257, -256, -255, -11, -1, 0, 1, 11):
            by = bound - first["bound"]
            y = {**x, "t": 999 + by, "ta": by}
            yield f"second-bound-{word(bound)}-ta-{word(by)}-{SHAPES[flat]}", y, {**first, "bound": bound}


def worked_limited():
    """Sheets of goal 6 worked by hand with the equations of 01 and 02.

    At 150.0 °C the limit is 1,160 tenths and the second aim 1,044. With L and α 1,000 a wall has k × 10⁶ + 10⁷. At ta 34.0 the limit needs
    10⁸, so that 90 mm are within and 80 mm over, and the second pass needs 10⁹ / 9, so 110 mm; the first need is 94,850,000 for f 1,000
    and 85,365,000 for f 810. At ta 45.6 the second pass needs 10⁸, so 90 mm, and with α 1,001 a little more than 90 mm have.
    At ta 34.0 with α 900, 100 mm have the 10⁹ / 9 of the second pass. With L 2,000 it needs 319,923,371.6 at ta -17.0, and 300 mm have
    320,000,000; at ta -17.1 it needs 320,114,942.5.

    At 130.0 °C with service 3 the limit is 1,068 and the second aim 961, from 961.2. At ta 30.0 it needs 10⁸ with L 961, and 90 mm have
    this with α 961. With L and α 962 it needs 100,104,058.3; with the aim 962 it would need 10⁸, which 90 mm have.

    Bare wall at 50.0 °C in air of 45.0 °C loses just the limit, 580 tenths, with α 1,160. Have and loss need are L × 10⁷ / 1,160, and it
    is too close unless this is a whole number."""
    wall = {**CHEAP, "t": 1_500, "ta": 340, "L": 1_000, "alpha": 1_000}
    paid = {**wall, "tau": 5_000, "P": 1_160, "S": 2_000}
    mm_110 = dict(second=1, shape=2, mm=110, loss=0, surface=0, bound=437)
    yield "worked-limited-f-1000", {**paid, "f": 1_000}, dict(second=0, shape=2, mm=90, loss=0, surface=0, bound=456)
    yield "worked-limited-f-810", {**paid, "f": 810}, mm_110
    yield "worked-limited-f-810-goal-1", {**paid, "f": 810, "goal": 1}, dict(second=0, mm=80, loss=1, bound=469)
    yield "worked-limited-f-1", wall, mm_110
    yield "worked-limited-ta-456", {**wall, "ta": 456}, dict(second=1, shape=2, mm=90, loss=0, bound=561)
    yield "worked-limited-ta-456-alpha-1001", {**wall, "ta": 456, "alpha": 1_001}, dict(second=1, mm=100)
    for alpha, wanted in ((899, dict(second=1, mm=100)), (900, 18), (901, dict(second=1, mm=110))):
        yield f"worked-limited-f-810-alpha-{alpha}", {**paid, "f": 810, "alpha": alpha}, wanted
    deep = {**SECOND_BEYOND, "ta": -170}
    yield "worked-limited-ta-minus-170", deep, dict(second=1, shape=2, mm=300, loss=0, surface=0, bound=-65)
    yield "worked-limited-ta-minus-171", SECOND_BEYOND, 17
    line = {**CHEAP, "service": 3, "t": 1_300, "ta": 300}
    yield "worked-limited-aim-961-met", {**line, "L": 961, "alpha": 961}, dict(second=1, shape=2, mm=90, loss=0)
    yield "worked-limited-aim-961-missed", {**line, "L": 962, "alpha": 962}, dict(second=1, shape=2, mm=100, loss=0)
    yield "worked-limited-bare-close", CLOSE, 18
    yield "worked-limited-bare-within", {**CLOSE, "L": 348}, dict(second=0, mm=0, loss=0, surface=0, bound=500)
    yield "worked-limited-bare-over", {**CLOSE, "alpha": 1_161}, dict(second=1, mm=10, loss=0)


def jacketed_lines():
    """02, N6: "Goal 7 takes it for cylinders, beside goal 1's fields, with exergy coefficient 1 and the jacket price in yuan/m² in the aim
    field". Steam lines as an office has them, under goal 1 and with jackets of several prices; also where the jacket costs nothing, and
    only the difference tells the two goals apart."""
    steam = {**ECONOMY_JACKETED, "t": 2_150, "ta": 250, "L": 480, "alpha": 1_163, "f": 3_000, "tau": 7_500, "P": 1_800}
    for D in (380, 1_590, 5_300):
        yield f"jacketed-line-d-{D}-goal-1", {**steam, "D": D, "goal": 1, "aim": 0}, dict(second=0, shape=1)
        for aim in (0, 100):
            x = {**steam, "D": D, "aim": aim}
            yield f"jacketed-line-d-{D}-aim-{aim}", x, dict(second=0, shape=1, mm=printed_thickness(x))


def jacket_prices():
    """02, N6: "the jacket price in yuan/m² in the aim field, 0 to 65,535": no price is refused, and it is unsigned. For each price a sheet
    that a given rung just meets, and with one yuan less the next rung is needed."""
    r = Random(65_535)
    for aim in (1, 256, 32_768, 65_535):
        x = less = None
        while not (less and thickness(less) == (thickness(x)[0] + 10, MEETS)):
            x = chosen(r, 7, False, 10 * r.randint(1, 20), aim=aim)
            k = thickness(x)[0]
            x = beside(aimed(x, have(x, k)[0], k), k, MEETS)
            less = x and {**x, "aim": aim - 1}
        yield f"jacket-price-{aim}", x, dict(mm=k)
        yield f"jacket-price-{aim - 1}-more", less, dict(mm=k + 10)


def jacketed_walls():
    """02, N6: "Checks: 43, after 16, for goal 7 with D above 10,000." Sheets of 10,000 that are refused with 17 and 18 get 43 at 10,001,
    and at 10,000 one of the cases 11 to 13 holds beside 17 or 18, and decides."""
    for D in (9_999, 10_000, 10_001, 20_000, 32_768):
        for aim in (0, 65_535) if D == 10_001 else (100,):
            x = {**ECONOMY_JACKETED, "D": D, "aim": aim}
            yield f"jacketed-d-{D}-aim-{aim}", x, dict(shape=1, mm=printed_thickness(x)) if D <= 10_000 else 43
    yield "jacketed-d-12000-service-4", {**ECONOMY_JACKETED, "D": 12_000, "service": 4}, 43
    beyond = {**ECONOMY_JACKETED, "D": 10_000, "t": 6_500, "ta": -500, "P": 1, "S": 1}
    bare = open_at(Random(43), 7, False, 0, D=10_000, aim=0)
    for x, last in ((beyond, 17), (bare, 18)):
        yield f"case-{last}-jacketed", x, last
        yield f"cases-43-and-{last}-jacketed", {**x, "D": 10_001}, 43
        yield f"cases-11-and-{last}-jacketed", packed(x) + b"\0", 11
        for first, fault in ((12, dict(service=0)), (13, dict(L=0))):
            yield f"cases-{first}-and-{last}-jacketed", {**x, **fault}, first


def no_difference():
    """02, N6: "A rung where the difference is not positive misses": thin tubes with much conductivity, where the first rungs miss though
    heat costs next to nothing, and bare pipe is enough by goal 1. 200 L equals α E at a rung, and beside that by a hair; the rungs where
    the difference is positive all meet."""
    cheap = {**ECONOMY_JACKETED, "t": 400, "ta": 200, "f": 1, "tau": 1, "P": 65_535, "S": 10_000}
    for D, L, alpha, k in ((100, 500, 1_000, 10), (101, 51, 101, 0), (101, 52, 101, 10), (180, 1_000, 500, 20), (100, 1_500, 1_000, 20),
                           (100, 1_250, 500, 30), (200, 2_000, 100, 200), (201, 2_000, 100, 190), (4_000, 2_000, 100, 10),
                           (4_001, 2_000, 100, 0)):
        x = {**cheap, "D": D, "L": L, "alpha": alpha}
        assert k == next(i for i in LADDER if alpha * (D + 20 * i) > 200 * L)
        yield f"no-difference-d-{D}-l-{L}-alpha-{alpha}", x, dict(mm=k)
    yield "no-difference-goal-1", {**cheap, "goal": 1, "D": 180, "L": 1_000, "alpha": 500, "aim": 0}, dict(mm=0)
    r = Random(200)
    for misses, k in ((1, 50), (4, 120)):
        x = None
        while not x or [difference(x, 10 * i) > 0 for i in range(misses + 1)] != [False] * misses + [True]:
            x = between(r, fields(r, 7, False, D=r.randint(100, 400), L=r.randint(500, 2_000), alpha=r.randint(100, 1_500)), k)
        yield f"no-difference-up-to-{10 * misses - 10}-mm-then-{k}", x, dict(mm=k)


def missing_again():
    """02, N6: "Rungs above the first that doesn't miss may miss again." α E is little above 200 L, so that little is needed at the first
    rung that meets; more is needed at the next ones, which miss, and the thickness is the first all the same. A bisection of the ladder
    would give the rung named last, or 17 where none is named. Likewise the first rung that doesn't miss is open, and the next misses; and
    with a higher price of heat the first misses too."""
    r = Random(2_512)
    for k, again in ((0, 20), (0, 60), (0, 150), (0, None), (10, 60), (10, 150), (10, None), (50, 150), (50, None), (190, None)):
        x = missed_again(r, k, again)
        assert bisected(x) == again
        yield f"misses-again-above-{k}-then-{again or 'none'}", x, dict(mm=k)
        if (k, again) in ((0, 60), (10, 150)):
            alone = {**x, "goal": 1, "aim": 0}
            yield f"misses-again-above-{k}-then-{again}-goal-1", alone, ordinary(alone)
    for k in (0, 10, 50):
        x = more = None
        while not more:
            x = open_then_missed(r, k)
            more = beside(x, k, MISSES)
        yield f"open-then-misses-{k}", x, 18
        yield f"open-then-misses-{k}-more", more, ordinary(more)


def bisected(x):
    """The thickness that a bisection of the ladder finds, as if no rung missed above one that doesn't; or None."""
    low, high = 0, len(LADDER)
    while low < high:
        middle = (low + high) // 2
        low, high = (middle + 1, high) if verdict(x, LADDER[middle]) == MISSES else (low, middle)
    return LADDER[low] if low < len(LADDER) else None


def equal_squares():
    """02, N6: "A rung meets when the square of under-have is at or above that difference times the exact square of need. It misses when
    the square of over-have is below it." One of the two squares is equal to it: the rung meets, or it is open. With a heat price higher
    by 1 it misses."""
    sheets = [
        (0, (1_000, 300, 759, 10_000, 100, 800, 1_241, 759, 2_400)), (10, (1_832, 2_109, 10, 6_900, 20_833, 1_004, 3_125, 1_041, 945)),
        (20, (1_742, 254, 289, 1_200, 2_917, 2_917, 1_525, 85, 814)), (40, (140, 1_792, 597, 1_984, 56_513, 3_646, 6_625, 2_783, 991)),
        (50, (1_934, 3_749, 625, 7_500, 11_557, 1_651, 4_450, 4_000, 794)), (10, (470, 542, 492, 9_500, 5_988, 499, 945, 451, 830)),
        (20, (2_399, 829, 205, 3_100, 1_271, 629, 2_722, 100, 664)), (30, (1_766, 4_266, 19, 856, 26_562, 4_427, 5_375, 3_025, 417)),
    ]
    for k, values in sheets:
        x = {**ECONOMY_JACKETED, **dict(zip("D t L alpha f tau P S aim".split(), values))}
        n, d = economy_square(x, k)
        under, over = (h * h * d == n * x["f"] for h in have(x, k))
        assert (under or over) and missed_below(x, k) and verdict(moved(x, 1), k) == MISSES, (k, values)
        name = f"equal-square-{'under' if under else 'over'}-have-{k}-mm"
        yield name, x, dict(mm=k) if under else 18
        yield f"{name}-more", moved(x, 1), dict(mm=k + 10)


def largest_jacketed():
    """01: "Keeping the product below the root in 64 bits". Goal 7 has the square of have in a product, too: the largest fields of a sheet
    that all rungs miss, and of sheets that are dear to insulate, with little and much film; the highest have; the highest price with its
    jacket, P E + 20,000 aim, above 2³¹; and the least fields."""
    hot, r = {**ECONOMY_JACKETED, "t": 6_500, "ta": -500, "L": 2_000, "f": 65_535, "tau": 8_784}, Random(120)
    for name, D in (("small", 100), ("wide", 10_000)):
        yield f"jacketed-largest-{name}", {**hot, "D": D, "P": 1, "S": 1, "aim": 0}, 17
        yield f"jacketed-largest-{name}-dear", {**hot, "D": D, "P": 65_535, "S": 10_000, "alpha": 10_000, "aim": 65_535}, {}
        yield f"jacketed-largest-{name}-film", {**hot, "D": D, "P": 65_535, "S": 10_000, "alpha": 100, "aim": 65_535}, {}
        x = None
        while not x:
            x = between(r, {**hot, "D": D, "S": r.randint(500, 10_000), "aim": r.randint(1, 65_535)}, 300)
        yield f"jacketed-largest-{name}-300-mm", x, dict(mm=300)
    price = {**hot, "D": 10_000, "alpha": 10_000, "P": 65_535, "S": 1_500, "aim": 65_535}
    assert price["P"] * (price["D"] + 20 * thickness(price)[0]) + 20_000 * price["aim"] > 2**31
    yield "jacketed-largest-price", price, {}
    least = {**hot, "D": 100, "t": 201, "ta": 200, "L": 1, "f": 1, "tau": 1, "P": 65_535, "S": 10_000, "aim": 65_535}
    yield "jacketed-least", least, dict(mm=0)


def jacketed_checks():
    """01: "Byte 4, loss check: 0 within, 1 over, 2 too close, 3 none printed. Byte 5, surface check: 0, 1, 2 likewise", under goal 7. A
    sheet that is over the limit has no second pass."""
    r = Random(5_073)
    for service, check in ((1, 0), (1, 1), (1, 3), (2, 1), (2, 3), (3, 1), (4, 0)):
        x = checked(r, 7, False, dict(loss=check), service=service)
        yield f"jacketed-loss-{CHECKS[check]}-service-{service}", x, dict(second=0, loss=check)
    for check in (0, 1):
        yield f"jacketed-surface-{CHECKS[check]}", checked(r, 7, False, dict(surface=check), warm=True), dict(surface=check)
    for k in (10, 60):
        yield f"jacketed-loss-close-{k}-mm", close_loss(r, 7, False, k), dict(mm=k, loss=2)
        yield f"jacketed-surface-close-{k}-mm", close_surface(r, 7, False, k), dict(mm=k, surface=2)


def undivided():
    """02, N6: "Both checks and the bound use the undivided have." With have divided by the root of the difference one of the checks would
    read within in place of over, and the bound would be lower."""
    r = Random(1_200)
    for check in ("loss", "surface"):
        for k in (0, 20):
            x = None
            while not x or not told_by_undivided(x, k, check):
                x = between(r, fields(r, 7, False, **small_difference(r, k, 70)), k)
            yield f"undivided-{check}-{k}-mm", x, {check: 1, "mm": k}


def told_by_undivided(x, k, check):
    """Whether only that check of k mm would be another, and the bound lower, were have divided as goal 7 compares it."""
    limit = loss_limit(x["service"], x["t"])
    if limit is None or x["t"] <= surface_limit(x):
        return False
    h, d = have(x, k), difference(x, k)
    divided = root(h[0]**2 * d.denominator, d.numerator)[0], root(h[1]**2 * d.denominator, d.numerator)[1]
    needs = dict(loss=ratio(*loss_need(x, limit)), surface=ratio(*surface_need(x, surface_limit(x))))
    others = [name for name, required in needs.items() if judge(h, required) != judge(divided, required)]
    quotient = sides(x) * x["L"] * 10**7 * (x["t"] - x["ta"])
    return others == [check] and up(quotient, x["alpha"] * divided[0]) < bound_from_air(x, k)


def jacketed_bounds():
    """01: "Bytes 6–7: surface bound in 0.1 °C, signed", "and never above t", under goal 7: both temperatures are moved by as much, until
    the bound is the one named."""
    line = {**ECONOMY_JACKETED, "D": 1_590, "t": 300, "ta": 0}
    rise = bound_from_air(line, thickness(line)[0])
    for bound in (-257, -256, -1, 0, 1):
        ta = bound - rise
        yield f"jacketed-bound-{word(bound)}", {**line, "t": ta + 300, "ta": ta}, dict(mm=thickness(line)[0], bound=bound)
    for alpha, name in ((1_163, "held"), (1_000, "exact")):
        x = {**line, "alpha": alpha, "f": 1, "aim": 65_535}
        assert (up(2 * 10**7 * x["L"] * 300, alpha * (2 * 10**7 * x["L"] // alpha)) > 300) == (name == "held")
        yield f"jacketed-bound-{name}", x, dict(mm=0, bound=300)


def worked_jacketed():
    """Sheets of goal 7 worked by hand: rung 0, where both logs are 0.

    D 1,000, L 759, α 10,000: have is 2 × 759 × 10⁷ / 10,000, which is 1,518,000, and the difference 1 - 151,800 / 10,000,000, which is
    49,241 / 50,000. P 1,241 with a jacket of 2,400 is 1,241 + 48,000 = 49,241. f L τ Δ is 100 × 759 × 800 × 100 and S 759, so that the
    difference times the square of need is 14,402,025,000 × 8,000,000 / 50,000, which is the square of 1,518,000: bare pipe meets. It
    misses with f 101, with a jacket of 2,399 or with P 1,240.

    D 100, L 500, α 1,000: 200 L and α E are both 100,000 at rung 0, the difference is 0, and it misses. At 10 mm E is 300 and the
    difference 2 / 3; have is above 10⁷, and need at f 1, τ 1, Δ 10, P 1,000, S 10,000 below 10⁴. With L 499 the difference is 1 / 500,
    and bare pipe meets."""
    bare = {**ECONOMY_JACKETED, "D": 1_000, "t": 300, "L": 759, "alpha": 10_000, "f": 100, "tau": 800, "P": 1_241, "S": 759, "aim": 2_400}
    yield "worked-jacketed-bare", bare, dict(second=0, shape=1, mm=0, loss=3, surface=0, bound=300)
    for name, value in (("f", 101), ("aim", 2_399), ("P", 1_240)):
        yield f"worked-jacketed-{name.lower()}-{value}", {**bare, name: value}, dict(mm=10)
    tube = {**ECONOMY_JACKETED, "D": 100, "t": 210, "L": 500, "alpha": 1_000, "f": 1, "tau": 1, "P": 1_000, "S": 10_000, "aim": 0}
    yield "worked-jacketed-no-difference", tube, dict(second=0, shape=1, mm=10, loss=3, surface=0)
    yield "worked-jacketed-little-difference", {**tube, "L": 499}, dict(second=0, shape=1, mm=0, loss=3, surface=0, bound=210)


GROUPS = [diameters, economy, table_4, cold_tables, lengths, codes, ranges, single_bytes, unused, wrong_side, aims, around_zero,
          cold_around_zero, bounds, cold_bounds, two_faults, fault_before_rungs,
          temperatures_before_rungs, last_rung, rows, limits, interpolated_limits, surface_limits, checks, cold_checks,
          rungs, open_rungs, edges, equal, wrong_turns, held, cold_held, mirrored, worked, worked_cold, upper_case,
          limited_checks, limited_close, limited_edges, second_aims, second_shares, second_rungs, second_open_rungs,
          second_last_rung, first_refused, limited_surfaces, limited_rows, second_bounds, worked_limited,
          jacketed_lines, jacket_prices, jacketed_walls, no_difference, missing_again, equal_squares, largest_jacketed, jacketed_checks,
          undivided, jacketed_bounds, worked_jacketed]


def vectors():
    """The vectors as triples: the name, the bytes, and the answer or the refusal's number."""
    names = set()
    for group in GROUPS:
        for name, x, wanted in group():
            sheet = packed(x) if isinstance(x, dict) else x
            result = answer(sheet)
            assert re.fullmatch("[a-z0-9]+(-[a-z0-9]+)*", name) and len(name) <= 60 and name not in names, name
            if isinstance(wanted, int):
                assert result == wanted and (wanted not in (17, 18) or ordinary(x) == wanted), (name, result, wanted)
            else:
                assert not isinstance(result, int) and ordinary(x) == parts(result), (name, result, ordinary(x))
                assert wanted.items() <= parts(result).items(), (name, result, wanted)
            if isinstance(x, dict):
                assert x["goal"] != 6 or result == by_both(x), (name, result)
                assert x["goal"] != 7 or result in (12, 13, 15, 43) or as_printed(x, result), (name, result)
            names.add(name)
            yield name, sheet, result


def digits(name, data):
    """Bytes in hexadecimal, in upper case where the name says so."""
    return bytes(data).hex().upper() if name.startswith("upper-case-") else bytes(data).hex()


def main():
    """Prints the vectors, or what the program must print on them."""
    if sys.argv[1:] == ["vectors"]:
        for name, sheet, result in vectors():
            print(name, digits(name, sheet) or "-", f"refused {result}" if isinstance(result, int) else digits(name, result))
    elif sys.argv[1:] == ["expected"]:
        lines = [f"{name} ok: {line(sheet)}" for name, sheet, _ in vectors()]
        print(*lines, f"{len(lines)} vectors, 0 failed", sep="\n")
    else:
        sys.exit(__doc__.strip())


if __name__ == "__main__":
    main()
