"""Sheets near a border, found by trying: the running sums of the steps are kept, so that a try costs little.

A sheet is here a dictionary of its fields. What the answer is, tools/sheet.py says. With these figures tools/sheets.py and
tools/vectors.py search, and tools/vectors.py compares the answers with them.
"""
from fractions import Fraction
from itertools import accumulate
from math import gcd

from sheet import (COLD_GOALS, ECONOMY_GOALS, JACKETED, LIMITED, MEETS, MISSES, OPEN, SURFACE_GOALS, direction, judge, loss_limit,
                   ratio, root, sheet_of, up)

LADDER = range(0, 301, 10)

UNDER = [0, *accumulate(2 * 10**12 // (2 * i + 1) for i in range(100, 16_000))]
OVER = [0, *accumulate(up(10**12 * (2 * i + 1), 2 * i * (i + 1)) for i in range(100, 16_000))]


def packed(x):
    """The bytes of the sheet x."""
    return sheet_of(**x)


def fields(r, goal, flat, **fixed):
    """Good fields at random, apart from an aim that sets the need: the fixed ones as given. A t is drawn on its side of a ta that is
    given."""
    D = r.randint(10_001, 65_535) if flat else r.choice([r.randint(100, 600), r.randint(100, 10_000)])
    ta = fixed.get("ta", r.choice([r.randint(-500, 500), r.randint(-20, 20), 200]))
    if goal in COLD_GOALS:
        t = r.randint(max(-1_960, ta - r.choice([300, 1_000, 2_460])), ta - 2)
    else:
        t = r.randint(ta + 2, r.choice([700, 2_000, 6_500]))
    L = r.choice([r.randint(1, 2_000), r.randint(300, 700)])
    alpha = r.choice([r.randint(100, 10_000), r.randint(700, 2_500), 10 * r.randint(10, 400)])
    x = dict(goal=goal, service=r.randint(1, 4), line=0, D=D, t=t, ta=ta, L=L, alpha=alpha, f=0, tau=0, P=0, S=0, aim=0)
    if goal in ECONOMY_GOALS:
        x.update(f=r.randint(1, 65_535), tau=r.randint(1, 8_784), P=r.randint(1, 65_535), S=r.randint(1, 10_000))
    if goal == JACKETED:
        x.update(aim=r.choice([0, r.randint(1, 300), r.randint(1, 65_535)]))
        if r.random() < 0.6:
            x.update(tau=r.randint(2_000, 8_784), P=r.randint(300, 4_000), S=r.randint(500, 3_000))
    return {**x, **fixed}


def shapes(goal):
    """The shapes that a goal takes, by whether the wall is flat."""
    return (False,) if goal == JACKETED else (False, True)


def sides(x):
    """The factor of L: 2 on a cylinder, 1 on a flat wall."""
    return 2 if x["D"] <= 10_000 else 1


def from_air(x, temperature):
    """How far a temperature is from the air's, on the pipe's side."""
    return direction(x["goal"]) * (temperature - x["ta"])


def beside_air(x, by):
    """The temperature at that distance from the air's, on the pipe's side."""
    return x["ta"] + direction(x["goal"]) * by


def layer(x, k):
    """What k mm provide by themselves, from below and above."""
    D, E = x["D"], x["D"] + 20 * k
    if sides(x) == 1:
        return k * 10**6, k * 10**6
    return E * (UNDER[E - 100] - UNDER[D - 100]) // 10**7, up(E * (OVER[E - 100] - OVER[D - 100]), 10**7)


def have(x, k):
    """Under-have and over-have at k mm."""
    low, high = layer(x, k)
    n, d = sides(x) * x["L"] * 10**7, x["alpha"]
    return low + n // d, high + up(n, d)


def difference(x, k):
    """Goal 7's 1 - 200L / (αE) at k mm."""
    return 1 - Fraction(200 * x["L"], x["alpha"] * (x["D"] + 20 * k))


def economy_square(x, k):
    """The number under the root, without the heat price, as a fraction. Under goal 7 it is that of k mm, with the price of the jacket and
    times the difference, by whose root have would be divided."""
    square = 14_402_025_000 if sides(x) == 2 else 3_598_609_000
    n, d = square * x["L"] * x["tau"] * from_air(x, x["t"]), x["P"] * x["S"]
    if x["goal"] != JACKETED:
        return n, d
    price = x["P"] + Fraction(20_000 * x["aim"], x["D"] + 20 * k)
    return (difference(x, k) * n / (price * x["S"])).as_integer_ratio()


def loss_need(x, aim):
    """The loss need at an aim, as a fraction."""
    return sides(x) * x["L"] * from_air(x, x["t"]) * 10**5, aim


def surface_need(x, aim):
    """The surface need at an aim, as a fraction."""
    return sides(x) * x["L"] * from_air(x, x["t"]) * 10**7, x["alpha"] * from_air(x, aim)


def need(x, k):
    """Low need and high need; of goal 6 the first pass's. Goal 7 compares squares, and the square of a whole number is not below a
    fraction where the number is not below the root rounded up: so that is both its needs at k mm. None where the difference is not
    positive: no have is enough."""
    if x["goal"] not in ECONOMY_GOALS:
        return ratio(*(loss_need if x["goal"] == 2 else surface_need)(x, x["aim"]))
    if x["goal"] == JACKETED and difference(x, k) <= 0:
        return None
    n, d = economy_square(x, k)
    low, high = root(n * x["f"], d)
    return (high, high) if x["goal"] == JACKETED else (low, high)


def verdict(x, k):
    """Whether k mm meet, miss or are open."""
    required = need(x, k)
    return judge(have(x, k), required) if required else MISSES


def verdicts(x):
    """The verdicts of all rungs from 0 up."""
    return [verdict(x, k) for k in LADDER]


def thickness(x):
    """The first thickness that doesn't miss, with its verdict; or None. Of goal 6 it is the first pass's."""
    return next(((k, v) for k in LADDER if (v := verdict(x, k)) != MISSES), None)


def surface_limit(x):
    """The limit of the surface temperature in tenths of a degree."""
    return 500 if x["ta"] <= 270 else x["ta"] + 250


def loss_check(x, k):
    """The loss check of a hot sheet of k mm: 0 within, 1 over, 2 too close, 3 none printed."""
    limit = loss_limit(x["service"], x["t"])
    return 3 if limit is None else judge(have(x, k), ratio(*loss_need(x, limit)))


def surface_check(x, k):
    """The surface check of a hot sheet of k mm: 0 within, 1 over, 2 too close."""
    limit = surface_limit(x)
    return MEETS if x["t"] <= limit else judge(have(x, k), ratio(*surface_need(x, limit)))


def second_aim(x):
    """The loss aim of goal 6's second pass: the limit less its tenth part, which is rounded up."""
    limit = loss_limit(x["service"], x["t"])
    return limit - up(limit, 10)


def by_loss(x, aim):
    """The fields of x under goal 2 with that aim."""
    return {**x, "goal": 2, "f": 0, "tau": 0, "P": 0, "S": 0, "aim": aim}


def given(x):
    """The thickness of the answer, and 1 where goal 6's second pass gives it, 0 elsewhere; or refusal 17 or 18."""
    k, found = thickness(x) or (None, MISSES)
    if found == MISSES:
        return 17
    check = loss_check(x, k) if found == MEETS and x["goal"] == LIMITED else found
    if check == OPEN:
        return 18
    if check == MISSES:
        again = given(by_loss(x, second_aim(x)))
        return again if isinstance(again, int) else (again[0], 1)
    return k, 0


def lever(x):
    """The field that sets the need: the heat price of an economy sheet, or the aim."""
    return "f" if x["goal"] in ECONOMY_GOALS else "aim"


def allowed(x):
    """Whether the heat price or the aim is a good one."""
    if x["goal"] in SURFACE_GOALS:
        return 0 < from_air(x, x["aim"]) < from_air(x, x["t"])
    return 1 <= x[lever(x)] <= 65_535


def moved(x, by):
    """The sheet with its heat price or its aim moved; a surface aim is moved away from the air's temperature."""
    return {**x, lever(x): x[lever(x)] + (direction(x["goal"]) * by if x["goal"] in SURFACE_GOALS else by)}


def aimed(x, h, k):
    """The sheet with the heat price or the aim that makes its need, under goal 7 that of k mm, h nanometres, as nearly as can be,
    allowed or not."""
    if x["goal"] in ECONOMY_GOALS:
        n, d = economy_square(x, k)
        return {**x, "f": h * h * d // n if n > 0 else 0}
    if x["goal"] == 2:
        n, d = loss_need(x, 1)
        return {**x, "aim": n // (d * h)}
    n, d = surface_need(x, beside_air(x, 1))
    return {**x, "aim": beside_air(x, n // (d * h))}


def between(r, x, k):
    """The sheet aimed so that k mm are the first to meet, in the first pass of goal 6; or None where that fails."""
    top = have(x, k)[0]
    bottom = have(x, k - 10)[1] + 1 if k else 1
    y = aimed(x, r.randint(bottom, top), k)
    return next((z for z in (y, moved(y, 1)) if allowed(z) and thickness(z) == (k, MEETS)), None)


def missed_below(x, k):
    """Whether all rungs below k mm miss."""
    return all(verdict(x, i) == MISSES for i in range(0, k, 10))


def chosen(r, goal, flat, k, **fixed):
    """A sheet whose thickness is k mm; under goal 6 by the first pass."""
    while True:
        y = between(r, fields(r, goal, flat, **fixed), k)
        if y and given(y) == (k, 0):
            return y


def level(r, goal, k, **fixed):
    """A flat wall that needs exactly what k mm provide: goal 2, or goal 3 or 4 with k above 0."""
    while True:
        x = fields(r, goal, True, **fixed)
        L, alpha = x["L"], x["alpha"]
        n, d = (L * alpha, 10 * k * alpha + 100 * L) if goal == 2 else (10 * L, k * alpha + 10 * L)
        unit = d // gcd(n, d)
        widest = from_air(x, -1_960 if goal in COLD_GOALS else 6_500)
        if unit > widest:
            continue
        delta = unit * r.randint(1, widest // unit)
        aim = n * delta // d
        y = {**x, "t": beside_air(x, delta), "aim": aim if goal == 2 else beside_air(x, aim)}
        if allowed(y):
            return y


def coefficients(x, n, d):
    """The sheet with the surface coefficient n / d, rounded down and up: those in the range."""
    return [{**x, "alpha": a} for a in (n // d, n // d + 1) if 100 <= a <= 10_000] if d > 0 else []


def fitted(x, k, required):
    """The sheet with the surface coefficient that makes k mm provide the required nanometres, as nearly as can be."""
    return coefficients(x, sides(x) * x["L"] * 10**7, required - layer(x, k)[0])


def fitted_surface(x, k, aim):
    """The sheet with the surface coefficient that makes k mm provide what a surface aim requires, as nearly as can be."""
    s = from_air(x, aim)
    return coefficients(x, sides(x) * x["L"] * (from_air(x, x["t"]) - s) * 10**7, layer(x, k)[0] * s)


def fitted_need(x, k, side=0):
    """The sheet with the surface coefficient that makes under-have (side 0) or over-have (side 1) of k mm the need, as nearly as can be."""
    if x["goal"] != JACKETED:
        return fitted(x, k, need(x, k)[0] + layer(x, k)[0] - layer(x, k)[side])
    # Under goal 7 the need hangs on the coefficient too: with a higher one there is less have and more need. The first of the two tries has
    # enough, or no difference above 0; the second has too little.
    tries = [{**x, "alpha": a} for a in (100, 10_000)]
    while tries[1]["alpha"] - tries[0]["alpha"] > 1:
        y = {**x, "alpha": (tries[0]["alpha"] + tries[1]["alpha"]) // 2}
        lacking = need(y, k) is not None and need(y, k)[0] > have(y, k)[side]
        tries[lacking] = y
    return tries


def open_at(r, goal, flat, k, **fixed):
    """A sheet for which k mm are open and the rungs below miss."""
    while True:
        x = fields(r, goal, flat, **fixed)
        if goal in SURFACE_GOALS and k == 0:
            x.update(L=r.randint(1, 5), alpha=r.randint(7_000, 10_000))
            x["t"] = r.randint(-1_960, -1_500) if goal in COLD_GOALS else r.randint(4_000, 6_500)
        y = level(r, goal, k, **fixed) if goal in SURFACE_GOALS and flat and k else aimed(x, have(x, k)[0], k)
        tries = [z for z in (y, moved(y, 1), moved(y, -1)) if allowed(z)]
        if allowed(y):
            tries += fitted_surface(y, k, y["aim"]) if goal in SURFACE_GOALS else fitted_need(y, k)
        for z in tries:
            if verdict(z, k) == OPEN and missed_below(z, k):
                return z


def edge(r, goal, flat, k, side, by, **fixed):
    """A sheet, goal 1, 2, 5, 6 or 7, at an edge of what is open at k mm: high need is 0 or 1 nm above under-have (side 0: it meets,
    it is open), or low need above over-have (side 1: it is open, it misses). The rungs below miss."""
    result = [[MEETS, OPEN], [OPEN, MISSES]][side][by]
    while True:
        x = fields(r, goal, flat, **{"L": r.randint(1, 100), "alpha": r.randint(5_000, 10_000), **fixed})
        y = aimed(x, have(x, k)[0], k)
        for z in fitted_need(y, k, side) if allowed(y) else []:
            if verdict(z, k) == result and need(z, k)[1 - side] - have(z, k)[side] == by and missed_below(z, k):
                return z


def at_loss(x, k, loss, by, wanted):
    """The sheets x with a surface coefficient by which k mm lose about so many tenths of W/m² over a loss; wanted: verdicts at that
    loss and beside it."""
    return [y for y in fitted(x, k, ratio(*loss_need(x, loss + by))[0])
            if all(judge(have(y, k), ratio(*loss_need(y, loss + other))) == result for other, result in wanted.items())]


def losing(r, goal, flat, k, by, wanted, **fixed):
    """A hot sheet of k mm that loses about so many tenths of W/m² over the limit; wanted: verdicts at the limit and beside it."""
    return at_limit(r, goal, flat, k, lambda x, limit: at_loss(x, k, limit, by, wanted), **fixed)


def at_limit(r, goal, flat, k, near, **fixed):
    """A hot sheet of k mm, of those that are near a drawn one and its loss limit."""
    while True:
        x = fields(r, goal, flat, **fixed)
        limit = loss_limit(x["service"], x["t"])
        for y in near(x, limit) if limit else []:
            z = between(r, y, k)
            if z:
                return z


def close_loss(r, goal, flat, k, **fixed):
    """A hot sheet of k mm that is too close to the loss limit."""
    return losing(r, goal, flat, k, 0, {0: OPEN}, **fixed)


def within_loss(r, goal, flat, k, **fixed):
    """A hot sheet of k mm that is within the limit and would be over a limit 0.1 W/m² lower."""
    return losing(r, goal, flat, k, 0, {0: MEETS, -1: MISSES}, **fixed)


def over_loss(r, goal, flat, k, **fixed):
    """A hot sheet of k mm that is over the limit and would be within a limit 0.1 W/m² higher."""
    return losing(r, goal, flat, k, 1, {0: MISSES, 1: MEETS}, **fixed)


def close_surface(r, goal, flat, k, first=None, **fixed):
    """A hot sheet of k mm, k above 0, that is too close to the surface limit; on a flat wall have equals need there. Where a first
    thickness is given, goal 6's second pass gives the k mm."""
    while True:
        x = fields(r, goal, flat, **fixed)
        limit = surface_limit(x)
        if flat:
            rise, rest = divmod(k * x["alpha"] * (limit - x["ta"]), 10 * x["L"])
            tries = [{**x, "t": limit + rise}] if rest == 0 and limit + rise <= 6_500 else []
        else:
            tries = fitted_surface(x, k, limit) if x["t"] > limit else []
        for y in tries:
            if judge(have(y, k), ratio(*surface_need(y, limit))) == OPEN:
                z = between(r, y, k) if first is None else over_first(r, y, first)
                if z and given(z) == (k, int(first is not None)):
                    return z


def limited(r, flat, check, **fixed):
    """An answered sheet of goal 6 whose first pass gives up to 100 mm, with that loss check."""
    while True:
        x = between(r, fields(r, LIMITED, flat, **fixed), 10 * r.randint(0, 10))
        if x and loss_check(x, thickness(x)[0]) == check and not isinstance(given(x), int):
            return x


def over_first(r, y, first):
    """The sheet y of goal 6 with a heat price by which its first pass gives that thickness, over the limit; or None."""
    return between(r, y, first) if loss_check(y, first) == MISSES else None


def second_pass(r, flat, first, k, by, wanted, **fixed):
    """A sheet of goal 6 whose first pass gives the first of two thicknesses, over the limit. The second, k mm, loses about so many
    tenths of W/m² over what the second pass aims at; wanted: verdicts at that aim and beside it."""
    while True:
        x = fields(r, LIMITED, flat, **fixed)
        for y in at_loss(x, k, second_aim(x), by, wanted) if loss_limit(x["service"], x["t"]) else []:
            z = over_first(r, y, first)
            if z:
                return z


def second_met(r, flat, first, k, **fixed):
    """The same where k mm meet in the second pass and would miss with an aim 0.1 W/m² lower."""
    return second_pass(r, flat, first, k, 0, {0: MEETS, -1: MISSES}, **fixed)


def second_missed(r, flat, first, k, **fixed):
    """The same where k mm miss in the second pass and would meet with an aim 0.1 W/m² higher."""
    return second_pass(r, flat, first, k, 1, {0: MISSES, 1: MEETS}, **fixed)


def second_open(r, flat, first, k, **fixed):
    """The same where k mm are open in the second pass."""
    return second_pass(r, flat, first, k, 0, {0: OPEN}, **fixed)


def loss_edge(x, k, loss, side, by):
    """The sheets x with a surface coefficient by which k mm are at an edge of what is open at a loss; side and by as for an edge."""
    required = ratio(*loss_need(x, loss))
    result = [[MEETS, OPEN], [OPEN, MISSES]][side][by]
    return [y for y in fitted(x, k, required[0] + layer(x, k)[0] - layer(x, k)[side])
            if required[1 - side] - have(y, k)[side] == by and judge(have(y, k), required) == result]


def check_edge(r, flat, k, side, by, **fixed):
    """A sheet of goal 6 whose first pass gives k mm, at an edge of what is too close to the limit."""
    return at_limit(r, LIMITED, flat, k, lambda x, limit: loss_edge(x, k, limit, side, by), **fixed)


def second_edge(r, flat, first, k, side, by, **fixed):
    """A sheet of goal 6 whose first pass gives the first of two thicknesses, over the limit. The second, k mm, is at an edge of what is
    open in the second pass."""
    while True:
        x = fields(r, LIMITED, flat, **fixed)
        for y in loss_edge(x, k, second_aim(x), side, by) if loss_limit(x["service"], x["t"]) else []:
            z = over_first(r, y, first)
            if z:
                return z


def small_difference(r, k, most):
    """The diameter, conductivity and surface coefficient of a goal 7 sheet whose difference at k mm is above 0 and at most so many per
    cent; k up to 190."""
    D = r.choice([r.randint(100, 200), r.randint(100, 4_000 - 20 * k)])
    E = D + 20 * k
    alpha = r.randint(100, 400_000 // E)
    return dict(D=D, L=r.randint(up(alpha * E * (100 - most), 20_000), (alpha * E - 1) // 200), alpha=alpha)


def missed_again(r, k, again):
    """A sheet of goal 7 that k mm are the first to meet, since the difference is small there, and that the next rung misses: the next to
    meet is of `again` mm, or none where that is None."""
    rungs = (again or 310) // 10 - k // 10
    wanted = [MISSES] * (k // 10) + [MEETS] + [MISSES] * (rungs - 1) + [MEETS] * (again is not None)
    while True:
        x = fields(r, JACKETED, False, **small_difference(r, k, 3))
        needed = r.randint(have(x, again - 10)[1] + 1, have(x, again)[0]) if again else have(x, 300)[1] * r.randint(101, 200) // 100
        y = aimed(x, needed, again or 300)
        if allowed(y) and verdicts(y)[:len(wanted)] == wanted:
            return y


def open_then_missed(r, k):
    """A sheet of goal 7 whose first rung that doesn't miss, of k mm, is open, and that the next rung misses."""
    while True:
        x = fields(r, JACKETED, False, **small_difference(r, k, 15))
        y = aimed(x, have(x, k)[0], k)
        for z in (y, moved(y, 1)):
            if allowed(z) and verdict(z, k) == OPEN and verdict(z, k + 10) == MISSES and missed_below(z, k):
                return z
