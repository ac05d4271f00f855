#!/usr/bin/env python3
"""The sheets of the listing's stored run: F and G of document 01, then sheets of every kind at random, from a fixed seed.

    python3 tools/sheets.py > crates/listing/stdin

writes the sheets to standard output, and to standard error how many there are of each class. The stored run was drawn with
Python 3.11; other versions may draw other sheets.
"""
import sys
from collections import Counter
from itertools import combinations
from random import Random

sys.dont_write_bytecode = True
from near import (aimed, allowed, beside_air, between, by_loss, chosen, close_loss, close_surface, edge, fields, given, have, level,
                  limited, missed_again, moved, open_at, open_then_missed, over_loss, packed, second_aim, second_met, second_missed,
                  second_open, shapes, small_difference, surface_limit, verdicts, within_loss)
from sheet import (COLD_GOALS, ECONOMY_GOALS, GOALS, HOT_GOALS, JACKETED, LIMITED, MISSES, NAMES, SURFACE_GOALS, answer, direction,
                   is_signed, signed, unpacked, up)

F = dict(goal=2, service=1, line=7, D=12_000, t=1_300, ta=200, L=400, alpha=800, f=0, tau=0, P=0, S=0, aim=800)
G = dict(goal=2, service=1, line=9, D=10_001, t=300, ta=200, L=400, alpha=1_163, f=0, tau=0, P=0, S=0, aim=1_163)
LINES = [0, 1, 9, 10, 99, 100, 255, 256, 999, 1_000, 9_999, 10_000, 32_767, 32_768, 65_534, 65_535]
RANGES = dict(D=(100, 65_535), L=(1, 2_000), alpha=(100, 10_000))
FLAT_GOALS = [goal for goal in GOALS if True in shapes(goal)]
PRICES = dict(f=(1, 65_535), tau=(1, 8_784), P=(1, 65_535), S=(1, 10_000))


def coldest(goal):
    """The lower end of the range of t."""
    return -1_960 if goal in COLD_GOALS else -500


def kind(r, goals=GOALS):
    """A goal, and whether the wall is flat."""
    goal = r.choice(goals)
    return goal, r.random() < 0.4 and goal in FLAT_GOALS


def rung(r):
    """A thickness of the ladder, low ones more often."""
    return 10 * r.choice([r.randint(0, 30), r.randint(0, 10)])


def good(r, goals=GOALS, **fixed):
    """An answered sheet of any goal, shape and thickness; the thickness of goal 6's first pass."""
    while True:
        x = between(r, fields(r, *kind(r, goals), **fixed), rung(r))
        if x and not isinstance(given(x), int):
            return x


def wrapped(x):
    """The faulty sheet x with its fields as their bits read: bits drawn at random, or an aim under a goal that it was not made for."""
    for name, value in x.items():
        if not -32_768 <= value <= 65_535:
            sys.exit(f"{name} is {value:,}, which 16 bits do not hold")
    bits = {name: value % 65_536 for name, value in x.items()}
    return {name: signed(value) if is_signed(name, x["goal"]) else value for name, value in bits.items()}


def answered(r):
    """One such sheet."""
    return [good(r)]


def small_pipe(r):
    """A pipe of 10 to 60 mm."""
    return [good(r, D=r.randint(100, 600))]


def border_diameter(r):
    """Under each goal, the same line as each of the widest cylinders and of the narrowest flat walls."""
    lines = [good(r, (goal,), D=r.choice([10_000, 10_001] if goal in FLAT_GOALS else [10_000])) for goal in GOALS]
    return [{**x, "D": D} for x in lines for D in (9_999, 10_000, 10_001, 10_002)]


def any_aim(r):
    """Fields in their ranges, the aim anything: mostly bare, beyond the ladder, or an aim that is refused."""
    x = fields(r, *kind(r))
    low, high = {2: (0, 65_535), 3: (-600, 6_600), 4: (-2_000, 600), 7: (0, 65_535)}.get(x["goal"], (0, 0))
    return [{**x, "aim": r.randint(low, high)}]


def bare(r):
    """Thickness 0. Under goals 3 and 4 bare pipe never meets, since the aim is not t."""
    return [chosen(r, *kind(r, (1, 2, 5, 6, 7)), 0)]


def top(r):
    """One of the two highest rungs."""
    return [chosen(r, *kind(r), r.choice([290, 300]))]


def beyond(r):
    """A need above the highest rung, by little or by much."""
    goal, flat = kind(r)
    while True:
        x = fields(r, goal, flat)
        y = aimed(x, have(x, 300)[1] * r.randint(1_001, r.choice([1_010, 3_000])) // 1_000, 300)
        if allowed(y):
            return [y]


def unknown_code(r):
    """A goal or a service that is not known."""
    name, known = r.choice([("goal", 7), ("service", 4)])
    return [wrapped({**good(r), name: r.choice([0, known + 1, known + 2, 255, r.randint(known + 1, 255)])})]


def range_edges(r):
    """Under each goal, each field at each end of its range, and one outside where 16 bits hold that. With ta the other
    temperatures are moved by as much, so that both its ends are answered."""
    made = []
    for goal in GOALS:
        way, (_, flat), ta = direction(goal), kind(r, (goal,)), r.randint(-400, 400)
        x = chosen(r, goal, flat, 10 * r.randint(1, 10), ta=ta, t=ta + way * r.randint(30, 1_400))
        made += [raised(x, v - ta) for v in (-501, -500, 500, 501)]
        own = {**(PRICES if goal in ECONOMY_GOALS else {}), **(dict(aim=(0, 65_535)) if goal == JACKETED else {})}
        for name, (low, high) in {**RANGES, "t": (coldest(goal), 6_500), **own}.items():
            made += [{**x, name: v} for v in (low - 1, low, high, high + 1) if v <= 65_535 and (v >= 0 or name == "t")]
    return made


def raised(x, by):
    """The sheet with all its temperatures raised."""
    return {**x, **{name: x[name] + by for name in temperatures(x["goal"])}}


def temperatures(goal):
    """The names of the fields that are temperatures."""
    return [name for name in NAMES if is_signed(name, goal)]


def out_of_range(r):
    """One field far outside of its range."""
    x = good(r)
    low = coldest(x["goal"]) - 1
    return [{**x, **r.choice([dict(D=r.randint(0, 99)), dict(t=r.randint(6_501, 32_767)),
                              dict(t=r.randint(-32_768, low)), dict(t=r.randint(low - 1_460, low)),
                              dict(ta=r.randint(501, 32_767)), dict(ta=r.randint(-32_768, -501)),
                              dict(L=r.randint(2_001, 65_535)), dict(alpha=r.randint(10_001, 65_535))])}]


def unused_field(r):
    """A field that must be zero and is not, by one of its bits or by many. Goal 7 uses all fields."""
    x = good(r, [goal for goal in GOALS if goal != JACKETED])
    name = "aim" if x["goal"] in ECONOMY_GOALS else r.choice(list(PRICES))
    return [{**x, name: r.choice([1 << r.randrange(16), r.randint(1, 65_535)])}]


def wrong_side(r):
    """A hot pipe a little or much colder than the air, a cold one warmer, or one just as warm; and a tenth on the right side."""
    x = good(r, ta=r.randint(-490, 490))
    widest = 6_500 - x["ta"] if x["goal"] in COLD_GOALS else x["ta"] + 500
    return [{**x, "t": beside_air(x, by)} for by in (-r.choice([0, 1, 2, r.randint(0, widest)]), 1)]


def other_direction(r):
    """A good sheet under a goal of the other direction that uses the same fields."""
    x = good(r)
    return [wrapped({**x, "goal": {1: 5, 2: 4, 3: 4, 4: r.choice([2, 3]), 5: r.choice([1, 6, 7]), 6: 5, 7: 5}[x["goal"]]})]


def aim_edge(r):
    """Aims at and around 0, ta and t."""
    x = good(r)
    if x["goal"] in ECONOMY_GOALS:
        return [{**x, "aim": r.choice([0, 1, 65_535])}]
    at = r.choice([0, x["ta"], x["t"]])
    return [wrapped({**x, "aim": at + r.choice([-1, 0, 1])})]


def around_zero(r):
    """Under each goal, on a cylinder and on a flat wall, the pipe's temperature, the air's or a surface aim at zero and a tenth
    from it: all answered."""
    return [with_temperature(r, goal, flat, name, value) for goal in GOALS for flat in shapes(goal)
            for name in temperatures(goal) for value in (-1, 0, 1)]


def with_temperature(r, goal, flat, name, value):
    """An answered sheet with a temperature of that name and value."""
    while True:
        s, delta = sorted(r.sample(range(1, 400), 2))
        ta = value - direction(goal) * {"t": delta, "ta": 0, "aim": s}[name]
        x = fields(r, goal, flat, ta=ta, t=ta + direction(goal) * delta)
        y = {**x, "aim": value} if name == "aim" else between(r, x, rung(r))
        if y and not isinstance(answer(packed(y)), int):
            return y


def bound(x):
    """The surface bound of an answered sheet."""
    *_, high, low = answer(packed(x))
    return signed(256 * high + low)


def bound_near_zero(r):
    """A surface bound below zero or next to it: both temperatures are moved by as much."""
    while True:
        x = chosen(r, *kind(r, (1, 2, 5, 7)), 10 * r.randint(0, 20))
        by = r.choice([r.randint(-12, 12), r.randint(-499, -1), -499, -5, 0]) - bound(x)
        if -500 <= x["ta"] + by <= 500 and coldest(x["goal"]) <= x["t"] + by <= 6_500:
            return [raised(x, by)]


def last_bounds(r):
    """The lowest bound of a hot line, -49.9, and the lowest and the highest of a cold one, -196.0 and 49.9."""
    k = 10 * r.randint(3, 10)
    made = [chosen(r, 5, r.random() < 0.4, 0, t=-1_960, ta=r.randint(-500, 500))]
    for goals, ta, step in (((2,), -500, 1), (COLD_GOALS, 500, -1)):
        x = None
        while x is None or bound(x) != ta + step:
            x = chosen(r, *kind(r, goals), k, ta=ta, t=ta + step * r.randint(3, 100))
        made.append(x)
    return made


def nitrogen(r):
    """A line at -196.0 degrees or a little above, and the same at -196.1."""
    x = good(r, COLD_GOALS, t=-1_960 + r.choice([0, 1, r.randint(0, 99)]), ta=r.randint(-500, 500))
    return [x, {**x, "t": -1_961}]


def row_edge(r):
    """A pipe at a temperature of the loss table, a tenth below and above, and halfway to the next, for each service."""
    t = 500 * r.randint(1, 13)
    x = good(r, HOT_GOALS, t=t)
    return [{**x, "service": service, "t": v} for service in (1, 2, 3, 4) for v in (t - 1, t, t + 1, t + 250) if v <= 6_500]


def limit_edges(r):
    """For each service and each row where it has a limit, a sheet just within the limit at a temperature from that row on, and
    one just over such a limit."""
    return [side(r, 2, r.random() < 0.4, 40, service=service, t=min(t + r.choice([0, r.randint(1, 498), 499]), last))
            for service, last in ((1, 6_500), (2, 4_499), (3, 6_500), (4, 4_000)) for t in range(500, last + 1, 500)
            for side in (within_loss, over_loss)]


def no_limit(r):
    """No loss limit printed."""
    if r.random() < 0.5:
        service, least = r.choice([(2, 4_500), (4, 4_001)])
        return [good(r, HOT_GOALS, service=service, t=r.randint(least, r.choice([4_500, 6_500])))]
    ta = r.randint(-500, 450)
    return [good(r, HOT_GOALS, ta=ta, t=r.randint(ta + 2, 499))]


def surface_edges(r):
    """Air around 27.0 degrees and at the ends, and bare pipes around the surface limit."""
    made = []
    for ta in (-500, 269, 270, 271, 500, r.randint(-500, 500)):
        t = surface_limit(dict(ta=ta))
        x = chosen(r, *kind(r, (1, 2)), 0, t=t, ta=ta)
        made += [{**x, "t": v} for v in (t - 1, t, t + 1)] + [good(r, HOT_GOALS, t=t + r.randint(1, 300), ta=ta)]
    return made


def too_close(r, goal, flat, k, **fixed):
    """A sheet for which k mm are open, and its neighbours."""
    x = open_at(r, goal, flat, k, **fixed)
    return [y for y in (moved(x, -1), x, moved(x, 1)) if y["goal"] in SURFACE_GOALS or allowed(y)]


def open_small(r):
    """Small pipes, where the figures lie furthest apart."""
    return too_close(r, r.choice(GOALS), False, rung(r), D=r.randint(100, 600))


def open_cylinder(r):
    """Pipes from 100 mm up."""
    return too_close(r, r.choice(GOALS), False, rung(r), D=r.randint(1_000, 10_000))


def open_flat(r):
    """Flat walls, where only roundings lie between the figures."""
    return too_close(r, r.choice(FLAT_GOALS), True, rung(r))


def open_bare(r):
    """Rung 0 open."""
    return too_close(r, *kind(r), 0)


def open_top(r):
    """The last rung open."""
    return too_close(r, *kind(r), 300)


def open_edge(r):
    """The last need that a rung meets, the first and the last that leave it open, the first that it misses."""
    (goal, flat), k = kind(r, (1, 2, 5, 6, 7)), 10 * r.randint(0, 20)
    return [edge(r, goal, flat, k, side, by) for side in (0, 1) for by in (0, 1)]


def exact_root(r):
    """A flat wall under an economy goal whose need is a whole number of nanometres, m times 1,897,000, and just what a rung
    provides; and the heat prices beside its own."""
    while True:
        goal = r.choice([goal for goal in ECONOMY_GOALS if goal in FLAT_GOALS])
        m = r.randint(1, 19 if goal in COLD_GOALS else 60)
        L = 1_897 * m % 10_000
        if 1 <= L <= 2_000:
            t = direction(goal) * 100 * m
            x = fields(r, goal, True, t=t, ta=0, L=L, alpha=10_000, f=100, tau=100 * m, P=L, S=1_000)
            return [{**x, "f": f} for f in (99, 100, 101)]


def exact(r):
    """A flat wall that needs just what a rung provides, a whole number of nanometres: it meets."""
    alpha = r.choice([100, 125, 160, 200, 250, 320, 400, 500, 625, 800, 1_000, 1_250, 1_600, 2_000, 2_500, 4_000, 5_000, 10_000])
    x = level(r, r.choice((2, 3, 4)), 10 * r.randint(1, 30), alpha=alpha)
    return [y for y in (moved(x, -1), x, moved(x, 1)) if allowed(y)]


def loss_too_close(r):
    """A loss check that is too close, which refuses a sheet of goal 6. Under goal 3 bare pipe never meets, since the aim is below t."""
    goal, flat = kind(r, HOT_GOALS)
    return [close_loss(r, goal, flat, 10 * r.randint(1 if goal == 3 else 0, 15))]


def surface_too_close(r):
    """A surface check that is too close."""
    return [close_surface(r, *kind(r, HOT_GOALS), 10 * r.randint(1, 15))]


def limited_checks(r):
    """Sheets of goal 6 that are within the limit, over it and without one, each beside the same under goal 1; and the second pass of
    the one that is over, as a sheet of goal 2."""
    made = [limited(r, r.random() < 0.4, check) for check in (0, 1, 3)]
    return made + [{**x, "goal": 1} for x in made] + [by_loss(made[1], second_aim(made[1]))]


def rise(r, highest):
    """A thickness for the first pass and one for the second, so far apart that the first can be over the limit."""
    k = 10 * r.randint(1, highest // 10)
    return 10 * r.randint(0, (9 * k - 1) // 100), k


def second_borders(r):
    """A rung that the second pass just finds, and one that it just misses."""
    flat = r.random() < 0.4
    return [second_met(r, flat, *rise(r, 300)), second_missed(r, flat, *rise(r, 300))]


def second_too_close(r):
    """An open rung in the second pass."""
    return [second_open(r, r.random() < 0.4, *rise(r, 120))]


def second_last(r):
    """The last rung in the second pass: found, and missed."""
    flat, first = r.random() < 0.4, 10 * r.randint(0, 20)
    return [second_met(r, flat, first, 300), second_missed(r, flat, first, 300)]


def limited_too_close(r):
    """Goal 6 where the loss check of the first pass is too close, and the same under goal 1."""
    x = close_loss(r, LIMITED, r.random() < 0.4, 10 * r.randint(0, 15))
    return [x, {**x, "goal": 1}]


def jacketed_wall(r):
    """A good sheet of goal 7, mostly with the diameter of a flat wall."""
    x = good(r, (JACKETED,))
    return [{**x, "D": r.choice([10_000, 10_001, r.randint(10_001, 65_535)])}]


def jacket_prices(r):
    """A sheet of goal 7, the same with a jacket for nothing, and this under goal 1."""
    x = good(r, (JACKETED,), aim=r.choice([r.randint(30, 300), r.randint(1, 65_535)]))
    return [x, {**x, "aim": 0}, {**x, "aim": 0, "goal": 1}]


def missing_again(r):
    """Goal 7 where the rung above the thickness misses again; and where the one above an open rung does."""
    k = 10 * r.choice([0, 0, 1, 2, 5])
    return [missed_again(r, k, r.choice([None, 150, 200])), open_then_missed(r, k)]


def no_difference(r):
    """Goal 7 with a small difference at a rung, and the same with so much conductivity that the difference there is 0 or hardly less."""
    x, k = None, 10 * r.randint(0, 10)
    while not x:
        x = between(r, fields(r, JACKETED, False, **small_difference(r, k, 50)), 10 * r.randint(k // 10, 30))
    return [x, {**x, "L": min(2_000, up(x["alpha"] * (x["D"] + 20 * k), 200))}]


def several_faults(r):
    """Two or more fields made bad at once."""
    x = good(r)
    bad = int(x["goal"] not in ECONOMY_GOALS)
    faults = [dict(goal=r.choice([0, 8])), dict(service=r.choice([0, 5])), dict(D=r.randint(0, 99)), dict(L=2_001),
              dict(alpha=99), dict(P=bad), dict(f=bad), dict(t=x["ta"]), dict(t=beside_air(x, -1)), dict(t=-1_961),
              dict(D=r.randint(10_001, 65_535)) if x["goal"] == JACKETED else dict(aim=1 - bad)]
    for fault in r.sample(faults, r.randint(2, 3)):
        x.update(fault)
    return [wrapped(x)]


def two_faults(r):
    """Under each goal, each two of the refusals 12 to 16 and 43 that it has, by one fault each."""
    made = []
    for goal in GOALS:
        x = good(r, (goal,))
        unused = "aim" if goal in ECONOMY_GOALS else r.choice(list(PRICES))
        faults = [dict(service=r.choice([0, 5, 255])), r.choice([dict(D=99), dict(L=0), dict(L=2_001), dict(alpha=99)]),
                  dict(D=r.randint(10_001, 65_535)) if goal == JACKETED else {unused: 1 << r.randrange(16)}, dict(t=x["ta"])]
        if goal not in ECONOMY_GOALS:
            faults.append(dict(aim=0 if goal == 2 else x["ta"]))
        made += [{**x, **first, **second} for first, second in combinations(faults, 2)]
    return made


def random_bytes(r):
    """A sheet of bytes at random, mostly under known codes."""
    x = good(r)
    for name in ["line", "D", "t", "ta", "L", "alpha", "f", "tau", "P", "S", "aim"]:
        x[name] = r.randint(0, 65_535)
    return [wrapped(x if r.random() < 0.7 else {**x, "goal": r.randint(0, 255), "service": r.randint(0, 255)})]


KINDS = [(answered, 260), (small_pipe, 80), (border_diameter, 3), (any_aim, 70), (bare, 40), (top, 40), (beyond, 70),
         (unknown_code, 40), (range_edges, 2), (out_of_range, 40), (unused_field, 50), (wrong_side, 30), (other_direction, 20),
         (aim_edge, 60), (around_zero, 1), (bound_near_zero, 70), (last_bounds, 8), (nitrogen, 15), (row_edge, 20),
         (limit_edges, 2), (no_limit, 30), (surface_edges, 4), (open_small, 36), (open_cylinder, 20), (open_flat, 48),
         (open_bare, 16), (open_top, 16), (open_edge, 20), (exact_root, 8), (exact, 15), (loss_too_close, 40),
         (surface_too_close, 40), (limited_checks, 20), (second_borders, 30), (second_too_close, 24), (second_last, 8),
         (limited_too_close, 20), (jacketed_wall, 30), (jacket_prices, 20), (missing_again, 15), (no_difference, 20),
         (several_faults, 50), (two_faults, 2), (random_bytes, 30)]


def sheets():
    """The sheets, each 24 bytes, and last a chunk of 17."""
    r = Random(8_175)
    made = [x for maker, count in KINDS for _ in range(count) for x in maker(r)]
    r.shuffle(made)
    for x in made:
        x["line"] = r.choice([r.randint(0, 65_535), r.randint(0, 65_535), r.choice(LINES)])
    return [*map(packed, [F, G, *made]), packed(good(r))[:17]]


def why(sheet):
    """What a sheet of goal 6 that has no fault owes its result to, as goal 1's answer to the same fields tells."""
    if sheet[0] != LIMITED:
        return ""
    alone = answer(bytes([1]) + sheet[1:])
    if isinstance(alone, int):
        return ", first pass"
    return [", within", ", second pass", ", too close", ", none printed"][alone[4]]


def classes(sheet):
    """The classes of a sheet for the count."""
    result = answer(sheet)
    shape = "cylinder" if 256 * sheet[4] + sheet[5] <= 10_000 else "flat"
    if isinstance(result, int):
        last = [f"refusal {result}, goal {sheet[0]}{why(sheet)}, {shape}"] if result > 16 else []
        return [f"refusal {result}", *last]
    k = 256 * result[2] + result[3]
    bound = signed(256 * result[6] + result[7])
    checks = ["within", "over", "close", "none"]
    again = sheet[0] == JACKETED and MISSES in verdicts(dict(zip(NAMES, unpacked(sheet))))[k // 10:]
    return ["answered", f"goal {sheet[0]}", f"goal {sheet[0]}{why(sheet)}, {shape}", f"service {sheet[1]}", shape,
            *(["goal 7, a rung above misses again"] if again else []),
            f"loss {checks[result[4]]}, {shape}", f"surface {checks[result[5]]}, {shape}",
            f"{k} mm" if k in (0, 10, 290, 300) else "20 to 280 mm",
            f"bound {'below zero' if bound < 0 else 'zero' if bound == 0 else 'above zero'}"]


if __name__ == "__main__":
    chunks = sheets()
    sys.stdout.buffer.write(b"".join(chunks))
    counts = Counter(name for chunk in chunks for name in classes(chunk))
    print(f"{len(chunks)} chunks", *(f"{name}: {counts[name]}" for name in sorted(counts)), sep="\n", file=sys.stderr)
