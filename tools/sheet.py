#!/usr/bin/env python3
"""The answer to a sheet by documents 01 and 02, computed by itself: plain, slow and exact, sharing nothing with the crates.

    python3 tools/sheet.py goal service D t ta L alpha f tau P S aim

prints the eight bytes of the answer, or the word refused and the refusal's number. The goals are 1 economy, 2 loss, 3 surface,
4 cold surface, 5 cold economy, 6 economy that respects the loss limit and 7 economy with the price of the jacket, which is its aim,
in yuan/m². t, ta and a surface aim may be negative. A number that its field cannot hold stops the script.

The functions take larger sheets too where they are given their size, 26 bytes.
"""
import sys
from fractions import Fraction
from math import floor, isqrt

YEAR_ROUND = [58, 93, 116, 140, 163, 186, 209, 227, 244, 262, 279, 296, 314]
SEASONAL = [116, 163, 203, 244, 273, 296, 308, 314]
MEETS, MISSES, OPEN = 0, 1, 2
NAMES = "goal service line D t ta L alpha f tau P S aim".split()
STANDARD_SHEET, LARGER_SHEET = 24, 26  # bytes
GOALS, HOT_GOALS, COLD_GOALS = (1, 2, 3, 4, 5, 6, 7), (1, 2, 3, 6, 7), (4, 5)
ECONOMY_GOALS, SURFACE_GOALS = (1, 5, 6, 7), (3, 4)
LIMITED = 6  # economy that respects the loss limit
JACKETED = 7  # economy with the price of the jacket


def up(n, d):
    """n / d rounded up."""
    return -(-n // d)


def have(D, L, alpha, k):
    """Under-have and over-have at k mm."""
    if D > 10_000:
        return k * 10**6 + L * 10**7 // alpha, k * 10**6 + up(L * 10**7, alpha)
    E = D + 20 * k
    under = sum(2 * 10**12 // (2 * i + 1) for i in range(D, E))
    over = sum(up(10**12 * (2 * i + 1), 2 * i * (i + 1)) for i in range(D, E))
    return E * under // 10**7 + 2 * L * 10**7 // alpha, up(E * over, 10**7) + up(2 * L * 10**7, alpha)


def ratio(n, d):
    """Low need and high need of n / d."""
    return n // d, up(n, d)


def root(n, d):
    """Low need and high need of the root of n / d."""
    r = isqrt(n // d)
    return r, r if r * r * d == n else r + 1


def loss_need(heat, loss):
    """Low need and high need at a loss; heat is 2LΔ on a cylinder, LΔ on a flat wall."""
    return ratio(heat * 10**5, loss)


def surface_need(heat, alpha, s):
    """Low need and high need at a surface s from ta; heat as above."""
    return ratio(heat * 10**7, alpha * s)


def judge(h, n):
    return MEETS if h[0] >= n[1] else MISSES if h[1] < n[0] else OPEN


def judge_jacketed(h, E, L, alpha, square, P, S, jacket):
    """The verdict of goal 7 on a rung of outer diameter E: the square of have against the difference times the square of need.

    The difference is 1 - 200L / (αE), and the square of need is square / ((P + 20,000 × jacket / E) × S). Their product is
    square × (αE - 200L) / (α × (PE + 20,000 × jacket) × S): E cancels."""
    n, d = square * (alpha * E - 200 * L), alpha * (P * E + 20_000 * jacket) * S
    if alpha * E <= 200 * L or h[1]**2 * d < n:
        return MISSES
    return MEETS if h[0]**2 * d >= n else OPEN


def loss_limit(service, t):
    """The limit in tenths of W/m², or None. Services 1 and 2 keep the row below, 3 and 4 read a straight line between two rows."""
    column = YEAR_ROUND if service in (1, 3) else SEASONAL
    row, beyond = t // 500 - 1, t % 500
    if not 0 <= row < len(column):
        return None
    if service in (1, 2) or beyond == 0:
        return 10 * column[row]
    if row + 1 == len(column):
        return None
    return floor(10 * (column[row] + Fraction(beyond, 500) * (column[row + 1] - column[row])))


def signed(x):
    return x - 65_536 if x >= 32_768 else x


def is_signed(name, goal):
    """Whether a field of a sheet is signed."""
    return name in ("t", "ta") or name == "aim" and goal in SURFACE_GOALS


def direction(goal):
    """1 where heat flows outward, -1 where it flows inward, as on a cold line: temperatures are counted from ta that way."""
    return -1 if goal in COLD_GOALS else 1


def encoded(name, value, size=2, negative=False):
    """The bytes of a field, unsigned or, where it may be negative, signed. A value that they cannot hold stops the script."""
    low = -(256**size // 2) if negative else 0
    high = low + 256**size - 1
    if not isinstance(value, int) or not low <= value <= high:
        sys.exit(f"{name} is {value:,}, but its field holds the whole numbers {low:,} to {high:,}")
    return value.to_bytes(size, "big", signed=negative)


def places(size):
    """Where each field of a sheet of that size begins and ends, in the order of their names. Document 01 has the table for 24 bytes: what
    a sheet has beyond them goes to the line number, and every later field stands as much further on."""
    shift = size - STANDARD_SHEET
    begins = [0, 1, 2, *range(4 + shift, 25 + shift, 2)]
    return list(zip(begins, begins[1:]))


def unpacked(sheet):
    """The fields of a sheet's bytes, in the order of their names."""
    values = [int.from_bytes(sheet[begin:end], "big") for begin, end in places(len(sheet))]
    return [signed(value) if is_signed(name, sheet[0]) else value for name, value in zip(NAMES, values)]


def fault(sheet, size):
    """The first of the refusals 11 to 16 and 43 that holds, or None; a sheet is to have that size."""
    if len(sheet) != size:
        return 11
    goal, service, _, D, t, ta, L, alpha, f, tau, P, S, aim = unpacked(sheet)
    if goal not in GOALS or service not in (1, 2, 3, 4):
        return 12
    coldest = -1_960 if goal in COLD_GOALS else -500
    within = D >= 100 and coldest <= t <= 6_500 and -500 <= ta <= 500 and 1 <= L <= 2_000 and 100 <= alpha <= 10_000
    if goal in ECONOMY_GOALS:
        within = within and f >= 1 and 1 <= tau <= 8_784 and P >= 1 and 1 <= S <= 10_000
    if not within:
        return 13
    unused = [] if goal == JACKETED else [aim] if goal in ECONOMY_GOALS else [f, tau, P, S]
    if any(unused):
        return 14
    delta, s = direction(goal) * (t - ta), direction(goal) * (aim - ta)
    if delta <= 0:
        return 15
    if goal == 2 and aim == 0 or goal in SURFACE_GOALS and not 0 < s < delta:
        return 16
    if goal == JACKETED and D > 10_000:
        return 43
    return None


def search(D, L, alpha, judged):
    """The first thickness that doesn't miss, with its have, if it meets; or the refusal's number. A rung is judged by its thickness and
    its have."""
    for k in range(0, 301, 10):
        h = have(D, L, alpha, k)
        verdict = judged(k, h)
        if verdict != MISSES:
            return (k, h) if verdict == MEETS else 18
    return 17


def against(need):
    """The judging of rungs that all have the same need."""
    return lambda k, h: judge(h, need)


def first_pass(sheet):
    """How the sheet's rungs are judged; of goal 6 in the first pass."""
    goal, _, _, D, t, ta, L, alpha, f, tau, P, S, aim = unpacked(sheet)
    n = 2 if D <= 10_000 else 1
    delta, s = direction(goal) * (t - ta), direction(goal) * (aim - ta)
    if goal in ECONOMY_GOALS:
        square = (14_402_025_000 if n == 2 else 3_598_609_000) * f * L * tau * delta
        if goal == JACKETED:
            return lambda k, h: judge_jacketed(h, D + 20 * k, L, alpha, square, P, S, aim)
        return against(root(square, P * S))
    heat = n * L * delta
    return against(loss_need(heat, aim) if goal == 2 else surface_need(heat, alpha, s))


def answer(sheet, size=STANDARD_SHEET):
    """The refusal's number, or the eight bytes; a sheet is to have that size."""
    refused = fault(sheet, size)
    if refused:
        return refused
    goal, service, _, D, t, ta, L, alpha, *_ = unpacked(sheet)
    way = direction(goal)
    delta = way * (t - ta)
    n = 2 if D <= 10_000 else 1
    heat = n * L * delta
    found = search(D, L, alpha, first_pass(sheet))

    second, limit = 0, loss_limit(service, t) if goal in HOT_GOALS else None
    if goal == LIMITED and limit is not None and not isinstance(found, int):
        check = judge(found[1], loss_need(heat, limit))
        if check == OPEN:
            return 18
        if check == MISSES:
            second, found = 1, search(D, L, alpha, against(loss_need(heat, limit * 90 // 100)))
    if isinstance(found, int):
        return found

    k, h = found
    loss, surface = 3 if limit is None else judge(h, loss_need(heat, limit)), MEETS
    if goal in HOT_GOALS:
        highest = 500 if ta <= 270 else ta + 250
        surface = MEETS if t <= highest else judge(h, surface_need(heat, alpha, highest - ta))
    bound = ta + way * min(delta, up(heat * 10**7, alpha * h[0]))
    return [second, 3 - n, *encoded("thickness", k), loss, surface, *encoded("surface bound", bound, negative=True)]


def sheet_of(line=0, size=STANDARD_SHEET, **fields):
    """The bytes of a sheet of that size, from its fields by their names."""
    x = {"line": line, **fields}
    wrong = sorted(x.keys() ^ set(NAMES))
    if wrong:
        sys.exit(f"{wrong[0]} is {'not given' if wrong[0] in NAMES else 'no field of a sheet'}")
    return b"".join(encoded(name, x[name], end - begin, is_signed(name, x["goal"])) for name, (begin, end) in zip(NAMES, places(size)))


def said(result):
    """A line for the number of a refusal, or for bytes."""
    return f"refused {result}" if isinstance(result, int) else " ".join(map(str, result))


def whole(name, text):
    """The whole number that a text says."""
    try:
        return int(text)
    except ValueError:
        sys.exit(f"{name} is {text}, but its field holds whole numbers")


if __name__ == "__main__":
    if len(sys.argv) != 13:
        sys.exit(__doc__.strip())
    given = zip((name for name in NAMES if name != "line"), sys.argv[1:])
    print(said(answer(sheet_of(**{name: whole(name, text) for name, text in given}))))
