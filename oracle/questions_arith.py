"""Questions on floats: rounding, max, min, abs, sums, slope, acceleration, SNR."""
import math

from rounding_parts import HALFWAY, NEAR, NOT_FINITE, PARTS, WHOLE, part_of
from seeded import bits, of_bits

COUNT = 2000
ZEROS = [0.0, -0.0]
TINY = [of_bits(1), of_bits(2), of_bits(0x000FFFFFFFFFFFFF), of_bits(0x0010000000000000)]
LARGE = [of_bits(0x7FEFFFFFFFFFFFFF), 2.0**1023, 1e308, 9.3e305]
ENDS = [2.0**-20, 2.0**30, of_bits(0x3EB0000000000001), of_bits(0x41CFFFFFFFFFFFFF), of_bits(0x41D0000000000001)]
NANS = [0x7FF8000000000000, 0xFFF8000000000000, 0x7FF0000000000001, 0xFFF0000000000001, 0x7FFFFFFFFFFFFFFF,
        0xFFFFFFFFFFFFFFFF, 0x7FF8000012345678, 0x7FF7FFFFFFFFFFFF]


def around(x):
    """The float, its neighbours, and the same below zero."""
    up, down = math.nextafter(x, math.inf), math.nextafter(x, -math.inf)
    return [x, up, down, -x, -up, -down]


def edges():
    """Where whole rounding turns, and what it must leave alone."""
    values = []
    for x in [0.5, 1.5, 2.5, 1.0, 2.0, 2.0**52, 2.0**52 - 0.5, 2.0**52 - 1.5, 2.0**52 + 1, 2.0**53, 2.0**53 + 2,
              2.0**51, 2.0**51 + 0.5, 2.0**51 + 0.25, 4503599627370497.5, 2.0**63, 2.0**64, 2.0**62]:
        values += around(x)
    values += [s * x for x in TINY + LARGE + ENDS + [0.25, 0.75, 0.125, math.inf] for s in (1, -1)]
    return values + ZEROS


def place_edges():
    """Halves of the last place kept, to 0 up to 6 places, and the marked ones."""
    values = []
    for digits in range(7):
        for k in [0, 1, 2, 12, 100, 12345, 2147483647, 99999999999]:
            values += [(digits, x) for x in around((k + 0.5) / 10.0**digits)]
        values += [(digits, x) for x in [0.125, -0.125, 0.375, 2.675, 1.005, 1e308, 2.0**52, 2.0**1000 * 1.5]]
        values += [(digits, x) for x in edges()[-20:]]
    return values


def price(r):
    """A price as they come: cents, thousandths, or any float of the range."""
    kind = r.below(4)
    if kind == 0:
        return r.between(1, 999999) / 100.0
    if kind == 1:
        return r.between(1, 99999999) / 1000.0
    if kind == 2:
        return min(2.0 ** r.between(-20, 29) * (1.0 + r.unit()), 2.0**30)
    return float(r.between(1, 50))


def value(r):
    kind = r.below(8)
    sign = -1.0 if r.chance(1, 3) else 1.0
    if kind == 0:
        return of_bits(r.word())
    if kind == 1:
        return sign * (r.between(0, 1 << r.between(1, 52)) + 0.5)
    if kind == 2:
        return sign * math.nextafter(r.between(0, 1 << r.between(1, 51)) + 0.5, math.inf if r.chance(1, 2) else 0.0)
    if kind == 3:
        return sign * (r.between(0, 1 << r.between(1, 40)) + 0.5) / 10.0 ** r.between(0, 6)
    if kind == 4:
        return sign * r.unit() * 2.0 ** r.between(-60, 60)
    return sign * price(r)


def of_one(name, fixed, r, count=COUNT):
    lines = [f"{name} {bits(x)}" for x in fixed]
    lines += [f"{name} {n:016x}" for n in NANS]
    while len(lines) < count:
        lines.append(f"{name} {bits(value(r))}")
    return lines


def of_places(r):
    lines = [f"places {digits} {bits(x)}" for digits, x in place_edges()]
    lines += [f"places {n % 7} {nan:016x}" for n, nan in enumerate(NANS)]
    for n in range(COUNT):
        lines.append(f"places {n % 7} {bits(value(r))}")
    return lines


def of_two(name, r):
    special = ZEROS + TINY[:1] + [1.0, -1.0, math.inf, -math.inf, LARGE[0], 2.5, math.nextafter(2.5, 3)]
    words = [bits(x) for x in special] + [f"{n:016x}" for n in NANS]
    lines = [f"{name} {a} {b}" for a in words for b in words]
    while len(lines) < COUNT:
        a = value(r)
        b = a if r.chance(1, 5) else math.nextafter(a, math.inf) if r.chance(1, 5) else value(r)
        a, b = (a, b) if r.chance(1, 2) else (b, a)
        lines.append(f"{name} {bits(a)} {bits(b)}")
    return lines


def steps(r, n):
    """A walk of prices in cents."""
    at, values = r.between(500, 50000), []
    for _ in range(n):
        at = max(1, at + r.between(-80, 80))
        values.append(at / 100.0)
    return values


def numbers(r, n):
    """A list of one of several kinds; mostly prices."""
    kind = r.below(12)
    if kind < 4:
        return steps(r, n)
    if kind < 7:
        return [price(r) for _ in range(n)]
    if kind == 7:
        return [price(r)] * n
    if kind == 8:
        return [value(r) for _ in range(n)]
    if kind == 9:
        return [r.pick(ZEROS + [-0.0, 1.0, -1.0, TINY[0], -TINY[0]]) for _ in range(n)]
    if kind == 10:
        return [r.pick([1.0, -1.0]) * r.pick(LARGE + [price(r)]) for _ in range(n)]
    return [2.0**30 - k * 2.0**-22 if k % 2 else 2.0**-20 for k in range(n)]


def fixed_lists():
    inf, nan = math.inf, of_bits(NANS[0])
    lists = [[-0.0], [0.0], [-0.0, -0.0], [-0.0, 0.0], [0.0, -0.0], [-0.0, 1.0], [1.0, -1.0], [-0.0, 1.0, -1.0],
             [-0.0] * 5, [0.0] * 5, [TINY[0]] * 4, [-TINY[0]] * 3, [LARGE[0]] * 2, [LARGE[0]] * 3, [LARGE[0], -LARGE[0]],
             [LARGE[0], LARGE[0], -LARGE[0]], [1e308, -1e308, 1e308, 1.0], [inf], [inf, 1.0], [inf, -inf], [1.0, -inf, 2.0],
             [nan], [1.0, nan], [nan, 1.0, 2.0, 3.0], [2.0**53, 1.0, 1.0], [1.0, 2.0**53, 1.0], [0.1] * 10, [0.1, 0.2, 0.3],
             [2.0**30] * 7, [2.0**-20] * 7, [2.0**-20, 2.0**30], [2.0**30, 2.0**-20, 2.0**30], [1.0, 2.0], [2.0, 1.0],
             [1.0, 2.0, 4.0], [1.0, 4.0, 9.0, 16.0], [131072.0, 131071.0], [10.0, 10.5, 11.0, 11.5], [5.0] * 12]
    return lists


def of_list(name, r, pairs=False):
    step = 2 if pairs else 1
    lists = [] if name == "mean" else [[]]
    lists += [x for x in fixed_lists() if len(x) % step == 0]
    lists += [x[i:i + 1] * 2 for x in fixed_lists() for i in range(1)] if pairs else []
    lists += [numbers(r, step * n) for n in (100, 101, 250, 300, 400) for _ in (0, 1)]
    while len(lists) < COUNT:
        least = 1 if name == "mean" else 0
        lists.append(numbers(r, step * r.between(least, 9 if pairs else 12)))
    return [" ".join([name] + [bits(x) for x in values]) for values in lists]


def of_part(r, part):
    """A float that may fall to this part of whole rounding."""
    sign, kind = -1.0 if r.chance(1, 2) else 1.0, r.below(4)
    whole = r.between(0, (1 << r.between(1, 52)) - 1)
    if part == NOT_FINITE:
        return of_bits(r.word() | 0x7FF0000000000000)
    if part == WHOLE:
        return sign * (math.ldexp(whole, r.between(0, 970)) if kind == 0 else float(whole))
    if part == HALFWAY:
        return sign * (whole + 0.5)
    if kind == 0:
        return of_bits(r.word() & 0x800FFFFFFFFFFFFF)
    if kind == 1:
        return sign * math.nextafter(whole + 0.5, math.inf if r.chance(1, 2) else 0.0)
    if kind == 2:
        return sign * math.nextafter(float(whole), math.inf if r.chance(1, 2) else 0.0)
    return sign * r.unit() * 2.0 ** r.between(-60, 51)


def of_parts(r, count=1100):
    """For each part of whole rounding, different operands that fall to it, the edges first."""
    for part in PARTS:
        found = dict.fromkeys(bits(x) for x in [of_bits(n) for n in NANS] + edges() if part_of(x) == part)
        while len(found) < count:
            x = of_part(r, part)
            if part_of(x) == part:
                found[bits(x)] = None
        yield from (f"round {word}" for word in found)


def lines(r):
    scaled = [x / 100.0 for x in edges() if abs(x) < 2.0**60] + [0.125, -0.125, 0.375, -0.375, 2.675, 1.005]
    yield from of_one("round", edges(), r)
    yield from of_places(r)
    yield from of_one("round2", scaled + edges(), r)
    yield from of_one("round3", edges() + [x / 1000.0 for x in edges() if abs(x) < 2.0**60], r)
    yield from of_one("round4", edges() + [x / 10000.0 for x in edges() if abs(x) < 2.0**60], r)
    yield from of_two("max", r)
    yield from of_two("min", r)
    yield from of_one("abs", edges(), r)
    for name in ("sum", "mean", "slope", "acceleration"):
        yield from of_list(name, r)
    yield from of_list("snr", r, pairs=True)
    yield from of_parts(r)
