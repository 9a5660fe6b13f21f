"""Questions on bars: remove_include, check_fx and check_gap_info. Times rise in each line, and each bar passes
questions 5 to 8 of document 01."""
import math

from asking import bar
from styles import HIGHEST, LOWEST, allowed, both_signs

COUNT = 2000
# remove_include and gaps with prices at and below zero
MORE_MERGES, MORE_GAPS = 300, 400


def ranges(values):
    return [(high, low) for high in values for low in values if low <= high]


def triples(values):
    """Every three ranges with edges from these values."""
    all_ranges = ranges(values)
    return [[a, b, c] for a in all_ranges for b in all_ranges for c in all_ranges]


def close_to(x):
    return [x, math.nextafter(x, math.inf), math.nextafter(x, 0.0)]


def edges(r):
    """A handful of values that the edges of one line are drawn from, so that ties are common."""
    kind = r.below(6)
    if kind == 0:
        return [float(k) for k in range(1, 6)]
    if kind == 1:
        return [r.between(1, 200000) / 100.0 for _ in range(4)]
    if kind == 2:
        return close_to(r.between(1, 5000) / 100.0)
    if kind == 3:
        return [LOWEST, math.nextafter(LOWEST, 1.0), 1.0, math.nextafter(HIGHEST, 0.0), HIGHEST]
    if kind == 4:
        at = r.between(1000, 20000)
        return [(at + k) / 100.0 for k in range(0, 60, 7)]
    return [2.0 ** r.between(-19, 29) * (1.0 + r.unit()) for _ in range(3)]


def written(r, list_of_ranges):
    """The ranges as bars: rising times, open and close anywhere in the range or at its edges."""
    time, out = r.pick([-7, 0, 100, 1600000000]), []
    for high, low in list_of_ranges:
        time += r.between(1, 3)
        middle = low + (high - low) * 0.5
        spots = [high, low, high, low, middle if allowed(middle) else low]
        volumes = [0.0, 1.0, 0.1, 2.0**50, r.between(0, 99999) / 100.0]
        out.append(bar(time, high, low, r.pick(spots), r.pick(spots), r.pick(volumes), r.pick(volumes), r.between(-9, 999)))
    return " ".join(out)


def some(r, count):
    values = edges(r)
    return [r.pick(ranges(values)) for _ in range(count)]


def of_three(name, r):
    lists = triples([1.0, 2.0, 3.0, 4.0])
    lists += [some(r, 3) for _ in range(COUNT - len(lists))]
    return [f"{name} {written(r, x)}" for x in lists]


def stairs(r, count):
    """Bars that jump, in cents, so that there are gaps whose ratio wants rounding."""
    at, out = r.between(500, 9000), []
    for _ in range(count):
        at = max(30, at + r.between(-60, 60))
        out.append(((at + r.below(12)) / 100.0, (at - r.below(12)) / 100.0))
    return out


def of_gaps(r):
    lists = triples([1.0, 2.0, 4.0])
    while len(lists) < COUNT - 10:
        count = r.between(2, 5)
        lists.append(stairs(r, count) if r.chance(1, 2) else some(r, count))
    lists += [some(r, 1) for _ in range(9)]
    return ["gaps"] + [f"gaps {written(r, x)}" for x in lists]


def signed_edges(r):
    """A handful of values at, below and on both sides of zero."""
    kind = r.below(6)
    if kind == 0:
        return [float(k) for k in range(-2, 3)]
    if kind == 1:
        return both_signs(close_to(math.nextafter(LOWEST, 1.0))) + [0.0, 0.0]
    if kind == 2:
        return [-r.between(1, 200000) / 100.0 for _ in range(4)]
    if kind == 3:
        return both_signs([LOWEST, math.nextafter(HIGHEST, 0.0), HIGHEST]) + [0.0]
    if kind == 4:
        return [r.between(-3, 3) * r.pick([0.01, 0.25, 1.0]) for _ in range(4)] + [0.0]
    return [r.pick([1.0, -1.0]) * 2.0 ** r.between(-19, 29) * (1.0 + r.unit()) for _ in range(4)]


def some_signed(r, count):
    values = signed_edges(r)
    return [r.pick(ranges(values)) for _ in range(count)]


def signed_stairs(r, count):
    """Bars that jump, in cents, on both sides of zero: gaps with and without a ratio."""
    at, out = r.between(-60, 60), []
    for _ in range(count):
        at += r.between(-60, 60)
        out.append(((at + r.below(6)) / 100.0, (at - r.below(6)) / 100.0))
    return out


def signed(r):
    """Request three: remove_include and gaps with prices at and below zero."""
    merges = triples([-1.0, 0.0, 1.0])
    merges += [some_signed(r, 3) for _ in range(MORE_MERGES - len(merges))]
    yield from [f"remove_include {written(r, x)}" for x in merges]
    gaps = triples([-1.0, 0.0, 2.0])
    while len(gaps) < MORE_GAPS:
        count = r.between(2, 5)
        gaps.append(signed_stairs(r, count) if r.chance(1, 2) else some_signed(r, count))
    yield from [f"gaps {written(r, x)}" for x in gaps]


def lines(r):
    yield from of_three("remove_include", r)
    yield from of_three("check_fx", r)
    yield from of_gaps(r)
    yield from signed(r)
