"""The reports, block by block."""
import math

from model_rules import check_fxs, stroke_high, stroke_low
from model_text import fractal, way, words


def whole(x):
    """Halves away from zero; the sign stays on zero."""
    if abs(x) >= 2.0**52:
        return x
    low = math.floor(abs(x))
    return math.copysign(float(low + (abs(x) - low >= 0.5)), x)


SCALES = (1.0, 10.0, 100.0, 1000.0, 10000.0, 100000.0, 1000000.0)


def places(x, n):
    """Rounded to n decimal places."""
    return whole(x * SCALES[n]) / SCALES[n]


def total(values):
    sum_ = values[0]
    for v in values[1:]:
        sum_ = sum_ + v
    return sum_


def snr(inner):
    if len(inner) == 1:
        return abs(inner[0].close - inner[0].open)
    moved = 0.0
    for b in inner:
        moved = moved + abs(b.close - b.open)
    return 0.0 if moved == 0.0 else abs(inner[-1].close - inner[0].open) / moved


def slope(closes):
    if len(closes) < 2:
        return 0.0
    n = float(len(closes))
    middle, mean = (n - 1.0) / 2.0, total(closes) / n
    above = total([(i - middle) * (y - mean) for i, y in enumerate(closes)])
    return above / total([(i - middle) * (i - middle) for i in range(len(closes))])


def acceleration(closes):
    if len(closes) < 3:
        return 0.0
    n = float(len(closes))
    x4 = x3 = x2 = x1 = x2y = xy = y0 = 0.0
    for i, y in enumerate(closes):
        x = float(i)
        x4, x3, x2, x1 = x4 + x * x * x * x, x3 + x * x * x, x2 + x * x, x1 + x
        x2y, xy, y0 = x2y + x * x * y, xy + x * y, y0 + y
    a, b, c = x2 * n - x1 * x1, x3 * n - x1 * x2, x3 * x1 - x2 * x2
    return (x2y * a - xy * b + y0 * c) / (x4 * a - x3 * b + x2 * c)


def change(s, ratio_places):
    """From start to end, by the start; 0.0 for a start of zero."""
    if s.start.fx == 0.0:
        return 0.0
    return places((s.end.fx - s.start.fx) / s.start.fx, ratio_places)


def measure(a, s, named):
    """A stroke's numbers by the analyzer's places, then its inner bars and its fake strokes."""
    inner = [named[t] for b in s.bars[1:-1] for t in b.elements]
    closes = [b.close for b in inner]
    numbers = [stroke_high(s), stroke_low(s), places(abs(s.end.fx - s.start.fx), a.power),
               total([b.vol for b in s.bars[1:-1]]), snr(inner), places(snr(inner), a.ratio),
               change(s, a.ratio), slope(closes), acceleration(closes)]
    yield words("measure", *numbers, len(s.bars), len(inner))
    yield words("inner", *(b.time for b in inner))
    for x, y in fake_pairs(s.fractals):
        high, low = (x.high, y.low) if x.top else (y.high, x.low)
        yield words("fake", way(not x.top), x.time, y.time, high, low, places(high - low, a.power))


def fake_pairs(fractals):
    even = fractals[:len(fractals) // 2 * 2]
    return zip(even, even[1:])


def fractal_list(strokes, unfinished):
    found = []
    for x in [x for s in strokes for x in s.fractals[1:]] + unfinished:
        if not found or x.time > found[-1].time:
            found.append(x)
    return found


def zone_edges(strokes):
    zg = min(stroke_high(s) for s in strokes[:3])
    zd = max(stroke_low(s) for s in strokes[:3])
    return zg, zd


def get_zs_seq(strokes):
    zones = []
    for s in strokes:
        if zones:
            zg, zd = zone_edges(zones[-1])
            if not (stroke_high(s) < zd if s.up else stroke_low(s) > zg):
                zones[-1].append(s)
                continue
        zones.append([s])
    return zones


def is_valid(strokes):
    zg, zd = zone_edges(strokes)

    def touches(s):
        high, low = stroke_high(s), stroke_low(s)
        return zd <= high <= zg or zd <= low <= zg or (high >= zg and low <= zd)

    return zg >= zd and all(touches(s) for s in strokes)


def zones(prefix, strokes):
    for z in get_zs_seq(strokes):
        zg, zd = zone_edges(z)
        gg, dd = max(stroke_high(s) for s in z), min(stroke_low(s) for s in z)
        ends = [z[0].start.time, z[-1].end.time, way(z[0].up), way(z[-1].up)]
        yield words(prefix + "zone", *ends, zg, zd, zd + (zg - zd) * 0.5, gg, dd, is_valid(z), len(z))
        for s in z:
            yield words(prefix + "zs", way(s.up), stroke_high(s), stroke_low(s), s.start.time, s.end.time)


def run_answers(run):
    """is_bis_up and is_bis_down."""
    in_order = all(a.end.time < b.end.time for a, b in zip(run, run[1:]))
    if len(run) < 3 or len(run) % 2 == 0 or not in_order:
        return False, False
    high, low = max(stroke_high(s) for s in run), min(stroke_low(s) for s in run)
    up = run[-1].up and stroke_high(run[-1]) == high and stroke_low(run[0]) == low
    down = not run[-1].up and stroke_high(run[0]) == high and stroke_low(run[-1]) == low
    return up, down


def runs(strokes):
    for first in range(len(strokes) + 1):
        for n in range(min(7, len(strokes) - first) + 1):
            yield words("bis", first, n, *run_answers(strokes[first:first + n]))


def answers(x):
    k1, k2, k3 = x.bars
    if x.top:
        steps = k3.close < k1.low, k3.close < k2.low
    else:
        steps = k3.close > k1.high, k3.close > k2.high
    strength = "strong" if steps[0] else "medium" if steps[1] else "weak"
    overlap = min(b.high for b in x.bars) >= max(b.low for b in x.bars)
    return words("answers", strength, total([b.vol for b in x.bars]), overlap)


def extended(a):
    if not a.strokes or not a.unfinished:
        return False
    last = a.strokes[-1]
    if last.up:
        return max(b.high for b in a.unfinished) > stroke_high(last)
    return min(b.low for b in a.unfinished) < stroke_low(last)


def unfinished_summary(a, fractals, named):
    if not a.strokes or not a.unfinished or not fractals:
        return "unfinished no"
    bars = [named[t] for m in a.unfinished for t in m.elements if t in named]
    high, low = max(b.high for b in bars), min(b.low for b in bars)
    high_time = [b.time for b in bars if b.high == high][-1]
    low_time = [b.time for b in bars if b.low == low][0]
    counts = [len(a.unfinished), len(a.raw), len(fractals)]
    return words("unfinished", way(not a.strokes[-1].up), high, low, high_time, low_time, *counts, fractals[0].time)


def gaps(raw, ratio_places):
    def ratio(low, high):
        """A gap's size by its lower edge, or the word none where that edge is zero or less: no ratio there."""
        return places(high / low - 1.0, ratio_places) if low > 0.0 else "none"

    for n, (a, b) in enumerate(zip(raw, raw[1:])):
        rest = raw[n + 1:]
        if a.high < b.low:
            yield words("gap up", a.high, b.low, ratio(a.high, b.low), any(x.low < a.high for x in rest))
        elif a.low > b.high:
            yield words("gap down", b.high, a.low, ratio(b.high, a.low), any(x.high > a.low for x in rest))
        else:
            yield "gap none"


def reports(a):
    named = {b.time: b for b in a.raw}
    unfinished = check_fxs(a.unfinished)
    finished = a.strokes[:-1] if len(a.unfinished) < 5 else a.strokes
    lines = [line for s in a.strokes for line in measure(a, s, named)]
    lines += ["fxs " + fractal(x) for x in fractal_list(a.strokes, unfinished)]
    lines += [words("finished", len(finished)), words("extend", extended(a))]
    lines += [*zones("", a.strokes), *zones("fin-", finished), *runs(a.strokes)]
    lines += [answers(x) for s in a.strokes for x in s.fractals] + [answers(x) for x in unfinished]
    lines += ["ubifx " + fractal(x) for x in unfinished]
    return lines + [unfinished_summary(a, unfinished, named), *gaps(a.raw, a.ratio), "end"]
