"""Merging, fractals, strokes and feed, in the order of document 01."""
from collections import namedtuple

Bar = namedtuple("Bar", "time id open close high low vol amount")
# A merged bar: the same, and the times of its elements.
Merged = namedtuple("Merged", Bar._fields + ("elements",))
Stroke = namedtuple("Stroke", "up start end fractals bars")


class Refused(Exception):
    def __init__(self, number):
        self.number = number


class Fractal:
    """Three merged bars; time, high and low are the middle one's."""

    def __init__(self, top, bars):
        self.top, self.bars = top, bars
        self.time, self.high, self.low = bars[1].time, bars[1].high, bars[1].low
        self.fx = self.high if top else self.low


def price_allowed(p):
    """Question 6: zero, but not minus zero, or of magnitude 2^-20 to 2^30."""
    return str(p) == "0.0" or 2.0**-20 <= abs(p) <= 2.0**30


def alone(bar):
    return Merged(*bar, (bar.time,))


def holds(a, b):
    return a.high >= b.high and a.low <= b.low


def remove_include(k1, k2, k3):
    """The bars that take k2's place."""
    if k1.high == k2.high or not (holds(k2, k3) or holds(k3, k2)):
        return [k2, alone(k3)]
    if k1.high < k2.high:
        high, low = max(k2.high, k3.high), max(k2.low, k3.low)
        time = k2.time if k2.high > k3.high else k3.time
    else:
        high, low = min(k2.high, k3.high), min(k2.low, k3.low)
        time = k2.time if k2.low < k3.low else k3.time
    open_, close = (high, low) if k3.open > k3.close else (low, high)
    elements = k2.elements[:100] + (k3.time,)
    return [Merged(time, k2.id, open_, close, high, low, k2.vol + k3.vol, k2.amount + k3.amount, elements)]


def merge(unfinished, bar):
    if len(unfinished) < 2:
        return unfinished + [alone(bar)]
    return unfinished[:-1] + remove_include(unfinished[-2], unfinished[-1], bar)


def check_fx(k1, k2, k3):
    if all(k2.high > k.high and k2.low > k.low for k in (k1, k3)):
        return Fractal(True, (k1, k2, k3))
    if all(k2.high < k.high and k2.low < k.low for k in (k1, k3)):
        return Fractal(False, (k1, k2, k3))
    return None


def check_fxs(bars):
    found = []
    for window in zip(bars, bars[1:], bars[2:]):
        fractal = check_fx(*window)
        if fractal and not (found and found[-1].top == fractal.top):
            found.append(fractal)
    return found


def beyond(a, b):
    """a more extreme than b, both of one mark."""
    return a.fx > b.fx if a.top else a.fx < b.fx


def end_of(start, fractals):
    """The first most extreme candidate, or None."""
    best = None
    for x in fractals:
        farther = x.fx < start.fx if start.top else x.fx > start.fx
        if x.top != start.top and x.time > start.time and farther and (best is None or beyond(x, best)):
            best = x
    return best


def strictly_holds(a, b):
    return a.high > b.high and a.low < b.low


def check_bi(bars, least):
    """The stroke, if one is made, and the unfinished bars that remain."""
    fractals = check_fxs(bars)
    end = end_of(fractals[0], fractals) if fractals else None
    if end is None:
        return None, bars
    start = fractals[0]
    first, last = bars.index(start.bars[0]), bars.index(end.bars[2])
    own = bars[first:last + 1]
    if len(own) < least or strictly_holds(start, end) or strictly_holds(end, start):
        return None, bars
    inside = [x for x in fractals if own[0].time <= x.time <= own[-1].time]
    return Stroke(not start.top, start, end, inside, own), bars[bars.index(end.bars[0]):]


def stroke_high(s):
    return max(s.start.high, s.end.high)


def stroke_low(s):
    return min(s.start.low, s.end.low)


def cut(bars, fractals):
    """From the first bar of the most extreme fractal of the first one's mark, the last if tied."""
    best = fractals[0]
    for x in fractals:
        if x.top == best.top and not beyond(best, x):
            best = x
    return [b for b in bars if b.time >= best.bars[0].time]


def breaks(stroke, bar):
    return bar.high > stroke_high(stroke) if stroke.up else bar.low < stroke_low(stroke)


class Analyzer:
    def __init__(self, least, most, power, ratio, raw_room, unfinished_room, stroke_room):
        self.least, self.most = least, most
        # decimal places of powers and of ratios
        self.power, self.ratio = power, ratio
        self.raw_room, self.unfinished_room, self.stroke_room = raw_room, unfinished_room, stroke_room
        self.raw, self.unfinished, self.strokes = [], [], []

    def ask_sound(self):
        """Question 4. From fresh only this clause can fail: the settings, places among them, were asked by 1, 2 and 17, and no call changes them."""
        if self.raw and self.unfinished[-1].elements[-1] != self.raw[-1].time:
            raise Refused(4)

    def ask_bar(self, bar):
        prices = (bar.open, bar.close, bar.high, bar.low)
        checks = [(5, -2**40 <= bar.time <= 2**40),
                  (6, all(price_allowed(p) for p in prices)),
                  (7, all(0 <= q <= 2.0**50 and str(q)[0] != "-" for q in (bar.vol, bar.amount))),
                  (8, bar.low <= bar.high),
                  (9, not self.raw or bar.time >= self.raw[-1].time),
                  (10, not self.later(bar) or len(self.raw) < self.raw_room)]
        for number, passed in checks:
            if not passed:
                raise Refused(number)

    def later(self, bar):
        return not self.raw or bar.time > self.raw[-1].time

    def after_merging(self, bar):
        """Raw and unfinished bars with the new bar in."""
        if self.later(bar):
            return self.raw + [bar], merge(self.unfinished, bar)
        raw, unfinished = self.raw[:-1] + [bar], self.unfinished[:-1]
        named = {b.time: b for b in raw}
        for time in self.unfinished[-1].elements:
            unfinished = merge(unfinished, named[time])
        return raw, unfinished

    def find(self, unfinished):
        """The strokes with one more if one is made, and the unfinished bars that remain."""
        if not self.strokes:
            fractals = check_fxs(unfinished)
            if not fractals:
                return self.strokes, unfinished
            unfinished = cut(unfinished, fractals)
        stroke, rest = check_bi(unfinished, self.least)
        return self.strokes + ([stroke] if stroke else []), rest

    def step(self, merged):
        """Strokes with the one just found, strokes after the break test, unfinished bars."""
        if len(merged) < 3:
            return self.strokes, self.strokes, merged
        found, unfinished = self.find(merged)
        if not self.strokes or not breaks(found[-1], unfinished[-1]):
            return found, found, unfinished
        joint = found[-1].bars[-2].time
        return found, found[:-1], found[-1].bars[:-2] + [b for b in unfinished if b.time >= joint]

    def feed(self, bar):
        """Made, broken, shed."""
        self.ask_sound()
        self.ask_bar(bar)
        raw, merged = self.after_merging(bar)
        found, kept, unfinished = self.step(merged)
        if max(len(merged), len(unfinished)) > self.unfinished_room:
            raise Refused(11)
        if sum(len(s.bars) for s in found) > self.stroke_room:
            raise Refused(12)
        made, broken = len(found) > len(self.strokes), len(kept) < len(found)
        shed = len(kept) > self.most
        self.strokes, self.unfinished = kept[shed:], unfinished
        first = self.strokes[0].bars[0].time if self.strokes else raw[0].time
        self.raw = [b for b in raw if b.time >= first]
        return made, broken, shed
