"""Styles of bars. Each is made from a source of random numbers and gives, call by call, (open, close, high, low).
Every bar has four prices that are plain zero or of magnitude 2^-20 to 2^30, and a low that is at most the high. Prices at or below
zero come in the last five styles only."""
import math

LOWEST, HIGHEST = 2.0**-20, 2.0**30


def allowed(price):
    """Whether it passes question 6. Minus zero does not."""
    return LOWEST <= abs(price) <= HIGHEST or (price == 0.0 and math.copysign(1.0, price) > 0.0)


def body(r, high, low, choices):
    """Open and close: mostly the edges or a tick between, sometimes elsewhere, since nothing ties them to the range."""
    if r.chance(1, 12):
        return r.pick(choices), r.pick(choices)
    ends = [(low, high), (high, low), (low, low), (high, high)]
    return r.pick(ends)


class Walk:
    """A random walk on whole numbers with small bars: ties everywhere."""

    def __init__(self, r):
        self.r, self.at = r, r.between(20, 200)

    def bar(self):
        r = self.r
        self.at = max(5, self.at + r.between(-2, 2))
        high, low = float(self.at + r.below(3)), float(self.at - r.below(3))
        return *body(r, high, low, [high + 1, low, float(self.at)]), high, low


class Five:
    """Prices from five values: equal edges and inclusion abound."""

    def __init__(self, r):
        self.r = r
        base = r.pick([1.0, 10.0, 0.25, 1000.0])
        self.values = [base * k for k in (1, 2, 3, 4, 5)]

    def bar(self):
        r = self.r
        low, high = sorted((r.pick(self.values), r.pick(self.values)))
        return r.pick(self.values), r.pick(self.values), high, low


class Nested:
    """A few bars of movement, then a long nest of bars that hold one another, deeper than the 101 elements kept."""

    def __init__(self, r):
        self.r, self.high, self.low = r, 4000, 3960
        self.left, self.up = 0, True
        self.moving = r.between(2, 9)

    def move(self):
        r = self.r
        step = r.between(-90, 90)
        self.high = min(max(self.high + step, 100), 9000)
        self.low = self.high - r.between(1, 60)
        self.moving -= 1
        if self.moving == 0:
            self.left, self.up = r.between(80, 260), step > 0

    def nest(self):
        r = self.r
        self.left -= 1
        if self.left <= 0:
            self.moving = r.between(2, 12)
        if r.chance(2, 5):
            return self.high, self.low
        if r.chance(1, 2):
            low, high = sorted((r.between(self.low, self.high), r.between(self.low, self.high)))
        else:
            high, low = self.high + r.below(3), self.low - r.below(3)
        pick = max if self.up else min
        self.high, self.low = pick(self.high, high), pick(self.low, low)
        return high, low

    def bar(self):
        if self.moving > 0:
            self.move()
            high, low = self.high, self.low
        else:
            high, low = self.nest()
            self.high, self.low = min(self.high, 9000), max(min(self.low, self.high), 50)
        high, low = max(high, low) / 4.0, min(high, low) / 4.0
        return *body(self.r, high, low, [high, low, 7.0]), high, low


class Zigzag:
    """Long legs up and down: strokes are made, broken by a leg that goes on, and shed."""

    def __init__(self, r):
        self.r, self.at, self.way, self.left = r, r.between(2000, 8000), 1, 5

    def bar(self):
        r = self.r
        if self.left <= 0:
            self.way, self.left = -self.way, r.between(1, 14)
        if self.at < 400:
            self.way, self.left = 1, r.between(4, 14)
        self.left -= 1
        self.at = self.at + self.way * r.between(1, 40) - self.way * (r.between(0, 60) if r.chance(1, 9) else 0)
        width = r.between(1, 30)
        high, low = (self.at + width) / 8.0, max(self.at - width, 8) / 8.0
        high = max(high, low)
        return *body(r, high, low, [high, low, self.at / 8.0 if self.at > 8 else low]), high, low


class Cents:
    """Prices with cents, open and close inside the bar, as they come from a market."""

    def __init__(self, r):
        self.r, self.at = r, r.between(300, 60000)

    def bar(self):
        r = self.r
        start = max(20, self.at + r.between(-15, 15))
        end = max(20, start + r.between(-60, 60))
        high, low = max(start, end) + r.below(25), max(1, min(start, end) - r.below(25))
        self.at = end
        return start / 100.0, end / 100.0, high / 100.0, low / 100.0


class Ends:
    """Prices at both ends of the range, neighbouring floats among them."""

    def __init__(self, r):
        self.r = r
        low, high = [LOWEST], [HIGHEST]
        for _ in range(6):
            low.append(math.nextafter(low[-1], math.inf))
            high.append(math.nextafter(high[-1], 0.0))
        self.values = r.pick([low, high, low[:3] + high[:3], low[:2] + [1.0, 1.5, 2.0] + high[:2]])

    def bar(self):
        r = self.r
        low, high = sorted((r.pick(self.values), r.pick(self.values)))
        return r.pick(self.values), r.pick(self.values), high, low


class Below:
    """Another style upside down: all prices below zero."""

    def __init__(self, r):
        self.other = r.pick([Walk, Five, Nested, Zigzag, Cents])(r)

    def bar(self):
        open_, close, high, low = self.other.bar()
        return -open_, -close, -low, -high


def both_signs(values):
    """The values, which are above zero, and as many below; none of them is zero, whose negative is barred."""
    return [-v for v in values] + values


class At:
    """Plain zero, often, and a few values above it, below it or both: the smallest magnitudes, neighbouring floats among them, and small
    whole numbers. Legs go from one end of the values to the other, so that strokes start and end at zero too."""

    def __init__(self, r):
        smallest = [LOWEST, math.nextafter(LOWEST, math.inf), 2.0 * LOWEST]
        values = r.pick([smallest, [1.0, 2.0, 3.0, 4.0], smallest + [0.01, 1.0, 2.0]])
        values = r.pick([both_signs(values), both_signs(values), values, [-v for v in values]])
        self.r, self.values = r, sorted(values + [0.0] * r.between(1, 3))
        self.place, self.way = r.below(len(self.values)), 1

    def near(self):
        """A narrow bar, a few values on from the one before."""
        r, last = self.r, len(self.values) - 1
        if r.chance(1, 6) or not 0 < self.place < last:
            self.way = r.pick([1, -1]) if 0 < self.place < last else 1 if self.place == 0 else -1
        self.place = min(max(self.place + self.way * r.below(3), 0), last)
        return self.values[max(self.place - r.below(2), 0)], self.values[min(self.place + r.below(2), last)]

    def bar(self):
        r = self.r
        low, high = sorted((r.pick(self.values), r.pick(self.values))) if r.chance(1, 3) else self.near()
        return r.pick(self.values), r.pick(self.values), high, low


class Across:
    """Legs up and down that cross zero time and again, with jumps to the other side. Prices are whole numbers of ticks, so that none is minus zero."""

    def __init__(self, r):
        self.r, self.at, self.way, self.left = r, r.between(-60, 60), r.pick([1, -1]), 5
        self.ticks = r.pick([1.0, 4.0, 8.0, 100.0])

    def move(self):
        r = self.r
        if self.left <= 0:
            self.way, self.left = -self.way, r.between(1, 14)
        if abs(self.at) > 150:
            self.way, self.left = -1 if self.at > 0 else 1, r.between(4, 14)
        self.left -= 1
        self.at += self.way * r.between(0, 16)
        if r.chance(1, 15):
            self.at = -self.at

    def bar(self):
        r = self.r
        self.move()
        high, low = (self.at + r.below(7)) / self.ticks, (self.at - r.below(7)) / self.ticks
        return *body(r, high, low, [high, low, self.at / self.ticks, 0.0]), high, low


class Signed:
    """Prices at the ends of both ranges, below and above zero, neighbouring floats among them."""

    def __init__(self, r):
        self.r = r
        small, large = [LOWEST], [HIGHEST]
        for _ in range(6):
            small.append(math.nextafter(small[-1], math.inf))
            large.append(math.nextafter(large[-1], 0.0))
        self.values = r.pick([[-v for v in small], [-v for v in large], both_signs(small[:3]), both_signs(large[:3]),
                              both_signs(small[:2] + large[:2]), both_signs(small[:1] + large[:2]) + [0.0, -1.0, 1.5]])

    def bar(self):
        r = self.r
        low, high = sorted((r.pick(self.values), r.pick(self.values)))
        return r.pick(self.values), r.pick(self.values), high, low


class Fine:
    """Legs up and down in steps finer than cents, so that each number of places rounds: parts of two, whose multiples lie halfway between two
    numbers of 0 to 6 places, decimals up to the seventh, and any floats. Above zero, or all of it upside down."""

    def __init__(self, r):
        self.r, self.at, self.way, self.left = r, r.between(2000, 8000), r.pick([1, -1]), 5
        self.parts = r.pick([2.0, 4.0, 8.0, 16.0, 32.0, 64.0, 128.0, 1e3, 1e4, 1e5, 1e6, 1e7])
        self.base, self.loose, self.below = r.pick([0.0, 0.0, 1.0, 100.0]), r.chance(1, 3), r.chance(1, 3)

    def price(self, steps):
        off = self.r.unit() if self.loose else 0.0
        return self.base + (max(steps, 16) + off) / self.parts

    def move(self):
        r = self.r
        if self.left <= 0:
            self.way, self.left = -self.way, r.between(1, 14)
        if not 400 <= self.at <= 20000:
            self.way, self.left = 1 if self.at < 400 else -1, r.between(4, 14)
        self.left -= 1
        self.at += self.way * r.between(1, 40)

    def bar(self):
        r = self.r
        self.move()
        low, high = sorted((self.price(self.at + r.between(0, 25)), self.price(self.at - r.between(0, 25))))
        open_, close = body(r, high, low, [high, low, self.price(self.at)])
        return (-open_, -close, -low, -high) if self.below else (open_, close, high, low)


STYLES = {"walk": Walk, "five": Five, "nested": Nested, "zigzag": Zigzag, "cents": Cents, "ends": Ends,
          "below": Below, "at": At, "across": Across, "signed": Signed, "fine": Fine}
