"""Calls at the edges of questions 1, 2, 17, 3 and 5 to 9, each number by itself and several at once."""
import math

from asking import bar
from seeded import bits

EDGE = 1 << 40
NAN = math.nan
UP = math.inf
GOOD = dict(time=10, high=12.0, low=9.0, open_=10.0, close=11.0, vol=1.0, amount=1.0, id_=1)
# from end to end, so that any one price can be moved without failing question 8
WIDE = {**GOOD, "high": 2.0**30, "low": -2.0**30}


def settings():
    lines = ["b " + bar(1, 2.0, 1.0), "d", "r"]
    lines += [f"n {a} {b} 64 64 64" for a in (0, 1, 64, 65, 1000) for b in (0, 1, 64, 65, 1000)]
    for n in (0, 15, 16, 64, 65537, 1000000):
        lines += [f"n 6 50 {n} 64 64", f"n 6 50 64 {n} 64", f"n 6 50 64 64 {n}"]
    return lines + ["n 65 65 15 15 15", "n 64 65 15 15 15", "n 64 64 15 15 15"]


def changed(**fields):
    return "b " + bar(**{**GOOD, **fields})


def prices():
    """Each price at each end, just inside and just outside; low and high are moved together where both must pass."""
    low, high = 2.0**-20, 2.0**30
    values = [low, math.nextafter(low, 0.0), math.nextafter(low, 1.0), high, math.nextafter(high, UP),
              math.nextafter(high, 0.0), 0.0, -0.0, -1.0, UP, -UP, NAN, 5e-324]
    for v in values:
        yield changed(open_=v)
        yield changed(close=v)
        yield changed(high=v)
        yield changed(low=v)
        yield changed(high=v, low=v)


def around(x):
    """A value above zero with both of its neighbours, then the same below zero."""
    three = [x, math.nextafter(x, 0.0), math.nextafter(x, UP)]
    return three + [-v for v in three]


def zero():
    """Request three: each price alone, then high and low together, at both ends of both ranges, just inside and just outside, at zero
    and at what is no price. Then low and high on the two sides of zero."""
    yield "n 6 50 64 64 64"
    values = [0.0, -0.0] + around(2.0**-20) + [2.0**-21, -2.0**-21] + around(2.0**30) + [2.0**31, -2.0**31, NAN, UP, -UP, 5e-324, -5e-324, -1.0]
    for v in values:
        for moved in (dict(open_=v), dict(close=v), dict(high=v), dict(low=v), dict(high=v, low=v)):
            yield "b " + bar(**{**WIDE, **moved})
    small = 2.0**-20
    for high, low in ((0.0, 0.0), (0.0, small), (0.0, -small), (-small, 0.0), (small, 0.0), (-small, small), (small, -small), (-1.0, -2.0),
                      (-2.0, -1.0), (-0.0, 1.0), (1.0, -0.0)):
        yield changed(high=high, low=low)
    yield from [changed(time=11, high=0.0, low=-1.0, open_=-1.0, close=0.0), changed(time=12, high=-3.0, low=-4.0, open_=-3.0, close=-4.0), "d", "r"]


def quantities():
    most = 2.0**50
    for v in [0.0, -0.0, 5e-324, -5e-324, most, math.nextafter(most, UP), math.nextafter(most, 0.0), UP, -UP, NAN, -1.0]:
        yield changed(vol=v)
        yield changed(amount=v)


def first_lines():
    yield from settings()
    yield "n 6 50 64 64 64"
    yield from [changed(time=t) for t in (-EDGE - 1, EDGE + 1, -(1 << 63), (1 << 63) - 1, -EDGE, -EDGE, 0, 10)]
    yield from prices()
    yield from quantities()
    yield from [changed(high=9.0), changed(high=8.0), changed(high=math.nextafter(9.0, 0.0)), changed(high=math.nextafter(9.0, UP))]
    yield from [changed(time=9), changed(time=11), changed(time=10), changed(time=-EDGE)]
    yield from [changed(time=EDGE + 1, high=0.0, vol=-1.0), changed(time=9, high=0.0, vol=-1.0), changed(time=9, high=1.0, vol=-1.0),
                changed(time=9, high=1.0), changed(time=9), changed(time=EDGE, high=1.0), changed(time=EDGE), changed(time=EDGE)]
    yield from ["d", "r", "n 6 50 15 64 64", "d", "x", "b", "n 6 50 64 64", "b 11 1 " + " ".join([bits(10.0)] * 5), "d d", " d", "D"]
    yield from ["b 11 1 " + " ".join([bits(10.0).upper().replace("4", "A")] * 6), "b 11.5 1 " + " ".join([bits(10.0)] * 6)]


def placed(power, ratio, least=6, most=50, stores=(64, 64, 64)):
    return f"N {least} {most} {power} {ratio} {' '.join(map(str, stores))}"


def order():
    """Several of 1, 2, 17 and 3 fail at once: the first in this order is answered."""
    pairs = ((7, 4), (2, 7), (7, 7))
    for power, ratio in pairs:
        for least, most in ((65, 50), (6, 65), (65, 65), (64, 64), (0, 0)):
            yield placed(power, ratio, least, most)
            yield placed(power, ratio, least, most, (15, 15, 15))
        for n in (15, 65537):
            yield from [placed(power, ratio, stores=s) for s in ((n, 64, 64), (64, n, 64), (64, 64, n))]
    for n in (15, 65537):
        yield from [placed(6, 6, stores=s) for s in ((n, 64, 64), (64, n, 64), (64, 64, n))]
    yield from [placed(6, 6, 65, 65, (15, 15, 15)), placed(6, 6, 64, 65, (15, 15, 15)), placed(6, 6, 64, 64, (15, 15, 15))]


def no_places():
    """Lines that begin with N and are no calls."""
    good = placed(2, 4).split(" ")
    yield from ["N", " ".join(good[:-2]), " ".join(good[:-1]), " ".join(good + ["64"]), " ".join(good) + " ", " " + " ".join(good)]
    for n in range(1, 8):
        for word in ("-1", "-0", str(2**64), "", " " + good[n], "+" + good[n], "x", "2.0"):
            yield " ".join(good[:n] + [word] + good[n + 1:])
    yield from ["N\t6 50 2 4 64 64 64", "NN 6 50 2 4 64 64 64", "n 6 50 2 4 64 64 64"]


def places():
    """Request two: every pair of places from 0 to 7, larger numbers, the order of the questions, and lines that are no calls."""
    yield from [placed(power, ratio) for power in range(8) for ratio in range(8)]
    for n in (8, 64, 65, 2**32, 2**32 + 2, 2**63 - 1):
        yield from [placed(n, 4), placed(2, n), placed(n, n)]
    yield from order()
    yield from [placed(0, 0, 0, 0), placed("006", "00", "064", "01", ("064", 64, 64))]
    yield from [changed(), changed(time=11, high=9.5, low=8.0), changed(time=12, high=16.0, low=14.0)]
    yield from no_places()
    yield from ["d", "r", placed(7, 0), "r", placed(0, 7), "d", "r"]


def lines(r):
    yield from first_lines()
    yield from zero()
    yield from places()
