"""Bars from fields, and the stand as lines."""
from model_rules import Bar
from seeded import bits, of_bits


def bar_of(fields):
    time, id_, *floats = fields
    return Bar(int(time), int(id_), *(of_bits(int(f, 16)) for f in floats))


def words(*items):
    """The items with a space between: floats as bits, truths as 0 and 1."""
    return " ".join(bits(x) if isinstance(x, float) else str(int(x)) if isinstance(x, bool) else str(x) for x in items)


def way(up):
    return "up" if up else "down"


def fractal(x):
    return words(x.time, "G" if x.top else "D", x.high, x.low, x.fx)


def merged(name, bar, times):
    return words(name, *bar[:8], ":", *times)


def stroke(s, kept):
    yield words("stroke", way(s.up), len(s.fractals), len(s.bars))
    yield "a " + fractal(s.start)
    yield "z " + fractal(s.end)
    for x in s.fractals:
        yield "fx " + fractal(x)
        for b in x.bars:
            yield words("fb", *b[:8])
    for n, b in enumerate(s.bars):
        inner = 0 < n < len(s.bars) - 1
        yield merged("bar", b, [t for t in b.elements if inner and t in kept])


def stand(analyzer):
    a = analyzer
    kept = {b.time for b in a.raw}
    lines = [words("stand", a.least, a.most, len(a.raw), len(a.unfinished), len(a.strokes))]
    lines += [words("raw", *b) for b in a.raw]
    lines += [merged("ubi", b, [t for t in b.elements if t in kept]) for b in a.unfinished]
    for s in a.strokes:
        lines += stroke(s, kept)
    return lines + ["end"]
