"""Questions on given strokes and fractals: zones with their validity, fake strokes, is_bis_up and is_bis_down."""
from questions_bars import edges, ranges
from seeded import bits

COUNT = 1500


def stroke(way, high, low, start, end):
    return f"{way} {bits(high)} {bits(low)} {start} {end}"


def ways(r, count):
    """Mostly up and down in turn, sometimes as it comes."""
    if r.chance(1, 5):
        return [r.pick(["up", "down"]) for _ in range(count)]
    first = r.below(2)
    return [("up", "down")[(first + n) % 2] for n in range(count)]


def free(r, count):
    """Strokes with edges from a few values."""
    all_ranges = ranges(edges(r))
    return [r.pick(all_ranges) for _ in range(count)]


def joined(r, count):
    """Strokes that meet: each starts where the last one ended."""
    at = r.between(2000, 9000)
    step = r.pick([40, 300, 1500])
    out = []
    for _ in range(count):
        to = max(100, at + r.between(-step, step))
        out.append((max(at, to) / 100.0, min(at, to) / 100.0))
        at = to
    return out


def strokes(r, count, in_order):
    """In order: each ends after the one before. Otherwise ends may tie or go back."""
    time, out = r.between(-20, 1000), []
    shapes = joined(r, count) if r.chance(1, 2) else free(r, count)
    for way, (high, low) in zip(ways(r, count), shapes):
        start = time
        time = time + r.between(1, 9) if in_order else max(start - 3, time + r.between(-2, 4))
        out.append(stroke(way, high, low, start, time))
    return out


def of_zones(r):
    lines = ["zones"]
    while len(lines) < COUNT:
        lines.append(" ".join(["zones"] + strokes(r, r.between(1, 12), True)))
    return lines


def fractals(r, count):
    """Tops and bottoms in turn."""
    first, time, out = r.below(2), r.between(-20, 1000), []
    values = edges(r)
    for n in range(count):
        time += r.between(1, 9)
        high, low = r.pick(ranges(values))
        out.append(f"{time} {'DG'[(first + n) % 2]} {bits(high)} {bits(low)}")
    return out


def of_fakes(r):
    lines = ["fake"]
    while len(lines) < COUNT:
        lines.append(" ".join(["fake"] + fractals(r, r.between(1, 11))))
    return lines


def climbing(r, count):
    """Strokes that rise or fall as a whole, so that the answer is often yes."""
    base, way = r.between(2000, 9000), r.pick([1, -1])
    out, time = [], r.between(0, 50)
    for n in range(count):
        at = base + way * n * r.between(0, 30)
        low, high = at - r.between(0, 40), at + r.between(0, 40)
        if n == 0 or n == count - 1:
            low, high = (low - 45, high) if (n == 0) == (way == 1) else (low, high + 45)
        name = ("up", "down")[(n + (way == -1)) % 2]
        out.append(stroke(name, high / 100.0, low / 100.0, time, time + 1))
        time += 1
    return out


def of_runs(r):
    lines = ["bis"]
    while len(lines) < COUNT:
        count = r.pick([1, 2, 3, 3, 3, 4, 5, 5, 6, 7, 7, 9])
        kind = r.below(4)
        items = climbing(r, count) if kind < 2 else strokes(r, count, kind == 2)
        lines.append(" ".join(["bis"] + items))
    return lines


def lines(r):
    yield from of_zones(r)
    yield from of_fakes(r)
    yield from of_runs(r)
