"""Two streams after which the newest raw bar is no element of the last unfinished bar: settings, bars, then a replaced and a later bar."""
from asking import bar, timed
from seeded import of_bits

SHORT = timed("1:8/4 2:5/1 3:7/3 4:20/15 5-103:19/16 104:25/10 105:12/9 105:20/16.5 105:10/5 106:9/6 107:9.5/4 "
              "108-204:9/4.5 205:8.5/4 206:30/26 206:6/2 206:8/5 206:9/5")
DEFAULT = timed("1:8/4 2:5/1 3:6/2 4:7/3 5:20/15 6-104:19/16 105:25/10 106:12/9 106:20/16.5 106:10/5 107:9/6 108:9.5/4 "
                "109-205:9/4.5 206:8.5/4 207:30/26 207:6/2 207:8/5 207:9/5")
STREAMS = [("n 5 0 4096 1024 2048", SHORT, "206:19/11", "207:19/11"),
           ("n 0 0 4096 1024 2048", DEFAULT, "207:19/11", "208:19/11")]


def edited(r):
    """One of the two streams with a few bars changed, left out, put in again or given the last time, and some bars more: many of these
    are not sound at some place, and then a feed and the reports are turned down."""
    settings, bars, replaced, later = r.pick(STREAMS)
    bars = [(int(line.split(" ")[1]), *prices(line)) for line in bars + timed(replaced if r.chance(1, 2) else later)]
    for _ in range(r.below(5)):
        place = r.pick([r.below(len(bars)), r.below(8), len(bars) - 1 - r.below(8)])
        edit(r, bars, place)
    last = bars[-1][0]
    for n in range(r.below(6)):
        bars.append((last + r.below(n + 2), r.between(4, 40) / 2, r.between(2, 30) / 2))
    return [settings.replace(" 5 ", f" {r.between(4, 6)} ", 1) if r.chance(1, 4) else settings, *written(bars)]


def prices(line):
    return [of_bits(int(word, 16)) for word in line.split(" ")[5:7]]


def edit(r, bars, place):
    """Changes one bar's range or time by a little, repeats it, or takes it out."""
    time, high, low = bars[place]
    kind = r.below(4)
    if kind == 0:
        bars[place] = (time, high + r.between(-2, 2) / 2, low + r.between(-2, 2) / 2)
    elif kind == 1:
        bars[place] = (bars[place - 1][0] if place else time, high, low)
    elif kind == 2:
        bars.insert(place, (time, high + r.between(-4, 4), low))
    elif len(bars) > 1:
        del bars[place]


def written(bars):
    """The bars as calls, stand and reports after the last ones; times that would fall are raised."""
    now = None
    for n, (time, high, low) in enumerate(bars):
        now = time if now is None else max(now, time)
        yield "b " + bar(now, max(high, low, 0.5), max(min(high, low), 0.5))
        if n >= len(bars) - 4:
            yield from ("d", "r")
