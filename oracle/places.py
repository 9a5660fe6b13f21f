"""Decimal places for fresh analyzers: for power and for ratios, each from 0 to 6. They are drawn by a generator of their own, so that whatever
else is drawn from the same seed stays as it is."""
from seeded import Seeded

# what the Rust rounds to, and what `n` means
USUAL = (2, 4)
MOST = 6


def drawing(seed, name):
    """The generator for a seed and, so that styles of one seed have different places, a name."""
    return Seeded(seed ^ int.from_bytes(("places " + name).encode(), "big"))


def drawn(r):
    return r.between(0, MOST), r.between(0, MOST)


def placed(call, power, ratio):
    """The call `n` as an `N` with these places; every other call as it is."""
    name, *words = call.split(" ")
    return " ".join(["N", *words[:2], str(power), str(ratio), *words[2:]]) if name == "n" else call


def places_of(call):
    """The places that an accepted `n` or `N` sets."""
    name, *words = call.split(" ")
    return tuple(int(w) for w in words[2:4]) if name == "N" else USUAL
