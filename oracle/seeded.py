"""Numbers from a seed (splitmix64), so that a list can be made again by any Python; and floats as bits."""
import struct

MASK = (1 << 64) - 1


def bits(x):
    return "%016x" % struct.unpack("<Q", struct.pack("<d", x))[0]


def of_bits(n):
    return struct.unpack("<d", struct.pack("<Q", n))[0]


class Seeded:
    def __init__(self, seed):
        self.state = seed & MASK

    def word(self):
        """64 random bits."""
        self.state = (self.state + 0x9E3779B97F4A7C15) & MASK
        z = self.state
        z = ((z ^ (z >> 30)) * 0xBF58476D1CE4E5B9) & MASK
        z = ((z ^ (z >> 27)) * 0x94D049BB133111EB) & MASK
        return z ^ (z >> 31)

    def below(self, n):
        """A whole number from 0 to n - 1."""
        return self.word() * n >> 64

    def between(self, low, high):
        """A whole number from low to high, both counted."""
        return low + self.below(high - low + 1)

    def chance(self, part, of):
        return self.below(of) < part

    def pick(self, items):
        return items[self.below(len(items))]

    def unit(self):
        """A float from 0 up to, but not, 1."""
        return (self.word() >> 11) / 9007199254740992.0
