"""Counts the numbers that are rounded, in answers to `r`, by the decimal places of the analyzer that was asked."""
from collections import Counter

from places import MOST, USUAL, places_of

# what is counted, and which of the two places it follows: power, ratio, or both
KINDS = {"measures of strokes": (0, 1), "fake strokes": (0,), "gaps with a ratio": (1,), "gaps without": ()}
NAMES = ("power", "ratio")


def kind(line):
    """What a line of the reports is counted as, or None."""
    words = line.split(" ", 5)
    if words[0] == "measure":
        return "measures of strokes"
    if words[0] == "fake":
        return "fake strokes"
    if words[0] == "gap" and words[1] != "none":
        return "gaps without" if words[4] == "none" else "gaps with a ratio"
    return None


class Rounded:
    """Lines, and different lines: a stroke that is asked for after each of many bars has as many lines, most of them the same."""

    def __init__(self):
        self.lines, self.different = Counter(), Counter()

    def add(self, answered):
        """Calls with their answers, of one run of a program."""
        places, seen = USUAL, set()
        for call, answer in answered:
            if call[0] in "nN" and answer == ["ok"]:
                places, seen = places_of(call), set()
            for line in answer if call == "r" else ():
                found = kind(line)
                if found:
                    self.lines[found, places] += 1
                    self.different[found, places] += line not in seen
                    seen.add(line)

    def sums(self, counts, found, which):
        """So many for each number of places, from 0 on."""
        own = [(places[which], n) for (name, places), n in counts.items() if name == found]
        return " ".join(f"{sum(n for p, n in own if p == places):,}" for places in range(MOST + 1))

    def of(self, counts, found, which):
        """All, and those at other places than the Rust's own."""
        own = [(places, n) for (name, places), n in counts.items() if name == found]
        others = [n for places, n in own if any(places[w] != USUAL[w] for w in which)]
        return sum(n for _, n in own), sum(others)

    def text(self):
        out = []
        for found, which in KINDS.items():
            (lines, other), (unlike, other_unlike) = (self.of(counts, found, which) for counts in (self.lines, self.different))
            told = f", at other places than {' and '.join(str(USUAL[w]) for w in which)}: {other:,} lines, {other_unlike:,} different" if which else ""
            out.append(f"{found}: {lines:,} lines, {unlike:,} different{told}")
            out += [f"  {NAMES[w]} places 0 to 6: {self.sums(self.lines, found, w)}; different: {self.sums(self.different, found, w)}" for w in which]
        pairs = {places for _, places in self.lines}
        return "\n".join(out + [f"pairs of places: {len(pairs)}"])
