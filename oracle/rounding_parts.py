"""The four parts of whole rounding, worked out by fractions: which one a float falls to and what it rounds to there.

python3 oracle/rounding_parts.py QUESTIONS ANSWERS
holds the answers to the `round` lines beside this and counts the different operands by part; each part must have a thousand."""
import math
import sys
from fractions import Fraction

PARTS = NOT_FINITE, WHOLE, NEAR, HALFWAY = "not finite", "whole", "near", "halfway"
HALF = Fraction(1, 2)


def part_of(x):
    if not math.isfinite(x):
        return NOT_FINITE
    behind = abs(Fraction(x)) % 1
    return WHOLE if behind == 0 else HALFWAY if behind == HALF else NEAR


def rounded(x):
    """What the definitions give: the operand, the one whole number nearer than one half, the neighbour of larger size."""
    part = part_of(x)
    if part in (NOT_FINITE, WHOLE):
        return x
    size = abs(Fraction(x))
    below = math.floor(size)
    if part == HALFWAY:
        return math.copysign(below + 1, x)
    (nearest,) = [n for n in (below, below + 1) if abs(size - n) < HALF]
    return math.copysign(nearest, x)


def main(questions, answers):
    from seeded import bits, of_bits
    operands, wrong = {part: set() for part in PARTS}, 0
    asked = [line for line in open(questions) if not line.startswith("#")]
    for question, answer in zip(asked, open(answers), strict=True):
        words = question.split()
        if words[:1] != ["round"]:
            continue
        x = of_bits(int(words[1], 16))
        expected = "nan" if math.isnan(x) else bits(rounded(x))
        operands[part_of(x)].add(words[1])
        if answer.strip() != expected:
            wrong += 1
            print(f"{question.strip()}: {answer.strip()} and not {expected}")
    print(", ".join(f"{part} {len(found)}" for part, found in operands.items()) + f": {wrong} wrong")
    return wrong == 0 and min(map(len, operands.values())) >= 1000


if __name__ == "__main__":
    if len(sys.argv) != 3:
        sys.exit(__doc__)
    sys.exit(0 if main(sys.argv[1], sys.argv[2]) else 1)
