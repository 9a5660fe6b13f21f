"""Answers the lines `csv PLACE HEXBYTES` by what Python brings along: its csv module, decimal and float. It is a second reading of request
four of document 02; the Rust has no such reader.

python3 oracle/csv_answers.py < LINES > ANSWERS"""
import csv
import re
import sys
from decimal import Decimal

sys.dont_write_bytecode = True
from seeded import bits

LARGEST_PLACE = 2**31 - 1
MOST_DIGITS = 15
LINE = re.compile(r"csv ([0-9]+) (empty|[0-9a-f]+)")
WHOLE = re.compile(r"-?[0-9]+")
NUMBER = re.compile(r"-?[0-9]+(\.[0-9]{1,22})?")
# a field may be as long as its text
csv.field_size_limit(2**31 - 1)


def record(data):
    """The first record's fields, and its length in bytes with the CRLF; no field where csv finds no record. A CRLF in quotes cuts the
    record too: what is left has an open quote, and a number could not hold the CRLF anyway."""
    body, end, _ = data.decode("latin-1").partition("\r\n")
    if "\r" in body or "\n" in body:
        return [], 0
    try:
        return next(csv.reader([body], strict=True)), len(body) + len(end)
    except csv.Error:
        return [], 0


def is_such_text(fields):
    return len(fields) == 7 and WHOLE.fullmatch(fields[0]) and all(NUMBER.fullmatch(field) for field in fields[1:])


def digits(field):
    """Without leading zeros, which Decimal drops across the point; it keeps the zeros at the end."""
    number = Decimal(field)
    return len(number.as_tuple().digits) if number else 0


def failed(time, prices, volumes):
    """The first "no" of questions 5 to 8, or 0."""
    _, _, high, low = prices
    if not -2**40 <= time <= 2**40:
        return 5
    if not all(price == 0 or 2**-20 <= abs(price) <= 2**30 for price in prices):
        return 6
    if not all(0 <= volume <= 2**50 for volume in volumes):
        return 7
    return 0 if low <= high else 8


def answer(place, data):
    fields, length = record(data)
    if not is_such_text(fields) or place > LARGEST_PLACE:
        return "no 18"
    if any(digits(field) > MOST_DIGITS for field in fields):
        return "no 19"
    # by way of Decimal, since int() of a text has a limit of digits, leading zeros included
    time = int(Decimal(fields[0]))
    # a sum with zero makes minus zero plain
    numbers = [float(field) + 0.0 for field in fields[1:]]
    number = failed(time, numbers[:4], numbers[4:])
    if number:
        return f"no {number}"
    return " ".join(["ok", str(length), str(time), str(place), *map(bits, numbers)])


def line_of(place, data):
    return f"csv {place} {data.hex() or 'empty'}"


def answer_line(line):
    """The answer to a line; None to one that has none."""
    if not line or line.startswith("#"):
        return None
    found = LINE.fullmatch(line)
    if not found or found[2] != "empty" and len(found[2]) % 2:
        return "bad line"
    return answer(int(found[1]), b"" if found[2] == "empty" else bytes.fromhex(found[2]))


if __name__ == "__main__":
    if len(sys.argv) != 1:
        sys.exit(__doc__)
    # any byte is a character, and only LF ends a line
    sys.stdin.reconfigure(encoding="latin-1", newline="\n")
    for line in sys.stdin:
        said = answer_line(line.removesuffix("\n"))
        if said is not None:
            print(said)
