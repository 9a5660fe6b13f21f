"""Texts for the CSV reader of request four: good records, damaged ones and random texts, each with the place it is given. The first ones
are named cases and the same for every seed; the rest is drawn. A good record is one by its form: a part of them stands right outside
questions 5 to 8."""
from decimal import Decimal
from itertools import islice

from csv_answers import line_of

COUNT = 1500
GOOD, DAMAGED, RANDOM = "good", "damaged", "random"
ALPHABET = '-.0159",\r\n'
ANY_BYTE = "".join(map(chr, range(256)))
HEADER = "time,open,close,high,low,vol,amount\r\n"
BOM = "\xef\xbb\xbf"
SAMPLE = ["1600000000", "10.5", "11", "12.25", "9.75", "1000", "10500.50"]
TIME, OPEN, CLOSE, HIGH, LOW, VOL, AMOUNT = range(7)

# around 2^40
TIMES = [str(n) for size in (2**40 - 1, 2**40, 2**40 + 1, 10**14, 10**15 - 1) for n in (size, -size)]
# around 2^30, and what is larger
LARGE = ["1073741824", "1073741824.0", "1073741824.00000", "1073741823.99999", "1073741824.00001", "1073741825", "999999999999999"]
# around 2^-20, with 20 and 21 places, and what is smaller
SMALL = ["0.00000095367431640625", "0.000000953674316406250", "0.00000095367431640624", "0.00000095367431640626",
         "0.000000953674316406249", "0.000000953674316406251", "0.000001", "0.0000009", "0.0000000999999999999999",
         "0.0000000000000000000001"]
EDGES = [sign + text for text in LARGE + SMALL for sign in ("", "-")]
VOLUMES = ["0", "0.0000000000000000000000", "-0", "-0.00", "999999999999999", "99999999999999.9", "0.0000000000000000000001",
           "0.0000000999999999999999", "0.999999999999999", "1", "0.1"]
NEGATIVE = ["-1", "-0.01", "-999999999999999", "-0.0000000000000000000001"]
# 16 digits or more without the leading zeros; those with a point are no times
TOO_MANY = ["1000000000000000", "-9999999999999999", "0001600000000000000", "1125899906842624", "1.000000000000000", "0.1234567890123456",
            "12345678.12345678", "-00.01000000000000000", "0.0000009536743164062500", "9" * 40 + "." + "9" * 22]
# no numbers, or not as a field is written
FAULTS = ["", " ", "+1", "1e5", "1E5", "1.5e-3", " 1", "1 ", "\t1", ".5", "-.5", "1.", "-1.", ".", "-", "--1", "-+1", "- 1", "1-", "1.5.2",
          "1..5", "1'000", "1_000", "1;000", "1:0", "1/2", "0x1f", "nan", "inf", "-inf", "\xd9\xa3", "\xef\xbc\x91", "1\xa0", "\xb2", "1\0", "\0",
          "1." + "0" * 23, "0." + "0" * 22 + "1", "0000." + "9" * 60, '"', '""', '"1', '1"', '""1""', '"1""', '""1"', '"1"1', '1"1"', '"1""1"',
          '"""1"""', ' "1"', '"1" ', '"" 1', '-"1"', '"-"1', '"1".5', '"+1"', '" 1"', '"1."', '".5"', '"-"', '"1,1"', '"1\r\n"', '"\r\n1"',
          '"1\r"', '"1\n"', "1\r", "1\n", "1\r1", "1\n1", "\r\n", "\n1"]
# a time has no point
POINTED = ["1.0", "1600000000.5", '"1.0"', "0.0", "-1.5", "1." + "0" * 22]
# pieces of random texts: most of them numbers
PIECES = ["0", "1", "5", "9", "15", "-1", "-0", "00", "05", "0.5", "1.9", "-0.0", "15.90", "100.5", "0.1", "9.0"]
FALSE_PIECES = ["", "-", ".", ".5", "1.", "+1", "--1", "\r", "\n", '"', " "]


def record(fields, quoted=(), end="\r\n"):
    return ",".join(f'"{field}"' if n in quoted else field for n, field in enumerate(fields)) + end


def sample(changed=(), **more):
    """The sample record with some fields changed: {place: text}."""
    return record([dict(changed).get(n, field) for n, field in enumerate(SAMPLE)], **more)


def named():
    """Every case that a rule speaks of, once."""
    good, bad = [], []
    for quoted in [(), range(7), (TIME,), (HIGH,), (AMOUNT,)]:
        good += [sample(quoted=quoted, end=end) for end in ("", "\r\n", "\r\n\r\n", "\r\n" + sample(), "\r\nanything\0", "\r\n\r", "\r\n\n", '\r\n"')]
        bad += [sample(quoted=quoted, end=end)
                for end in ("\r", "\n", "\n\r", "\r\r\n", "\n\r\n", "\r" + sample(), "\n" + sample(), ",", ",\r\n", ",1\r\n", '"', '"\r\n', " \r\n", "\0\r\n")]
    good += [sample({TIME: text}) for text in TIMES + ["0", "-0", "000", "-1", "-00042", "0" * 30 + "1", "0" * 12 + "1099511627776"]]
    for text in EDGES:
        good += [sample({OPEN: text}), sample({HIGH: text, LOW: text}), sample({CLOSE: text, HIGH: "1000", LOW: "-1000"})]
    good += [sample({place: text}) for place in (VOL, AMOUNT) for text in VOLUMES + NEGATIVE]
    for text in ["0", "-0", "-0.00", "0.0000000000000000000000", "-00.0", "0" * 40, "0" * 40 + ".00"]:
        good += [sample({HIGH: text, LOW: text}), sample({OPEN: text, CLOSE: text}, quoted=(OPEN,)), sample({HIGH: text, LOW: "-0.01"}, quoted=(HIGH, LOW))]
    for text in ["007", "0123456789.12345", "000000000000000000000000000012", "123456789.123456", "0.00012345678901234", "-0.000123"]:
        good += [sample({OPEN: text}), sample({HIGH: text, LOW: text}, quoted=(LOW,)), sample({AMOUNT: text.lstrip("-")})]
    # high and low: equal, written in two ways, neighbours of 15 digits
    for high, low in [("10", "10.00"), ("9.99", "10"), ("-10", "-9.99"), ("-9.99", "-10"), ("-1", "1"), ("0", "-0"), ("-0", "0"), ("0.1", "0.100000000000000"),
                      ("123.456789012345", "123.456789012346"), ("123.456789012346", "123.456789012345")]:
        good.append(sample({HIGH: high, LOW: low}))
    bad += ["", "\r\n", "\r", "\n", ",", '"', '""', "1", "1,1,1,1,1,1", "1,1,1,1,1,1,1,1", ",,,,,,", ",,,,,,\r\n", HEADER, HEADER + sample(), BOM + sample(),
            " " + sample(), "\r\n" + sample(), "\n" + sample(), '"' + sample(), "#" + sample(), "\0" + sample(), sample().replace(",", ";"),
            sample().replace(",", ", "), sample(quoted=range(7)).replace('"', '""'), sample(quoted=range(7)).replace('"', "'"),
            '"' + sample(end="") + '"\r\n', sample(quoted=range(7)).replace('","', ',')]
    bad += [sample({place: text}) for place in (TIME, HIGH, AMOUNT) for text in FAULTS]
    bad += [sample({TIME: text}) for text in POINTED]
    bad += [record(SAMPLE[:place] + SAMPLE[place + 1:]) for place in range(7)] + [record(SAMPLE[:place] + ["1"] + SAMPLE[place:]) for place in range(8)]
    bad += [sample({place: text}) for place in (TIME, LOW, AMOUNT) for text in TOO_MANY]
    # the order: 18, 19, 5, 6, 7, 8, wherever in the record each comes up
    long, late, tiny = "1" * 16, str(2**40 + 1), "0.0000001"
    bad += [sample(changed) for changed in (
        {OPEN: long, AMOUNT: "x"}, {TIME: long, AMOUNT: ""}, {TIME: "1.0", AMOUNT: long}, {TIME: late, AMOUNT: long}, {OPEN: tiny, CLOSE: long},
        {VOL: "-1", AMOUNT: long}, {HIGH: "1", LOW: long}, {TIME: late, OPEN: tiny}, {TIME: late, VOL: "-1"}, {TIME: late, HIGH: "1"},
        {OPEN: tiny, VOL: "-1"}, {LOW: tiny, AMOUNT: "-1"}, {HIGH: tiny}, {HIGH: "1", VOL: "-1"}, {HIGH: "1", AMOUNT: "-1"}, {TIME: late, AMOUNT: "+1"})]
    yield from ((GOOD, n % 100, text) for n, text in enumerate(good))
    yield from ((DAMAGED, n % 100, text) for n, text in enumerate(bad))
    for place in (2**31 - 2, 2**31 - 1, 2**31, 2**32, 2**63 - 1):
        yield GOOD, place, sample()
        yield from ((DAMAGED, place, text) for text in (sample({OPEN: long}), sample({TIME: late}), ""))
    yield DAMAGED, 0, sample({LOW: "1" + "0" * 9999})


def written(n, places):
    """A whole number with its point so many places from the right."""
    text = str(abs(n)).rjust(places + 1, "0")
    return "-" * (n < 0) + (f"{text[:-places]}.{text[-places:]}" if places else text)


def of_digits(r, digits):
    return r.between(10 ** (digits - 1), 10**digits - 1)


def some_digits(r):
    return r.pick([1, 2, 3, 4, 5, 7, 9, 12, 14, 15, 15])


def a_zero(r):
    return r.pick(["", "-"]) + written(0, r.pick([0, 0, 1, 2, 21, 22]))


def a_price(r):
    """Of any size that question 6 takes."""
    digits = some_digits(r)
    return written(of_digits(r, digits) * r.pick([1, 1, -1]), r.between(max(0, digits - 9), digits + 5))


def four_prices(r):
    """Open, close, high, low: mostly such that questions 6 and 8 take them."""
    kind = r.below(8)
    if kind < 3:
        level = r.pick([1, 1, -1]) * r.between(200, 99999)
        prices = [written(level + r.between(-99, 99), 2) for _ in range(4)]
    elif kind < 5:
        prices = [a_price(r) for _ in range(4)]
    elif kind == 5:
        prices = [a_zero(r) if r.chance(1, 2) else str(r.between(-2, 2)) for _ in range(4)]
    elif kind == 6:
        places = r.between(6, 20)
        prices = [written(of_digits(r, 15), places) for _ in range(4)]
    else:
        edge = r.pick(EDGES)
        prices = [r.pick([edge, edge, "1", "-1"]) for _ in range(4)]
    low, high = sorted(prices[:2], key=Decimal)
    if r.chance(1, 6):
        low = high
    elif r.chance(1, 14):
        high, low = low, high
    return [*prices[2:], high, low]


def a_volume(r):
    kind = r.below(12)
    if kind < 4:
        return written(r.between(0, 9999999), r.pick([0, 0, 1, 2, 3]))
    if kind < 8:
        return written(of_digits(r, some_digits(r)), r.between(0, 22))
    if kind < 11:
        return r.pick(VOLUMES)
    return a_zero(r) if r.chance(2, 3) else r.pick(NEGATIVE)


def a_time(r):
    kind = r.below(12)
    if kind < 6:
        return str(r.between(15 * 10**8, 18 * 10**8))
    if kind < 9:
        return str(of_digits(r, r.between(1, 12)) * r.pick([1, -1]))
    if kind < 11:
        return r.pick(["0", "-0", "1", "-1", "-60", str(2**40), str(-(2**40))])
    return r.pick(TIMES)


def with_zeros(r, number):
    minus = "-" if number.startswith("-") else ""
    return minus + "0" * r.pick([1, 1, 2, 3, 16, 30]) + number[len(minus):]


def good_fields(r):
    fields = [a_time(r), *four_prices(r), a_volume(r), a_volume(r)]
    return [with_zeros(r, field) if r.chance(1, 10) else field for field in fields]


def some_quoted(r):
    kind = r.below(6)
    return () if kind < 3 else range(7) if kind == 3 else [n for n in range(7) if r.chance(1, 2)]


def random_text(r, alphabet, most):
    return "".join(r.pick(alphabet) for _ in range(r.below(most + 1)))


def an_end(r):
    """The end of the record and what follows it."""
    kind = r.below(8)
    if kind < 5:
        return ["", "", "\r\n", "\r\n", "\r\n\r\n"][kind]
    return "\r\n" + [sample(), random_text(r, ALPHABET, 30), random_text(r, ANY_BYTE, 30)][kind - 5]


def good(r):
    return record(good_fields(r), some_quoted(r), an_end(r))


def byte_damaged(r):
    """One to three bytes removed, inserted, replaced or swapped."""
    text = list(good(r))
    for _ in range(r.pick([1, 1, 1, 2, 3])):
        at = r.below(max(1, len(text)))
        kind, byte = r.below(7), r.pick(r.pick([ALPHABET, ANY_BYTE]))
        if kind < 2:
            text[at:at + 1] = []
        elif kind < 4:
            text[at:at] = byte
        elif kind < 6:
            text[at:at + 1] = byte
        else:
            text[at:at + 2] = text[at:at + 2][::-1]
    return "".join(text)


def field_damaged(r):
    """A field removed, added, or written as no number is, with too many digits or as the time must not be."""
    fields, quoted = good_fields(r), some_quoted(r)
    at, kind = r.below(7), r.below(8)
    if kind == 0:
        del fields[at]
    elif kind == 1:
        fields.insert(at, r.pick(fields))
    elif kind < 4:
        fields[at] = r.pick(FAULTS)
    elif kind < 6:
        fields[at] = r.pick(TOO_MANY)
        # damage in a later field too, or none
        if at < AMOUNT and r.chance(1, 3):
            fields[r.between(at + 1, AMOUNT)] = r.pick(FAULTS)
    elif kind == 6:
        fields[TIME] = r.pick(POINTED + TIMES)
    else:
        fields[at] = written(of_digits(r, r.pick([14, 15, 16, 17])) * r.pick([1, -1]), r.pick([0, 5, 14, 21, 22, 23]))
    return record(fields, quoted, an_end(r))


def text_damaged(r):
    """The record's end, its quotes or what stands before it."""
    kind, text = r.below(6), good(r)
    if kind == 0:
        return text.replace("\r\n", r.pick(["\r", "\n", "\n\r", "\r\r\n", " \r\n", ",\r\n"]), 1)
    if kind == 1:
        return text[:r.below(len(text) + 1)]
    if kind == 2:
        return record(good_fields(r), range(7)).replace('"', r.pick(['""', "'", '"""', '" ']))
    if kind == 3:
        return r.pick([BOM, HEADER, " ", "\r\n", "\n", '"', "#", "-", "0", ",", "1,"]) + text
    if kind == 4:
        return text.replace(",", r.pick([";", ", ", " ,", ",,", "\t", ",\r\n"]), r.pick([1, 7]))
    return text.replace('"', "", 1) if '"' in text else text.replace(",", '","', r.between(1, 6))


def random_pieces(r):
    """About seven fields of simple pieces, of which each may be a wrong one."""
    wrong = r.pick([0, 0, 1, 3])
    parts = []
    for n in range(r.pick([6, 7, 7, 7, 7, 7, 7, 8])):
        piece = r.pick(PIECES[:9] if n == TIME else PIECES)
        if n == LOW and r.chance(1, 2):
            piece = "-" + piece.lstrip("-")
        if n >= VOL and r.chance(5, 6):
            piece = piece.lstrip("-")
        if r.chance(1, 4):
            piece = f'"{piece}"'
        parts.append(r.pick(FALSE_PIECES) if r.chance(wrong, 30) else piece)
        parts.append(r.pick(FALSE_PIECES + [",,", "\r\n"]) if r.chance(wrong, 30) else ",")
    parts[-1] = r.pick(["", "\r\n", "\r\n", "\r\n" + random_text(r, ALPHABET, 9)] + ["\r", "\n"] * (wrong > 0))
    return "".join(parts)


def random_one(r):
    kind = r.below(8)
    if kind == 0:
        return random_text(r, ALPHABET, 12)
    if kind == 1:
        return random_text(r, ALPHABET, 70)
    if kind == 2:
        return ",".join(random_text(r, ALPHABET[:6], 4) for _ in range(7)) + r.pick(["", "\r\n"])
    return random_pieces(r)


def a_place(r):
    return r.pick([2**31 - 1, 2**31, 2**63 - 1]) if r.chance(1, 60) else r.below(r.pick([2, 100, 10**6]))


def drawn(r):
    while True:
        kind = r.pick([GOOD, GOOD, GOOD, DAMAGED, DAMAGED, DAMAGED, RANDOM, RANDOM])
        if kind == GOOD:
            text = good(r)
        elif kind == DAMAGED:
            text = r.pick([byte_damaged, byte_damaged, field_damaged, field_damaged, text_damaged])(r)
        else:
            text = random_one(r)
        yield kind, a_place(r), text


def texts(r, count):
    """So many texts: the kind, the place, the bytes."""
    def all_of_them():
        yield from named()
        yield from drawn(r)
    for kind, place, text in islice(all_of_them(), count):
        yield kind, place, text.encode("latin-1")


def lines(r, count=COUNT):
    for _, place, data in texts(r, count):
        yield line_of(place, data)
