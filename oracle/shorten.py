"""The first difference between two programs, and a short list of calls that still shows one."""


def first_difference(pairing, calls):
    """Place, call and both answers, or None."""
    return next((found for found in pairing(calls) if found[2] != found[3]), None)


def start_of(calls, place):
    """Where the last `n` or `N` up to this place stands."""
    return max((n for n in range(place + 1) if calls[n].startswith(("n ", "N "))), default=0)


def without_parts(shows, head, rest, size):
    """The calls behind the head, with every part of this size left out that is not needed, from the back to the front."""
    at = len(rest)
    while at > 0:
        fewer = rest[:max(at - size, 0)] + rest[at:]
        if shows(head + fewer):
            rest = fewer
        at -= size
    return rest


def shortened(pairing, calls):
    """The calls up to the first difference, from the last `n` or `N` on, then halves, quarters and so on left out while the two still differ, until no
    single call can go."""
    def shows(some):
        return first_difference(pairing, some) is not None

    place = first_difference(pairing, calls)[0]
    own = calls[start_of(calls, place):place + 1]
    calls = own if shows(own) else calls[:place + 1]
    head, rest, size = calls[:1], calls[1:], len(calls)
    while True:
        fewer = without_parts(shows, head, rest, size)
        if size == 1 and fewer == rest:
            return head + rest
        rest, size = fewer, max(1, size // 2)


def first_line(ours, theirs):
    """The first lines in which two answers differ."""
    pairs = zip(ours + ["(nothing more)"], theirs + ["(nothing more)"])
    return next((a, b) for a, b in pairs if a != b)


def show(name, pairing, calls, our_name, their_name):
    """Prints what differs, and the short list of calls with its own first difference."""
    print(f"{name}: a difference at call {first_difference(pairing, calls)[0] + 1} of {len(calls)}")
    calls = shortened(pairing, calls)
    place, call, ours, theirs = first_difference(pairing, calls)
    a, b = first_line(ours, theirs)
    print(f"shortened to {len(calls)} calls; at call {place + 1}, `{call}`:\n  {their_name} {b}\n  {our_name} {a}")
    print("\n".join(calls), flush=True)
