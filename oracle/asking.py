"""Asking the driver, or another program, from a script: lines in, answers out; and bars written as high/low."""
import os
import subprocess

from seeded import bits, of_bits

HERE = os.path.dirname(os.path.abspath(__file__))
RUN, MODEL, GENERATE = (os.path.join(HERE, name) for name in ("run", "model", "generate"))
NO_ROOM = (["no 10"], ["no 11"], ["no 12"])


def ask(lines, *options):
    """All answer lines to these lines. A panic's own message goes to standard error."""
    text = "".join(line + "\n" for line in lines)
    done = subprocess.run([RUN, *options], input=text, capture_output=True, text=True)
    if done.returncode != 0:
        raise SystemExit(done.stderr)
    return done.stdout.splitlines()


def blocks(program, calls):
    """One answer a call of the replay format; the lines of a stand or of reports stay together. Behind what a program that
    failed wrote stands that it left; what it did not answer is empty."""
    text = "".join(call + "\n" for call in calls)
    done = subprocess.run(program, input=text, stdout=subprocess.PIPE, stderr=subprocess.DEVNULL, text=True, errors="replace")
    return by_call(calls, done.stdout.splitlines() + ([f"left with {done.returncode}"] if done.returncode else []))


def by_call(calls, lines):
    """The lines of the answers, call by call."""
    answers, at = [], 0
    for call in calls:
        last = at
        if call in ("d", "r") and at < len(lines) and not lines[at].startswith(("no", "panic", "bad")):
            while last < len(lines) - 1 and lines[last] != "end":
                last += 1
        answers.append(lines[at:last + 1])
        at = last + 1
    if at < len(lines):
        answers[-1] += lines[at:]
    return answers


def beside(ours, theirs):
    """Holds two programs side by side: gives, for a list of calls, each call's place, the call and both answers."""
    return lambda calls: list(zip(range(len(calls)), calls, blocks(ours, calls), blocks(theirs, calls)))


def both(calls):
    """The same for the model and the Rust, over the calls that the model has room for. The Rust has no stores, and a bar
    that was turned down leaves no trace: so it is asked the others only."""
    roomy = [(n, call, ours) for n, (call, ours) in enumerate(zip(calls, blocks([MODEL], calls))) if ours not in NO_ROOM]
    rust = blocks([RUN, "--ask-4"], [call for _, call, _ in roomy])
    return [(*item, theirs) for item, theirs in zip(roomy, rust)]


def bar(time, high, low, open_=None, close=None, vol=1.0, amount=1.0, id_=None):
    """TIME ID OPEN CLOSE HIGH LOW VOL AMOUNT; open is the low and close the high where nothing else is said."""
    prices = [low if open_ is None else open_, high if close is None else close, high, low, vol, amount]
    return " ".join([str(time), str(time if id_ is None else id_)] + [bits(p) for p in prices])


def pairs(text, start=1):
    """`b` lines from "12/10 10/8 ..", at times start, start + 1, .."""
    lines = []
    for n, pair in enumerate(text.split()):
        high, low = pair.split("/")
        lines.append("b " + bar(start + n, float(high), float(low)))
    return lines


def timed(text):
    """`b` lines from "1:8/4 2:5/1 5-103:19/16 ..": a time, or all times of a range, then high/low."""
    lines = []
    for item in text.split():
        times, pair = item.split(":")
        first, last = (times.split("-") * 2)[:2]
        high, low = pair.split("/")
        lines += ["b " + bar(t, float(high), float(low)) for t in range(int(first), int(last) + 1)]
    return lines


def lowered(calls, taken):
    """The same calls with so much taken from each bar's four prices."""
    out = []
    for call in calls:
        words = call.split(" ")
        if words[0] == "b":
            words[3:7] = [bits(of_bits(int(word, 16)) - taken) for word in words[3:7]]
        out.append(" ".join(words))
    return out
