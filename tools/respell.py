#!/usr/bin/env python3
"""Brings the repository's own names in specs/, proofs/ and clauses to today's spelling, once, after port.py.

usage: python3 tools/respell.py [--check]      at the top of the repository

Functions, lemmas, fields and constructors are in snake case. A dash joins two names (`map-take`), and a plain word is added with `_`.
Names that Rattle makes, names of functions in src/ and the answers in a Proof.antt (they carry the names of goals) are left alone.
--check writes nothing and prints each name with its new spelling, and the names that would fall together.
"""
import collections, glob, re, sys

CHECK = "--check" in sys.argv
NAME = r"[^\s(){}\[\].,;:\"«»`]+"
DECLARED = re.compile(r"(?m)^[ \t]*(?:abbrev |unfoldable |opaque |pub )*(" + NAME + r"(?: " + NAME + r")*) :(?= )")
BOUND = re.compile(r"(?:[({]|let )(" + NAME + r"(?: " + NAME + r")*) [:=](?= )")
# names of the library that stand in the names of lemmas, beside those that specs/ of this repository defines
LIBRARY = set("""length take drop map set append replicate get_or foldl reverse init last nan num den lt le eq neg add sub mul div abs max min
round finite positive sum filter concat zip nth ++ + - * / < ≤ ≡ not and or""".split())
# left as they are: they are names that Rattle or its library makes
LEAVE = set()
OTHERWISE = {}


def files():
    for pattern in ("crates/*/specs/**/*.antt", "crates/*/proofs/**/*.antt"):
        yield from sorted(glob.glob(pattern, recursive=True))


def read(path):
    with open(path, encoding="utf-8") as f:
        return f.read()


def snake(word):
    word = word.replace("′", "'")
    if not word[:1].islower():
        return word
    word = re.sub(r"(?<=[a-z0-9'])([A-Z]+)(?=[A-Z][a-z])", lambda m: "_" + m.group(1).lower(), word)
    return re.sub(r"(?<=[a-z0-9'])([A-Z])(?=[a-z0-9']|$|_|-)", lambda m: "_" + m.group(1).lower(), word)


def respelled(name, words):
    parts = [snake(p) for p in name.split("-")]
    if "" in parts:
        return name
    out = parts[0]
    last = parts[0]
    for p in parts[1:]:
        joins = last in words and p in words
        out += ("-" if joins else "_") + p
        last = p if joins else last + "_" + p
        if not joins:
            last = p if p in words else last
    return out


def declared():
    names, fields, goals = collections.defaultdict(set), set(), set()
    for path in files():
        text = re.sub(r"--.*", "", read(path))
        proof = path.endswith("/Proof.antt")
        for m in DECLARED.finditer(text):
            line = text[m.start() : text.find("\n", m.end())]
            rest = text[m.end() : m.end() + 60]
            if proof and re.match(r" (\{[^}]*\} → )?(tie\.|statement|walk\.)", rest) and not m.group(0)[0].isspace():
                goals.update(m.group(1).split())
                continue
            for n in m.group(1).split():
                names[n].add(path)
                if m.group(0)[0] in " \t":
                    fields.add(n)
        for m in BOUND.finditer(text):
            for n in m.group(1).split():
                names[n].add(path)
    return names, fields, goals


def plan():
    names, fields, goals = declared()
    specs = {snake(n) for n, ps in names.items() if any("/specs/" in p for p in ps) and "-" not in n}
    words = specs | LIBRARY
    table = {}
    for n in names:
        if n in LEAVE or n in goals or not re.match(r"[a-z_]", n):
            if re.match(r"[A-Z]", n) and "-" in n and n not in goals:
                pass
            else:
                continue
        new = OTHERWISE.get(n) or respelled(n, words)
        if new != n:
            table[n] = new
    apart(table, names)
    return table, names, fields, goals


def apart(table, names):
    """Where names would fall together, the definition has the plain spelling and the lemma named after it gets `_lem`."""
    groups = collections.defaultdict(list)
    for n, new in table.items():
        groups[new].append(n)
    for new, group in groups.items():
        group = sorted(group) + ([new] if new in names else [])
        if len(group) < 2:
            continue
        in_specs = lambda n: any("/specs/" in p for p in names[n])
        first = sorted(group, key=lambda n: ("-" in n, not re.search("[A-Z]", n), not in_specs(n), n))[0]
        for n in group:
            if n != first:
                table[n] = new + "_lem"


def main():
    table, names, fields, goals = plan()
    clash = collections.defaultdict(list)
    for n, new in table.items():
        clash[new].append(n)
    for new, ns in sorted(clash.items()):
        if len(ns) > 1 or (new in names and new not in table):
            print("falls together:", new, ns, sorted({p for n in ns for p in names[n]})[:6])
    if CHECK:
        for n in sorted(table):
            print(f"{n}\t{table[n]}")
        return
    token = re.compile(NAME)

    def turned(text, dotted_fields_only):
        def one(m):
            n = m.group(0)
            if n not in table:
                return n
            if dotted_fields_only and m.start() and text[m.start() - 1] == "." and n not in fields:
                return n
            return table[n]
        return token.sub(one, text)

    paths = list(files()) + sorted(glob.glob("crates/*/src/**/*.rt", recursive=True)) + sorted(glob.glob("crates/*/must-fail/*.edit"))
    for path in paths:
        old = read(path)
        if path.endswith(".rt"):
            new = "\n".join(rt_line(l, turned) for l in rt_marked(old))
        else:
            new = turned(old, path.endswith("/Proof.antt"))
        if new != old:
            with open(path, "w", encoding="utf-8") as f:
                f.write(new)
    for path in ["README.md"] + sorted(glob.glob("docs/*.md")) + sorted(glob.glob("oracle/*.md")) + sorted(glob.glob("bench/*.md")):
        old = read(path)
        new = token.sub(lambda m: table.get(m.group(0), m.group(0)) if re.search("[a-z][A-Z]", m.group(0)) else m.group(0), old)
        new = re.sub(r"`[^`\n]+`", lambda m: turned(m.group(0), False), new)
        if new != old:
            with open(path, "w", encoding="utf-8") as f:
                f.write(new)


def rt_marked(text):
    """The lines of a source file, each with whether it stands in a clause or a ghost item."""
    depth, clause = 0, False
    for line in text.split("\n"):
        if re.match(r"\s*(requires|ensures|ghost|pub ghost)\b", line):
            clause = True
        yield line, clause
        if clause:
            depth += line.count("{") - line.count("}")
            if depth <= 0:
                clause, depth = False, 0


def rt_line(marked, turned):
    line, clause = marked
    return turned(line, False) if clause else line


if __name__ == "__main__":
    main()
