#!/usr/bin/env python3
"""Turns each Proof.antt of a crate that answers the goals of an older Rattle into Invariants.antt and Answers.antt.

usage: python3 tools/answers.py CRATE NAMES     at the top of the repository; NAMES is what `rt check --generated DIR --old-names` wrote (DIR/names.json)

An answer that says only `search rules` is left out, since the check tries as much by itself. A file that names places of the
code (`tie.After-..`) or walks the code is left as it is, and named on a line 'left:'.
"""
import json, os, re, sys

ID = r"[^\s(){}\[\].,;:\"`]+"
FIELDS = {"well-formed": "well_formed", "type-inv": "type_inv"}
SPLIT = re.compile(r"(?m)^(?=\S)")


def words_of_sources():
    found = set()
    for folder, _, files in os.walk("crates"):
        for f in files:
            if f.endswith(".rt"):
                with open(os.path.join(folder, f), encoding="utf-8") as fh:
                    found |= set(re.findall(r"[a-z]\w*_\w+", fh.read()))
    return found


SOURCE = words_of_sources()


def source(x):
    """A name of the source keeps its spelling, where an older Rattle wrote dashes."""
    x = FIELDS.get(x, x)
    return x.replace("-", "_") if x.replace("-", "_") in SOURCE else x


def spelled(m, var):
    """A path with the names of the source in it; the first part behind the goal's argument is a step, and stays."""
    parts = m.group(2).split(".")
    first = 2 if m.group(1) == var else 1
    return m.group(1) + ".".join(parts[:first] + [source(x) for x in parts[first:]])


def same(a, b):
    f = lambda s: s.replace("-", "_")
    return f(a) == f(b)


class Function:
    def __init__(self, d):
        self.places = {p[0]: p for p in d["places"]}
        self.order = [p[0] for p in d["places"]]
        self.d = d

    def parent(self, p):
        return self.places[p][1]

    def goal(self, name):
        tries = [name]
        if name.startswith("overflow-"):
            tries.append(name[len("overflow-"):])
        for t in tries:
            for i, (old, new) in enumerate(self.d["needs"]):
                if same(old, t):
                    return new, self.d["asked_at"][i][0], old
        for t in tries:
            for i, (old, new) in enumerate(self.d["needs"]):
                if same(new, t):
                    return new, self.d["asked_at"][i][0], old
        return None

    def resolve(self, place, comps):
        """The new path of comps at a place: (None, place) for a place itself, else (list, None)."""
        comps = list(comps)
        while comps and comps[0] == "before":
            up = self.parent(place)
            if up is None:
                return ["?before"] + comps, None
            place = up
            comps.pop(0)
        if not comps:
            return None, place
        p = place
        while p is not None:
            got = self.step(p, comps)
            if got:
                return got, None
            p = self.parent(p)
        return comps, None

    def step(self, p, comps):
        i = self.order.index(p)
        arm = self.d["arms"][i]
        if arm:
            name, _, fields = arm
            best = None
            for new, old, path in fields:
                if same(comps[0], old) and comps[1:1 + len(path)] == path:
                    if best is None or len(path) > best[0]:
                        best = (len(path), new)
            if best:
                return [name, best[1]] + comps[1 + best[0]:]
        _, parent, (old, new), callee, renamed = self.places[p]
        if parent is None:
            if comps[0] == "requires":
                return ["requires"] + self.clause(self.d["pre"], comps[1:])
            return comps if comps[0] in ("args", "well-formed", "well_formed", "lifetimes", "ranges") else None
        if same(comps[0], old) or same(comps[0], new):
            rest = comps[1:]
            for a, b in renamed:
                if rest and same(rest[0], a):
                    rest = [b] + rest[1:]
                    break
            if rest and rest[0] == "ensures":
                rest = ["ensures"] + self.clause(self.d["clauses"][i], rest[1:])
            return [new] + rest
        return None

    @staticmethod
    def clause(pre, rest):
        if not pre:
            return rest
        fields = pre["fields"] if isinstance(pre, dict) else pre
        n = len(fields)
        k = 0
        while k < n - 1 and rest[k:k + 1] == ["1"]:
            k += 1
        if k == n - 1:
            return [fields[-1]] + rest[k:]
        if rest[k:k + 1] == ["0"]:
            return [fields[k]] + rest[k + 1:]
        return rest


PATH = re.compile(r"(?<![^\s(){}\[\],;])(" + ID + r")((?:\.(?:" + ID + r"))*)")


def turned(body, f, place, var):
    """The body with its paths turned; lets that only name a place are taken out."""
    alias = {var: place}
    out = body
    while True:
        m = re.search(r"let (" + ID + r") = (" + ID + r")((?:\." + ID + r")*) in\s*", out)
        while m and (m.group(2) not in alias or f.resolve(alias[m.group(2)], [x for x in m.group(3).split(".") if x])[0] is not None):
            m = re.compile(r"let (" + ID + r") = (" + ID + r")((?:\." + ID + r")*) in\s*").search(out, m.end())
        if not m:
            break
        alias[m.group(1)] = f.resolve(alias[m.group(2)], [x for x in m.group(3).split(".") if x])[1]
        out = out[:m.start()] + out[m.end():]
    whole = []

    def path(m):
        head, rest = m.group(1), [x for x in m.group(2).split(".") if x]
        if head not in alias:
            return m.group(0)
        got, at = f.resolve(alias[head], rest)
        if got is None:
            whole.append(m.group(0))
            return var if at == place else m.group(0)
        return var + "." + ".".join(got[:1] + [source(x) for x in got[1:]] if got[0] not in FIELDS else [FIELDS[got[0]]] + got[1:])

    out = PATH.sub(path, out)
    return out, [w for w in whole if w != var]


def split_tuple(text):
    """The parts of a text that is one tuple, or None."""
    t = text.strip()
    if not (t.startswith("(") and t.endswith(")")):
        return None
    depth, parts, last = 0, [], 1
    for i, ch in enumerate(t):
        if ch in "([{":
            depth += 1
        elif ch in ")]}":
            depth -= 1
            if depth == 0 and i != len(t) - 1:
                return None
        elif ch == "," and depth == 1:
            parts.append(t[last:i].strip())
            last = i + 1
    parts.append(t[last:-1].strip())
    return parts if len(parts) > 1 else None


def flat(text, n):
    if n == 1:
        return [text]
    parts = split_tuple(text)
    if not parts:
        return None
    if len(parts) >= n:
        return parts[: n - 1] + ["(" + ", ".join(parts[n - 1:]) + ")" if len(parts) > n else parts[-1]]
    rest = flat(parts[-1], n - len(parts) + 1)
    return parts[:-1] + rest if rest else None


def last_group(text):
    """A text that ends with a group in parentheses: what is before it, and the group (without them where it is no tuple)."""
    t = text.rstrip()
    if not t.endswith(")"):
        at = t.rindex(" ") + 1
        return t[:at], t[at:]
    depth = 0
    for i in range(len(t) - 1, -1, -1):
        if t[i] in ")]}":
            depth += 1
        elif t[i] in "([{":
            depth -= 1
            if depth == 0:
                group = t[i:]
                return t[:i], group if split_tuple(group) else group[1:-1]
    return t, ""


def lets_of(body):
    """(leading lets, the rest)"""
    m = re.match(r"(\s*)((?:let .*? in\s+)*)", body, re.S)
    lets = ""
    rest = body.strip()
    while rest.startswith("let "):
        depth, i = 0, 0
        toks = list(re.finditer(r"\blet\b|\bin\b|[(){}\[\]]", rest))
        level, end = 0, None
        for t in toks:
            if t.group(0) in "([{":
                depth += 1
            elif t.group(0) in ")]}":
                depth -= 1
            elif depth == 0 and t.group(0) == "let":
                level += 1
            elif depth == 0 and t.group(0) == "in":
                level -= 1
                if level == 0:
                    end = t.end()
                    break
        if end is None:
            return lets, rest
        lets += rest[:end] + "\n    "
        rest = rest[end:].strip()
    return lets, rest


def turn(path, d, rel, check):
    with open(path, encoding="utf-8") as fh:
        text = fh.read()
    f = Function(d)
    if "tie.close" not in text:
        return "walks the code"
    chunks = [c for c in SPLIT.split(text) if c.strip()]
    uses = [c for c in chunks if c.startswith("use ")]
    rest = [c for c in chunks if not c.startswith("use ")]
    # group: signature, optional unfolding, clauses
    groups, cur = [], None
    comment = ""
    for c in rest:
        if c.startswith("--"):
            comment += c
            continue
        m = re.match(r"((?:abbrev |pub |unfoldable )*)(" + ID + r")((?: " + ID + r")*) :(.*)", c, re.S)
        if m and not c.startswith("unfolding"):
            cur = {"mods": m.group(1), "name": m.group(2), "type": m.group(4).strip(), "sig": c, "unfolding": "", "clauses": [], "comment": comment}
            comment = ""
            groups.append(cur)
        elif c.startswith("unfolding"):
            cur["unfolding"] += c
        elif cur is not None:
            cur["clauses"].append(c)
        else:
            return "an odd line: " + c[:60]
    invariants, answers, left = "", "", []
    for g in groups:
        t = g["type"]
        if "tie.close" in "".join(g["clauses"]):
            continue
        m = re.match(r"tie\.(Need-)?(" + ID + r")", t)
        if not m:
            if "tie." in g["sig"] + "".join(g["clauses"]):
                return "names places: " + g["name"]
            answers += g["comment"] + g["sig"].rstrip() + "\n" + g["unfolding"] + "".join(c.rstrip() + "\n" for c in g["clauses"]) + "\n"
            continue
        kind = m.group(2)
        if re.match(r"(invariant|decreases)-", kind) and not m.group(1):
            at = kind.index("-")
            loop = None
            for k, ((old, new), names) in enumerate(d["loops"]):
                if same(old, kind[at + 1:]) or same(new, kind[at + 1:]):
                    loop = (new, names, d["changed"][k])
            if not loop or len(g["clauses"]) != 1:
                return "an invariant that is not read: " + g["name"]
            new, names, changed = loop
            head, _, body = g["clauses"][0].partition(" =")
            params = head.split()[1:]
            want = [("l." + n if not c else "l.initial." + n) for n, c in zip(names, changed)] + ["l." + n for n, c in zip(names, changed) if c]
            if len(params) != len(want):
                return f"an invariant with other arguments: {g['name']} {params} {want}"
            table = {p: w for p, w in zip(params, want) if p != "_"}
            body = re.sub(r"(?<![\w.«-])(" + ID + r")", lambda q: table.get(q.group(1), q.group(1)), body)
            body = PATH.sub(lambda q: table.get(q.group(1), q.group(1)) + q.group(2) if q.group(1) in table else q.group(0), body)
            body = re.sub(r"(?<=[\w'])((?:\." + ID + r")+)", lambda q: ".".join(source(x) for x in q.group(1).split(".")), body)
            body = re.sub(r"\(to_z w\d+ (l\.[^\s()]+)\)", r"\1", body)
            name = kind[:at] + "-" + new
            invariants += g["comment"] + f"abbrev pub {name} : goal.{name}\n" + g["unfolding"] + f"{name} l ={body.rstrip()}\n\n"
            continue
        goal = f.goal(kind)
        if not goal:
            left.append(f"no goal {kind}")
            continue
        new, place, old = goal
        if len(g["clauses"]) != 1:
            return "several clauses: " + g["name"]
        head, _, body = g["clauses"][0].partition(" =")
        params = head.split()[1:]
        var = params[0] if params else "c"
        if not params:
            left.append(f"no argument {g['name']}")
        if new.startswith("shape_of-"):
            continue
        if re.sub(r"\s", "", body) == "searchrules" and not g["unfolding"]:
            continue
        body, whole = turned(body, f, place, var)
        if whole:
            left.append(f"{g['name']}: a place stands whole: {whole[:3]}")
        body = PATH.sub(lambda q: spelled(q, var), body)
        asked = None
        for k, v in d["asked"].items():
            if same(k, old) or same(k, new):
                asked = v
        if asked and len(asked) > 1:
            lets, inner = lets_of(body)
            parts = flat(inner, len(asked))
            head, last = "", inner
            if not parts and inner.startswith("rw "):
                head, last = last_group(inner)
                parts = flat(last, len(asked))
            if parts:
                fields = "; ".join(f"{a} = {p}" for a, p in zip(asked, parts))
                record = "record { " + fields + " }"
            else:
                n = len(asked)
                proj = [".1" * k + ".0" for k in range(n - 1)] + [".1" * (n - 1)]
                record = f"let asked = {last} in record {{ " + "; ".join(f"{a} = asked{q}" for a, q in zip(asked, proj)) + " }"
            body = " " + lets + (head + "(" + record + ")" if head else record)
        answers += g["comment"] + f"pub {new} : goal.{new}\n" + g["unfolding"] + f"{new} {var} ={body.rstrip()}\n\n"
    folder = os.path.dirname(path)

    def imports(body, goal):
        out = ""
        words = set(re.findall(ID, body)) | set(re.findall(r"[^\s(){}\[\],;:\"`]+", body))
        for u in uses:
            u = u.strip()
            if u.endswith("Tie as tie") or ".Statement.{statement}" in u:
                continue
            m = re.match(r"use (\S+)\.\{(.*)\}$", u, re.S)
            if m:
                names = [n.strip() for n in m.group(2).split(",")]
                kept = [n for n in names if used(n, words, body)]
                if kept:
                    out += f"use {m.group(1)}.{{{', '.join(kept)}}}\n"
                continue
            out += u + "\n"
        return out + f"use {goal} as goal\n"

    base = f"Rattle.{check}.proofs.{rel.replace('/', '.')}"
    if invariants:
        with open(os.path.join(folder, "Invariants.antt"), "w", encoding="utf-8") as fh:
            fh.write(imports(invariants, base + ".Given") + "\n" + invariants.rstrip() + "\n")
    if answers:
        with open(os.path.join(folder, "Answers.antt"), "w", encoding="utf-8") as fh:
            fh.write(imports(answers, base + ".Goals") + "\n" + answers.rstrip() + "\n")
    os.remove(path)
    return left


def used(name, words, body):
    n = name.split(" as ")[-1]
    parts = [p for p in n.split("◌") if p]
    if "◌" in n:
        return all(p in body for p in parts)
    if n == "[]":
        return re.search(r"\[\s*\]", body) is not None
    if n in words:
        return True
    return any(w.split(".")[0] == n for w in words)


def main():
    crate, names = sys.argv[1:3]
    with open(names, encoding="utf-8") as fh:
        table = json.load(fh)
    top = f"crates/{crate}/proofs"
    done = 0
    for key, d in sorted(table.items()):
        m = re.match(r"Rattle-" + crate + r"-proofs\.(.*)\.Lts$", key)
        if not m or "places" not in d:
            continue
        rel = m.group(1).replace(".", "/")
        path = f"{top}/{rel}/Proof.antt"
        if not os.path.exists(path):
            continue
        said = turn(path, d, rel, crate)
        if isinstance(said, str):
            print(f"left: {path}: {said}")
        else:
            done += 1
            for s in said:
                print(f"look: {path}: {s}")
    print(f"turned {done}")


if __name__ == "__main__":
    main()
