#!/usr/bin/env python3
"""places.py [--list POINT] [FOLDER]: counts the places of docs/DESIGN-PASS.md's points in crates/*/src of FOLDER (the current one if none is named).
It reads text, not types: a place that it counts may be right as it is, and the page says which are. --list 1a prints the places of that row."""
import re, sys, pathlib, collections

ROWS = [
    ("1a", "enums of the shape of Option or Result: two variants, one of them without a value or Refused"),
    ("1b", "flags in structs: fields of type bool"),
    ("1c", "numbers for refusals or kinds: fields failed, refused or no of type u64, u8 fields, and functions to u64 or usize that return a number written out"),
    ("2", "twins: functions beyond the first that are alike but for names, types and numbers (three lines or more)"),
    ("3", "loops that count by hand: while with a += 1 or -= 1 in the loop"),
    ("4", "by hand: a function that only casts, a match on two enums for equality, a struct copied field by field (four or more)"),
    ("5", "functions with three or more lent columns among their parameters"),
    ("6", "parallel arrays: functions with three or more local arrays"),
    ("7", "steps chosen by a parameter of type bool"),
]
COLUMN = re.compile(r"^\s*\w+: &(?:mut )?\[(?:\[?(?:i64|i32|f64|usize|u32|u64|u8|bool)\b)")
KEYWORDS = set("fn pub let mut if else while for in return match self Self true false as struct enum impl const break continue loop move ref mod use where".split())

def functions(text):
    """(name, line, head, body) of each function: the head up to the brace of the body, clauses included."""
    for m in re.finditer(r"^( *)(?:pub(?:\([a-z]+\))? )?(?:extern \"C\" )?fn (\w+)", text, re.M):
        pad, i = m.group(1), m.start()
        b = re.compile(r"^(?:%s\{|.*\{)$" % pad, re.M)
        at = None
        for c in re.finditer(r"^.*$", text[i:], re.M):
            line = c.group(0)
            if line == pad + "{" or (line.endswith(" {") and "fn " in line) or line == pad + ") {" or re.match(r"^%s\) -> .*\{$" % pad, line):
                at = i + c.end(); break
            if line.endswith("{}") or line.endswith(";"):
                break
        if at is None:
            continue
        e = re.compile(r"^%s\}$" % pad, re.M).search(text, at)
        if e:
            yield m.group(2), text.count("\n", 0, i) + 1, text[i:at], text[at:e.start()]

def parameters(head):
    h = re.split(r"^\s*(?:requires|ensures)\b", head, flags=re.M)[0]
    a = h[h.index("(") + 1:]
    depth, out, cur = 0, [], ""
    for ch in a:
        if ch in "([{<": depth += 1
        if ch in ")]}>":
            if depth == 0: break
            depth -= 1
        if ch == "," and depth == 0: out.append(cur); cur = ""
        else: cur += ch
    return [p.strip() for p in out + [cur] if p.strip()]

def shape(head, body):
    """The function with its names numbered in the order in which they come, and types and numbers left out."""
    t = re.sub(r"//.*", "", body)
    t = re.sub(r"\b\d[\d_]*(?:\.\d+)?(?:usize|u64|u8|i64|i32|f64)?\b", "N", t)
    t = re.sub(r"b?'(?:\\.|[^'])'|b?\"[^\"]*\"", "S", t)
    t = re.sub(r": (?:&(?:mut )?)?(?:\[.*?\]|usize|u64|u32|u8|i64|i32|f64|bool)(?= =)", "", t)
    names = {}
    def sub(m):
        w = m.group(0)
        if w in KEYWORDS or w in "NS": return w
        return names.setdefault(w, "v%d" % len(names))
    for p in parameters(head):
        n = p.split(":")[0].replace("mut ", "").strip()
        if n not in ("self", "&self", "&mut self"): names.setdefault(n, "v%d" % len(names))
    t = re.sub(r"[A-Za-z_]\w*", sub, t)
    return re.sub(r"\s+", " ", t).strip(), t.count(";") + t.count("=>")

def places(root):
    found = collections.defaultdict(list)
    shapes = collections.defaultdict(list)
    for f in sorted(pathlib.Path(root).glob("crates/*/src/**/*.rt")):
        text, name = f.read_text(), str(f.relative_to(root))
        line = lambda i: text.count("\n", 0, i) + 1
        for m in re.finditer(r"^(?:pub )?enum (\w+)[^{]*\{\n(.*?)^\}", text, re.M | re.S):
            vs = [v.strip() for v in re.sub(r"//.*", "", m.group(2)).split(",\n") if v.strip()]
            unit = [v for v in vs if re.fullmatch(r"\w+", v)]
            if len(vs) == 2 and (len(unit) == 1 or any(v.startswith("Refused") for v in vs)):
                found["1a"].append((name, line(m.start()), m.group(1)))
        for m in re.finditer(r"^(?:pub )?struct (\w+)[^{;]*\{\n(.*?)^\}", text, re.M | re.S):
            for g in re.finditer(r"^\s*(?:pub )?(\w+): bool,", m.group(2), re.M):
                found["1b"].append((name, line(m.start()), m.group(1) + "." + g.group(1)))
            for g in re.finditer(r"^\s*(?:pub )?(\w+): (u64|u8),", m.group(2), re.M):
                if g.group(2) == "u8" or g.group(1) in ("failed", "refused", "no"):
                    found["1c"].append((name, line(m.start()), m.group(1) + "." + g.group(1)))
        for n, l, head, body in functions(text):
            sig = re.split(r"^\s*(?:requires|ensures)\b", head, flags=re.M)[0]
            ps = parameters(head)
            if re.search(r"-> (u64|usize|u8)\b", sig) and re.search(r"return [1-9]\d*;|=> [1-9]\d*,", body):
                found["1c"].append((name, l, n))
            s, size = shape(head, body)
            if size >= 3 or len(s) > 90:
                shapes[s].append((name, l, n))
            for m in re.finditer(r"^( *)while .*\{\n(.*?)^\1\}", body, re.M | re.S):
                if re.search(r"\w+ [+-]= 1;", m.group(2)):
                    found["3"].append((name, l, n))
            if re.fullmatch(r"\s*\w+ as \w+\s*", body) or re.search(r"=> match \w+ \{", body):
                found["4"].append((name, l, n))
            for m in re.finditer(r"(\w+) \{\n((?:\s*\w+(?:: [\w.]+)?,\n)+)\s*\}", body):
                same = re.findall(r"(\w+): (\w+)\.\1,", m.group(2))
                if same and collections.Counter(v for _, v in same).most_common(1)[0][1] >= 4:
                    found["4"].append((name, l, n))
            if sum(bool(COLUMN.match(p)) for p in ps) >= 3:
                found["5"].append((name, l, n))
            if len(re.findall(r"let mut \w+ = \[", body)) >= 3:
                found["6"].append((name, l, n))
            if any(re.match(r"\w+: bool$", p) for p in ps):
                found["7"].append((name, l, n))
    for group in shapes.values():
        if len(group) > 1:
            found["2"] += [g + ("as " + group[0][2],) for g in group[1:]]
    return found

def main(args):
    want = None
    if args[:1] == ["--list"]:
        want, args = args[1], args[2:]
    found = places(args[0] if args else ".")
    if want:
        for p in found[want]: print("%s:%d: %s" % (p[0], p[1], " ".join(p[2:])))
        return
    for key, what in ROWS:
        by = collections.Counter(p[0].split("/")[1] for p in found[key])
        print("%-3s %4d  %s" % (key, len(found[key]), what))
        print("          " + ", ".join("%s %d" % kv for kv in sorted(by.items())))

main(sys.argv[1:])
