#!/usr/bin/env python3
"""Counts the places in crates/*/src where an older form of the language may stand (docs/DESIGN-PASS.md).

    tools/places.py [-l] [FOLDER]      a line for each kind of place, with its count; -l lists the places too. FOLDER: another checkout

A count says where to look, not that a form is wrong: a place that stays has a line `// Stays (N): reason` beside it, and those lines are
counted as well. The patterns are below; the second way of counting that the page names is to read.
"""
import collections
import glob
import os
import re
import sys

args = [a for a in sys.argv[1:] if a != "-l"]
listing = "-l" in sys.argv[1:]
root = args[0] if args else os.path.dirname(os.path.dirname(os.path.abspath(__file__)))

# name, point, pattern of a line of code
LINES = (
    ("1 own enums", r"^(pub(\(crate\))? )?enum "),
    ("1 kinds, tags, marks and reasons as constants", r"^(pub(\(crate\))? )?const [A-Z_]+: u8 = \d"),
    ("1 refusals as numbers", r"[rR]efused\(\d+|return 2[0-2];|[=!]= 2[12]\b"),
    ("1 a number or a letter that says which", r"\b(what|method|spread|op|part|kind|reason|phase): u(8|16|32|64)\b"),
    ("3 loops by while or loop", r"^\s*('\w+: )?(while|loop)\b"),
    ("4 a field named twice", r"^\s*(\w+): \1,|\b(\w+): \2 \}"),
    ("4 a field copied into a local of its name", r"^\s*let (\w+) = \w+\.\1;"),
    ("4 widened by as", r"\bas (u64|usize|u32)\b"),
    ("4 bytes of a number by arithmetic", r"(/|\*|%) (256|65536|16777216|4294967296|1099511627776)\b"),
    ("7 a switch on a step, a letter or a number", r"\bmatch (what|method|op|phase|part|next|c|field)\b"),
)


def files():
    return sorted(glob.glob(os.path.join(root, "crates/*/src/**/*.rt"), recursive=True))


def functions(text):
    """Every function: its line, its text from the name to the closing brace."""
    for m in re.finditer(r"^( *)(pub(\(crate\))? )?fn (\w+)", text, re.M):
        end = re.compile("^" + m[1] + r"\}", re.M).search(text, m.end())
        if end:
            yield text.count("\n", 0, m.start()) + 1, m[4], text[m.start():end.end()]


def shape(body):
    """A function's body with names, types and numbers out of it: equal for twins."""
    i = body.find("\n{\n")
    if i < 0:
        i = body.find("{\n")
    code = re.sub(r"//.*", "", body[i:])
    names = {}
    out = []
    for t in re.findall(r"\w+|[^\w\s]", code):
        if re.fullmatch(r"\w+", t) and t not in ("if", "while", "return", "match", "let", "mut", "for", "in", "else", "Some", "None", "Ok", "Err"):
            t = "0" if t[0].isdigit() else names.setdefault(t, "n%d" % len(names))
        out.append(t)
    return " ".join(out), len(out)


found = collections.OrderedDict((name, []) for name, _ in LINES)
for extra in ("1 a bool beside other fields of a struct", "1 nothing said by a number (its comment says 0, or the length, for none)",
              "2 functions alike but for names, types and numbers", "4 an if that only holds an if", "5 servers and states side by side", "5 rows and flags side by side",
              "5 the same requires in three functions or more", "6 an array and a count side by side", "stays"):
    found[extra] = []
shapes = collections.defaultdict(list)
needs = collections.defaultdict(list)
for path in files():
    text = open(path, encoding="utf-8").read()
    short = path[len(root):].lstrip("/")
    rows = text.split("\n")
    for n, line in enumerate(rows, 1):
        where = "%s:%d: %s" % (short, n, line.strip())
        if re.search(r"// Stays \(\d", line):
            found["stays"].append(where)
        code = re.sub(r"//.*", "", line)
        for name, pattern in LINES:
            if re.search(pattern, code) and not code.lstrip().startswith(("ghost", "ensures", "requires")):
                found[name].append(where)
        if re.match(r"\s*if .*\{$", line) and n < len(rows) and re.match(r"\s*if .*\{$", rows[n]):
            indent = len(line) - len(line.lstrip())
            close = next((k for k in range(n, len(rows)) if rows[k] == " " * (indent + 4) + "}"), None)
            if close is not None and rows[close + 1:close + 2] == [" " * indent + "}"]:
                found["4 an if that only holds an if"].append(where)
    for m in re.finditer(r"struct \w+(<.*?>)? \{(.*?)\n\}", text, re.S):
        for b in re.finditer(r"(\w+): bool", m[2]):
            found["1 a bool beside other fields of a struct"].append("%s: %s" % (short, b[0]))
        if re.search(r": \[", m[2]) and re.search(r": usize", m[2]):
            found["6 an array and a count side by side"].append("%s: %s" % (short, m[0].split("{")[0].strip()))
    for n, name, body in functions(text):
        above = []
        k = n - 2
        while k >= 0 and rows[k].startswith(("//", "#")):
            above.insert(0, rows[k])
            k -= 1
        says = " ".join(above)
        if re.search(r"\b0 where|, or 0\b|0 for none|0 past|0 unknown|; 0 where|number of places where it isn|number of servers where|0, past", says):
            found["1 nothing said by a number (its comment says 0, or the length, for none)"].append("%s:%d: %s" % (short, n, name))
        head = body.split("\n{\n")[0]
        sig = head.split("ensures")[0].split("requires")[0]
        if re.search(r"\bservers: &(mut )?\[u32\]", sig) and re.search(r"\bstates: &(mut )?\[u8\]", sig):
            found["5 servers and states side by side"].append("%s:%d: %s" % (short, n, name))
        if re.search(r"\b(rows|chosen): &(mut )?\[u32\]", sig) and re.search(r"\bflags: &(mut )?\[u8\]", sig):
            found["5 rows and flags side by side"].append("%s:%d: %s" % (short, n, name))
        if re.search(r": \[\w+; \w+\], (n|places|held): usize", sig):
            found["6 an array and a count side by side"].append("%s:%d: %s" % (short, n, name))
        for r in re.findall(r"requires (?:\w+ )?\{(.*?)\}\n", head, re.S):
            needs[(short.split("/")[1], " ".join(r.split()))].append("%s:%d: %s" % (short, n, name))
        key, size = shape(body)
        if size >= 12:
            shapes[key].append("%s:%d: %s" % (short, n, name))
for group in shapes.values():
    if len(group) > 1:
        found["2 functions alike but for names, types and numbers"].append(" ~ ".join(group))
for (crate, r), group in needs.items():
    if len(group) > 2:
        found["5 the same requires in three functions or more"].append("%s: %s" % (r, ", ".join(group)))
for name in sorted(found):
    print("%5d  %s" % (len(found[name]), name))
    if listing:
        for where in found[name]:
            print("           " + where)
answers = [p for p in glob.glob(os.path.join(root, "crates/*/proofs/**/*.antt"), recursive=True)]
for kind in ("Answers", "Invariants"):
    lines = sum(len(open(p, encoding="utf-8").read().splitlines()) for p in answers if os.path.basename(p) == kind + ".antt")
    print("%5d  8 lines of proofs/**/%s.antt" % (lines, kind))
