#!/usr/bin/env python3
"""Respells this repository's own definitions and lemmas as today's Rattle spells names. Run once, at the top, behind port.py.

usage: tools/respell.py [--list]

Definitions, fields and constructors become snake case. In a lemma's name a dash stays where it joins two names of definitions, and else
becomes an underscore. Types and modules keep their capitals, functions of src/ their names. Names that the toolchain makes (goals, steps,
proofs of functions) are left alone: they stand in proofs/F/. Names that would fall together are listed, and get the ending _lem.
"""
import os
import re
import sys

ROOT = os.path.dirname(os.path.dirname(os.path.realpath(__file__)))
# std's and the logic's words that stand in names of lemmas
WORDS = set("""length take drop set append map replicate get_or le lt add mul sub eq eqb ltb leb ne mem suc zero div mod cons nil
reverse paste all any""".split())
# fields and a lemma that would else have the name of a definition beside them
OTHERWISE = {"goes_on": "going_on", "no_key": "without_key", "one_more": "one_more_turn"}
TOKEN = re.compile(r"[^\s(){}\[\];,.`\"/:<>=→≡∷λ×⊎⌜⌝…|*+&!?]+")


def snake(name):
    name = name.replace("IPv4", "Ipv4").replace("UDP", "Udp").replace("TCP", "Tcp").replace("FIN", "Fin")
    return re.sub(r"([a-z0-9])([A-Z])", r"\1_\2", name).lower()


def files(*ends):
    for top in ("crates", "docs", "tests"):
        for folder, dirs, names in os.walk(os.path.join(ROOT, top)):
            dirs[:] = sorted(d for d in dirs if d != "out")
            for n in sorted(names):
                if n.endswith(ends):
                    yield os.path.join(folder, n)
    for n in ("README.md",):
        if n.endswith(ends):
            yield os.path.join(ROOT, n)


def read(path):
    with open(path, encoding="utf-8") as f:
        return f.read()


def of_function(path):
    """Whether a proof file belongs to one function: its names are the toolchain's."""
    parts = os.path.relpath(path, os.path.join(ROOT, "crates")).split(os.sep)
    return parts[1] == "proofs" and len(parts) > 3


def declared():
    """The names that the repository declares, and those of them that are definitions."""
    found, defs = {}, set()
    for p in files(".antt"):
        if of_function(p) or p.endswith(os.sep + "Lib.antt"):
            continue
        spec = os.sep + "specs" + os.sep in p
        for line in read(p).split("\n"):
            m = re.match(r"( *)((?:pattern |unfoldable |abbrev |pub )*)([^\s:(){}]+) : ", line)
            if not m or line.lstrip().startswith("--"):
                continue
            indent, marks, name = m.groups()
            if indent and "pub" not in marks and len(indent) != 2:
                continue
            if not re.match(r"[a-z]", name):
                continue
            found.setdefault(name, set()).add(p)
            if not indent and (spec or "abbrev" in marks or "unfoldable" in marks):
                defs.add(name)
    return found, defs


def respelt(name, defs, spec_only):
    parts = [snake(x) for x in name.split("-")]
    if len(parts) == 1:
        return parts[0]
    if spec_only:
        return "_".join(parts)
    known = {snake(d) for d in defs if "-" not in d} | WORDS
    # the longest known runs from the left
    runs, i = [], 0
    while i < len(parts):
        for j in range(len(parts), i, -1):
            word = "_".join(parts[i:j])
            if word in known:
                runs.append((word, True))
                i = j
                break
        else:
            runs.append((parts[i], False))
            i += 1
    out = runs[0][0]
    for (a, ka), (b, kb) in zip(runs, runs[1:]):
        out += ("-" if ka and kb else "_") + b
    return out


def main():
    found, defs = declared()
    in_specs = {n for n, ps in found.items() if any(os.sep + "specs" + os.sep in p for p in ps)}
    turned = {}
    for n in found:
        new = OTHERWISE.get(n) or respelt(n, defs, n in in_specs)
        if new != n:
            turned[n] = new
    # names that fall together in a file: the definition has the plain name
    where = {}
    for p in files(".antt", ".rt"):
        for t in set(TOKEN.findall(read(p))):
            if t in found:
                where.setdefault(t, set()).add(p)
    taken = {}
    for n in sorted(found, key=lambda n: (n not in in_specs, n not in defs, n in turned, n)):
        new = turned.get(n, n)
        if any(where.get(n, set()) & where.get(m, set()) for m in taken.get(new, [])):
            print(f"falls together: {n} and {taken[new]} as {new}", file=sys.stderr)
            new += "_lem"
            assert new not in taken and new not in found
            turned[n] = new
        taken.setdefault(new, []).append(n)
    if "--list" in sys.argv:
        for n in sorted(turned):
            print(n, turned[n])
        return
    for p in files(".antt", ".rt", ".edit", ".md"):
        text = read(p)
        if p.endswith(".md"):
            new = re.sub(r"`[^`\n]+`", lambda m: TOKEN.sub(lambda t: turned.get(t[0], t[0]), m[0]), text)
        elif p.endswith(".rt") or (p.endswith(".antt") and of_function(p)):
            # clauses, imports of ghosts and comments, and what is proved of a function: names of src/ stay
            new = TOKEN.sub(lambda t: turned.get(t[0], t[0]) if re.search("[-A-Z]", t[0]) else t[0], text)
        else:
            new = TOKEN.sub(lambda t: turned.get(t[0], t[0]), text)
        if new != text:
            with open(p, "w", encoding="utf-8") as f:
                f.write(new)


main()
