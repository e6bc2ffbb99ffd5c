#!/usr/bin/env python3
"""What a reader of the demands has to believe: the definitions that the statements of crates/claims_demands/specs cite, and all that those cite.
Then what a reader of request [2]'s statements, crates/claims_captures/specs, has to believe besides.

Prints the lines that stand in docs/DEMANDS.md between `believed: begin` and `believed: end`; with --check compares them.
It reads the `use` lines: a file of specs/ counts whole, a declared type is a struct or an enum of src/. The toolchain's own words
(`Rattle.std`) aren't counted.
"""
import glob
import os
import re
import sys

ROOT = os.path.dirname(os.path.dirname(os.path.abspath(__file__)))
SPEC = re.compile(r"use Rattle\.(\w+)\.specs\.(\w+)(?:\.(\w+))?")


def cited(path):
    """The specs files and declared types that a file's `use` lines name."""
    files, types = set(), set()
    for crate, module, name in SPEC.findall(open(path, encoding="utf-8").read()):
        if crate == "std":
            continue
        if module == "declared":
            types.add((crate, name))
        else:
            files.add((crate, module))
    return files, types


def spec(crate, module):
    return os.path.join(ROOT, "crates", crate, "specs", module + ".antt")


def closure(roots):
    """All specs files and declared types that the roots stand on."""
    files, types, todo = set(), set(), list(roots)
    while todo:
        one = todo.pop()
        if one in files:
            continue
        files.add(one)
        more, named = cited(spec(*one))
        todo += more
        types |= named
    return files, types


def lines(crate, module):
    return sum(1 for line in open(spec(crate, module), encoding="utf-8") if line.strip())


def all_specs():
    for path in sorted(glob.glob(os.path.join(ROOT, "crates", "*", "specs", "*.antt"))):
        module = os.path.basename(path)[: -len(".antt")]
        if module != "Lib":
            yield path.split(os.sep)[-3], module


def order():
    """Crates as crates.txt has them, from the ground up."""
    names = [line.split(":")[0] for line in open(os.path.join(ROOT, "crates.txt"), encoding="utf-8") if ":" in line and line[0] != "#"]
    return names.index


def table(files, types):
    """A row for each crate of these specs files and declared types, and their number."""
    out = ["| crate | definitions, with their lines | declared types (src) |", "|---|---|---|"]
    for crate in sorted({c for c, _ in files} | {c for c, _ in types}, key=order()):
        mine = ", ".join(f"{m} {lines(c, m)}" for c, m in sorted(files) if c == crate)
        kinds = ", ".join(t for c, t in sorted(types) if c == crate)
        out.append(f"| `{crate}` | {mine} | {kinds} |")
    return out + ["", f"{sum(lines(*f) for f in files)} lines in {len(files)} files, and {len(types)} declared types."]


def listing():
    place = order()
    files, types = closure(s for s in all_specs() if s[0] == "claims_demands")
    also, kinds = closure(s for s in all_specs() if s[0] == "claims_captures")
    shared = ", ".join(f"`{c}`'s {m}" for c, m in sorted(files & also, key=lambda s: (place(s[0]), s[1])))
    rest = sorted((s for s in all_specs() if s not in files | also), key=lambda s: (place(s[0]), s[1]))
    return [*table(files, types), "", f"For captures, {shared} of these, and besides:", "", *table(also - files, kinds - types), "",
            "No statement cites: " + ", ".join(f"`{c}`'s {m} ({lines(c, m)})" for c, m in rest) + "."]


def main():
    want = listing()
    if sys.argv[1:] != ["--check"]:
        print("\n".join(want))
        return 0
    page = open(os.path.join(ROOT, "docs", "DEMANDS.md"), encoding="utf-8").read()
    have = page.split("<!-- believed: begin -->\n")[1].split("\n<!-- believed: end -->")[0].split("\n")
    if have == want:
        return 0
    print("docs/DEMANDS.md doesn't list what has to be believed as `python3 tests/believed.py` does", file=sys.stderr)
    return 1


sys.exit(main())
