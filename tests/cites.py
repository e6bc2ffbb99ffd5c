#!/usr/bin/env python3
"""Every file and every name that the pages cite is there.

    python3 tests/cites.py          checks README.md, docs/*.md and tests/model/README.md; says what is missing

A page cites `name` in crates/NAME/specs/FILE.antt (proofs/, src/ likewise; "crates/" may be left out), or `name` (crates/..). Of such a pair
the file has to exist and to define the name. A path alone has to exist, and a name alone has to be defined in some crate; WORDS has what
stands in the same quotes and is no name of a crate.
"""
import glob
import os
import re
import sys

ROOT = os.path.dirname(os.path.dirname(os.path.abspath(__file__)))
PATH = r"(?:crates/)?([a-z_]+/(?:specs|proofs|src|must-fail)/[\w./]+\.(?:antt|rt|edit))"
PAIR = re.compile(r"((?:`[^`\n]+`(?:,| and|;)?\s+)+)(?:in\s+|\()" + PATH)
CODE = re.compile(r"\s*(?:pub(?:\(crate\))? )?(?:fn|struct|enum|trait|const) (\w+)|\s*pub (\w+):")
LOGIC = re.compile(r"\s*(?:(?:abbrev|unfoldable) )?(?:pub )?(?:record |data )?([A-Za-z][\w′'-]*)(?:\s*:|\s*\(|\s*$)")

WORDS = set("""jet setsid stdbuf explain summary sh bin rattle-kit-13f rt lib mod full twin std io libc os Copy Err Wait abbrev const
ensures requires Learnt clauses Reads""".split())


def defined(path):
    """The names that a file of a crate defines."""
    found = set()
    with open(os.path.join(ROOT, "crates", path), encoding="utf-8") as lines:
        for line in lines:
            match = (CODE if path.endswith(".rt") else LOGIC).match(line)
            if match:
                found |= {name for name in match.groups() if name}
    return found


def missing(page):
    """What a page cites and isn't there."""
    with open(os.path.join(ROOT, page), encoding="utf-8") as text:
        body = text.read()
    paths = set(re.findall(r"(?<![\w/])" + PATH, body))
    gone = {p for p in paths if not os.path.exists(os.path.join(ROOT, "crates", p))}
    for p in sorted(gone):
        yield f"{page}: no file crates/{p}"
    for names, path in PAIR.findall(body):
        if path in gone or not path.endswith((".antt", ".rt")):
            continue
        for name in re.findall(r"`([^`]+)`", names):
            if re.fullmatch(r"[\w′'-]+", name) and name not in WORDS | defined(path):
                yield f"{page}: crates/{path} doesn't define {name}"


def everywhere():
    """Every name that some crate defines, the crates' own and those of the must-fail edits among them."""
    found = set(WORDS) | set(os.listdir(os.path.join(ROOT, "crates")))
    for path in glob.glob(os.path.join(ROOT, "crates", "*", "**", "*"), recursive=True):
        if os.sep + "out" + os.sep in path:         # what rt made of the sources
            continue
        if path.endswith((".antt", ".rt")):
            found |= defined(os.path.relpath(path, os.path.join(ROOT, "crates")))
        if path.endswith(".edit"):
            found.add(os.path.basename(path)[: -len(".edit")])
    return found


def unknown(page, names):
    """The names alone that no crate defines; of `crate::name` the last part is asked."""
    with open(os.path.join(ROOT, page), encoding="utf-8") as text:
        for name in sorted(set(re.findall(r"`([^`\n]+)`", text.read()))):
            last = name.split("::")[-1]
            if re.fullmatch(r"[A-Za-z][\w′'-]*", last) and last not in names:
                yield f"{page}: no crate defines {name}"


def main():
    pages = ["README.md", "tests/model/README.md"]
    pages += sorted(os.path.relpath(p, ROOT) for p in glob.glob(os.path.join(ROOT, "docs", "*.md")))
    for page in ("PORT.md", "DESIGN-PASS.md", "LOOK-BACK.md"):          # they name what is gone, as the landing notes do
        pages.remove(os.path.join("docs", page))
    names = everywhere()
    faults = [fault for page in pages for fault in [*missing(page), *unknown(page, names)]]
    for fault in faults:
        print(fault, file=sys.stderr)
    return 1 if faults else 0


sys.exit(main())
