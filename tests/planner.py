#!/usr/bin/env python3
"""The tables of docs/FIGURES.md, made of the stored output of program_figures and of the formulas beside them; and its pictures
(tests/pictures.py).

    python3 tests/planner.py write     puts tables into the page and pictures beside it
    python3 tests/planner.py check     says what is out of date, and fails if anything is
"""
import math
import os
import sys

ROOT = os.path.dirname(os.path.dirname(os.path.abspath(__file__)))
PAGE = os.path.join(ROOT, "docs", "FIGURES.md")
KEYS, PLACES, MOVERS = 20000, 3276, 16
WAYS = ((1, 0), (2, 0), (3, 4096), (3, 256))


def stored():
    """The stored output: numbers by the words and numbers that a line begins with."""
    out = {}
    head = {"keys": 4, "share": 4, "turns": 3, "joins": 3}
    for line in open(os.path.join(ROOT, "crates", "program_figures", "stdout"), encoding="utf-8"):
        name, *words = line.split()
        numbers = list(map(int, words))
        n = head[name]
        out.setdefault((name, *numbers[:n]), []).append(numbers[n:])
    return out


FOUND = stored()


def tenths(part, whole):
    """Per cent, rounded to tenths."""
    n = (2000 * part + whole) // (2 * whole)
    return f"{n // 10}.{n % 10}"


def table(head, rows):
    return ["| " + " | ".join(map(str, head)) + " |", "|---" * len(head) + "|"] + ["| " + " | ".join(map(str, r)) + " |" for r in rows]


# ------------------------------------------------------------------------------- formulas

def rotated(working, standbys, k):
    """The share of sessions recorded after k rotations, by the rule of the page."""
    k = min(k, working)
    return (standbys + k - k * (k + 1) / (2 * working)) / (working + standbys)


def most(share):
    """The most sessions n whose mean number of records and three standard deviations fit: n p + 3 sqrt(n p (1 - p))."""
    n = int(PLACES / share)
    while n * share + 3 * math.sqrt(n * share * (1 - share)) > PLACES:
        n -= 1
    return n


def spread(live, share):
    """Mean and standard deviation of the sessions that need a record."""
    return live * share, math.sqrt(live * share * (1 - share))


def chance_full(live, share):
    """The chance that more sessions need a record than there are places, at one moment (normal curve)."""
    mean, dev = spread(live, share)
    return math.erfc((PLACES + 0.5 - mean) / dev / math.sqrt(2)) / 2


def without(live, share):
    """How many sessions are expected to need a record and to find no place, at one moment (normal curve)."""
    mean, dev = spread(live, share)
    z = (PLACES - mean) / dev
    return dev * (math.exp(-z * z / 2) / math.sqrt(2 * math.pi) - z * math.erfc(z / math.sqrt(2)) / 2)


def taken(working, standbys, join=1):
    """The share of the sessions without a place that a join takes away, the first or a later one, before which so many work and stand by."""
    return (working + standbys) / (standbys * (working + join))


def about(x):
    """An expected number, to two or three figures."""
    if x < 0.001:
        return "below 0.001"
    return f"{x:.3f}" if x < 0.1 else f"{x:.1f}" if x < 10 else f"{x:,.0f}"


# --------------------------------------------------------------------------------- tables

def evenness_cell(keys):
    n, low, high, none = len(keys), min(keys), max(keys), keys.count(0)
    text = f"{low:,} to {high:,} ({tenths(low * n, KEYS)} to {tenths(high * n, KEYS)} %)"
    return text + (f", {none} with none" if none else "")


def evenness():
    return table(("numbers", "servers", "even share", "HRW", "ring", "4,096 rows", "256 rows"),
                 [("spread" if s else "consecutive", n, f"{KEYS / n:,g}", *(evenness_cell(FOUND["keys", s, n, *way][0]) for way in WAYS))
                  for s in (1, 0) for n in (8, 16, 32, 64)])


def share_cell(recorded):
    mean = tenths(sum(recorded), KEYS * len(recorded))
    return f"{mean} ({tenths(min(recorded), KEYS)} to {tenths(max(recorded), KEYS)})"


def shares():
    sets = [key[1:3] for key in FOUND if key[0] == "share" and key[3:] == (1, 0)]
    return table(("working", "standbys", "theorem 4.2", "HRW", "ring", "4,096 rows", "256 rows"),
                 [(w, h, tenths(h, w + h), *(share_cell(FOUND["share", w, h, *way][0]) for way in WAYS)) for w, h in sets])


def sizes():
    return table(("standbys : working", "share", "sessions on average", "with the margin"),
                 [(f"{h} : {w}", tenths(h, w + h) + " %", f"{PLACES * (w + h) // h:,}", f"{most(h / (w + h)):,}")
                  for w, h in ((32, 1), (16, 1), (8, 1), (14, 2), (13, 3), (8, 2), (8, 4), (8, 8))])


def turned(working, k):
    """Used records after k rotations: mean, lowest and highest of the draws."""
    used = [line[4 * k] for line in FOUND["turns", working, MOVERS - working, 3000]]
    return f"{sum(used) / len(used):,.0f} ({min(used):,} to {max(used):,})"


def rotations():
    rows = []
    for k in (0, 1, 2, 3, 5, 8, 11, 15, 20):
        row = [k]
        for working in (15, 14, 12):
            row += [f"{3000 * rotated(working, MOVERS - working, k):,.0f}", turned(working, k)]
        rows.append(row)
    return table(("rotations", "1 standby: rule", "counted", "2 standbys: rule", "counted", "4 standbys: rule", "counted"), rows)


def rotation_sizes():
    return table(("standbys of 16 movers", "no rotation", "1 rotation", "3 rotations", "all have had their turn"),
                 [(h, *(f"{most(rotated(MOVERS - h, h, k)):,}" for k in (0, 1, 3, MOVERS))) for h in (1, 2, 4)])


def full():
    rows = []
    for name, w, h, live in [key for key in FOUND if key[0] == "joins"]:
        line = FOUND[name, w, h, live][0]
        no_room, first, second = line[1], line[6], line[10]
        short = without(live, h / (w + h))
        rows.append((f"{live:,}", about(short), f"{no_room:,}", about(short * taken(w, h)), f"{first:,}", about(short * taken(w, h, 2)),
                     f"{second:,}"))
    return table(("live sessions", "without a place: estimate", "counted", "moved by the first join: estimate", "counted",
                  "moved by the second: estimate", "counted"), rows)


def risks():
    rows = []
    for live in (22000, 24000, 24954, 26000, 26208, 27000, 28000, 30000):
        short = without(live, 1 / 8)
        rows.append((f"{live:,}", f"{100 * chance_full(live, 1 / 8):.2f} %", about(short), about(12 * short), about(short * taken(14, 2))))
    return table(("live sessions", "chance that the table is too small at a given moment", "sessions without a place then",
                  "packets with mark 4 in four hours", "tapes mounted twice at a join"), rows)


def short():
    line = FOUND["turns", 15, 1, 8000][0]
    names = ("records used", "sessions without a place", "moved for lack of a place", "moved since their mover left work")
    return table(("rotations", *range(8, 21)), [(name, *(f"{line[4 * k + i]:,}" for k in range(8, 21))) for i, name in enumerate(names)])


def leaving():
    rows = []
    for working in (15, 14, 12):
        lines = FOUND["turns", working, MOVERS - working, 3000]
        rows.append((MOVERS - working, *(f"{sum(line[4 * k + 3] for line in lines) / len(lines):,.0f}" for k in (1, 5, 10, 15, 20))))
    return table(("standbys of 16 movers", *(f"rotation {k}" for k in (1, 5, 10, 15, 20))), rows)


TABLES = (evenness, shares, sizes, rotations, rotation_sizes, leaving, full, risks, short)


def said():
    """Numbers in the page's sentences, made of the formulas."""
    sessions, few = without(27000, 1 / 8), rotated(14, 2, 2)
    return (f"plan for {most(1 / 8) // 100 * 100:,} live sessions", f"With the margin it is {most(1 / 8):,}:", f"= {100 * few:.1f} %, not 12.5 %",
            f"about {round(PLACES / few, -1):,.0f} sessions, with the margin by {most(few):,}: plan for {most(few) // 100 * 100:,}",
            f"{100 * 1 / 2 / 2:.0f} % come on top of the rule's {100 * few:.1f} %",
            f"by about {round(PLACES / (few + 1 / 2 / 2), -1):,.0f} sessions, not by {round(PLACES / few, -1):,.0f}",
            f"z = {(PLACES - 27000 / 8) / spread(27000, 1 / 8)[1]:.2f} and W = {sessions:.0f}.",
            f"12 x {sessions:.0f} = {12 * round(sessions):,} packets with mark 4",
            f"{100 * taken(14, 2):.0f} % of the sessions without a place: {sessions * taken(14, 2):.0f} tapes", f"which is {(8000 - 2 * PLACES) / MOVERS:.1f}:")


def page(text):
    """The page with its tables made anew, each between marks that name it."""
    for make in TABLES:
        begin, end = f"<!-- {make.__name__}: begin -->\n", f"<!-- {make.__name__}: end -->"
        before, rest = text.split(begin)
        text = before + begin + "\n".join(make()) + "\n" + end + rest.split(end)[1]
    return text


def main():
    import pictures
    have = open(PAGE, encoding="utf-8").read()
    want = {PAGE: page(have)}
    want.update((os.path.join(ROOT, "docs", name), text) for name, text in pictures.drawn(FOUND))
    plain = " ".join(have.split())
    lost = [words for words in said() if words not in plain] + [name for name, _ in pictures.drawn(FOUND) if f"]({name})" not in plain]
    stale = [p for p, text in want.items() if not os.path.exists(p) or open(p, encoding="utf-8").read() != text]
    if sys.argv[1:] == ["write"]:
        for path in stale:
            with open(path, "w", encoding="utf-8") as f:
                f.write(want[path])
    elif sys.argv[1:] == ["check"]:
        for path in stale:
            print(os.path.relpath(path, ROOT), "isn't what `python3 tests/planner.py write` makes", file=sys.stderr)
        for words in lost:
            print("docs/FIGURES.md doesn't say:", words, file=sys.stderr)
        return bool(stale or lost)
    else:
        sys.exit("words: write or check")
    return 0


if __name__ == "__main__":
    sys.dont_write_bytecode = True
    sys.exit(main())
