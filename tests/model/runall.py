"""Runs everything: figures, every stream, 20 further histories, the lent buffers.

    python3 runall.py           compares expected/ with the model and checks along
    python3 runall.py --write   writes expected/ afresh first
"""
import os
import sys
import time
from collections import Counter

import check
import lent
import model
import session
import streams
import streams_methods

HERE = os.path.dirname(os.path.abspath(__file__))


def row(name, seen):
    refusals = " ".join(str(r) for r in (1, 2, 10, 3, 6, 4, 5, 7) if seen["refusal", r])
    marks = " ".join(str(m) for m in (1, 2, 3, 4, 5, 6, 8) if seen["mark", m])
    methods = " ".join(str(m) for m in (1, 2, 3) if seen["method", m])
    return "| %s | %d | %s | %s | %s | %d | %d |" % (
        name, seen["events"], methods, refusals or "-", marks or "-", seen["pairs"], seen["ended"])


def main(write):
    check.figures()
    print("figures P1 to P13 and FNV vectors: ok")
    print("| stream | events | methods | refusals | marks | pairs of demand 3 | with an end between |")
    print("|---|---|---|---|---|---|---|")
    total, began = Counter(), time.time()
    for name in streams.names():
        data = streams.stream(name)
        path = os.path.join(HERE, "expected", name + ".out")
        text = "".join(line + "\n" for line in session.lines(data))
        if write:
            with open(path, "w") as out:
                out.write(text)
        with open(path) as out:
            assert out.read() == text, path
        seen = model.check_along(session.split(data))
        total.update(seen)
        print(row(name, seen), flush=True)
    for seed in range(1, 21):
        events, records, dirt = streams_methods.history(seed)
        seen = model.check_along(events, records, dirt)
        total.update(seen)
        print(row("history %d (%d records)" % (seed, records), seen), flush=True)
    print(row("all", total))
    print("mark 4 beside half-closed records: %d" % total["4 beside half-closed"])
    print("lent buffers: %d cases ok" % lent.run())
    print("%.0f seconds" % (time.time() - began))


if __name__ == "__main__":
    main("--write" in sys.argv[1:])
