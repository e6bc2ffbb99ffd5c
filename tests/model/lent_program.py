"""Cases for the program test_replay: buffers and rosters that someone else wrote, one event or one start on each.

A case gives two lines (`replay.py` writes them). What the program has to print: the case's name, a colon, refusal, server,
mark, reads, the used records afterwards, and the digests of table, rows, flags, ring and roster (layout: session.py), `-`
for a ring of 63. And its text, which the program reads: the name, a colon, and the steps that write what differs from
a blank case. Every case begins afresh from `Case`.
"""
import model
import session
from lent import record, roster
from model import Entry
from streams import HALF, with_server, with_settings

P, Q, R = (bytes([n]) * 13 for n in (1, 2, 3))
END = b"\x02\0\0" + P
POINT, ROW = model.fnv(P), model.fnv(P) % 11
ONE = {1: 1}


class Case:
    """A packet of P, a table of four zero records, rows of 9 without flags, a ring whose entries name 9 at the
    last position, server 1 working under method 1."""

    def __init__(self, event=b"\x01\0\0" + P, table=80, rows=4096, flags=4096, records=(), row=None, entries=(),
                 states=None, method=1, row_count=0, change=None, ring=64):
        self.event = event
        self.table = bytearray((b"".join(records) + bytes(65540))[:table])
        self.rows, self.flags = [9] * rows, bytearray(flags)
        if row:
            self.rows[row[0]], self.flags[row[0]] = row[1:]
        self.ring = (list(entries) + [LAST] * 64)[:ring]
        self.roster = roster(ONE if states is None else states, method, row_count)
        if change:
            change(self.roster)

    def buffers(self):
        return self.table, self.rows, self.flags, self.ring, self.roster

    def images(self):
        return session.Session.images(self)


LAST = Entry(2**32 - 1, 9, 0)
EVENT, SHORT_RING, START = 0, 1, 2


def written(word, values, blank):
    """Steps for the values that aren't blank: a word, an index, the values from there on."""
    steps, at = [], 0
    while at < len(values):
        end = at
        while end < len(values) and values[end] != blank:
            end += 1
        if end > at:
            steps.append("%s %d %s" % (word, at, " ".join(str(v) for v in values[at:end])))
        at = end + 1
    return steps


def text(name, case, what):
    """"table" goes on to its last byte that isn't zero; "ring" has three numbers for each entry; "under" is the method and the row
    count; "lent" is the length of table, rows and flags, and what is done: 0 the event, 1 the event with a ring of 63, 2 a start."""
    event, table = list(case.event), list(case.table.rstrip(b"\0"))
    lent = [len(case.table), len(case.rows), len(case.flags), what]
    steps = ["event 0 " + " ".join(str(b) for b in event)] if event else []
    steps += ["table 0 " + " ".join(str(b) for b in table)] if table else []
    steps += written("choices", case.rows, 9) + written("flags", case.flags, 0)
    ring = [e for e in case.ring if e != LAST]
    assert case.ring[:len(ring)] == ring
    steps += ["ring 0 " + " ".join(str(n) for e in ring for n in e)] if ring else []
    r = case.roster
    steps += written("movers", r.servers, 0) + written("states", r.states, 0)
    steps += ["held 0 %d" % r.count] if r.count else []
    steps += ["under %d %d" % (r.method, r.row_count)] if (r.method, r.row_count) != (1, 0) else []
    steps += ["lent 1 " + " ".join(str(n) for n in lent)] if lent != [80, 4096, 4096, EVENT] else []
    return name + ": " + ", ".join(steps) + ","


def line(name, case, start=False):
    """The case's text, and what has to be printed for it."""
    read = text(name, case, START if start else EVENT if len(case.ring) == 64 else SHORT_RING)
    reply = model.start(*case.buffers()) if start else model.event(*case.buffers(), case.event)
    digests = ["%016x" % session.fnv64(image) for image in case.images()]
    if len(case.ring) != 64:
        digests[3] = "-"
    return read, "%s: %d %d %d %d %d %s" % (name, *reply, model.used_records(case.table), " ".join(digests))


def lengths():
    for length in (0, 19, 20, 21, 65520, 65540):
        yield line("table of %d" % length, Case(table=length))
    for length in (4095, 4097):
        yield line("rows of %d" % length, Case(rows=length))
    for length in (4095, 4097):
        yield line("flags of %d" % length, Case(flags=length))
    yield line("ring of 63", Case(ring=63))
    yield line("ring of 63, short event", Case(ring=63, event=b"\x01\0\0"))
    yield line("table of 21, unsound roster", Case(table=21, method=4))


def starts():
    a, b = record(P, 1, 1, b"\x07\x07"), record(Q, 9, 5)

    def unsound(r):
        r.count, r.servers[63], r.states[63] = 64, 1, 3

    for name, lengths_ in (("start", {}), ("start, table of 65520", {"table": 65520}),
                           ("start, table of 65540", {"table": 65540}),
                           ("start, flags of 4095", {"table": 20, "flags": 4095})):
        yield line(name, Case(records=(a, b, a, a), row=(0, 9, 2), method=4, row_count=9, change=unsound,
                              **lengths_), True)


def places(*pairs, count=None, later=()):
    """A change that writes the first places, the count, and later places."""
    def change(r):
        for place, pair in list(enumerate(pairs)) + list(later):
            r.servers[place], r.states[place] = pair
        r.count = len(pairs) if count is None else count
    return change


def rosters():
    good = (3, 1), (5, 2)
    for name, change in (
            ("servers in order", places(*good)), ("servers out of order", places((5, 1), (3, 2))),
            ("server 0", places((0, 1), (3, 2))), ("a server twice", places((3, 1), (3, 2))),
            ("state 0", places((3, 1), (5, 0))), ("state 3", places((3, 3), (5, 2))),
            ("count 65", places(*good, count=65)), ("count 1 of 2", places(*good, count=1)),
            ("a server past the count", places(*good, later=((63, (7, 0)),))),
            ("a state past the count", places(*good, later=((63, (0, 2)),)))):
        yield line(name, Case(states={}, change=change))
    for name, method, row_count in (
            ("method 0", 0, 0), ("method 4", 4, 0), ("row count 0 under 3", 3, 0),
            ("row count 4097 under 3", 3, 4097), ("row count 1 under 1", 1, 1), ("row count 1 under 2", 2, 1)):
        yield line(name, Case(method=method, row_count=row_count))
    event = Case().event
    yield line("event of 0 bytes", Case(event=b""))
    yield line("event of 15 bytes", Case(event=event[:15]))
    yield line("event of 15 bytes, unsound roster", Case(event=event[:15], method=0))


def one_row(name, states, server, flag, row_count=11, **more):
    return line(name, Case(states=states, method=3 if row_count else 1, row_count=row_count,
                           row=(ROW, server, flag), **more))


def one_entry(name, states, server, track, **more):
    return line(name, Case(states=states, method=2, entries=[Entry(POINT, server, track)] * 4, **more))


def not_working():
    stray, pair = (record(P, 4),), {1: 1, 4: 2}
    yield line("the record names an unknown server", Case(records=stray))
    yield line("the record names a horizon server", Case(records=stray, states=pair))
    yield one_row("the row names an unknown server", pair, 7, 0)
    yield one_row("the row names a horizon server", pair, 4, 0)
    yield one_row("the row names 0", pair, 0, 1)
    yield one_entry("the entry names an unknown server", pair, 7, 0)
    yield one_entry("the entry names a horizon server", pair, 4, 1)
    nobody = {2: 2, 4: 2}
    yield line("nobody works and the record names a horizon server", Case(records=stray, states=nobody))
    yield line("an end of that record", Case(event=END, records=stray, states=nobody))
    half = (record(P, 4, 2),)
    yield line("the half-closed record names an unknown server", Case(records=half))
    yield line("the half-closed record names a horizon server", Case(records=half, states=pair))
    yield line("nobody works and the half-closed record names a horizon server", Case(records=half, states=nobody))
    yield line("an end of that half-closed record", Case(event=END, records=half, states=nobody))
    yield line("configure with a record", Case(event=with_settings(1, 0), records=stray, states={}))
    yield line("configure with a half-closed record", Case(event=with_settings(1, 0), records=half, states={}))
    yield line("configure with a record of tag 3", Case(event=with_settings(1, 0), records=(record(P, 4, 3),), states={}))
    yield one_row("the record is working, the row is not", {1: 1, 3: 2}, 3, 0, records=(record(P, 1),))


def rows_and_rings():
    both = {1: 1, 2: 1}
    for server, flag in ((1, 0), (2, 0), (1, 1), (2, 2), (2, 255)):
        yield one_row("row of %d, flag %d" % (server, flag), both, server, flag)
    for server, track in ((1, 0), (2, 0), (1, 1), (2, 2), (2, 255)):
        yield one_entry("entry of %d, track %d" % (server, track), both, server, track)
    three, out = {1: 1, 2: 1, 3: 1}, Entry(POINT, 9, 0)
    yield line("ring out of order", Case(states=three, method=2, entries=(
        Entry(0, 1, 0), Entry(POINT + 9, 2, 0), Entry(POINT, 3, 1), out)))
    yield line("no entry in use at or past the point", Case(states=three, method=2, entries=(
        Entry(0, 1, 0), Entry(1, 2, 1), Entry(2, 3, 1), out)))


def tables():
    pair, both = {1: 1, 1 + HALF: 2}, {1: 1, 2: 1}
    stray = (record(Q, 1), record(b"\xff" * 13, 5, 255, b"\xff\xff"), record(R, 1))
    yield line("an append joins a stray record", Case(records=stray, states=pair))
    yield line("an append into the last place", Case(records=stray, states=pair, table=40))
    yield line("unsafe and no room", Case(records=(record(Q, 1), record(R, 1)), states=pair, table=40))
    twice = (record(P, 1), record(Q, 2), record(P, 2), record(R, 1))
    yield line("packet of a key twice", Case(records=twice, states=both))
    yield line("end of a key twice", Case(event=END, records=twice, states=both))
    yield line("end of a key twice, the first half-closed", Case(event=END, records=(record(P, 1, 2), *twice[1:]), states=both))
    yield line("remove working of a key twice", Case(event=with_server(4, 1), records=twice, states=both))
    odd = record(Q, 1, 1, b"\x07\x07")
    yield line("an end moves filler", Case(event=END, records=(
        record(P, 1, 2), odd, record(R, 5, 3, b"\x09\x09"), record(P, 1))))
    yield line("remove working moves filler", Case(event=with_server(4, 4), states={1: 1, 4: 1}, records=(
        record(P, 4, 1, b"\x05\x05"), odd, record(R, 4, 1, b"\x09\x09"),
        record(b"\x05" * 13, 4, 0, b"\x06\x06"))))


def tags():
    """Request [1], "The used part runs over tags 1 and 2.", and other tags in every place."""
    pair, odd = {1: 1, 1 + HALF: 2}, b"\x07\x08"
    for tag in (0, 1, 2, 3, 255):
        one = (record(P, 1, tag, odd), record(Q, 1), record(R, 1, 2))
        yield line("packet on tag %d" % tag, Case(records=one, states=pair))
        yield line("end on tag %d" % tag, Case(event=END, records=one))
        middle = (record(Q, 1, 2, odd), record(R, 1, tag, odd), record(P, 1))
        yield line("packet behind tag %d" % tag, Case(records=middle, states=pair))
        yield line("end behind tag %d" % tag, Case(event=END, records=middle))
        first = (record(Q, 1, tag, odd), record(P, 1, 2, odd), record(R, 1))
        yield line("second end behind tag %d" % tag, Case(event=END, records=first))
        last = (record(P, 1, 2, odd), record(Q, 1), record(R, 1, tag, odd))
        yield line("second end in front of tag %d" % tag, Case(event=END, records=last))
        yield line("remove working in front of tag %d" % tag, Case(
            event=with_server(4, 4), states={1: 1, 4: 1}, records=(record(P, 4, 2), record(Q, 1, 2, odd), record(R, 4, tag))))
        yield line("unsafe, tag %d in the last place" % tag, Case(
            records=(record(Q, 1, 2), record(R, 1, tag, odd)), states=pair, table=40))
        yield line("an append joins tag %d" % tag, Case(
            records=(record(Q, 1, 2), record(R, 1, 3), record(R, 1, tag, odd)), states=pair))
    every = (record(Q, 1, 2), record(R, 1, 2), record(b"\x04" * 13, 1, 2), record(P, 1))
    yield line("first end in the last place", Case(event=END, records=every))
    yield line("second end in the last place", Case(event=END, records=(*every[:3], record(P, 1, 2, odd))))
    yield line("first end in the only place", Case(event=END, records=(record(P, 1, 1, odd),), table=20))
    yield line("second end in the only place", Case(event=END, records=(record(P, 1, 2, odd),), table=20))
    yield line("an end with no record and all half-closed", Case(event=b"\x02\0\0" + b"\x05" * 13, records=every))
    yield line("a malformed end of a record", Case(event=b"\x02\0\1" + P, records=every))


def changes():
    working = {1: 1, 4: 1}
    yield one_row("remove working under 3", working, 7, 5, event=with_server(4, 4))
    yield one_row("configure 6 rows", {}, 7, 5, 0, event=with_settings(3, 6))
    yield one_entry("remove working under 2", working, 7, 5, event=with_server(4, 4))
    yield one_entry("add horizon under 2", working, 7, 5, event=with_server(5, 7))
    yield one_entry("remove horizon under 2", {1: 1, 4: 2}, 7, 5, event=with_server(6, 4))


def lines():
    for group in (lengths, starts, rosters, not_working, rows_and_rings, tables, tags, changes):
        yield from group()
