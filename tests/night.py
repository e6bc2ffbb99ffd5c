#!/usr/bin/env python3
"""A night at the front door, to try the estimates of docs/FIGURES.md on: 27,000 sessions are alive at any time, each for two hours, and
send a packet every twenty minutes. 14 movers work and 2 stand by, under HRW. It lasts eight hours; one standby joins after four, the other
after six. The two hours before it fill the table. A session has two ends, one for each side: both when it is over, or, where 60 stands
before the word, the first an hour earlier (20, 40 .. 100: as many minutes earlier).

    python3 tests/night.py events | ./jet session | python3 tests/night.py count      what the balancer did
    python3 tests/night.py                                                            what it has to do, by the documents' sentences
    python3 tests/night.py 60 events | ./jet session | python3 tests/night.py 60 count; python3 tests/night.py 60

Both print the same line: sessions of the night, packets, packets with mark 4, sessions that met it, and for each join how many sessions
had no record for lack of room when it came, and how many were led elsewhere because of it.
"""
import sys

from figures import PLACES, Stream, drawn, ranking
from independent import F

LIVE, LIFE, EVERY = 27000, 120, 20
WORKING, MOVERS = 14, drawn(Stream(2), 16)
FIRST, NIGHT, JOINS = -LIFE, 480, {240: 14, 360: 15}
APART = int("".join(w for w in sys.argv[1:2] if w.isdigit()) or 0)


def night():
    """The events in order: (minute, kind, session or place); sessions are numbered as they come, movers by their place."""
    for place in range(len(MOVERS)):
        yield FIRST, 5, place
    for place in range(WORKING):
        yield FIRST, 3, place
    alive, come = {}, 0
    for minute in range(FIRST, NIGHT):
        if minute in JOINS:
            yield minute, 3, JOINS[minute]
        for slot in range(minute % EVERY, LIFE, EVERY):
            for i in range(LIVE // LIFE):
                seat = slot, i
                if seat in alive and (minute + APART) % LIFE == slot:
                    yield minute, 2, alive[seat]
                if minute % LIFE == slot:
                    if seat in alive:
                        yield minute, 2, alive[seat]
                    alive[seat] = come
                    come += 1
                if seat in alive:
                    yield minute, 1, alive[seat]


class Keys:
    """Session n's key: the next 13 bytes of the stream that starts at 1."""

    def __init__(self):
        self.stream, self.keys = Stream(1), []

    def of(self, n):
        while len(self.keys) <= n:
            self.keys.append(self.stream.bytes(13))
        return self.keys[n]


def events():
    keys, out = Keys(), sys.stdout.buffer
    for _, kind, n in night():
        out.write(bytes((kind, 0, 0)) + (keys.of(n) if kind < 3 else MOVERS[n].to_bytes(4, "big") + bytes(9)))


class Count:
    """What the marks and movers of the packets come to."""

    def __init__(self):
        self.sessions, self.met, self.packets, self.fours = set(), set(), 0, 0
        self.last, self.without, self.joins, self.half_closed = {}, set(), [], set()

    def joined(self):
        self.joins.append([len(self.without), 0])

    def packet(self, minute, n, server, mark):
        if self.joins and n in self.last and self.last[n] != server:
            self.joins[-1][1] += 1
        self.last[n] = server
        (self.without.add if mark == 4 else self.without.discard)(n)
        if minute >= 0:
            self.sessions.add(n)
            self.packets += 1
            if mark == 4:
                self.fours += 1
                self.met.add(n)

    def end(self, n):
        if n in self.half_closed:
            self.last.pop(n)
            self.without.discard(n)
        self.half_closed ^= {n}

    def show(self):
        print(len(self.sessions), self.packets, self.fours, len(self.met), *(x for j in self.joins for x in j))


def follow(answers):
    """Counts the packets' answers: `answers` says the server and the mark of each event."""
    count = Count()
    for (minute, kind, n), (server, mark) in zip(night(), answers):
        if kind == 1:
            count.packet(minute, n, server, mark)
        elif kind == 2:
            count.end(n)
        elif kind == 3 and minute in JOINS:
            count.joined()
    count.show()


def expected():
    """"if the key has a record, its server. Otherwise the choice over the working set"; "recorded where there is room". Request [1]:
    "The first end on a record now sets its tag to 2 .. the next end removes it". So a record that is written between a session's two
    ends stays when the session is over."""
    keys, works, records, tags, ranked = Keys(), [False] * len(MOVERS), {}, {}, {}
    for _, kind, n in night():
        if kind == 1:
            if n not in ranked:
                ranked[n] = ranking(MOVERS, F(keys.of(n)) % 2**31)
            place = records.get(n, next(p for p in ranked[n] if works[p]))
            mark = 1 if n in records else 2 if place == ranked[n][0] else 3 if len(records) < PLACES else 4
            if mark == 3:
                records[n], tags[n] = place, 1
            yield MOVERS[place], mark
        else:
            if kind == 2 and tags.get(n) == 1:
                tags[n] = 2
            elif kind == 2 and n in tags:
                del records[n], tags[n]
            elif kind == 3:
                works[n] = True
            yield 0, 0


def printed():
    """The lines of a session on standard input."""
    for line in sys.stdin:
        words = line.split()
        assert words[2] == "0", line
        yield int(words[3]), int(words[4])


if __name__ == "__main__":
    words = [w for w in sys.argv[1:] if not w.isdigit()]
    {"": lambda: follow(expected()), "events": events, "count": lambda: follow(printed())}["".join(words)]()
