#!/usr/bin/env python3
"""What the program `program_figures` must print, worked out from the sentences of document 01.

    python3 tests/figures.py | cmp - crates/program_figures/stdout

The hashes and rankings are those of tests/independent.py. Nothing here runs or reads the Rattle code.
"""
import bisect
import collections
import contextlib
import functools
import io
import multiprocessing
import sys

import independent
from independent import F, hrw_pick, ring_pick

KEYS, PLACES = 20000, 3276
SIZES = (8, 16, 32, 64)
SETS = ((8, 1), (8, 2), (8, 4), (8, 8), (14, 2), (16, 4), (32, 1), (32, 8))
DRAWS, RING_DRAWS, TURNS = 10, 100, 20
TURNING = ((3000, 15, 1, 10), (3000, 14, 2, 10), (3000, 12, 4, 10), (8000, 15, 1, 1))
JOINING = ((14, 2, 24954), (14, 2, 26208), (14, 2, 28000), (14, 2, 30000))


class Stream:
    """Bytes: x' = (1664525 x + 1013904223) modulo 2^32, and the high byte of each x'."""

    def __init__(self, x):
        self.x = x

    def bytes(self, n):
        out = []
        for _ in range(n):
            self.x = (1664525 * self.x + 1013904223) % 2**32
            out.append(self.x >> 24)
        return bytes(out)


@functools.lru_cache(1)
def key_points(n):
    """F of n keys, each the next 13 bytes of the stream that starts at 1."""
    stream = Stream(1)
    keys = [stream.bytes(13) for _ in range(n)]
    assert len(set(keys)) == n
    return [F(k) for k in keys]


def drawn(stream, n):
    """Spread server numbers in rising order, each the next four bytes; none 0, no two alike in their low 31 bits."""
    servers = sorted(int.from_bytes(stream.bytes(4), "big") for _ in range(n))
    assert 0 not in servers and len({s % 2**31 for s in servers}) == n
    return servers


# ------------------------------------------------------------ every key's server and flag, in a hurry

def by_hrw(points, working, horizon):
    """"Weight of server S at digest D"; no two are equal, as the numbers differ in their low 31 bits"""
    at_work = [(1103515245 * s + 12345) % 2**31 for s in working]
    standby = [(1103515245 * s + 12345) % 2**31 for s in horizon]
    picks = []
    for p in points:
        d = p % 2**31
        weights = [(1103515245 * (u ^ d) + 12345) % 2**31 for u in at_work]
        best = max(weights)
        outranked = any((1103515245 * (u ^ d) + 12345) % 2**31 > best for u in standby)
        picks.append((working[weights.index(best)], int(outranked)))
    for i in range(0, len(points), 4000):
        assert picks[i] == hrw_pick(working, horizon, points[i] % 2**31)
    return picks


def by_ring(points, working, horizon):
    """"A key reads the first entry in use whose position is not below its point, else the first entry." """
    entries = independent.plan(working, horizon)
    positions = [e[0] for e in entries]
    picks = [entries[bisect.bisect_left(positions, p) % len(entries)][1:] for p in points]
    for i in range(0, len(points), 4000):
        assert picks[i] == ring_pick(working, horizon, points[i])
    return picks


def by_rows(rows):
    """"the row is F(key) modulo the number of rows"; "ranked in row r as HRW does with D = r" """
    def by(points, working, horizon):
        row = by_hrw(list(range(rows)), working, horizon)
        return [row[p % rows] for p in points]
    return by


WAYS = ((1, 0, by_hrw), (2, 0, by_ring), (3, 4096, by_rows(4096)), (3, 256, by_rows(256)))


# ----------------------------------------------------------------------------------------- lines

def keys_lines(points, spread, n):
    """A line for each method: how many keys each of n servers gets, servers in rising order."""
    servers = drawn(Stream(2), n) if spread else list(range(1, n + 1))
    for method, rows, by in WAYS:
        chosen = collections.Counter(c for c, _ in by(points, servers, []))
        print("keys", spread, n, method, rows, *(chosen[s] for s in servers))


def share_lines(points, working, horizon):
    """A line for each method: how many keys are recorded in each draw. The lowest numbers work, the others are in the horizon."""
    for method, rows, by in WAYS:
        stream, recorded = Stream(2), []
        for _ in range(RING_DRAWS if method == 2 else DRAWS):
            servers = drawn(stream, working + horizon)
            recorded.append(sum(flag for _, flag in by(points, servers[:working], servers[working:])))
        print("share", working, horizon, method, rows, *recorded)


# ---------------------------------------------------------------------- a front door under HRW, packet by packet

class Door:
    """"if the key has a record, its server. Otherwise the choice over the working set"; "recorded where there is room".
    A session is known by its number, a mover by its place. "Moved" are sessions led elsewhere although their last mover works,
    "left" those whose last mover doesn't."""

    def __init__(self, points, servers, working):
        self.works = [place < working for place in range(len(servers))]
        self.ranked = [ranking(servers, p % 2**31) for p in points]
        self.records, self.last = {}, [None] * len(points)

    def round(self):
        """Each session sends a packet, in turn: used records, sessions that found no room, those that moved, those whose mover had left."""
        self.no_room = moved = left = 0
        for i, ranked in enumerate(self.ranked):
            place = self.records.get(i)
            if place is None:
                place = next(s for s in ranked if self.works[s])
                if place != ranked[0]:
                    self.record(i, place)
            if self.last[i] not in (None, place):
                moved += self.works[self.last[i]]
                left += not self.works[self.last[i]]
            self.last[i] = place
        return len(self.records), self.no_room, moved, left

    def record(self, session, place):
        if len(self.records) < PLACES:
            self.records[session] = place
        else:
            self.no_room += 1

    def join(self, place):
        self.works[place] = True

    def leave(self, place):
        """"Remove working takes away every record naming that server." """
        self.works[place] = False
        self.records = {i: p for i, p in self.records.items() if p != place}


def ranking(servers, digest):
    """The places of the servers, "a higher weight outranks"; no two weights are equal."""
    weights = [independent.weight(s, digest) for s in servers]
    return sorted(range(len(servers)), key=weights.__getitem__, reverse=True)


def rounds(door, changes):
    """What a round of packets comes to, and one behind each change."""
    out = [*door.round()]
    for change in changes:
        change()
        out += door.round()
    return out


def turns_lines(points, working, horizon, draws):
    """A line for each draw. In a turn the mover that stood by longest joins, and then the one that worked longest leaves work."""
    stream, n = Stream(2), working + horizon
    for _ in range(draws):
        door = Door(points, drawn(stream, n), working)

        def turn(k):
            door.join((working + k) % n)
            door.leave(k % n)
        print("turns", working, horizon, len(points), *rounds(door, [functools.partial(turn, k) for k in range(TURNS)]))


def joins_line(points, working, horizon):
    """One standby after the other joins, and nobody leaves."""
    door = Door(points, drawn(Stream(2), working + horizon), working)
    print("joins", working, horizon, len(points), *rounds(door, [functools.partial(door.join, working + k) for k in range(horizon)]))


def printed(job):
    """What a job prints."""
    name, keys, words = job
    out = io.StringIO()
    with contextlib.redirect_stdout(out):
        globals()[name](key_points(keys), *words)
    return out.getvalue()


def figures():
    """All lines, worked out on every core, or on one where processes can't share locks."""
    jobs = [("keys_lines", KEYS, (spread, n)) for spread in (1, 0) for n in SIZES]
    jobs += [("share_lines", KEYS, sets) for sets in SETS]
    jobs += [("turns_lines", live, words) for live, *words in TURNING]
    jobs += [("joins_line", live, sets) for *sets, live in JOINING]
    try:
        each = multiprocessing.Pool().imap(printed, jobs)
    except (ImportError, OSError):
        each = map(printed, jobs)
    sys.stdout.writelines(each)


if __name__ == "__main__":
    independent.figures()
    figures()
