"""Assertions along a history, by a second and slow definition.

Nothing here calls the model's hashes, ranking, table or refusals: the sets are plain
sets, the records a list of pairs with the ends heard of each, the ranking a full sort.
Quotations: document 01, document 02's request [1] and DEMANDS.md where said.
"""
from collections import Counter
from itertools import combinations

import model

MASK31, MASK32 = (1 << 31) - 1, (1 << 32) - 1
HRW, RING, ROWS = 1, 2, 3


def slow_fnv(data):
    value = 0x811C9DC5
    for byte in data:
        value ^= byte
        value = (value * 0x01000193) & MASK32
    return value


def slow_weight(server, at):
    """"Only the low 31 bits of any step matter." """
    inner = (1103515245 * (server & MASK31) + 12345) & MASK31
    return (1103515245 * (inner ^ (at & MASK31)) + 12345) & MASK31


def slow_distance(server, point):
    place = slow_fnv(server.to_bytes(4, "big"))
    return place - point if place >= point else place - point + (1 << 32)


def ranked(method, servers, at):
    """"each method gives every key a strict ranking of all servers": the best first."""
    if method == RING:
        return [-s for _, s in sorted((slow_distance(s, at), -s) for s in servers)]
    return [s for _, s in sorted(((slow_weight(s, at), s) for s in servers), reverse=True)]


def top(method, servers, at):
    return ranked(method, servers, at)[0] if servers else 0


def outranked(method, chosen, horizon, at):
    """Does some horizon server outrank the choice? By its place in the ranking."""
    return ranked(method, horizon | {chosen}, at)[0] != chosen


def changing_set(method, working, horizon, at):
    """DEMANDS 2: "exactly when adding some set of horizon movers would change that
    choice". All sets for a small horizon, else the single servers and the whole."""
    chosen = top(method, working, at)
    if len(horizon) <= 5:
        added = [set(c) for n in range(len(horizon) + 1)
                 for c in combinations(sorted(horizon), n)]
    else:
        added = [{h} for h in horizon] + [horizon]
    return any(top(method, working | extra, at) != chosen for extra in added)


class Shadow:
    """The balancer as sets and a list: what the documents say, without bytes."""

    def __init__(self, records):
        self.records = records
        self.working, self.horizon = set(), set()
        self.list = []                      # (key, server) in the order of the table
        self.closed = Counter()             # key -> ends since its record was written
        self.method, self.row_count = HRW, 0

    def at(self, key):
        value = slow_fnv(key)
        return {HRW: value & MASK31, RING: value,
                ROWS: value % max(self.row_count, 1)}[self.method]

    def place(self, key):
        return next((n for n, (k, _) in enumerate(self.list, 1) if k == key), 0)

    def half_closed(self):
        """[1]: "The first end on a record now sets its tag to 2": one end heard, not two."""
        return {k for k, _ in self.list if self.closed[k] == 1}

    def keep(self, kept):
        """The list after some records went; what was heard of theirs goes with them."""
        self.list = kept
        self.closed = Counter({k: self.closed[k] for k, _ in kept})

    def refused(self, record):
        if len(record) != 16 or record[0] not in range(1, 8) or record[1:3] != b"\0\0":
            return 1
        kind, server = record[0], int.from_bytes(record[3:7], "big")
        held = self.working | self.horizon
        if kind == 7:
            count = int.from_bytes(record[4:6], "big")
            allowed = {1: range(1), 2: range(1), 3: range(1, 4097)}
            if record[6:] != bytes(10) or count not in allowed.get(record[3], ()):
                return 1
            return 10 if held or self.list else 0
        if kind == 1:
            return 0 if self.working else 7
        if kind == 2:
            return 0
        if record[7:] != bytes(9):
            return 1
        if server == 0:
            return 2
        if kind == 5:
            return 3 if server in held else 6 if len(held) == 64 else 0
        if kind == 4:
            return 0 if server in self.working else 5
        return 0 if server in self.horizon else 4

    def step(self, record):
        """The reply that the sentences ask for; alters the sets and the list."""
        number = self.refused(record)
        if number:
            return (number, 0, 0, 0)
        kind, key, used = record[0], record[3:], len(self.list)
        server = int.from_bytes(record[3:7], "big")
        place = self.place(key)
        if kind == 1 and place:
            return (0, self.list[place - 1][1], 1, place)
        if kind == 1:
            at = self.at(key)
            chosen = top(self.method, self.working, at)
            if not changing_set(self.method, self.working, self.horizon, at):
                return (0, chosen, 2, used)
            if used == self.records:
                return (0, chosen, 4, used)
            self.list.append((key, chosen))
            return (0, chosen, 3, used)
        if kind == 2 and place:
            # [1]: "The first end on a record .. gives mark 8; the next end removes it"
            self.closed[key] += 1
            if self.closed[key] == 1:
                return (0, 0, 8, place)
            self.keep(self.list[:place - 1] + self.list[place:])
            return (0, 0, 5, place)
        if kind == 2:
            return (0, 0, 6, used)
        if kind == 3:
            self.horizon.remove(server)
            self.working.add(server)
        if kind == 4:
            self.working.remove(server)
            self.horizon.add(server)
            self.keep([pair for pair in self.list if pair[1] != server])
        if kind == 5:
            self.horizon.add(server)
        if kind == 6:
            self.horizon.remove(server)
        if kind == 7:
            self.method, self.row_count = record[3], int.from_bytes(record[4:6], "big")
        return (0, 0, 0, 0)

    def rows_now(self):
        """Rows in use and their flags, afresh over the sets."""
        if not self.working:
            return [0] * self.row_count, [0] * self.row_count
        chosen = [top(ROWS, self.working, r) for r in range(self.row_count)]
        return chosen, [int(outranked(ROWS, chosen[r], self.horizon, r))
                        for r in range(self.row_count)]

    def ring_now(self):
        """Entries in use, each put where so many servers stand before its owner."""
        held = {s: slow_fnv(s.to_bytes(4, "big")) for s in self.working | self.horizon}
        entries = [None] * len(held)
        for s, p in held.items():
            before = sum(1 for t, q in held.items() if q < p or (q == p and t > s))
            named = s if s in self.working else top(RING, self.working, p)
            entries[before] = (p, named, int(bool(self.working) and s in self.horizon))
        return entries

    def ring_reads(self, ring):
        """At every position, beside it and at both ends of the circle, the entry read
        names the ranking's choice and is flagged where a horizon server outranks it."""
        for p in {0, MASK32} | {(e[0] + d) & MASK32 for e in ring for d in (-1, 0, 1)}:
            entry = next((e for e in ring if e[0] >= p), ring[0])
            chosen = top(RING, self.working, p)
            assert entry[1] == chosen, "ring read names another server"
            assert entry[2] == int(outranked(RING, chosen, self.horizon, p)), "ring flag"


class Pairs:
    """DEMANDS 3: "two successive packets of one key get the same mover, provided that
    mover worked throughout, the key wasn't ended between them, every mover brought into
    work between them was already working or in the horizon at the earlier packet, and
    the earlier packet wasn't told there was no room". [1]: the "proviso about ends
    becomes: fewer than two since the key's record was written, and none for a key
    without one". It goes by events and replies alone: a record is written at mark 3, and
    has gone once its mover left work or two ends came."""

    def __init__(self):
        self.last, self.asked = {}, 0       # key -> (mover, servers held then)
        self.written = {}                   # key -> [mover of its record, ends since]
        self.ended, self.over = set(), 0    # keys ended since their packet; such pairs

    def end(self, key):
        """An accepted end: who is still covered after it."""
        if key in self.written:
            self.written[key][1] += 1
            if self.written[key][1] < 2:
                self.ended.add(key)
                return
            del self.written[key]
        self.last.pop(key, None)

    def note(self, record, reply, before, after, held):
        gained = after - before
        if gained or before - after:
            self.last = {k: (m, h) for k, (m, h) in self.last.items()
                         if m in after and gained <= h}
            self.written = {k: w for k, w in self.written.items() if w[0] in after}
        key = record[3:]
        if reply[0] == 0 and record[0] == 2:
            self.end(key)
        if len(record) == 16 and record[:3] == b"\1\0\0":
            if key in self.last:
                self.asked += 1
                self.over += key in self.ended
                assert reply[:2] == (0, self.last[key][0]), "another mover"
            self.last.pop(key, None)
            self.ended.discard(key)
            if reply[0] == 0 and reply[2] == 3:
                self.written[key] = [reply[1], 0]
            if reply[0] == 0 and reply[2] != 4:
                self.last[key] = (reply[1], held)


def check_table(table, shadow):
    """"no key is recorded twice and every record names a working mover"; no used tag,
    and no byte but zero, behind the used part."""
    records = [bytes(table[i:i + 20]) for i in range(0, 20 * len(shadow.list), 20)]
    keys = {r[:13] for r in records}
    assert len(keys) == len(records), "a key is recorded twice"
    assert all(int.from_bytes(r[16:], "big") in shadow.working for r in records)
    half = shadow.half_closed()
    assert all(r[13:16] == (b"\2\0\0" if r[:13] in half else b"\1\0\0") for r in records), \
        "tag or filler"
    assert not any(table[20 * len(records):]), "bytes behind the used part"
    assert [(r[:13], int.from_bytes(r[16:], "big")) for r in records] == shadow.list


def dirty(records, dirt):
    """Buffers and a roster that hold anything before the start."""
    roster = model.Roster()
    if not dirt:
        return (bytearray(20 * records), [0] * 4096, bytearray(4096),
                [model.Entry(0, 0, 0)] * 64, roster)
    roster.count, roster.method, roster.row_count = 99, 7, 5000
    roster.servers, roster.states = [dirt] * 64, [3] * 64
    return (bytearray([1]) * (20 * records), [dirt + r for r in range(4096)],
            bytearray([dirt % 256]) * 4096,
            [model.Entry(dirt * k, dirt, 7) for k in range(64)], roster)


def check_along(history, records=3276, dirt=0):
    """Run a history (a list of byte strings) from a fresh start and assert after every
    event what the documents promise. Returns a Counter of what occurred."""
    table, rows, flags, ring, roster = dirty(records, dirt)
    want_rows, want_flags, want_ring = list(rows), bytearray(flags), list(ring)
    assert model.start(table, rows, flags, ring, roster) == (0, 0, 0, 0)
    assert not any(table) and roster.fields() == model.Roster().fields()
    shadow, pairs, seen = Shadow(records), Pairs(), Counter()
    for record in history:
        old = (bytes(table), roster.fields())
        before = set(shadow.working)
        used_before = len(shadow.list)
        reply = model.event(table, rows, flags, ring, roster, record)
        wanted = shadow.step(bytes(record))
        assert tuple(reply) == wanted, (record.hex(), reply, wanted)
        assert reply.refusal not in (8, 9, 11)
        new = (bytes(table), roster.fields())
        if reply.refusal:
            assert new == old, "a refusal changed something"
        elif record[0] == 7 and shadow.method == ROWS:
            want_rows[:shadow.row_count] = [0] * shadow.row_count
            want_flags[:shadow.row_count] = bytes(shadow.row_count)
        elif record[0] in (3, 4, 5, 6) and shadow.method == ROWS:
            chosen, flagged = shadow.rows_now()
            want_rows[:shadow.row_count] = chosen
            want_flags[:shadow.row_count] = bytes(flagged)
        elif record[0] in (3, 4, 5, 6) and shadow.method == RING:
            entries = shadow.ring_now()
            want_ring[:len(entries)] = entries
            if shadow.working:
                shadow.ring_reads(ring[:len(entries)])
        # Also: the rest of rows, flags and ring is never touched.
        assert rows == want_rows and flags == want_flags and ring == want_ring
        if reply.mark == 3:
            room = 20 * used_before
            line = record[3:] + b"\1\0\0" + reply.server.to_bytes(4, "big")
            assert new[0] == old[0][:room] + line + old[0][room + 20:]
        if reply.mark == 4:
            assert used_before == records and new[0] == old[0]
            seen["4 beside half-closed"] += bool(shadow.half_closed())
        if reply.mark == 8:
            tag = 20 * reply.reads - 7
            assert old[0][tag] == 1 and new[0] == old[0][:tag] + b"\2" + old[0][tag + 1:]
        if reply.mark in (1, 2, 6):
            assert new[0] == old[0]
        if new[0] != old[0] or before != shadow.working:
            check_table(table, shadow)
        held = sorted(shadow.working | shadow.horizon)
        blank = (0,) * (64 - len(held))
        assert new[1] == (len(held), tuple(held) + blank,
                          tuple(1 if s in shadow.working else 2 for s in held) + blank,
                          shadow.method, shadow.row_count)
        pairs.note(record, reply, before, set(shadow.working), set(held))
        seen["events"] += 1
        seen["refusal", reply.refusal] += 1
        seen["mark", reply.mark] += 1
        seen["method", shadow.method] += 1
    seen["pairs"], seen["ended"] = pairs.asked, pairs.over
    return seen


def figures():
    """P1 to P13 and vectors published by FNV's authors."""
    first = [model.weight(s, 0) for s in (1, 2, 3, 4)]
    assert first == [377401575, 1495354192, 465823161, 1583775778]
    second = [model.weight(s, 1) for s in (1, 2, 3, 4)]
    assert second == [1480916820, 391838947, 1569338406, 480260533]
    assert model.choice(3, [1, 2], 0) == 2 and not model.unsafe(3, 2, [3], 0)
    assert model.choice(3, [1, 2], 1) == 1 and model.unsafe(3, 1, [3], 1)
    assert model.weight(1, 0) == model.weight(2147483649, 0)
    assert model.outranks(1, 2147483649, 1, 0)
    assert model.distance(5, 4294967290) == 11
    assert model.distance(4294967289, 4294967290) == 4294967295
    assert model.fnv(b"\0") == 84696351
    for text, value in ((b"", 0x811C9DC5), (b"a", 0xE40C292C), (b"foobar", 0xBF9CF968)):
        assert model.fnv(text) == slow_fnv(text) == value
    for n in range(2000):
        server, at = n * 2654435761 & MASK32 or 1, n * 40503 * 65537 & MASK31
        assert model.weight(server, at) == slow_weight(server, at)
