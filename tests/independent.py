#!/usr/bin/env python3
"""What the programs test_cases, test_vectors and program_bench must print, worked out from the sentences of document 01
and, where [1] stands before them, of request [1] of document 02.

    python3 tests/independent.py cases   | cmp - crates/test_cases/stdout
    python3 tests/independent.py vectors | cmp - crates/test_vectors/stdout
    python3 tests/independent.py bench   | cmp - crates/program_bench/stdout
    python3 tests/independent.py bench METHOD SERVERS HORIZON RECORDS PACKETS CHANGES

It reads the cases, crates/NAME/stdin (of program_bench crates/program_bench/args), and nothing else: every rule below
stands under the sentence that it was written from. Nothing here runs or reads the Rattle code.
"""
import os
import sys

LINES = []


def line(text):
    LINES.append(text)


def sections(name):
    """The cases of a program, section by section."""
    here = os.path.dirname(os.path.dirname(os.path.abspath(__file__)))
    with open(os.path.join(here, "crates", name, "stdin")) as f:
        text = f.read()
    assert text.endswith("\n")
    return [part.split("\n") for part in text[:-1].split("\n=")]


def numbers_in(step):
    return [int(w) for w in step.split() if w.isdigit()]


# ---------------------------------------------------------------------------------------- hashes

def F(data):
    """"start at 2166136261; for each byte, xor it in, then multiply by 16777619 modulo 2^32" """
    h = 2166136261
    for b in data:
        h = ((h ^ b) * 16777619) % 2**32
    return h


def digest(key):
    """"Digest of a key: F(key) modulo 2^31." """
    return F(key) % 2**31


def weight(s, d):
    """"(1103515245 x ((1103515245 x S + 12345) xor D) + 12345) modulo 2^31" """
    return (1103515245 * ((1103515245 * s + 12345) ^ d) + 12345) % 2**31


def position(s):
    """"a server's position is F of its 4 bytes big-endian" """
    return F(s.to_bytes(4, "big"))


def distance(pos, point):
    """"position minus point, wrapping at 2^32" """
    return (pos - point) % 2**32


# -------------------------------------------------------------------------------------- rankings

def hrw_outranks(a, b, d):
    """"a higher weight outranks .. Equal weights .. the higher number outranks" """
    wa, wb = weight(a, d), weight(b, d)
    return wa > wb or (wa == wb and a > b)


def ring_outranks(a, b, point):
    """"The smaller distance outranks, distance 0 included. At equal positions the higher number outranks." """
    da, db = distance(position(a), point), distance(position(b), point)
    return da < db or (da == db and a > b)


def choice(outranks, servers):
    """"The choice over a set is its highest-ranked member." """
    members = [a for a in servers if all(a == b or outranks(a, b) for b in servers)]
    assert len(members) == 1
    return members[0]


def pick(outranks, working, horizon):
    """The choice over the working set, and whether some horizon server outranks it; 0 and no with none working."""
    if not working:
        return 0, 0
    c = choice(outranks, working)
    return c, int(any(outranks(h, c) for h in horizon))


def hrw_pick(working, horizon, d):
    return pick(lambda a, b: hrw_outranks(a, b, d), working, horizon)


def ring_pick(working, horizon, point):
    return pick(lambda a, b: ring_outranks(a, b, point), working, horizon)


# ------------------------------------------------------------------------------- the tracking table

def record(key, server):
    """"key 13, tag 1, two zero bytes, server 4 big-endian" """
    return bytes(key) + bytes([1, 0, 0]) + server.to_bytes(4, "big")


class Table:
    def __init__(self, data):
        """Places of 20 bytes; bytes behind the last whole place are part of none."""
        whole = len(data) // 20 * 20
        self.places = [bytes(data[i:i + 20]) for i in range(0, whole, 20)]
        self.rest = bytes(data[whole:])

    def data(self):
        return b"".join(self.places) + self.rest

    def used(self):
        """"all records before the first whose tag is not 1". [1]: "The used part runs over tags 1 and 2." """
        n = 0
        for p in self.places:
            if p[13] not in (1, 2):
                break
            n += 1
        return n

    def tag(self, place):
        """The tag at a place counted from 1; 0 where there is no such place."""
        return self.places[place - 1][13] if 1 <= place <= len(self.places) else 0

    def half_close(self, place):
        """[1]: "The first end on a record now sets its tag to 2"; there is no record outside the used part"""
        if 1 <= place <= self.used():
            p = self.places[place - 1]
            self.places[place - 1] = p[:13] + bytes([2]) + p[14:]

    def find(self, key):
        """"A key's record is the first used one with that key."; places are counted from 1"""
        for i in range(self.used()):
            if self.places[i][:13] == bytes(key):
                return i + 1
        return None

    def append(self, key, server):
        """"A new record goes into the first unused place."; with none there is no room"""
        n = self.used()
        if n < len(self.places):
            self.places[n] = record(key, server)

    def remove(self, place):
        """"Removal closes the gap, keeps the order, and zeroes the last formerly used record; later bytes stay." """
        n = self.used()
        if 1 <= place <= n:
            self.places[:n] = self.places[:place - 1] + self.places[place:n] + [bytes(20)]

    def remove_server(self, server):
        """"takes away every record naming that server" """
        n = self.used()
        kept = [p for p in self.places[:n] if int.from_bytes(p[16:20], "big") != server]
        self.places[:n] = kept + [bytes(20)] * (n - len(kept))

    def start(self):
        """"Starting zeroes the whole table" """
        self.places = [bytes(20)] * len(self.places)
        self.rest = bytes(len(self.rest))


def key_of(n):
    """The program's n-th key: 10.0.h.l to 192.0.2.1, port n to port 443, protocol 6."""
    return bytes([10, 0, n >> 8, n & 255, 192, 0, 2, 1, n >> 8, n & 255, 1, 187, 6])


def server_of(n):
    """The server that the program's n-th record names."""
    return 33818120 if n % 8 == 7 else 16909060


def change(t, op, n):
    """What a step does to a table."""
    if op == "start":
        t.start()
    elif op == "fill":
        t.places[:n[0]] = [record(key_of(i), server_of(i)) for i in range(1, n[0] + 1)]
    elif op == "append":
        t.append(key_of(n[0]), server_of(n[0]))
    elif op == "remove":
        t.remove(n[0])
    elif op == "close":
        t.half_close(n[0])
    elif op == "leave":
        t.remove_server(n[0])
    elif op == "poke":              # someone else's hand: one byte
        data = bytearray(t.data())
        data[n[0]] = n[1]
        t.__init__(data)


def outcome(t, op, n):
    """What a step shows."""
    if op == "used":
        return f" {t.used()}"
    if op == "which":
        return f" {t.tag(n[0])}"
    if op == "key":
        p = t.find(key_of(n[0]))
        if p is None:
            return f" 0 {t.used()} 0"
        return f" 1 {p} {int.from_bytes(t.places[p - 1][16:20], 'big')}"
    if op == "event":
        return asked(t.data())
    if op == "hash":
        return f" {F(t.data())}"
    if op == "dump":
        return "".join(" " + p.hex() for p in t.places)
    if op == "bytes":
        return f" {len(t.data())}"
    return ""


def table_line(buffer, size, text):
    """A line's steps on the table that the buffer's first bytes are; its size from then on."""
    shown = []
    for step in text.split(", "):
        op, n = step.rstrip(":").split()[0], numbers_in(step.rstrip(":"))
        if op == "take":
            size = n[0]
        t = Table(buffer[:size])
        change(t, op, n)
        buffer[:size] = t.data()
        shown.append(step + outcome(t, op, n))
    line(", ".join(shown))
    return size


# -------------------------------------------------------------------------------------- settings

def valid(method, rows):
    """"three methods: 1 HRW, 2 ring, 3 row table"; "Row count is 1 to 4,096 for method 3 and 0 for the others." """
    if method == 3:
        return 1 <= rows <= 4096
    return method in (1, 2) and rows == 0


# ---------------------------------------------------------------------------------------- roster

class Roster:
    """"servers in rising order, each working or in the horizon, unused places zero, with the method and row count";
    a count, 64 places and settings"""

    def __init__(self, pairs=()):
        pairs = sorted(pairs)
        assert len(pairs) <= 64
        self.servers = [s for s, _ in pairs] + [0] * (64 - len(pairs))
        self.states = [x for _, x in pairs] + [0] * (64 - len(pairs))
        self.held = len(pairs)
        self.method, self.rows = 1, 0

    def sound(self):
        """Refusal 11, clause by clause."""
        if self.held > 64:                                          # more than 64
            return False
        inside, outside = self.servers[:self.held], self.servers[self.held:]
        if 0 in inside:                                             # server 0
            return False
        if len(set(inside)) != len(inside):                         # twice
            return False
        if inside != sorted(inside):                                # out of order
            return False
        if any(x not in (1, 2) for x in self.states[:self.held]):   # each working or in the horizon
            return False
        if any(outside) or any(self.states[self.held:]):            # a used unused place
            return False
        return valid(self.method, self.rows)                        # bad method or row count

    def pairs(self):
        return list(zip(self.servers, self.states))[:self.held]

    def state_of(self, server):
        return dict(self.pairs()).get(server, 0)

    def changed(self, pairs):
        r = Roster(pairs)
        r.method, r.rows = self.method, self.rows
        return r

    def add_horizon(self, s):
        """Refusals 3 and 6 leave the roster as it is."""
        if self.state_of(s) or self.held == 64:
            return self
        return self.changed(self.pairs() + [(s, 2)])

    def set_state(self, s, old, new):
        if self.state_of(s) != old:
            return self
        return self.changed([(a, new if a == s else x) for a, x in self.pairs()])

    def add_working(self, s):
        return self.set_state(s, 2, 1)

    def remove_working(self, s):
        """"A server leaving work goes straight to the horizon." """
        return self.set_state(s, 1, 2)

    def remove_horizon(self, s):
        if self.state_of(s) != 2:
            return self
        return self.changed([(a, x) for a, x in self.pairs() if a != s])


def up_to(n):
    r = Roster()
    for k in range(1, n + 1):
        r = r.add_horizon(10 * k)
    return r


def roster_line(text):
    """A line's steps from an empty roster, then the number held, whether it is sound, whether its settings are valid, and
    the state of the last step's last number."""
    r, n = Roster(), []
    for step in text.split(", "):
        op, n = step.split()[0], numbers_in(step)
        if op == "horizon":
            r = r.add_horizon(n[0])
        elif op == "work":
            r = r.add_working(n[0])
        elif op == "rest":
            r = r.remove_working(n[0])
        elif op == "leave":
            r = r.remove_horizon(n[0])
        elif op == "upto":
            r = up_to(n[0])
        elif op == "count":         # from here on someone else's hand
            r.held = n[0]
        elif op == "place":
            r.servers[n[0]] = n[1]
        elif op == "state":
            r.states[n[0]] = n[1]
        elif op == "method":
            r.method, r.rows = n
    state = r.state_of((n or [0])[-1])
    line(f"{text}: {r.held} {int(r.sound())} {int(valid(r.method, r.rows))} {state}")


# ---------------------------------------------------------------------------------------- events

def read_event(b):
    """Refusal, kind, server, method, rows, key: refusal 1 for "event not 16 bytes, unknown kind, non-zero filler,
    bad method or row count", then 2 for "kinds 3 to 6 with server 0". A refused event asks nothing."""
    no = (1, 0, 0, 0, 0, None)
    if len(b) != 16 or b[1] != 0 or b[2] != 0:
        return no
    kind = b[0]
    if kind in (1, 2):
        return 0, kind, 0, 0, 0, b[3:16]
    if kind in (3, 4, 5, 6):
        if any(b[7:16]):
            return no
        server = int.from_bytes(b[3:7], "big")
        if server == 0:
            return 2, 0, 0, 0, 0, None
        return 0, kind, server, 0, 0, None
    if kind == 7:
        method, rows = b[3], int.from_bytes(b[4:6], "big")
        if any(b[6:16]) or not valid(method, rows):
            return no
        return 0, kind, 0, method, rows, None
    return no


def asked(b):
    refusal, kind, server, method, rows, key = read_event(b)
    return f" {refusal} {kind} {server} {method} {rows}" + (f" {key.hex()}" if key is not None else "")


# ------------------------------------------------------------------------------------------ rows

class Rows:
    """Rows of 99 and flags of 9, that someone else wrote."""

    def __init__(self):
        self.servers, self.flags = [99] * 4096, [9] * 4096

    def fill(self, count, working, horizon):
        """"Row r holds the choice over the working set; its flag is 1 when some horizon server outranks it, else 0";
        "ranked in row r as HRW does with D = r"; "With no working server all rows in use are 0 with flag 0. Rows past
        the count are never touched" """
        for r in range(count):
            self.servers[r], self.flags[r] = hrw_pick(working, horizon, r)

    def clear(self, count):
        """"zeroes the rows it counts and their flags" """
        for r in range(count):
            self.servers[r], self.flags[r] = 0, 0

    def read(self, count, f):
        """"the row is F(key) modulo the number of rows"; "A flag byte other than 0 counts as set." """
        r = f % count
        return self.servers[r], int(self.flags[r] != 0)

    def total(self, count):
        """One number over the first rows, so that each of them is compared."""
        t = 0
        for r in range(count):
            t = (t * 31 + self.servers[r] * 2 + self.flags[r]) % 2**32
        return t


# ------------------------------------------------------------------------------------------ ring

def plan(working, horizon):
    """"in order of position, then falling server number. The order goes by the server that owns the entry. A horizon
    server's entry names instead the working set's choice for a point at its position and is flagged; with no working
    server every entry names 0, unflagged." """
    entries = []
    for s in sorted(working + horizon, key=lambda s: (position(s), -s)):
        at = position(s)
        if not working:
            entries.append((at, 0, 0))
        elif s in working:
            entries.append((at, s, 0))
        else:
            entries.append((at, choice(lambda a, b: ring_outranks(a, b, at), working), 1))
    return entries


def place_read(entries, point):
    """"A key reads the first entry in use whose position is not below its point, else the first entry." """
    for i, (at, _, _) in enumerate(entries):
        if at >= point:
            return i
    return 0


def key_read(working, horizon, point):
    """The entry read, and its index. It gives what the ranking gives at that point."""
    entries = plan(working, horizon)
    i = place_read(entries, point)
    assert entries[i][1:] == ring_pick(working, horizon, point)
    return (i,) + entries[i]


# --------------------------------------------------------------------------------------- methods

def method_step(rows, working, horizon, op, n):
    """What a step does, and the numbers that it shows."""
    if op == "new":
        working.clear()
        horizon.clear()
    elif op == "many":
        working[:] = [k * n[0] % 2**32 for k in range(1, 65, 2)]
        horizon[:] = [k * n[0] % 2**32 for k in range(2, 65, 2)]
    elif op[0] == "w":
        working.append(int(op[1:]))
    elif op[0] == "h":
        horizon.append(int(op[1:]))
    elif op == "fill":
        rows.fill(n[0], working, horizon)
    elif op == "clear":
        rows.clear(n[0])
    elif op == "row":
        return rows.servers[n[0]], rows.flags[n[0]]
    elif op == "total":
        return (rows.total(n[0]),)
    elif op == "look":
        return rows.read(n[0], n[1])
    elif op == "pick":
        return hrw_pick(working, horizon, n[0])
    elif op == "best":
        c = choice(lambda a, b: hrw_outranks(a, b, n[0]), working)
        return 1, c, weight(c, n[0])
    elif op == "digest":
        key = bytes([n[0]] * 13)
        return F(key), digest(key)
    elif op == "over":
        return int(hrw_outranks(n[0], n[1], 0)), int(ring_outranks(n[0], n[1], 0))
    elif op == "scales":
        return (weight(n[0], n[1]),)
    elif op == "gap":
        return (distance(n[0], n[1]),)
    elif op == "entries":
        return [x for e in plan(working, horizon) for x in e]
    elif op == "key":
        return key_read(working, horizon, n[0])
    return ()


def method_lines(lines):
    assert len({position(s) for s in (15074560, 108036203)}) == 1
    assert len({position(s) for s in (81783047, 411629326, 449974487)}) == 1
    rows, working, horizon = Rows(), [], []
    for text in lines:
        shown = []
        for step in text.split(", "):
            bare = step.rstrip(":")
            numbers = [] if bare[0].isupper() else method_step(rows, working, horizon, bare.split()[0], numbers_in(bare))
            shown.append(step + "".join(f" {x}" for x in numbers))
        line(", ".join(shown))


# ----------------------------------------------------------------------------------------- cases

def cases():
    """A word with a capital letter is no step."""
    rosters, tables, methods = sections("test_cases")
    for text in rosters:
        roster_line(text)
    buffer, size = bytearray(b"\xff" * 65540), 0
    for text in tables:
        size = table_line(buffer, size, text)
    method_lines(methods)


# --------------------------------------------------------------------------------------- vectors

def vectors():
    """The FNV authors' strings: in quotation marks, with \\0 for a zero byte and \\n for a line end."""
    for text in sections("test_vectors")[0]:
        data = text[1:-1].encode().replace(b"\\0", b"\0").replace(b"\\n", b"\n")
        line(f"{text} {F(data):08x}")


# ----------------------------------------------------------------------------------------- bench

class Balancer:
    """A table of 3,276 records, a roster and a method, and what each event does to them."""

    def __init__(self, method, rows):
        self.table, self.roster = Table(bytes(65520)), Roster()
        self.method, self.rows = method, rows

    def sets(self):
        pairs = self.roster.pairs()
        return [s for s, x in pairs if x == 1], [s for s, x in pairs if x == 2]

    def chosen(self, key):
        """HRW by the digest; the ring's entry that the key reads; row r "ranked as HRW does with D = r" """
        working, horizon = self.sets()
        if self.method == 1:
            return hrw_pick(working, horizon, digest(key))
        if self.method == 2:
            return key_read(working, horizon, F(key))[2:]
        return hrw_pick(working, horizon, F(key) % self.rows)

    def packet(self, key):
        """Refusal, server, mark, reads. "if the key has a record, its server. Otherwise the choice .. If some horizon
        server outranks the choice .. it is recorded where there is room"; reads are "the place of the record counted
        from 1, or all records used before the event when the key has none" """
        place, used = self.table.find(key), self.table.used()
        if not self.sets()[0]:
            return 7, 0, 0, 0
        if place:
            server = int.from_bytes(self.table.places[place - 1][16:20], "big")
            return (0, server, 1, place) if self.roster.state_of(server) == 1 else (8, 0, 0, 0)
        server, unsafe = self.chosen(key)
        if not unsafe:
            return 0, server, 2, used
        self.table.append(key, server)
        return 0, server, 3 if used < len(self.table.places) else 4, used

    def change(self, kind, server):
        """Kinds 3, 4 and 5, with refusals 4, 5, 3 and 6; "Remove working takes away every record naming that server." """
        state, r = self.roster.state_of(server), self.roster
        if kind == 5:
            refusal = 3 if state else 6 if r.held == 64 else 0
        else:
            refusal = {3: 4, 4: 5}[kind] if state != {3: 2, 4: 1}[kind] else 0
        self.roster = {3: r.add_working, 4: r.remove_working, 5: r.add_horizon}[kind](server)
        if kind == 4 and not refusal:
            self.table.remove_server(server)
        return refusal, 0, 0, 0


class Load:
    """The program's stated generator and its checksum (the head of crates/program_bench/src/keys.rt states them)."""

    def __init__(self):
        self.x, self.sum, self.used, self.keys, self.refused = 1, 0, 0, 0, 0

    @staticmethod
    def server(j):
        return (j + 1) * 2654435769 % 2**32

    @staticmethod
    def key(i):
        return ((i * 2654435761 % 2**32).to_bytes(4, "big") + bytes([192, 0, 2, 1])
                + (i * 40503 % 2**16).to_bytes(2, "big") + (443).to_bytes(2, "big") + b"\x06")

    def drawn(self):
        i = self.x // 256 % self.keys if self.keys else 0
        self.x = (self.x * 1664525 + 1013904223) % 2**32
        return i

    def heard(self, reply):
        refusal, server, mark, reads = reply
        for a in (server, reads * 65536 + mark * 256 + refusal):
            self.sum = (self.sum * 31 + a) % 2**58
        self.used += mark == 3
        self.refused += refusal > 0

    def part(self, name):
        line(f"{name} {self.sum} {self.used} {self.keys} {self.refused}")


def bench():
    """Configure, add and put to work; new keys until the records are used; packets of those keys; roster changes."""
    words = sys.argv[2:]
    if not words:
        here = os.path.dirname(os.path.dirname(os.path.abspath(__file__)))
        with open(os.path.join(here, "crates", "program_bench", "args")) as f:
            words = f.read().split()
    method, servers, horizon, records, packets, changes = map(int, words)
    b, load = Balancer(method, 4096), Load()
    load.heard((0, 0, 0, 0))        # configure is accepted: roster and table are empty
    for j in range(servers):
        load.heard(b.change(5, load.server(j)))
    for j in range(servers - horizon):
        load.heard(b.change(3, load.server(j)))
    while load.used < records and load.keys < 100000:
        load.heard(b.packet(load.key(load.keys)))
        load.keys += 1
    load.part("filled")
    for _ in range(packets):
        load.heard(b.packet(load.key(load.drawn())))
    load.part("packets")
    for _ in range(changes):
        load.heard(b.change(3, load.server(servers - horizon)))
        load.heard(b.change(4, load.server(servers - horizon)))
    load.part("changes")


def figures():
    """Document 01, "Worked figures", of these functions: P1 to P13, and two of the FNV authors' vectors."""
    assert [weight(s, 0) for s in (1, 2, 3, 4)] == [377401575, 1495354192, 465823161, 1583775778]
    assert [weight(s, 1) for s in (1, 2, 3, 4)] == [1480916820, 391838947, 1569338406, 480260533]
    assert hrw_pick([1, 2], [3], 0) == (2, 0) and hrw_pick([1, 2], [3], 1) == (1, 1)
    assert weight(1, 0) == weight(2147483649, 0) and hrw_outranks(2147483649, 1, 0)
    assert distance(5, 4294967290) == 11 and distance(4294967289, 4294967290) == 4294967295
    assert F(b"\0") == 84696351
    assert F(b"") == 0x811C9DC5 and F(b"foobar") == 0xBF9CF968


if __name__ == "__main__":
    figures()
    {"cases": cases, "vectors": vectors, "bench": bench}[sys.argv[1]]()
    sys.stdout.write("".join(text + "\n" for text in LINES))
