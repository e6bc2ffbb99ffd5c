"""Reference model of the balancer of documents 01 and 02, written from them.

Sentences in quotation marks beside a function are document 01's, or document 02's
where "[1]", its request, stands before them; "reading N" is a point of READINGS.md.
Every function is total: see `event` and `start`.
"""
from collections import namedtuple
from functools import lru_cache

# "3,276 records accepted, 3,277 refused": 3,276 x 20 = 65,520 bytes.
RECORD_SIZE, KEY_SIZE, EVENT_SIZE = 20, 13, 16
TABLE_LIMIT = 65520
ROWS_LENGTH, RING_LENGTH, ROSTER_LENGTH = 4096, 64, 64

# "three methods: 1 HRW, 2 ring, 3 row table"
HRW, RING, ROW_TABLE = 1, 2, 3

# The tags of a used record. [1]: "The used part runs over tags 1 and 2."
OPEN, HALF_CLOSED = 1, 2

# The states of a roster place.
UNUSED, WORKING, HORIZON = 0, 1, 2

# "Byte 0 is the kind"
PACKET, END = 1, 2
ADD_WORKING, REMOVE_WORKING, ADD_HORIZON, REMOVE_HORIZON = 3, 4, 5, 6
CONFIGURE = 7
ROSTER_KINDS = (ADD_WORKING, REMOVE_WORKING, ADD_HORIZON, REMOVE_HORIZON)

# "A reply is either the accepted facts or a refusal number." Refusal 0 is accepted.
Reply = namedtuple("Reply", "refusal server mark reads")

# "whose entries each hold a position, a server and a track flag"
Entry = namedtuple("Entry", "position server track")


class Roster:
    """"servers in rising order, each working or in the horizon, unused places
    zero, with the method and row count". Reading 3: "a count, 64 places and settings"."""

    def __init__(self):
        self.count = 0
        self.servers = [0] * ROSTER_LENGTH
        self.states = [UNUSED] * ROSTER_LENGTH
        self.method = HRW
        self.row_count = 0

    def fields(self):
        return (self.count, tuple(self.servers), tuple(self.states),
                self.method, self.row_count)

    def in_state(self, state):
        return [self.servers[i] for i in range(self.count) if self.states[i] == state]

    def working(self):
        return self.in_state(WORKING)

    def horizon(self):
        return self.in_state(HORIZON)


def fnv(data):
    """"start at 2166136261; for each byte, xor it in, then multiply by 16777619
    modulo 2^32" """
    value = 2166136261
    for byte in data:
        value = (value ^ byte) * 16777619 % 2**32
    return value


def digest(key):
    """"Digest of a key: F(key) modulo 2^31." """
    return fnv(key) % 2**31


def weight(server, at):
    """"(1103515245 x ((1103515245 x S + 12345) xor D) + 12345) modulo 2^31" """
    return (1103515245 * ((1103515245 * server + 12345) ^ at) + 12345) % 2**31


@lru_cache(maxsize=None)
def position(server):
    """"a server's position is F of its 4 bytes big-endian" """
    return fnv(server.to_bytes(4, "big"))


def distance(place, point):
    """"The clockwise distance is position minus point, wrapping at 2^32." """
    return (place - point) % 2**32


def ranking_point(method, row_count, key):
    """What a key hands to its method's ranking: the digest (HRW), the point
    ("the key's point is F(key)"), or the row ("F(key) modulo the number of rows")."""
    if method == HRW:
        return digest(key)
    if method == RING:
        return fnv(key)
    return fnv(key) % row_count


def standing(method, server, at):
    """A value that is greater for the server that outranks.
    HRW and rows: "a higher weight outranks", at equal weights "the higher number
    outranks"; "Servers are ranked in row r as HRW does with D = r."
    Ring: "The smaller distance outranks, distance 0 included. At equal positions
    the higher number outranks." """
    if method == RING:
        return (-distance(position(server), at), server)
    return (weight(server, at), server)


def outranks(method, one, other, at):
    return standing(method, one, at) > standing(method, other, at)


def choice(method, servers, at):
    """"The choice over a set is its highest-ranked member." (0 for the empty set)"""
    return max(servers, key=lambda s: standing(method, s, at), default=0)


def unsafe(method, chosen, horizon, at):
    """"If some horizon server outranks the choice ... it is unsafe" """
    return any(outranks(method, h, chosen, at) for h in horizon)


def used_records(table):
    """"The used part of a table is all records before the first whose tag is not 1."
    [1]: "The used part runs over tags 1 and 2." """
    count = 0
    while (count * RECORD_SIZE < len(table)
           and table[count * RECORD_SIZE + KEY_SIZE] in (OPEN, HALF_CLOSED)):
        count += 1
    return count


def record_at(table, index):
    return bytes(table[index * RECORD_SIZE:(index + 1) * RECORD_SIZE])


def record_server(record):
    """"key 13, tag 1, two zero bytes, server 4 big-endian" (reading 4: filler isn't asked)"""
    return int.from_bytes(record[16:20], "big")


def record_tag(record):
    return record[KEY_SIZE]


def find(table, key):
    """"A key's record is the first used one with that key." The place counted
    from 1, or 0."""
    for index in range(used_records(table)):
        start_byte = index * RECORD_SIZE
        if table[start_byte:start_byte + KEY_SIZE] == key:
            return index + 1
    return 0


def append(table, key, server):
    """"A new record goes into the first unused place.", with tag 1"""
    first = used_records(table) * RECORD_SIZE
    table[first:first + RECORD_SIZE] = (key + bytes([OPEN, 0, 0])
                                        + server.to_bytes(4, "big"))


def half_close(table, index):
    """[1]: "The first end on a record now sets its tag to 2" """
    table[index * RECORD_SIZE + KEY_SIZE] = HALF_CLOSED


def remove_record(table, index):
    """"Removal closes the gap, keeps the order, and zeroes the last formerly used
    record; later bytes stay." """
    used = used_records(table)
    kept = [record_at(table, i) for i in range(used) if i != index]
    table[:used * RECORD_SIZE] = b"".join(kept) + bytes(RECORD_SIZE)


def remove_records_of(table, server):
    """"Remove working takes away every record naming that server." The removals one
    after the other leave the kept records in order, then as many zero records."""
    used = used_records(table)
    kept = [record_at(table, i) for i in range(used)
            if record_server(record_at(table, i)) != server]
    table[:used * RECORD_SIZE] = b"".join(kept) + bytes(RECORD_SIZE * (used - len(kept)))


def fill_rows(rows, flags, roster):
    """"Row r holds the choice over the working set; its flag is 1 when some horizon
    server outranks it, else 0". "With no working server all rows in use are 0 with
    flag 0. Rows past the count are never touched" """
    working, horizon = roster.working(), roster.horizon()
    for row in range(roster.row_count):
        chosen = choice(ROW_TABLE, working, row)
        rows[row] = chosen
        flags[row] = 1 if working and unsafe(ROW_TABLE, chosen, horizon, row) else 0


def fill_ring(ring, roster):
    """"in order of position, then falling server number. The order goes by the server
    that owns the entry. A horizon server's entry names instead the working set's choice
    for a point at its position and is flagged; with no working server every entry names
    0, unflagged." "Entries in use equal the roster's size; the rest stay as they are." """
    working, horizon = roster.working(), roster.horizon()
    owners = sorted(working + horizon, key=lambda s: (position(s), -s))
    for place, owner in enumerate(owners):
        if not working:
            ring[place] = Entry(position(owner), 0, 0)
        elif owner in working:
            ring[place] = Entry(position(owner), owner, 0)
        else:
            ring[place] = Entry(position(owner), choice(RING, working, position(owner)), 1)


def fill(rows, flags, ring, roster):
    """"After an accepted roster change the rows or entries in use hold exactly what the
    new sets give, no matter what they held before." "Methods 1 and 3 don't touch the
    ring."; of rows: "under methods 1 and 2 none is" touched."""
    if roster.method == RING:
        fill_ring(ring, roster)
    if roster.method == ROW_TABLE:
        fill_rows(rows, flags, roster)


def read_ring(ring, count, point):
    """"A key reads the first entry in use whose position is not below its point, else
    the first entry." Reading 7: the first in list order, on any ring."""
    for place in range(count):
        if ring[place][0] >= point:
            return ring[place]
    return ring[0]


def route(rows, flags, ring, roster, key):
    """"Otherwise the choice over the working set (methods 2 and 3: read from ring or
    row). If some horizon server outranks the choice (methods 2 and 3: if the flag read
    is set), it is unsafe". "A flag byte other than 0 counts as set." (server, unsafe)"""
    at = ranking_point(roster.method, roster.row_count, key)
    if roster.method == HRW:
        chosen = choice(HRW, roster.working(), at)
        return chosen, unsafe(HRW, chosen, roster.horizon(), at)
    if roster.method == RING:
        entry = read_ring(ring, roster.count, at)
        return entry[1], entry[2] != 0
    return rows[at], flags[at] != 0


def bad_settings(method, row_count):
    """"Row count is 1 to 4,096 for method 3 and 0 for the others." """
    if method == ROW_TABLE:
        return not 1 <= row_count <= 4096
    return method not in (HRW, RING) or row_count != 0


def bad_lengths(table, rows, flags, ring):
    """9: "table length 0, above 65,520 or not a multiple of 20; rows or flags not
    4,096; ring not 64" """
    return (len(table) == 0 or len(table) > TABLE_LIMIT or len(table) % RECORD_SIZE != 0
            or len(rows) != ROWS_LENGTH or len(flags) != ROWS_LENGTH
            or len(ring) != RING_LENGTH)


def unsound(roster):
    """11: "roster not in its stated form: more than 64, out of order, server 0 or twice,
    a used unused place, bad method or row count"; states by reading 3."""
    if len(roster.servers) != ROSTER_LENGTH or len(roster.states) != ROSTER_LENGTH:
        return True
    if not 0 <= roster.count <= ROSTER_LENGTH:
        return True
    before = 0
    for place in range(ROSTER_LENGTH):
        server, state = roster.servers[place], roster.states[place]
        if place < roster.count:
            if not before < server < 2**32 or state not in (WORKING, HORIZON):
                return True
            before = server
        elif server != 0 or state != UNUSED:
            return True
    return bad_settings(roster.method, roster.row_count)


def event_server(record):
    return int.from_bytes(record[3:7], "big")


def event_settings(record):
    """"method 1, row count 2 big-endian, then zeros" """
    return record[3], int.from_bytes(record[4:6], "big")


def malformed(record):
    """1: "event not 16 bytes, unknown kind, non-zero filler, bad method or row count" """
    if len(record) != EVENT_SIZE or not PACKET <= record[0] <= CONFIGURE:
        return True
    if record[1] != 0 or record[2] != 0:
        return True
    if record[0] in ROSTER_KINDS:
        return any(record[7:])
    if record[0] == CONFIGURE:
        return any(record[6:]) or bad_settings(*event_settings(record))
    return False


def refusal(table, rows, flags, ring, roster, record):
    """"Tested in this order; the first that applies is given." 0 when none does."""
    if bad_lengths(table, rows, flags, ring):
        return 9
    if unsound(roster):
        return 11
    if malformed(record):
        return 1
    kind, server = record[0], event_server(record)
    working, horizon = roster.working(), roster.horizon()
    if kind in ROSTER_KINDS and server == 0:
        return 2
    if kind == CONFIGURE and (roster.count != 0 or used_records(table) != 0):
        return 10
    if kind == ADD_HORIZON and (server in working or server in horizon):
        return 3
    if kind == ADD_HORIZON and roster.count == ROSTER_LENGTH:
        return 6
    if kind in (ADD_WORKING, REMOVE_HORIZON) and server not in horizon:
        return 4
    if kind == REMOVE_WORKING and server not in working:
        return 5
    if kind == PACKET and not working:
        return 7
    if kind == PACKET:
        # 8: "packet whose record, or else whose row or ring entry, names a server
        # that is not working"
        key = bytes(record[3:])
        place = find(table, key)
        named = (record_server(record_at(table, place - 1)) if place
                 else route(rows, flags, ring, roster, key)[0])
        if named not in working:
            return 8
    return 0


def packet(table, rows, flags, ring, roster, key):
    """"if the key has a record, its server. Otherwise the choice ... If ... unsafe ...
    is recorded where there is room." Reading 15: a half-closed record is a record, and
    stays half-closed. Marks: "1 from the record, 2 chosen and safe, 3
    chosen and recorded, 4 chosen, unsafe and no room". Reads: "the place of the record
    counted from 1, or all records used before the event when the key has none." """
    place = find(table, key)
    if place:
        return Reply(0, record_server(record_at(table, place - 1)), 1, place)
    used = used_records(table)
    server, is_unsafe = route(rows, flags, ring, roster, key)
    if not is_unsafe:
        return Reply(0, server, 2, used)
    if used * RECORD_SIZE == len(table):
        return Reply(0, server, 4, used)
    append(table, key, server)
    return Reply(0, server, 3, used)


def end(table, key):
    """"5 record removed, 6 nothing to remove". [1]: "The first end on a record now sets
    its tag to 2 and gives mark 8; the next end removes it with mark 5." """
    place = find(table, key)
    if not place:
        return Reply(0, 0, 6, used_records(table))
    if record_tag(record_at(table, place - 1)) == OPEN:
        half_close(table, place - 1)
        return Reply(0, 0, 8, place)
    remove_record(table, place - 1)
    return Reply(0, 0, 5, place)


def set_places(roster, states):
    """Write the roster's places from a mapping of server to state: "servers in rising
    order ... unused places zero"."""
    servers = sorted(states)
    unused = [0] * (ROSTER_LENGTH - len(servers))
    roster.count = len(servers)
    roster.servers = servers + unused
    roster.states = [states[s] for s in servers] + [UNUSED] * len(unused)


def change_roster(roster, kind, server):
    """"It is working, in the horizon, or unknown." "A server leaving work goes straight
    to the horizon." Added to work it leaves the horizon ("It must leave it")."""
    states = {roster.servers[i]: roster.states[i] for i in range(roster.count)}
    if kind == ADD_WORKING:
        states[server] = WORKING
    elif kind == REMOVE_HORIZON:
        del states[server]
    else:
        states[server] = HORIZON
    set_places(roster, states)


def configure(rows, flags, roster, method, row_count):
    """"it selects the method and zeroes the rows it counts and their flags" """
    roster.method, roster.row_count = method, row_count
    for row in range(row_count):
        rows[row], flags[row] = 0, 0


def event(table, rows, flags, ring, roster, record):
    """One event. "A refusal returns its number, server 0, mark 0, reads 0, and every
    buffer and the roster stay the same." "Other accepted events carry server, mark and
    reads 0". `roster` and the buffers are altered in place."""
    number = refusal(table, rows, flags, ring, roster, record)
    if number:
        return Reply(number, 0, 0, 0)
    kind, key = record[0], bytes(record[3:])
    if kind == PACKET:
        return packet(table, rows, flags, ring, roster, key)
    if kind == END:
        return end(table, key)
    if kind == CONFIGURE:
        configure(rows, flags, roster, *event_settings(record))
        return Reply(0, 0, 0, 0)
    if kind == REMOVE_WORKING:
        remove_records_of(table, event_server(record))
    change_roster(roster, kind, event_server(record))
    fill(rows, flags, ring, roster)
    return Reply(0, 0, 0, 0)


def start(table, rows, flags, ring, roster):
    """"Starting zeroes the whole table, empties the roster and selects method 1." "A
    start is refused only by 9; accepted, it replies server, mark and reads 0 and leaves
    rows, flags and ring as they are." """
    if bad_lengths(table, rows, flags, ring):
        return Reply(9, 0, 0, 0)
    table[:] = bytes(len(table))
    set_places(roster, {})
    roster.method, roster.row_count = HRW, 0
    return Reply(0, 0, 0, 0)


def check_along(history, records=3276, dirt=0):
    """Assertions after every event of a history from a fresh start: see check.py."""
    from check import check_along as along
    return along(history, records, dirt)
