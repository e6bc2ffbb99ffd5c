"""Buffers and rosters that someone else wrote: one case per sentence or reading, then
pseudo-random ones. Refusals 8, 9 and 11 show only here."""
from itertools import takewhile

import check
import model
from model import Entry, Roster
from streams import TWINS, Numbers, with_byte, with_server, with_settings

P, Q, R = b"\x01" * 13, b"\x02" * 13, b"\x03" * 13
PACKET_P, END_P = b"\x01\0\0" + P, b"\x02\0\0" + P


def roster(states, method=1, row_count=0):
    made = Roster()
    model.set_places(made, states)
    made.method, made.row_count = method, row_count
    return made


def record(key, server, tag=1, filler=b"\0\0"):
    return key + bytes([tag]) + filler + server.to_bytes(4, "big")


def lend(table=bytes(60), states=None, method=1, row_count=0):
    return [bytearray(table), [9] * 4096, bytearray(4096),
            [Entry(2**32 - 1 - k, 9, 0) for k in range(64)],
            roster(states or {}, method, row_count)]


def image(lent):
    return (bytes(lent[0]), tuple(lent[1]), bytes(lent[2]), tuple(lent[3]), lent[4].fields())


def ask(lent, event, reply, same=False):
    before = image(lent)
    got = tuple(model.event(*lent, event))
    assert got == reply, (got, reply)
    assert not (reply[0] or same) or image(lent) == before
    return 1


def refused(number):
    return (number, 0, 0, 0)


def lengths():
    """9, at start and at every event; reading 14: "whatever the method"."""
    done = 0
    for place, bad in ((0, (0, 1, 19, 21, 65519, 65540)), (1, (0, 4095, 4097)),
                       (2, (0, 4095, 4097)), (3, (0, 63, 65))):
        for length in bad:
            for method, row_count in ((1, 0), (2, 0), (3, 4), (0, 0)):
                lent = lend(bytes(60), {1: 1}, method, row_count)
                lent[place] = (bytearray(length) if place in (0, 2) else
                               [0] * length if place == 1 else [Entry(0, 0, 0)] * length)
                before = image(lent)
                done += ask(lent, PACKET_P, refused(9)) + ask(lent, b"", refused(9))
                assert tuple(model.start(*lent)) == refused(9) and image(lent) == before
    for records in (1, 3276):
        lent = lend(bytes([1]) * (20 * records), {1: 7}, 9, 9)
        lent[4].servers[60] = 5
        rest = image(lent)[1:4]
        assert tuple(model.start(*lent)) == refused(0)
        assert image(lent) == (bytes(20 * records), *rest, Roster().fields())
        done += 1
    return done


def rosters():
    """11 by reading 3, and reading 1: before 1, after 9."""
    bad, done = [], 0
    for change in (("count", 65), ("count", 2**64 - 1), ("count", 1), ("count", 3),
                   ("method", 0), ("method", 4), ("row_count", 1), ("servers", [5, 3]),
                   ("servers", [3, 3]), ("servers", [0, 3]), ("servers", [3, 0]),
                   ("states", [1, 0]), ("states", [3, 1]), ("servers", [3, 5, 7]),
                   ("states", [1, 2, 1]), ("states", [1, 2] + [0] * 61 + [2])):
        made = roster({3: 1, 5: 2})
        name, value = change
        if isinstance(value, list):
            value = value + [0] * (64 - len(value))
        setattr(made, name, value)
        bad.append(made)
    bad += [roster({3: 1}, 3, 0), roster({3: 1}, 3, 4097), roster({3: 1}, 2, 1)]
    for made in bad:
        for event in (PACKET_P, END_P, b"", b"\x09" * 5, with_settings(1, 0), bytes(40)):
            lent = lend()
            lent[4] = made
            done += ask(lent, event, refused(11))
        lent = lend(bytes(61))
        lent[4] = made
        done += ask(lent, PACKET_P, refused(9))
    return done


def tables():
    done = 0
    # 8 by the record; before it 7; an end has neither (reading 2).
    stray = record(P, 4)
    done += ask(lend(stray, {1: 1, 4: 2}), PACKET_P, refused(8))
    done += ask(lend(stray, {1: 1}), PACKET_P, refused(8))
    done += ask(lend(stray, {4: 2}), PACKET_P, refused(7))
    lent = lend(stray, {4: 2})
    done += ask(lent, END_P, (0, 0, 8, 1))
    assert lent[0] == record(P, 4, 2)
    done += ask(lent, PACKET_P, refused(7))
    done += ask(lent, END_P, (0, 0, 5, 1))
    assert lent[0] == bytes(20)
    # 10 by the used part alone.
    done += ask(lend(stray), with_settings(1, 0), refused(10))
    # "A key's record is the first used one with that key."; reading 5.
    twice = record(P, 1) + record(Q, 2) + record(P, 2) + record(R, 1)
    lent = lend(twice, {1: 1, 2: 1})
    done += ask(lent, PACKET_P, (0, 1, 1, 1), True)
    done += ask(lent, END_P, (0, 0, 8, 1))
    assert lent[0] == record(P, 1, 2) + twice[20:]
    done += ask(lent, PACKET_P, (0, 1, 1, 1), True)
    done += ask(lent, END_P, (0, 0, 5, 1))
    assert lent[0] == record(Q, 2) + record(P, 2) + record(R, 1) + bytes(20)
    done += ask(lent, PACKET_P, (0, 2, 1, 2), True)
    lent = lend(twice, {1: 1, 2: 1})
    done += ask(lent, with_server(4, 1), refused(0))
    assert lent[0] == record(Q, 2) + record(P, 2) + bytes(40)
    # Reading 4: filler counts for nothing, all 20 bytes move; "later bytes stay".
    odd, later = record(Q, 1, 1, b"\x07\x08"), record(R, 5, 3, b"\x09\x09") + record(P, 1)
    lent = lend(record(P, 1) + odd + later, {1: 1})
    done += ask(lent, END_P, (0, 0, 8, 1))
    done += ask(lent, b"\x02\0\0" + Q, (0, 0, 8, 2))
    half = record(Q, 1, 2, b"\x07\x08")
    assert lent[0] == record(P, 1, 2) + half + later
    done += ask(lent, END_P, (0, 0, 5, 1))
    assert lent[0] == half + bytes(20) + later
    # Reading 6: an appended record joins the stray used tag behind it.
    pair = {1: 1, 1 + 2**31: 2}
    lent = lend(record(Q, 1) + b"\xff" * 20 + record(R, 1) + bytes(20), pair)
    done += ask(lent, PACKET_P, (0, 1, 3, 1))
    assert lent[0] == record(Q, 1) + record(P, 1) + record(R, 1) + bytes(20)
    assert model.used_records(lent[0]) == 3
    # Mark 4: every place used; then nothing is written.
    done += ask(lend(record(Q, 1) + record(R, 1), pair), PACKET_P, (0, 1, 4, 2), True)
    return done


def tags():
    """[1]: "The used part runs over tags 1 and 2.", whoever wrote them."""
    done, pair = 0, {1: 1, 1 + 2**31: 2}
    for tag in range(256):
        used = tag in (1, 2)
        one = record(P, 1, tag)
        done += ask(lend(one, {1: 1}), PACKET_P, (0, 1, 1, 1) if used else (0, 1, 2, 0), True)
        done += ask(lend(one), with_settings(1, 0), refused(10 if used else 0))
        lent = lend(one)
        done += ask(lent, END_P, (0, 0, {1: 8, 2: 5}.get(tag, 6), int(used)), not used)
        assert lent[0] == {1: record(P, 1, 2), 2: bytes(20)}.get(tag, one)
        # In front of the key's record, and in front of the end of the table.
        two = record(Q, 1, tag, b"\x05\x06") + record(P, 1)
        done += ask(lend(two, {1: 1}), PACKET_P, (0, 1, 1, 2) if used else (0, 1, 2, 0), True)
        lent = lend(two, {1: 1})
        done += ask(lent, b"\x01\0\0" + R, (0, 1, 2, 2 if used else 0), True)
        lent = lend(two, pair)
        done += ask(lent, b"\x01\0\0" + R, (0, 1, 4, 2) if used else (0, 1, 3, 0), used)
        assert lent[0] == (two if used else record(R, 1) + record(P, 1))
        lent = lend(two + record(R, 4, tag), {1: 1, 4: 1})
        done += ask(lent, with_server(4, 1), refused(0))
        assert lent[0] == (record(R, 4, tag) + bytes(40) if used else two + record(R, 4, tag))
    return done


def after(table, event, server):
    """The marks that an accepted packet, end or remove working can get, its reads, and the table
    afterwards, over a list of records. A packet's server is given: safety isn't asked here."""
    places = [table[i:i + 20] for i in range(0, len(table), 20)]
    used = len(list(takewhile(lambda r: r[13] == 1 or r[13] == 2, places)))
    kind, key = event[0], event[3:]
    if kind == 4:
        kept = [r for r in places[:used] if r[16:] != event[3:7]]
        return (0,), 0, b"".join(kept).ljust(20 * used, b"\0") + table[20 * used:]
    place = next((n for n, r in enumerate(places[:used]) if r[:13] == key), None)
    if place is None and kind == 2:
        return (6,), used, table
    if place is None and used == len(places):
        return (2, 4), used, table
    if place is None:
        places[used] = record(key, server)
        return (2, 3), used, b"".join(places)
    if kind == 1:
        return (1,), place + 1, table
    found = places.pop(place)
    if found[13] == 2:
        places.insert(used - 1, bytes(20))
        return (5,), place + 1, b"".join(places)
    places.insert(place, found[:13] + b"\2" + found[14:])
    return (8,), place + 1, b"".join(places)


def rows_and_ring():
    done = 0
    row, point = model.fnv(P) % 10, model.fnv(P)
    for flag, mark in ((0, 2), (1, 3), (2, 3), (255, 3)):   # "counts as set"
        lent = lend(states={1: 1, 2: 1}, method=3, row_count=10)
        lent[1][row], lent[2][row] = 2, flag
        done += ask(lent, PACKET_P, (0, 2, mark, 0))
        lent = lend(states={1: 1, 2: 1}, method=2)
        lent[3][0] = lent[3][1] = Entry(point, 2, flag)
        done += ask(lent, PACKET_P, (0, 2, mark, 0))
    for named in (0, 3, 4, 2**32 - 1):                      # 8 by row or ring entry
        lent = lend(states={1: 1, 3: 2}, method=3, row_count=10)
        lent[1][row] = named
        done += ask(lent, PACKET_P, refused(8))
        lent[0][:20] = record(P, 1)                         # "or else": the record is first
        done += ask(lent, PACKET_P, (0, 1, 1, 1), True)
        lent = lend(states={1: 1, 3: 2}, method=2)
        lent[3][0] = Entry(point, named, 0)
        done += ask(lent, PACKET_P, refused(8))
    # Reading 7: the first in list order; only entries in use; else the first.
    lent = lend(states={1: 1, 2: 1, 3: 1}, method=2)
    lent[3][:4] = [Entry(0, 1, 0), Entry(point + 9, 2, 0), Entry(point, 3, 0), Entry(point, 9, 0)]
    done += ask(lent, PACKET_P, (0, 2, 2, 0), True)
    lent[3][:4] = [Entry(0, 1, 0), Entry(1, 2, 0), Entry(2, 3, 0), Entry(point, 9, 0)]
    done += ask(lent, PACKET_P, (0, 1, 2, 0), True)
    # Reading 8, and 9: falling owner.
    low, high = TWINS
    lent = lend(states={low: 2, high: 1}, method=2)
    done += ask(lent, with_server(5, 7), refused(0))
    same = [e for e in lent[3][:3] if e.position == model.position(low)]
    assert same == [(same[0][0], high, 0), (same[0][0], high, 1)]
    # Readings 10 and 14d: what is no longer in use stays.
    fourth = lent[3][2]
    done += ask(lent, with_server(6, 7), refused(0))
    assert lent[3][2] == fourth
    lent = lend(states={5: 2}, method=2)
    before = list(lent[3])
    done += ask(lent, with_server(6, 5), refused(0)) + ask(lent, with_settings(3, 6), refused(0))
    assert lent[3] == before and lent[1] == [0] * 6 + [9] * 4090
    done += ask(lent, with_settings(2, 0), refused(0)) + ask(lent, with_settings(3, 2), refused(0))
    assert lent[3] == before and lent[1] == [0] * 6 + [9] * 4090
    return done


def anything(count):
    """Pseudo-random buffers and rosters: a reply is always given, a refusal changes
    nothing, the table is what `after` says, an accepted roster change leaves rows and ring
    as the sets give."""
    n, kinds, marks = Numbers(99), set(), set()
    for _ in range(count):
        places = 1 + n.below(6)
        table = b"".join(record(n.pick((P, Q, R)), n.below(6), n.pick((0, 1, 1, 1, 2, 2, 2, 3, 255)),
                                bytes([n.below(2), 0])) for _ in range(places))
        method = n.pick((1, 2, 3, 3, 2, 1, n.below(5)))
        lent = lend(table + bytes(n.pick((0, 0, 0, 0, 1))), {k + 1: n.pick((1, 1, 2, n.below(4)))
                    for k in range(n.below(6))}, method, n.pick((1, 5, 9)) if method == 3 else 0)
        lent[1][:9] = [n.below(6) for _ in range(9)]
        lent[2][:9] = bytes(n.below(3) for _ in range(9))
        lent[3][:6] = [Entry(n.below(2**32), n.below(6), n.below(3)) for _ in range(6)]
        event = n.pick((PACKET_P, PACKET_P, b"\x01\0\0" + Q, END_P, with_server(3 + n.below(4),
                       n.below(8)), with_server(3 + n.below(4), n.below(6)), with_settings(3, 4)))
        if n.below(12) == 0:
            event = with_byte(event, n.below(16), n.below(256))[:n.pick((16, 16, 9))]
        before = image(lent)
        reply = model.event(*lent, event)
        kinds.add(reply.refusal)
        now = image(lent)
        if reply.refusal:
            assert now == before and tuple(reply[1:]) == (0, 0, 0)
            continue
        if event[0] in (1, 2, 4):
            marks.add(reply.mark)
            allowed, reads, written = after(before[0], event, reply.server)
            assert reply.mark in allowed and reply.reads == reads
            assert now[0] == (before[0] if reply.mark == 2 else written)
        else:
            assert now[0] == before[0]
        sets = check.Shadow(places)
        sets.working, sets.horizon = set(lent[4].working()), set(lent[4].horizon())
        sets.method, sets.row_count = lent[4].method, lent[4].row_count
        assert not model.unsound(lent[4])
        rows, flags, ring = before[1:4]
        if event[0] in (3, 4, 5, 6) and sets.method == 3:
            chosen, flagged = sets.rows_now()
            rows, flags = tuple(chosen) + rows[len(chosen):], bytes(flagged) + flags[len(flagged):]
        elif event[0] in (3, 4, 5, 6) and sets.method == 2:
            ring = tuple(sets.ring_now()) + ring[lent[4].count:]
        elif event[0] == 7:
            rows = (0,) * sets.row_count + rows[sets.row_count:]
            flags = bytes(sets.row_count) + flags[sets.row_count:]
        elif event[0] == 1:
            assert reply.server in sets.working
        assert now[1:4] == (rows, flags, ring)
    assert kinds >= {0, 1, 2, 3, 4, 5, 7, 8, 9, 10, 11}, kinds
    assert marks == {0, 1, 2, 3, 4, 5, 6, 8}, marks
    return count


def run():
    return lengths() + rosters() + tables() + tags() + rows_and_ring() + anything(4000)


if __name__ == "__main__":
    print("%d cases ok" % run())
