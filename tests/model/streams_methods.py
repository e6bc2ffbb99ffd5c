"""The streams about the methods: ties, last, returns, opposite, hrw, ring, rows, mixed.
And `history`, the pseudo-random histories. See streams.py."""
from itertools import product

import model
from streams import (CONSECUTIVE, HALF, SPREAD, TRIPLETS, TWINS, Numbers, Script,
                     connection, key_at, with_byte, with_server, with_settings)

METHODS = ((1, 0), (2, 0), (3, 7))


def all_states(s, servers, keys):
    """Every way to have the servers working, in the horizon or unknown: packets each."""
    for states in product("wh-", repeat=len(servers)):
        for server, state in zip(servers, states):
            if state != "-":
                s.add_horizon(server)
            if state == "w":
                s.add_working(server)
        s.packets(*keys)
        s.packets(*keys[:2])
        s.ends(*keys[:3], *keys[:2])
        s.clear()


def ties():
    s, n = Script(), Numbers(31)
    keys = [n.key() for _ in range(12)]
    # "Comparing weights alone flags nothing at a tie where the horizon server has the
    # higher number."
    for method, row_count in ((1, 0), (3, 1), (3, 2), (3, 100)):
        s.configure(method, row_count)
        for low in (1, 5, 2147483647, 0x12345678):
            all_states(s, (low, low + HALF), keys[:5])
        s.put_to_work(9)
        all_states(s, (1, 1 + HALF, 3), keys[:5])
        s.configure(method, row_count)
    # HALF itself ties with 0 alone, which is no server.
    s.configure(1)
    s.put_to_work(HALF)
    s.add_horizon(1, HALF + 1)
    s.packets(*keys)
    s.clear()
    s.configure(2)
    points = [key_at((model.position(group[0]) + d) % 2**32)
              for group in (TWINS, TRIPLETS) for d in (-1, 0, 1)]
    all_states(s, TWINS, points[:3] + keys[:3])
    all_states(s, TRIPLETS, points[3:] + keys[:3])
    s.put_to_work(7)
    s.add_horizon(8)
    for group in (TWINS, TRIPLETS, TRIPLETS[::-1], TWINS[::-1]):
        for server in group:
            s.add_horizon(server)
            s.packets(*points)
        for server in group[::-1]:
            s.add_working(server)
            s.packets(*points, *keys[:3])
        for server in group:
            s.remove_working(server)
            s.packets(*points)
        for server in group:
            s.remove_horizon(server)
            s.packets(*points[:3])
    s.clear()
    return s


def last():
    """"After the last working server goes, the next one added must fill every row,
    flagged or not." """
    s, n = Script(), Numbers(1)
    keys = [n.key() for _ in range(16)]
    for method, row_count in METHODS + ((3, 1), (3, 64)):
        for one, two, three in ((1, 2, 3), (3, 2, 1), (SPREAD[2], SPREAD[0], SPREAD[8])):
            s.configure(method, row_count)
            s.put_to_work(one)
            s.packets(*keys)                    # all safe: no horizon
            s.add_horizon(two)
            s.packets(*keys)
            s.remove_working(one)               # the last one goes
            s.packets(*keys[:3])                # 7
            s.ends(*keys[:3])
            s.add_working(two)                  # another comes
            s.packets(*keys)
            s.remove_working(two)
            s.remove_horizon(one)
            s.packets(keys[0])
            s.add_horizon(three)
            s.add_working(three)
            s.packets(*keys)
            s.remove_horizon(two)
            s.packets(*keys)
            s.remove_working(three)
            s.add_working(three)                # the same one again
            s.packets(*keys)
            s.clear()
            s.packets(keys[0])
    return s


def returns():
    """"Keeping records of a removed server revives them when it returns." """
    s, n = Script(), Numbers(77)
    keys = [n.key() for _ in range(24)]
    for method, row_count in METHODS:
        s.configure(method, row_count)
        s.put_to_work(1, 2, 3, 0x80000002)
        s.add_horizon(4, 5, 6, 7, 8)
        s.packets(*keys)
        s.packets(*keys)
        for server in (2, 1, 0x80000002, 3):
            s.remove_working(server)
            s.packets(*keys[:12])
            s.add_working(server)               # back: its old records are gone
            s.packets(*keys)
        s.ends(*keys[::3], *keys[::6])          # half of them a second time
        s.packets(*keys)
        s.remove_working(1)
        s.remove_horizon(1)                     # gone from the roster, then back to work
        s.put_to_work(1)
        s.packets(*keys)
        s.add_working(4, 5)
        s.packets(*keys)
        s.remove_working(2, 3)
        s.add_working(3, 2)
        s.remove_horizon(6, 7, 8)
        s.packets(*keys)
        s.clear()
    return s


def opposite():
    s = Script()
    pairs = [((0x0A000001 + n, 0xC0A80001, 40000 + n, 80), (6, 17, 0, 255)[n % 4])
             for n in range(10)] + [((0, 0, 0, 0), 0), ((2**32 - 1, 0, 65535, 0), 255)]
    there = [connection(a, b, c, d, p) for (a, b, c, d), p in pairs]
    back = [connection(b, a, d, c, p) for (a, b, c, d), p in pairs]
    near = [with_byte(there[0], i, there[0][i] ^ 1) for i in range(13)]
    for method, row_count in METHODS:
        s.configure(method, row_count)
        s.put_to_work(1, 2)
        s.add_horizon(3, 4, 5, 6)
        s.packets(*there)
        s.packets(*back)
        s.packets(*there)
        s.packets(*back)
        s.ends(*there[:6], *there[:4])
        s.packets(*back)
        s.ends(*back[3:9], *back[5:9])
        s.packets(*there)
        s.packets(*near)                        # one bit off is another key too
        s.packets(*near)
        s.ends(*near, *near[::2])
        s.clear()
    return s


def churn(s, n, keys, pool, count):
    """Packets and ends of the keys, with changes of both sets between."""
    for turn in range(count):
        s.packets(n.pick(keys))
        if turn % 3 == 0:
            s.packets(n.pick(keys))
        if turn % 4 == 0:
            s.ends(n.pick(keys))
        if turn % 5 == 0:
            away = [x for x in pool if x not in s.working | s.horizon]
            change = n.below(4)
            if change == 0 and away:
                s.add_horizon(n.pick(away))
            elif change == 1 and s.horizon:
                s.add_working(n.pick(sorted(s.horizon)))
            elif change == 2 and len(s.working) > 1:
                s.remove_working(n.pick(sorted(s.working)))
            elif change == 3 and s.horizon:
                s.remove_horizon(n.pick(sorted(s.horizon)))


def of_method(method, row_counts, seed):
    s, n = Script(), Numbers(seed)
    keys = [n.key() for _ in range(30)]
    keys += [connection(0x0A000000 + i, 0x0A0000FE, 1024 + i, 443) for i in range(10)]
    if method == 2:                             # "distance 0 included", and both ends
        some = [model.position(x) for x in CONSECUTIVE[:3] + SPREAD[:3]]
        keys += [key_at((p + d) % 2**32) for p in some for d in (-1, 0, 1)]
        keys += [key_at(0), key_at(2**32 - 1)]
    for row_count in row_counts:
        for pool in (CONSECUTIVE, SPREAD, CONSECUTIVE[:6] + SPREAD[:6]):
            s.configure(method, row_count)
            s.add_horizon(*pool[:8])
            s.add_working(*pool[1:8:2])
            s.packets(*keys)
            churn(s, n, keys, pool, 150)
            s.packets(*keys)
            s.clear()
    return s


def any_event(s, n, keys, pool):
    """One of all kinds, more often one that is accepted than not."""
    roll = n.below(100)
    if roll < 50:
        s.packets(n.pick(keys))
    elif roll < 62:
        s.ends(n.pick(keys))
    elif roll < 73:
        s.add_horizon(n.pick(pool))
    elif roll < 85:
        s.add_working(n.pick(sorted(s.horizon) or pool) if n.below(5) else n.pick(pool))
    elif roll < 91:
        s.remove_working(n.pick(sorted(s.working) or pool) if n.below(3) else n.pick(pool))
    elif roll < 97:
        s.remove_horizon(n.pick(pool))
    else:
        s.configure(n.below(5), n.pick((0, 0, 1, 5, 4096, 4097)))
        if not s.working | s.horizon:           # then it may be accepted: take it back
            s.events.pop()


def harm(n, record):
    """A damaged copy, refused with 1 or 2: filler, kind, server 0 or settings."""
    what = n.below(5)
    if what == 0:
        return with_byte(record, n.pick((1, 2)), 1 + n.below(255))
    if what == 1:
        return with_byte(record, 0, n.pick((0, 8, 9, 100, 255)))
    if what == 2:
        return with_byte(with_server(3 + n.below(4), n.below(4)), 7 + n.below(9),
                         1 + n.below(255))
    if what == 3:
        return with_server(3 + n.below(4), 0)
    return with_settings(n.pick((0, 1, 2, 3, 4, 200)), n.pick((4097, 65535, 5000)))


def mixed_phase(s, n, keys, pool, method, row_count, length, crowd=False):
    s.clear()
    s.configure(method, row_count)
    if crowd:
        s.add_horizon(*pool[:65])
        s.add_working(*pool[10:40:3])
    else:
        s.add_horizon(*pool[:5])
        s.add_working(*pool[1:4])
    for _ in range(length):
        if n.below(20) == 0:
            s.events.append(harm(n, n.pick(s.events[-9:])))
        else:
            any_event(s, n, keys, pool)


def mixed():
    s, n = Script(), Numbers(10000)
    keys = [n.key() for _ in range(45)]
    pools = [CONSECUTIVE, SPREAD, [1, 1 + HALF, 2, 2 + HALF, 3, 4, *TWINS, *TRIPLETS]]
    wide = [1 + 61356675 * k for k in range(70)]
    phase = 0
    while len(s.events) < 10000:
        method, crowd = phase % 3 + 1, phase // 3 == 2
        row_count = n.pick((1, 2, 7, 16, 61, 256)) if method == 3 else 0
        pool = wide if crowd else pools[phase // 3 % 3]
        mixed_phase(s, n, keys, pool, method, row_count, 250 + n.below(300), crowd)
        phase += 1
    s.events = s.events[:10000]
    return s


def history(seed):
    """A pseudo-random history for check_along with its table size and former contents:
    events of wrong lengths among them, small tables so that mark 4 is common."""
    s, n = Script(), Numbers(seed)
    keys = [n.key() for _ in range(3 + n.below(20))]
    pool = [n.below(2**32 - 1) + 1 for _ in range(6)] + [1, 2, 3, 1 + HALF, *TWINS, *TRIPLETS]
    for phase in range(6):
        method = (phase + seed) % 3 + 1
        row_count = n.pick((1, 3, 12, 50)) if method == 3 else 0
        mixed_phase(s, n, keys, pool, method, row_count, 120)
    events = []
    for record in s.events:
        if n.below(25) == 0:
            events.append((record + record)[:n.pick((0, 1, 3, 7, 15, 17, 32))])
        events.append(record)
    return events, n.pick((1, 2, 3, 5, 8, 20, 3276)), n.below(2) * (1 + n.below(10**6))


STREAMS = {
    "ties": ties, "last": last, "returns": returns, "opposite": opposite,
    "hrw": lambda: of_method(1, (0,), 11),
    "ring": lambda: of_method(2, (0,), 22),
    "rows": lambda: of_method(3, (1, 2, 7, 97, 4096), 33),
    "mixed": mixed,
}
