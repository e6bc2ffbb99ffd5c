"""The streams about sessions that close one side first, request [1]: closing, closings,
closed, closed2, closed3. See streams.py. Beside a step stand the marks that it gets."""
from streams import Numbers, Script, keys_that

METHODS = ((1, 0), (2, 0), (3, 50))


def open_door(s, method, row_count):
    """1 and 7 work, 2 and 9 stand by: the sets of keys_that."""
    s.configure(method, row_count)
    s.put_to_work(1, 7)
    s.add_horizon(2, 9)


def step_by_step(s, key, safe):
    """"The first end on a record now sets its tag to 2 and gives mark 8; the next end
    removes it with mark 5." """
    s.ends(key, key)                            # 6 6: no record yet, and no trace of it later
    s.packets(key)                              # 3
    s.ends(key)                                 # 8
    s.packets(key, key)                         # 1 1: the tag stays 2
    s.ends(key)                                 # 5
    s.packets(key)                              # 3: a new record, with tag 1 again
    s.packets(key)                              # 1
    s.ends(key, key, key)                       # 8 5 6
    s.ends(key)                                 # 6
    s.packets(key, safe)                        # 3 2
    s.ends(safe, key, safe, key, safe)          # 6 8 6 5 6


def side_by_side(s, keys, safe):
    """Ends of several keys in turn: each record has its own tag, which moves with it when
    a gap closes before it."""
    a, b, c, d, e, f = keys
    s.packets(*keys)                            # 3, six times
    s.ends(c, a, e)                             # 8 8 8
    s.packets(*keys, safe)                      # 1, six times, and 2
    s.ends(c)                                   # 5: between two with tag 1
    s.packets(*keys[3:])
    s.ends(b, b)                                # 8 5: behind one with tag 2
    s.ends(f, d)                                # 8 8: now all that are left have tag 2
    s.configure(1)                              # 10
    s.packets(a, d, e, f)                       # 1 1 1 1
    s.ends(a, f)                                # 5 5: the first place, the last place
    s.packets(a, f)                             # 3 3: with tag 1, behind two with tag 2
    s.ends(a, d, f, e, a, b, f)                 # 8 5 8 5 5 6 5
    s.packets(*keys)                            # 3, six times
    s.ends(*keys)                               # 8
    s.ends(*keys[::-1])                         # 5, from the last place on
    s.ends(*keys)                               # 6


def joining(s, keys):
    """Demand 3 with an end between two packets: "fewer than two since the key's record
    was written"."""
    s.packets(*keys)
    s.ends(*keys[::2])                          # 8
    s.add_working(2)
    s.packets(*keys)                            # 1: they stay
    s.add_working(9)
    s.packets(*keys)
    s.ends(*keys[::2])                          # 5
    s.packets(*keys)                            # those may move
    s.ends(*keys[:4])
    s.remove_working(9, 2)
    s.packets(*keys)
    s.ends(*keys)
    s.ends(*keys)


def leaving(s, keys):
    """A mover leaves with half-closed records: "Remove working takes away every record
    naming that server." """
    s.packets(*keys)
    s.ends(*keys[::2])
    s.packets(*keys[:5])
    s.remove_working(1)
    s.ends(*keys[:6])                           # 6 where the record went, else 8 or 5
    s.packets(*keys)
    s.add_working(1)                            # back: nothing of its records revives
    s.packets(*keys)
    s.ends(*keys)                               # 8 on a new record, 5 on one half-closed before
    s.remove_working(7)
    s.packets(*keys)
    s.remove_working(1)                         # the last one goes: no record is left
    s.ends(*keys[:3])                           # 6 6 6
    s.packets(keys[0])                          # 7
    s.add_working(7, 1)
    s.packets(*keys)
    s.ends(*keys)
    s.packets(*keys)                            # all that are recorded have tag 2
    s.configure(1)                              # 10
    s.clear()                                   # they go with their movers
    s.configure(1)


def closing():
    s = Script()
    for method, row_count in METHODS:
        n = Numbers(80 + method)
        keys = keys_that(True, 14, method, row_count, n)
        safe = keys_that(False, 1, method, row_count, n)[0]
        open_door(s, method, row_count)
        step_by_step(s, keys[0], safe)
        side_by_side(s, keys[:6], safe)
        joining(s, keys)
        leaving(s, keys)
    return s


def closings():
    """Few keys and many ends, while movers come and go: pseudo-random, each method in turn."""
    s, n = Script(), Numbers(8)
    for turn in range(9):
        method, row_count = METHODS[turn % 3]
        keys = keys_that(True, 6 + 3 * (turn // 3), method, row_count, n)
        keys += keys_that(False, 2, method, row_count, n)
        open_door(s, method, row_count)
        for _ in range(350):
            roll = n.below(100)
            if roll < 48:
                s.packets(n.pick(keys))
            elif roll < 88:
                s.ends(n.pick(keys))
            elif roll < 91:
                s.remove_working(n.pick(sorted(s.working) or [1]))
            elif roll < 96:
                s.add_working(n.pick(sorted(s.horizon) or [2]))
            elif roll < 98:
                s.add_horizon(n.pick((3, 4, 9)))
            elif roll < 99:
                s.remove_horizon(n.pick((3, 4, 9)))
            else:
                s.configure(method, row_count)  # 10
        s.clear()
    return s


def closed(method=1, row_count=0):
    """A table that fills with both tags: room comes again at a second end only."""
    s, n = Script(), Numbers(3276 * 8)
    unsafe = keys_that(True, 3284, method, row_count, n)
    new = unsafe[3276:]
    open_door(s, method, row_count)
    s.packets(*unsafe[:2000])
    s.ends(*unsafe[:2000:40])                   # 8
    s.packets(*unsafe[2000:3276])               # every place used, fifty with tag 2
    s.packets(new[0], new[0], unsafe[0], unsafe[1], unsafe[3275])   # 4 4 1 1 1
    s.ends(unsafe[3275], unsafe[1])             # 8 8: nothing becomes free
    s.packets(new[0], new[1])                   # 4 4
    s.ends(new[0], new[1])                      # 6 6
    s.ends(unsafe[3275])                        # 5: the last place
    s.packets(new[0], new[1])                   # 3 4
    s.ends(unsafe[0], unsafe[2])                # 5 8
    s.packets(new[1], unsafe[0], unsafe[2])     # 3 4 1
    s.ends(new[0])                              # 8: the ends before its record don't count
    s.packets(new[2])                           # 4
    s.ends(new[0], unsafe[1000], unsafe[1000])  # 5 5 6
    s.packets(new[2], new[3], new[4])           # 3 3 4
    s.ends(*unsafe[40:2000:40])                 # 5, but for one that has gone
    s.packets(*unsafe[40:400:40], *new)         # 3, or 1: room for all
    s.configure(method, row_count)              # 10
    s.ends(*unsafe[1:2000:100])
    s.remove_working(1)                         # takes its own records, of both tags
    s.ends(*unsafe[1:2000:100])
    s.packets(*unsafe[1:2000:100])
    s.remove_working(7)
    s.packets(new[0])                           # 7
    s.clear()
    s.configure(method, row_count)
    return s


STREAMS = {"closing": closing, "closings": closings, "closed": closed,
           "closed2": lambda: closed(2), "closed3": lambda: closed(3, 50)}
