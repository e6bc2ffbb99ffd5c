"""Named event streams for the session program of documents 01 and 02.

    python3 streams.py NAME > events        python3 streams.py --list

Deterministic. Numbers come from `Numbers`, stated there; `history` gives the 20 further
pseudo-random histories of check_along (runall.py), which no session reads.
"""
import sys

import model

TWINS = (15074560, 108036203)                   # reading 9: equal ring positions
TRIPLETS = (81783047, 411629326, 449974487)
HALF = 2**31
CONSECUTIVE = list(range(1, 13))
SPREAD = [0x01000000, 0x7FFFFFFF, 0x80000000, 0x80000001, 0xFFFFFFFF, 0xC0A80001,
          305419896, 2718281828, 3141592653, 65536, 257, 1000000007]


class Numbers:
    """x' = (6364136223846793005 x + 1442695040888963407) mod 2^64, from x = seed;
    each step gives the high 32 bits of x'."""

    def __init__(self, seed):
        self.x = seed

    def below(self, n):
        self.x = (6364136223846793005 * self.x + 1442695040888963407) % 2**64
        return (self.x >> 32) % n

    def pick(self, items):
        return items[self.below(len(items))]

    def key(self):
        return bytes(self.below(256) for _ in range(13))


def connection(source, target, source_port, target_port, protocol=6):
    """"source address 4, destination address 4, source port 2, destination port 2,
    protocol 1, all big-endian" """
    return (source.to_bytes(4, "big") + target.to_bytes(4, "big")
            + source_port.to_bytes(2, "big") + target_port.to_bytes(2, "big")
            + bytes([protocol]))


def key_at(point):
    """A key whose F is `point`: two steps of F taken back from it, met from the front."""
    inverse = pow(16777619, -1, 2**32)
    back = {}
    for last in range(256):
        state = (point * inverse % 2**32) ^ last
        for other in range(256):
            back[(state * inverse % 2**32) ^ other] = bytes([other, last])
    for number in range(2**24):
        front = bytes(8) + number.to_bytes(3, "big")
        if model.fnv(front) in back:
            return front + back[model.fnv(front)]
    raise AssertionError("no key at this point")


def with_server(kind, server):
    return bytes([kind, 0, 0]) + server.to_bytes(4, "big") + bytes(9)


def with_settings(method, row_count):
    return bytes([7, 0, 0, method]) + row_count.to_bytes(2, "big") + bytes(10)


def with_byte(record, index, value):
    return record[:index] + bytes([value]) + record[index + 1:]


class Script:
    """Event records in a row, with the sets that the accepted ones leave."""

    def __init__(self):
        self.events, self.working, self.horizon = [], set(), set()

    def packets(self, *keys):
        self.events += [b"\x01\0\0" + key for key in keys]

    def ends(self, *keys):
        self.events += [b"\x02\0\0" + key for key in keys]

    def add_working(self, *servers):
        for s in servers:
            self.events.append(with_server(3, s))
            if s in self.horizon:
                self.horizon.remove(s)
                self.working.add(s)

    def remove_working(self, *servers):
        for s in servers:
            self.events.append(with_server(4, s))
            if s in self.working:
                self.working.remove(s)
                self.horizon.add(s)

    def add_horizon(self, *servers):
        for s in servers:
            self.events.append(with_server(5, s))
            held = self.working | self.horizon
            if s and s not in held and len(held) < 64:
                self.horizon.add(s)

    def remove_horizon(self, *servers):
        for s in servers:
            self.events.append(with_server(6, s))
            self.horizon.discard(s)

    def put_to_work(self, *servers):
        self.add_horizon(*servers)
        self.add_working(*servers)

    def configure(self, method, row_count=0):
        self.events.append(with_settings(method, row_count))

    def clear(self):
        """Empties roster and used part: every record names a working server."""
        self.remove_working(*sorted(self.working))
        self.remove_horizon(*sorted(self.horizon))


def listing():
    s, p, q = Script(), b"\x01" * 13, b"\x02" * 13
    s.configure(3, 1)
    s.put_to_work(1)
    s.packets(p)
    s.add_horizon(2)
    s.packets(p)
    s.add_working(2)
    s.packets(p, q)
    s.remove_working(1)
    s.packets(p)
    s.ends(p)
    s.add_working(2)
    return s


def damaged():
    """Refusal 1: every filler byte of every kind, every unknown kind, bad settings."""
    key = bytes(range(40, 53))
    sound = [b"\x01\0\0" + key, b"\x02\0\0" + key, with_settings(3, 5), with_settings(1, 0)]
    sound += [with_server(kind, server) for kind in (3, 4, 5, 6) for server in (2, 0, 77)]
    for record in sound:
        fillers = [1, 2]
        if record[0] in (3, 4, 5, 6):
            fillers += range(7, 16)
        if record[0] == 7:
            fillers += range(6, 16)
        for index in fillers:
            for value in (1, 128, 255):
                yield with_byte(record, index, value)
    for kind in [0] + list(range(8, 256)):
        yield with_byte(sound[0], 0, kind)
        yield bytes([kind]) + bytes(15)
    for method in (0, 4, 5, 128, 255):
        for row_count in (0, 1, 4096):
            yield with_settings(method, row_count)
    for method, row_count in ((1, 1), (1, 4096), (2, 1), (2, 256), (3, 0), (3, 4097),
                              (3, 4352), (3, 65535)):
        yield with_settings(method, row_count)


def kinds():
    s, keys = Script(), [bytes([n]) * 13 for n in range(6)]
    zeros = [with_server(kind, 0) for kind in (3, 4, 5, 6)]
    s.packets(keys[0])                          # 7 with nobody, 6 with nothing
    s.ends(keys[0])
    s.events += zeros                           # 2
    s.events += list(damaged())                 # 1
    for method, row_count in ((1, 0), (2, 0), (3, 9)):
        s.configure(method, row_count)
        s.configure(method, row_count)          # once more: both are empty
        s.packets(*keys)
        s.add_working(2)                        # 4, 5 and 4 of an unknown server
        s.remove_working(2)
        s.remove_horizon(2)
        s.add_horizon(2)
        s.packets(*keys)                        # 7 with a horizon
        s.ends(*keys)
        s.configure(method, row_count)          # 10 by the roster
        s.configure(4 - method, 9 if method == 1 else 0)
        s.add_horizon(2)                        # 3 of one in the horizon
        s.remove_working(2)                     # 5 of one in the horizon
        s.add_working(2)
        s.add_working(2)                        # 4 of one working
        s.remove_horizon(2)                     # 4 of one working
        s.add_horizon(2)                        # 3 of one working
        s.add_horizon(3, 1, 4, 2**32 - 1)
        s.packets(*keys)
        s.packets(*keys)
        s.configure(method, row_count)          # 10 by roster and table
        s.events += zeros
        s.events += list(damaged())
        s.packets(*keys)
        s.ends(*keys)
        s.ends(*keys)
        s.add_horizon(*range(100, 159))         # 64 held
        s.add_horizon(159)                      # 6
        s.add_horizon(0xFFFFFFFE, 2, 3, 158)    # 6, then 3
        s.events += zeros                       # 2 before 6
        s.add_working(159)
        s.remove_horizon(159)
        s.remove_working(159)
        s.packets(*keys)
        s.remove_working(2)
        s.packets(*keys)
        s.clear()
        s.remove_horizon(2)
        s.packets(keys[1])
    return s


def short(length):
    s = Script()
    s.put_to_work(1)
    s.packets(b"\x01" * 13)
    first = (1, 2, 3, 4, 5, 6, 7, 0, 8, 255, 1, 3, 5, 7, 1)[length - 1]
    s.events.append((bytes([first, 0, 0]) + b"\x01" * 12)[:length])
    return s


def limits():
    s, n = Script(), Numbers(64)
    keys = [n.key() for _ in range(20)]
    for method in (0, 1, 2, 3, 4, 255):
        for row_count in (0, 1, 2, 4095, 4096, 4097, 65535):
            s.configure(method, row_count)
    for method, row_count in ((1, 0), (2, 0), (3, 1), (3, 5), (3, 4096)):
        s.configure(method, row_count)
        servers = [n.below(2**32 - 1) + 1 for _ in range(60)] + [1, 2, 3, 2**32 - 1]
        s.add_horizon(*servers)                 # the 64th accepted
        s.add_horizon(4)                        # the 65th: 6
        s.add_horizon(servers[63], servers[0], servers[30])         # already held: 3
        s.add_working(*servers[:3])
        s.add_horizon(servers[0], 5)            # held and working: 3; 6
        s.packets(*keys)
        s.remove_horizon(servers[40])
        s.add_horizon(5)
        s.add_horizon(servers[40])              # 6: one left, another came
        s.packets(*keys)
        if row_count < 100:
            s.add_working(*servers[3:40], *servers[41:], 5)         # 64 working
            s.packets(*keys)
            s.add_horizon(6)
        s.clear()
    return s


def keys_that(unsafe, count, method, row_count, n):
    """Keys that are unsafe, or safe, with 1 and 7 working and 2 and 9 in the horizon."""
    found = []
    while len(found) < count:
        key = n.key()
        at = model.ranking_point(method, row_count, key)
        if model.unsafe(method, model.choice(method, [1, 7], at), [2, 9], at) == unsafe:
            found.append(key)
    return found


def full(method=1, row_count=0):
    s, n = Script(), Numbers(3276)
    unsafe = keys_that(True, 3280, method, row_count, n)
    safe = keys_that(False, 2, method, row_count, n)
    s.configure(method, row_count)
    s.put_to_work(1, 7)
    s.add_horizon(2, 9)
    s.packets(*unsafe[:3276])                   # every place used
    s.packets(unsafe[3276], unsafe[3276], safe[0], unsafe[0], unsafe[3275])     # 4 4 2 1 1
    s.ends(safe[0], unsafe[3276])               # 6 6
    s.ends(unsafe[1000], unsafe[1000])          # 8 5
    s.packets(unsafe[3276], unsafe[1000], unsafe[999], unsafe[1001])            # 3 4 1 1
    s.ends(unsafe[0], unsafe[3276], unsafe[3275])                               # 8 8 8
    s.ends(unsafe[0], unsafe[3276], unsafe[3275])                               # 5 5 5
    s.packets(unsafe[0], unsafe[3277], unsafe[3278], unsafe[3279], safe[1])     # 3 3 3 4 2
    s.configure(method, row_count)              # 10
    s.add_working(2)                            # now working: the records stay
    s.packets(*unsafe[10:20])
    s.remove_working(1)                         # takes its own records only
    s.packets(*unsafe[10:20])
    s.remove_working(7)
    s.packets(*unsafe[10:20])
    s.clear()
    s.configure(method, row_count)
    return s


STREAMS = {"listing": listing, "kinds": kinds, "limits": limits, "full": full,
           "full2": lambda: full(2), "full3": lambda: full(3, 50), "empty": Script}
STREAMS.update(("short%d" % length, lambda length=length: short(length))
               for length in range(1, 16))


def made():
    """Every stream by its name."""
    import streams_closing
    import streams_methods
    return {**STREAMS, **streams_methods.STREAMS, **streams_closing.STREAMS}


def stream(name):
    """The bytes of a named stream."""
    return b"".join(made()[name]().events)


def names():
    return list(made())


if __name__ == "__main__":
    if len(sys.argv) != 2 or sys.argv[1] not in names() + ["--list"]:
        sys.exit("usage: streams.py NAME | --list; NAME one of " + " ".join(names()))
    if sys.argv[1] == "--list":
        print("\n".join(names()))
    else:
        sys.stdout.buffer.write(stream(sys.argv[1]))
