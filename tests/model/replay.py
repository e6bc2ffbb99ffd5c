"""The program test_replay on the model: what it reads, and what it has to print.

    python3 replay.py text > ../../crates/test_replay/stdin            its own stream, then the cases of lent_program.py
    python3 replay.py lines > ../../crates/test_replay/stdout
    python3 replay.py text EVENTS; python3 replay.py lines EVENTS     the same for a file of event records

A stream's text: "start=", which starts on a table of 3,276 records where all is zeros, then a line for each event: its number
and its byte 0, an equals sign, and its bytes. What has to be printed: the session's lines, each with the digests of
`session.py --dump`. The stream has all three methods, every kind, every refusal
that a session can show, ties of weight and of position, the last working server removed and another
added, a server removed and returned, half-closed records, 64 servers, and a short last record.
"""
import io
import sys

import lent_program
import model
import session
from streams import (HALF, TRIPLETS, TWINS, Numbers, Script, connection, key_at, with_byte, with_server,
                     with_settings)

KEYS = [bytes([n]) * 13 for n in range(4)] + [
    connection(0x0A000001, 0xC0A80001, 40000, 443), connection(0xC0A80001, 0x0A000001, 443, 40000)]


def refused(s):
    """Refusals 1 and 2, and 7 with nobody; an end with nothing."""
    s.packets(KEYS[0])
    s.ends(KEYS[0])
    s.events += [with_server(kind, 0) for kind in (3, 4, 5, 6)]
    s.events += [with_byte(b"\x01\0\0" + KEYS[1], 1, 1), with_byte(b"\x02\0\0" + KEYS[1], 2, 255),
                 with_byte(with_server(5, 7), 7, 1), with_byte(with_server(3, 0), 15, 1),
                 with_byte(with_settings(3, 5), 6, 1), bytes(16), b"\x08" + bytes(15), b"\xff" * 16]
    s.events += [with_settings(*pair) for pair in ((0, 0), (4, 0), (1, 1), (2, 1), (3, 0), (3, 4097))]


def roster_changes(s, method, row_count):
    """Refusals 10, 3, 4, 5 and 7; safe and unsafe packets; records purged when their server goes, and not
    revived when it returns; the last working server gone and another added; records closed
    on one side and on both, and taken away between the two."""
    s.configure(method, row_count)
    s.configure(method, row_count)
    s.add_working(2)                            # 4, 5, 4
    s.remove_working(2)
    s.remove_horizon(2)
    s.add_horizon(2)
    s.packets(KEYS[0])                          # 7
    s.configure(method, row_count)              # 10
    s.add_horizon(2)                            # 3, 5
    s.remove_working(2)
    s.add_working(2)
    s.add_working(2)                            # 4, 4, 3
    s.remove_horizon(2)
    s.add_horizon(2)
    s.add_horizon(2 + HALF, 1, 9)               # a tie of weights with 2
    s.packets(*KEYS)
    s.packets(*KEYS[:3])
    s.ends(KEYS[1], KEYS[1])
    s.ends(*KEYS[2:], KEYS[1])
    s.packets(*KEYS[2:])
    s.ends(*KEYS[3:5])
    s.add_working(1)
    s.packets(*KEYS)
    s.ends(KEYS[0])
    s.remove_working(2)                         # its records go, half-closed ones too
    s.ends(KEYS[0])
    s.packets(*KEYS)
    s.add_working(2)                            # it returns
    s.packets(*KEYS[:4])
    s.remove_working(1)
    s.remove_working(2)                         # the last one goes
    s.packets(KEYS[0])
    s.remove_horizon(9)
    s.add_working(2 + HALF)                     # another comes
    s.packets(*KEYS)
    s.clear()


def equal_positions(s):
    """A ring with equal positions: packets just before, at and after them."""
    s.configure(2)
    points = [key_at((model.position(group[0]) + d) % 2**32)
              for group in (TWINS, TRIPLETS) for d in (-1, 0, 1)]
    s.put_to_work(TWINS[0], TRIPLETS[1])
    s.add_horizon(TWINS[1], TRIPLETS[0], TRIPLETS[2])
    s.packets(*points)
    s.add_working(TWINS[1], TRIPLETS[0])
    s.packets(*points)
    s.remove_working(TWINS[0], TRIPLETS[1])
    s.packets(*points)
    s.clear()


def many(s):
    """64 servers held, the 65th refused with 6, a held one with 3; 4,096 rows."""
    n = Numbers(64)
    servers = [n.below(2**32 - 1) + 1 for _ in range(62)] + [1, 2**32 - 1]
    s.configure(2)
    s.add_horizon(*servers)
    s.add_horizon(4, servers[0], 2**32 - 1)     # 6, 3, 3
    s.add_working(servers[7], servers[40])
    s.packets(*KEYS)
    s.remove_horizon(servers[3])
    s.add_horizon(4, servers[3])                # accepted, 6
    s.packets(*KEYS)
    s.clear()
    s.configure(3, 4096)
    s.put_to_work(5, 5 + HALF)
    s.add_horizon(7)
    s.packets(*KEYS)
    s.remove_working(5 + HALF)
    s.packets(*KEYS)
    s.clear()


def stream():
    s = Script()
    refused(s)
    roster_changes(s, 1, 0)
    roster_changes(s, 2, 0)
    roster_changes(s, 3, 7)
    equal_positions(s)
    many(s)
    s.events.append(b"\x05\0\0\0\0\0\x01")      # a short last record
    return b"".join(s.events)


def start_line():
    return "start 0 0 0 0 0 " + session.Session().digest_line()


def lines(data):
    """The session's lines joined with its digests."""
    dump = io.StringIO()
    found = list(session.lines(data, dump))
    return [start_line()] + [line + " " + digests for line, digests in zip(found, dump.getvalue().splitlines())]


def texts(data):
    """The steps: the lengths lent with 2 for a start, then the bytes of each event."""
    return ["start= lent 1 65520 4096 4096 2,"] + [
        "%d %d= event 0 %s," % (number, record[0], " ".join(str(b) for b in record))
        for number, record in enumerate(session.split(data), 1)]


def main(arguments):
    if not arguments or arguments[0] not in ("text", "lines") or len(arguments) > 2:
        sys.exit("usage: replay.py text [EVENTS]; replay.py lines [EVENTS]")
    which = ("text", "lines").index(arguments[0])
    if len(arguments) == 2:
        with open(arguments[1], "rb") as f:
            data, cases = f.read(), []
    else:
        data, cases = stream(), [case[which] for case in lent_program.lines()]
    for line in (texts, lines)[which](data) + cases:
        sys.stdout.write(line + "\n")


if __name__ == "__main__":
    main(sys.argv[1:])
