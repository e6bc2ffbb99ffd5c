"""The session program of documents 01 and 02 on the model.

    python3 session.py [--dump FILE] < events > lines

"reads event records on standard input with a table of 3,276 records and prints a line
per event: event number from 1, byte 0, refusal (0 if accepted), server chosen (0 unless
a packet), mark, reads, used records afterwards. A last short record gives one line with
refusal 1; empty input prints nothing." Reading 12: the short record's own byte 0.

--dump FILE appends one line per event to FILE: five digests, one space between, of
  table   its bytes
  rows    4,096 numbers, each u32 big-endian
  flags   4,096 bytes
  ring    64 entries: position u32 BE, server u32 BE, track u8
  roster  64 servers u32 BE, 64 states u8 (1 working, 2 horizon, 0 unused),
          count u64 BE, method u8, row count u16 BE
A digest is FNV-1a 64 (start 14695981039346656037, prime 1099511628211) as 16 hex digits.
All buffers hold zeros before the start.
"""
import sys

import model

FNV64_START, FNV64_PRIME = 14695981039346656037, 1099511628211


def fnv64(data):
    # A zero byte only multiplies, so the zeros at the end are one power of the prime.
    body = data.rstrip(b"\x00")
    value = FNV64_START
    for byte in body:
        value = (value ^ byte) * FNV64_PRIME % 2**64
    return value * pow(FNV64_PRIME, len(data) - len(body), 2**64) % 2**64


class Session:
    def __init__(self, records=3276):
        self.table = bytearray(records * model.RECORD_SIZE)
        self.rows = [0] * model.ROWS_LENGTH
        self.flags = bytearray(model.ROWS_LENGTH)
        self.ring = [model.Entry(0, 0, 0)] * model.RING_LENGTH
        self.roster = model.Roster()
        self.digests = {}
        model.start(*self.buffers())

    def buffers(self):
        return self.table, self.rows, self.flags, self.ring, self.roster

    def event(self, record):
        return model.event(*self.buffers(), record)

    def images(self):
        """The five byte images that --dump digests."""
        r = self.roster
        return (
            bytes(self.table),
            b"".join(n.to_bytes(4, "big") for n in self.rows),
            bytes(self.flags),
            b"".join(e[0].to_bytes(4, "big") + e[1].to_bytes(4, "big") + bytes([e[2]])
                     for e in self.ring),
            b"".join(s.to_bytes(4, "big") for s in r.servers) + bytes(r.states)
            + r.count.to_bytes(8, "big") + bytes([r.method]) + r.row_count.to_bytes(2, "big"),
        )

    def digest_line(self):
        """The digests, each computed again only where its image has changed."""
        found = []
        for which, image in enumerate(self.images()):
            if self.digests.get(which, (None, 0))[0] != image:
                self.digests[which] = (image, fnv64(image))
            found.append("%016x" % self.digests[which][1])
        return " ".join(found)


def split(data):
    """Records of 16 bytes, the last one perhaps short."""
    return [data[i:i + model.EVENT_SIZE] for i in range(0, len(data), model.EVENT_SIZE)]


def lines(data, dump=None):
    session = Session()
    for number, record in enumerate(split(data), 1):
        reply = session.event(record)
        yield "%d %d %d %d %d %d %d" % (
            number, record[0], reply.refusal, reply.server, reply.mark, reply.reads,
            model.used_records(session.table))
        if dump:
            dump.write(session.digest_line() + "\n")


def main(arguments):
    dump = None
    if len(arguments) == 2 and arguments[0] == "--dump":
        dump = open(arguments[1], "a")
    elif arguments:
        sys.exit("usage: session.py [--dump FILE] < events")
    for line in lines(sys.stdin.buffer.read(), dump):
        sys.stdout.write(line + "\n")
    if dump:
        dump.close()


if __name__ == "__main__":
    main(sys.argv[1:])
