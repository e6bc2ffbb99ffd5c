"""Damaged captures for the program test_captures: what it reads, and what it has to print.

    python3 damage.py stdin > ../../crates/test_captures/stdin
    python3 damage.py lines > ../../crates/test_captures/stdout

Input: for each capture its length in 4 bytes, the highest first, and its bytes. What has to be printed for each capture, in decimal:

    whole NUMBERS                  what the capture comes to
    prefix K NUMBERS               what its first K bytes come to, for every K from 0 to its length (of a capture of at most SMALL bytes)
    changed I DIGEST               for every byte I: all 255 other values of it, one after the other, folded into one digest (the same)
    pieces B ways W                for every buffer length B: handed over in W ways in pieces, and each came to what the whole does

NUMBERS: packets read, packets emitted, skipped by each of the five reasons, the refusal, its byte, the digest of the event bytes.
The digest of bytes is FNV-1a 32; that of a changed byte is the same step over the numbers of every change in turn, where the byte
becomes itself xor 1, xor 2, .. xor 255. The ways: pieces of each constant length from 1 to the capture's; and, for a capture of at most
TWO_CUTS bytes, two cuts at each pair of places a <= b from 0 to its length.
"""
import os
import sys

import capture

CAPTURES = os.path.join(os.path.dirname(os.path.dirname(os.path.abspath(__file__))), "captures")
BUFFERS = (129, 150, 400)
TWO_CUTS = 240
SMALL = 240
OFFSET, PRIME, BELOW = 2166136261, 16777619, 2**32 - 1
FIN, SYN, ACK = 1, 2, 16
TCP, UDP = 6, 17


# How the captures are written.

def tcp(source, target, flags, data=b""):
    """A TCP segment. The number in its data offset is of no concern to the reader, so it isn't always a right one."""
    return (source.to_bytes(2, "big") + target.to_bytes(2, "big") + bytes([0, 0, 0, 7, 0, 0, 0, 9, 0x50, flags, 32, 0, 0, 0, 0, 0]) + data)


def udp(source, target, data=b""):
    return b"".join(n.to_bytes(2, "big") for n in (source, target, 8 + len(data), 0)) + data


def ipv4(protocol, behind, words=5, version=4, fragment=0, source=0x0A010203, target=0xC0000201):
    """An IPv4 packet; words: the header length in words of 4 bytes, options filled with "no operation"."""
    first = (bytes([16 * version + words, 0]) + (4 * words + len(behind)).to_bytes(2, "big") + bytes([0x12, 0x34])
             + fragment.to_bytes(2, "big") + bytes([64, protocol, 0, 0]) + source.to_bytes(4, "big") + target.to_bytes(4, "big"))
    return first + b"\x01" * max(0, 4 * words - 20) + behind


def ethernet(behind, kind=0x0800):
    return bytes([2, 0, 0, 0, 0, 1, 2, 0, 0, 0, 0, 2]) + kind.to_bytes(2, "big") + behind


def file_of(order, packets, link_type=1):
    """A capture in a byte order, of these packets; the original length is one more than the captured."""
    numbers = [(capture.MAGIC, 4), (2, 2), (4, 2), (0, 4), (0, 4), (262144, 4), (link_type, 4)]
    out = b"".join(n.to_bytes(size, order) for n, size in numbers)
    for second, packet in enumerate(packets):
        out += b"".join(n.to_bytes(4, order) for n in (1700000000 + second, 999999 - second, len(packet), len(packet) + 1)) + packet
    return out


def piece(name, *wanted):
    """Of a capture of tests/captures, its file header and for each wish the first record whose packet is as wished."""
    with open(os.path.join(CAPTURES, name), "rb") as file:
        data = file.read()
    out = data[:capture.FILE_HEADER]
    for wish in wanted:
        at, captured = next(record for record in capture.records(data) if capture.reason(1, record[1]) is None and wish(record[1]))
        out += data[at:at + capture.RECORD_HEADER + len(captured)]
    return out


def captures():
    """The captures, each for what it has in it. Where a packet is cut, it is cut at one side of a limit."""
    options = ethernet(ipv4(TCP, tcp(40000, 443, FIN | ACK), words=15))
    return [
        # a session's begin and its end
        file_of("little", [ethernet(ipv4(TCP, tcp(40000, 443, SYN))), ethernet(ipv4(TCP, tcp(443, 40000, FIN | ACK), source=0xC0000201,
                                                                                    target=0x0A010203))]),
        # all that is needed of UDP and of TCP is there, to the last byte; the bits of a first fragment
        file_of("big", [ethernet(ipv4(UDP, udp(53, 5353), fragment=0x2000))[:38], ethernet(ipv4(TCP, tcp(1, 2, FIN), words=6))[:52],
                        ethernet(ipv4(TCP, tcp(65535, 256, 0xFE), fragment=0xC000))[:48]]),
        # a byte less: ports, flags, protocol, fragment field; nothing at all
        file_of("little", [ethernet(ipv4(UDP, udp(53, 5353)))[:37], ethernet(ipv4(TCP, tcp(1, 2, FIN)))[:47],
                           ethernet(ipv4(1, b""))[:23], ethernet(ipv4(1, b"", fragment=1))[:21], b""]),
        # the reasons, each decided by the last byte that was captured
        file_of("big", [ethernet(b"", kind=0x0806), ethernet(ipv4(TCP, b"", words=4))[:15], ethernet(ipv4(TCP, b"", version=6))[:15],
                        ethernet(ipv4(TCP, b"", fragment=0x2001))[:22], ethernet(ipv4(1, b""))[:24]]),
        # two reasons at once, where the first counts; a VLAN; an EtherType with one byte captured
        file_of("little", [ethernet(ipv4(1, b"", fragment=0x1000))[:24], ethernet(ipv4(1, b"", words=0, fragment=7))[:24],
                           ethernet(b"\0\x05\x08\0" + b"\x45", kind=0x8100), ethernet(b"", kind=0x86DD)[:13]]),
        # another link type, also where nothing was captured
        file_of("big", [b"", ethernet(ipv4(TCP, tcp(7, 8, FIN)))], link_type=113),
        # the longest IP header, whole and without TCP's flags
        file_of("little", [options, options[:87]]),
        # the last record is truncated: what stands before it counts
        file_of("big", [ethernet(ipv4(UDP, udp(1024, 69))), ethernet(ipv4(TCP, tcp(3, 4, FIN)))])[:-1],
        # packets longer than a small buffer, of an emitted and of a skipped one, and a session's end behind them
        file_of("little", [ethernet(ipv4(UDP, udp(500, 4500, bytes(range(256))))), ethernet(bytes(140), kind=0x88CC),
                           ethernet(ipv4(TCP, tcp(9, 10, FIN, b"bye")))]),
        # no capture: its first bytes are pcapng's, and where a packet's length would stand is a large number
        bytes.fromhex("0a0d0d0a") + bytes(28) + b"\xff" * 4 + bytes(140),
        # what tcpdump wrote: the longest IP header, and a session's end
        piece("big-endian.pcap", lambda captured: capture.behind_ip(captured) == 74, capture.has_fin),
    ]


# What has to be printed.

def step(digest, number):
    """FNV-1a 32, of a byte or of any number below 2^32."""
    return ((digest ^ number) * PRIME) & BELOW


known = {}


def digest_of(events):
    """FNV-1a 32 over all event bytes."""
    whole = b"".join(events)
    if whole not in known:
        digest = OFFSET
        for byte in whole:
            digest = step(digest, byte)
        known[whole] = digest
    return known[whole]


def numbers(data):
    """The ten numbers that a capture comes to."""
    r = capture.read(data)
    return [r.read, r.emitted, *r.skipped, r.refusal, r.byte, digest_of(r.events)]


def changed(data, place):
    """All other values of one byte, folded into one digest."""
    digest = OFFSET
    for value in range(1, 256):
        for number in numbers(data[:place] + bytes([data[place] ^ value]) + data[place + 1:]):
            digest = step(digest, number)
    return digest


def ways(length):
    """In how many ways a capture of this length is handed over in pieces."""
    return length + ((length + 1) * (length + 2) // 2 if length <= TWO_CUTS else 0)


def lines(data):
    """What has to be printed for one capture."""
    yield ["whole", *numbers(data)]
    if len(data) <= SMALL:
        for length in range(len(data) + 1):
            yield ["prefix", length, *numbers(data[:length])]
        for place in range(len(data)):
            yield ["changed", place, changed(data, place)]
    for buffer in BUFFERS:
        yield ["pieces", buffer, "ways", ways(len(data))]


def all_captures():
    """Those above, and the captures of tests/captures as other programs wrote them."""
    yield from captures()
    for name in sorted(os.listdir(CAPTURES)):
        if name.endswith(".pcap"):
            with open(os.path.join(CAPTURES, name), "rb") as file:
                yield file.read()


def main(words):
    if words == ["stdin"]:
        for data in all_captures():
            sys.stdout.buffer.write(len(data).to_bytes(4, "big") + data)
    elif words == ["lines"]:
        for data in all_captures():
            for numbered in lines(data):
                print(*numbered)
    else:
        sys.exit("usage: damage.py stdin | lines")


if __name__ == "__main__":
    main(sys.argv[1:])
