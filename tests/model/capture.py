"""Captures turned into event records: request [2] once more, from its sentences, reading 16 and the form of classic pcap files.

    python3 capture.py events < CAPTURE      the event records to standard output, the line of counts to standard error
    python3 capture.py line < CAPTURE        the line alone, to standard output

A file: a header of 24 bytes (magic 4, major 2, minor 2, zone 4, accuracy 4, snap length 4, link type 4), then packet records one after the
other (seconds 4, microseconds 4, captured length 4, original length 4, then the captured bytes). All of these numbers are in the byte order
that the magic names. What was captured is in the network's own order, the highest byte first.
"""
import collections
import sys

MAGIC = 0xA1B2C3D4
FILE_HEADER, RECORD_HEADER = 24, 16
ETHERNET = 1                            # the link type
IPV4 = 0x0800                           # the EtherType
TCP, UDP = 6, 17                        # the protocols
PACKET, END = 1, 2                      # the kinds of event
BAD_MAGIC, SHORT_HEADER, SHORT_RECORD = 20, 21, 22
REFUSED = {BAD_MAGIC: "bad magic", SHORT_HEADER: "truncated file header", SHORT_RECORD: "truncated packet record"}
# What is said beside refusal 20: the format that was met, where its first bytes tell it.
PCAPNG = " (this is pcapng; editcap -F pcap makes a classic capture of it)"
NANOSECONDS = " (this is a nanosecond capture; editcap -F pcap makes a classic one of it)"
FORMATS = {bytes.fromhex("0a0d0d0a"): PCAPNG, bytes.fromhex("a1b23c4d"): NANOSECONDS, bytes.fromhex("4d3cb2a1"): NANOSECONDS}

# events: records of 16 bytes; read, emitted: numbers of packets; skipped: a number for each of REASONS; refusal: 0 for none; byte:
# where the refusal stands, 0 without one; first: the first four bytes
Result = collections.namedtuple("Result", "events read emitted skipped refusal byte first")


# Fields of a captured packet. Each is None where one of its bytes is missing: "what is missing goes by whole fields".

def field(captured, start, length):
    """A number from the packet's bytes."""
    return int.from_bytes(captured[start:start + length], "big") if start + length <= len(captured) else None


def ethertype(captured):
    return field(captured, 12, 2)


def version_and_length(captured):
    """The first byte of the IP header: version in the high half, header length in words of 4 bytes in the low half."""
    return field(captured, 14, 1)


def fragment_field(captured):
    return field(captured, 20, 2)


def protocol(captured):
    return field(captured, 23, 1)


def behind_ip(captured):
    """Where TCP's or UDP's header begins; asked only where the header length is there."""
    return 14 + 4 * (version_and_length(captured) % 16)


def ports(captured):
    return field(captured, behind_ip(captured), 4)


def tcp_flags(captured):
    return field(captured, behind_ip(captured) + 13, 1)


# "Every skipped packet is counted under exactly one reason, the first that applies". Each function below says of one reason whether it
# applies, going by the bytes that are there. The first four are each true or false whatever the others are; the last is asked only where
# none of the four applies.

def other_link_type(link_type, captured):
    """[2] "link type": of the file, and asked of every packet, whatever was captured of it."""
    return link_type != ETHERNET


def not_ipv4(link_type, captured):
    """[2] "Another EtherType or version, or a header length under 5, is not IPv4." """
    kind, first = ethertype(captured), version_and_length(captured)
    if kind is None:
        return False
    return kind != IPV4 or first is not None and (first // 16 != 4 or first % 16 < 5)


def later_fragment(link_type, captured):
    """[2] "later fragments skipped". Reading 16: one with a fragment offset other than 0, which is the field's low 13 bits."""
    both = fragment_field(captured)
    return both is not None and both % 8192 != 0


def other_protocol(link_type, captured):
    """[2] "TCP and UDP"."""
    number = protocol(captured)
    return number is not None and number not in (TCP, UDP)


def cut_short(link_type, captured):
    """[2] "where captured bytes that decide one, the ports or TCP's flags are missing"."""
    if None in (ethertype(captured), version_and_length(captured), fragment_field(captured), protocol(captured)):
        return True
    return ports(captured) is None or protocol(captured) == TCP and tcp_flags(captured) is None


REASONS = (("link type", other_link_type), ("not IPv4", not_ipv4), ("fragment", later_fragment), ("other protocol", other_protocol),
           ("cut short", cut_short))


def reason(link_type, captured):
    """The place in REASONS of the first that applies; None for a packet that is emitted."""
    for place, (_, applies) in enumerate(REASONS):
        if applies(link_type, captured):
            return place
    return None


def key(captured):
    """Document 01: "source address 4, destination address 4, source port 2, destination port 2, protocol 1, all big-endian"."""
    at = behind_ip(captured)
    return captured[26:30] + captured[30:34] + captured[at:at + 2] + captured[at + 2:at + 4] + captured[23:24]


def has_fin(captured):
    """FIN is the lowest bit of TCP's flags."""
    return protocol(captured) == TCP and tcp_flags(captured) % 2 == 1


def events_of(captured):
    """[2] "Each TCP or UDP packet becomes kind 1; a TCP packet with FIN is followed by kind 2", with the packet's own key."""
    kinds = (PACKET, END) if has_fin(captured) else (PACKET,)
    return [bytes([kind, 0, 0]) + key(captured) for kind in kinds]


def byte_order(data):
    """"little" or "big", as the magic names it; None for another magic."""
    for order in ("little", "big"):
        if data[:4] == MAGIC.to_bytes(4, order):
            return order
    return None


def header_refusal(data):
    """Reading 16: "Under 4 bytes 21; a wrong magic 20 even under 24 bytes". 0 where the file header is there."""
    if len(data) < 4:
        return SHORT_HEADER
    if byte_order(data) is None:
        return BAD_MAGIC
    return SHORT_HEADER if len(data) < FILE_HEADER else 0


def records(data):
    """Of a file with a sound header: each packet record in turn as (where it begins, its captured bytes). Of a truncated one, which can
    only be the last, the captured bytes are None. Reading 16: "22 for 1 to 15 bytes left or a captured length past the file"."""
    order, at = byte_order(data), FILE_HEADER
    while at < len(data):
        behind = at + RECORD_HEADER
        if behind > len(data):
            yield at, None
            return
        captured_length = int.from_bytes(data[at + 8:at + 12], order)
        if behind + captured_length > len(data):
            yield at, None
            return
        yield at, data[behind:behind + captured_length]
        at = behind + captured_length


def read(data):
    """What a capture comes to: its events, the sums, and the refusal."""
    events, skipped, count = [], [0] * len(REASONS), 0
    refusal = header_refusal(data)
    if refusal:
        return Result(events, 0, 0, skipped, refusal, 0, data[:4])
    link_type = int.from_bytes(data[20:24], byte_order(data))
    emitted = 0
    for at, captured in records(data):
        if captured is None:
            return Result(events, count, emitted, skipped, SHORT_RECORD, at, data[:4])
        count += 1
        why = reason(link_type, captured)
        if why is None:
            emitted += 1
            events += events_of(captured)
        else:
            skipped[why] += 1
    return Result(events, count, emitted, skipped, 0, 0, data[:4])


def line(result):
    """The program's line on standard error, for an operator."""
    told = ", ".join(f"{number} {name}" for number, (name, _) in zip(result.skipped, REASONS))
    text = f"{result.read} packets read, {result.emitted} emitted; skipped: {told}"
    if result.refusal:
        text += f"; refused by {result.refusal} at byte {result.byte}: {REFUSED[result.refusal]}"
        text += FORMATS.get(result.first, "") if result.refusal == BAD_MAGIC else ""
    return text + "\n"


def main(words):
    if words not in (["events"], ["line"]):
        sys.exit("usage: capture.py events | line < CAPTURE")
    result = read(sys.stdin.buffer.read())
    if words == ["line"]:
        sys.stdout.write(line(result))
    else:
        sys.stdout.buffer.write(b"".join(result.events))
        sys.stderr.write(line(result))


if __name__ == "__main__":
    main(sys.argv[1:])
