"""A capture for the benchmark, deterministic, to standard output.

    python3 packets.py N [big]          N packets; big: the highest byte of a number first, else the lowest

As tcpdump with snap length 96 sees a front door: 85 % TCP, 10 % UDP, 5 % others (ICMP, ARP, IPv6, a VLAN, later fragments). Of the TCP
packets half carry data and are cut at 96 bytes, most others acknowledge with time stamps (66 bytes) or without (54); 1 in 50 has FIN, 1 in
50 SYN, 1 in 100 IP options. UDP packets have 60 to 96 bytes. The first packets are the same for every N.

Numbers: x' = (6364136223846793005 x + 1442695040888963407) mod 2^64, from x = 1; each step gives its high 32 bits.
"""
import struct
import sys

FIN, SYN, PSH, ACK = 1, 2, 8, 16
MACS = bytes([2, 0, 0, 0, 0, 1, 2, 0, 0, 0, 0, 2])
TARGET = bytes([192, 0, 2, 1])
FILLER = bytes(range(96))
x = 1


def drawn():
    """The next number."""
    global x
    x = (6364136223846793005 * x + 1442695040888963407) & (2**64 - 1)
    return x >> 32


def ipv4(protocol, behind, total, fragment=0, options=b""):
    """An Ethernet frame with an IPv4 packet from a client, as much of it as was given."""
    client = struct.pack(">BBH", 10, 1, drawn() & 65535)
    first = struct.pack(">BBHHHBBH", 0x45 + len(options) // 4, 0, total, drawn() & 65535, fragment, 64, protocol, 0)
    return MACS + b"\x08\x00" + first + client + TARGET + options + behind


def tcp():
    """A TCP packet and its length on the wire."""
    dice, ports = drawn(), struct.pack(">HH", 1024 + drawn() % 64512, 443)
    options = b"\x01\x01\x01\x00" if dice % 100 == 7 else b""
    numbers = struct.pack(">II", drawn(), drawn())
    if dice % 50 == 0:
        flags, words, data = FIN | ACK, 8, 0
    elif dice % 50 == 1:
        flags, words, data = SYN, 10, 0
    elif dice % 2:
        flags, words, data = PSH | ACK, 8, 1448
    else:
        flags, words, data = ACK, 8 if dice % 5 else 5, 0
    header = ports + numbers + struct.pack(">BBHHH", words * 16, flags, 512, 0, 0) + FILLER[:4 * words - 20]
    total = 20 + len(options) + 4 * words + data
    return ipv4(6, header + FILLER[:min(data, 96)], total, options=options), 14 + total


def udp():
    """A UDP packet and its length on the wire."""
    dice = drawn()
    data = 18 + dice % 200
    return ipv4(17, struct.pack(">HHHH", 1024 + dice % 64512, 53, 8 + data, 0) + FILLER[:96], 28 + data)[:42 + data], 42 + data


def other():
    """A packet that is skipped, and its length on the wire."""
    dice = drawn() % 5
    if dice == 0:
        return ipv4(1, b"\x08\0\0\0" + FILLER[:60], 84), 98
    if dice == 1:
        return ipv4(17, FILLER[:80], 600, fragment=185), 614
    kind = {2: b"\x08\x06", 3: b"\x86\xdd", 4: b"\x81\0"}[dice]
    return MACS + kind + FILLER[:46], 60


def main(count, big):
    """Writes the capture, 10,000 packets at a time."""
    order = ">" if big else "<"
    head = struct.Struct(order + "IIII")
    out = [struct.pack(order + "IHHiIII", 0xA1B2C3D4, 2, 4, 0, 0, 96, 1)]
    for number in range(count):
        dice = drawn() % 100
        frame, length = tcp() if dice < 85 else udp() if dice < 95 else other()
        frame = frame[:96]
        out.append(head.pack(1700000000 + number // 100000, number % 100000 * 10, len(frame), length))
        out.append(frame)
        if number % 10000 == 0:
            sys.stdout.buffer.write(b"".join(out))
            out.clear()
    sys.stdout.buffer.write(b"".join(out))


if __name__ == "__main__":
    if len(sys.argv) < 2 or not sys.argv[1].isdigit() or sys.argv[2:] not in ([], ["big"]):
        sys.exit("usage: packets.py N [big]")
    main(int(sys.argv[1]), "big" in sys.argv)
