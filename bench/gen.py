"""Event records for the session program, deterministic.

    python3 gen.py METHOD ROWS WORKING HORIZON POOL EVENTS KEYS [EVERY] > events

Configure METHOD with ROWS; WORKING servers put to work and HORIZON more in the horizon (numbers drawn from the
whole range); one packet for each of POOL connections; then EVENTS mixed events: 95.4 % packets of a connection of the
pool, 4 % ends of one: after its first it still sends packets, after its second a new connection replaces it; 0.5 % ends
of unknown keys, 0.1 % damaged records, and every EVERY (10,000) events a roster change that is taken back EVERY / 50 events later (a working server out and in
again, or a horizon server off and on; EVERY 2: nothing but changes). KEYS is random (13 random bytes), clients (sources 10.1.x.x, one target, port 443, TCP) or gateway
(one source and one target, only the ports differ).

Numbers: x' = (6364136223846793005 x + 1442695040888963407) mod 2^64, from x = 1; each step gives its high 32 bits.
"""
import sys

method, rows, working, horizon, pool, events = map(int, sys.argv[1:7])
kind_of_keys = sys.argv[7]
every = int(sys.argv[8]) if len(sys.argv) > 8 else 10000
x = 1


def below(n):
    global x
    x = (6364136223846793005 * x + 1442695040888963407) % 2**64
    return (x >> 32) % n


def key():
    if kind_of_keys == "random":
        return b"".join(below(2**32).to_bytes(4, "big") for _ in range(3)) + bytes([below(256)])
    if kind_of_keys == "gateway":
        return (bytes([203, 0, 113, 7, 192, 0, 2, 1]) + below(2**16).to_bytes(2, "big")
                + below(2**16).to_bytes(2, "big") + b"\x06")
    return (bytes([10, 1]) + below(2**16).to_bytes(2, "big") + bytes([192, 0, 2, 1])
            + (1024 + below(64512)).to_bytes(2, "big") + (443).to_bytes(2, "big") + b"\x06")


def server(kind, number):
    return bytes([kind, 0, 0]) + number.to_bytes(4, "big") + bytes(9)


out = [bytes([7, 0, 0, method]) + rows.to_bytes(2, "big") + bytes(10)]
servers = [below(2**32 - 1) + 1 for _ in range(working + horizon)]
out += [server(5, s) for s in servers]
out += [server(3, s) for s in servers[:working]]
live = [key() for _ in range(pool)]
out += [b"\x01\0\0" + k for k in live]
half_closed = set()
back, change = None, 0
for n in range(1, events + 1):
    if n % every == every // 2 and working > 1 and horizon > 0:
        change += 1
        if change % 2:
            s = servers[below(working)]
            out.append(server(4, s))
            back = server(3, s)
        else:
            s = servers[working + below(horizon)]
            out.append(server(6, s))
            back = server(5, s)
        continue
    if n % every == (every // 2 + max(1, every // 50)) % every and back:
        out.append(back)
        back = None
        continue
    d = below(1000)
    if d < 40:
        i = below(pool)
        out.append(b"\x02\0\0" + live[i])
        if i in half_closed:
            live[i] = key()
        half_closed ^= {i}
    elif d < 45:
        out.append(b"\x02\0\0" + key())
    elif d < 46:
        out.append((b"\x01\x01\0", b"\x09\0\0", b"\x05\0\x07")[below(3)] + key())
    else:
        out.append(b"\x01\0\0" + live[below(pool)])
sys.stdout.buffer.write(b"".join(out))
