/* Captures turned into event records (request [2]) in plain C: the capture on standard input, the records on standard output, at the end a
 * line of counts on standard error. Input and output in blocks of 65,536 bytes; a capture may be of any length. Exit status 1 after a
 * refusal. */
#include "libc.h"

enum { BLOCK = 65536, FILE_HEADER = 24, RECORD_HEADER = 16, ETHERNET_HEADER = 14, LONGEST_IP_HEADER = 60, UP_TO_TCP_FLAGS = 14 };
/* No byte of a packet behind these is looked at. */
enum { LOOKED_AT = ETHERNET_HEADER + LONGEST_IP_HEADER + UP_TO_TCP_FLAGS };
enum { EVENT = 16, KIND_PACKET = 1, KIND_END = 2 };
enum { LINK_ETHERNET = 1, TYPE_IPV4 = 0x0800, PROTOCOL_TCP = 6, PROTOCOL_UDP = 17, FIN = 1 };
enum { BAD_MAGIC = 20, SHORT_FILE_HEADER = 21, SHORT_RECORD = 22 };

typedef enum { EMITTED, LINK_TYPE, NOT_IPV4, FRAGMENT, OTHER_PROTOCOL, CUT_SHORT, OUTCOMES } Outcome;

static uint8_t input[BLOCK], output[BLOCK];
static size_t at, have, filled;     /* the input from at to have isn't read yet; the output up to filled isn't written yet */
static uint64_t before;             /* how many bytes of the capture lie before the first of input */
static uint64_t packets[OUTCOMES];

/* Writes the records that are ready. */
static void flush(void)
{
    size_t done = 0;
    while (done < filled) {
        ssize_t put = write(STDOUT_FILENO, output + done, filled - done);
        if (put <= 0)
            exit(1);
        done += (size_t)put;
    }
    filled = 0;
}

/* Reads on until count bytes are there; tells whether they are. Records are written first, since reading may have to wait. */
static bool refill(size_t count)
{
    flush();
    memmove(input, input + at, have - at);
    before += at;
    have -= at;
    at = 0;
    while (have < count) {
        ssize_t got = read(STDIN_FILENO, input + have, BLOCK - have);
        if (got <= 0)
            return false;
        have += (size_t)got;
    }
    return true;
}

/* Whether the next count bytes, at most a block, are there. */
static inline bool ready(size_t count)
{
    return have - at >= count || refill(count);
}

/* Passes over count bytes; tells whether they were there. */
static bool skip(uint64_t count)
{
    while (count > have - at) {
        count -= have - at;
        at = have;
        if (!refill(1))
            return false;
    }
    at += count;
    return true;
}

/* The number in 2 or 4 bytes, the highest first. */
static inline uint32_t big2(const uint8_t *p)
{
    return (uint32_t)p[0] << 8 | p[1];
}

static inline uint32_t big4(const uint8_t *p)
{
    return big2(p) << 16 | big2(p + 2);
}

/* The number in 4 bytes of the file's own order. */
static inline uint32_t number(const uint8_t *p, bool highest_first)
{
    return highest_first ? big4(p) : (uint32_t)p[3] << 24 | (uint32_t)p[2] << 16 | (uint32_t)p[1] << 8 | p[0];
}

/* Puts a record behind the others. */
static inline void put(uint8_t kind, const uint8_t *ip, const uint8_t *ports)
{
    uint8_t *event = output + filled;
    event[0] = kind;
    event[1] = event[2] = 0;
    memcpy(event + 3, ip + 12, 8);
    memcpy(event + 11, ports, 4);
    event[15] = ip[9];
    filled += EVENT;
}

/* What becomes of a packet; puts its records where it is emitted. */
static inline Outcome packet(uint32_t link_type, const uint8_t *bytes, uint32_t length)
{
    if (link_type != LINK_ETHERNET)
        return LINK_TYPE;
    if (length < ETHERNET_HEADER)
        return CUT_SHORT;
    if (big2(bytes + 12) != TYPE_IPV4)
        return NOT_IPV4;
    if (length < ETHERNET_HEADER + 1)
        return CUT_SHORT;
    const uint8_t *ip = bytes + ETHERNET_HEADER;
    uint32_t header = (ip[0] & 15u) * 4;
    if (ip[0] >> 4 != 4 || header < 20)
        return NOT_IPV4;
    if (length < ETHERNET_HEADER + 8)
        return CUT_SHORT;
    if ((big2(ip + 6) & 0x1fff) != 0)
        return FRAGMENT;
    if (length < ETHERNET_HEADER + 10)
        return CUT_SHORT;
    if (ip[9] != PROTOCOL_TCP && ip[9] != PROTOCOL_UDP)
        return OTHER_PROTOCOL;
    const uint8_t *ports = ip + header;
    bool tcp = ip[9] == PROTOCOL_TCP;
    if (length < ETHERNET_HEADER + header + (tcp ? UP_TO_TCP_FLAGS : 4))
        return CUT_SHORT;
    if (filled > BLOCK - 2 * EVENT)
        flush();
    put(KIND_PACKET, ip, ports);
    if (tcp && (ports[13] & FIN))
        put(KIND_END, ip, ports);
    return EMITTED;
}

/* Writes what is left and the line of counts, and ends. */
static void finish(int refusal, uint64_t byte, const char *reason)
{
    uint64_t total = 0;
    flush();
    for (int i = 0; i < OUTCOMES; i++)
        total += packets[i];
    dprintf(STDERR_FILENO,
            "%lu packets read, %lu emitted; skipped: %lu link type, %lu not IPv4, %lu fragment, %lu other protocol, %lu cut short", total,
            packets[EMITTED], packets[LINK_TYPE], packets[NOT_IPV4], packets[FRAGMENT], packets[OTHER_PROTOCOL], packets[CUT_SHORT]);
    if (refusal)
        dprintf(STDERR_FILENO, "; refused by %d at byte %lu: %s", refusal, byte, reason);
    dprintf(STDERR_FILENO, "\n");
    exit(refusal != 0);
}

/* Names the format of a file that is no classic capture, where its first bytes tell it. */
static const char *bad_magic(uint32_t first)
{
    if (first == 0x0a0d0d0a)
        return "bad magic (this is pcapng; editcap -F pcap makes a classic capture of it)";
    if (first == 0xa1b23c4d || first == 0x4d3cb2a1)
        return "bad magic (this is a nanosecond capture; editcap -F pcap makes a classic one of it)";
    return "bad magic";
}

int main(void)
{
    bool whole = ready(FILE_HEADER);
    if (have < 4)
        finish(SHORT_FILE_HEADER, 0, "truncated file header");
    bool highest_first = big4(input) == 0xa1b2c3d4;
    if (!highest_first && big4(input) != 0xd4c3b2a1)
        finish(BAD_MAGIC, 0, bad_magic(big4(input)));
    if (!whole)
        finish(SHORT_FILE_HEADER, 0, "truncated file header");
    uint32_t link_type = number(input + 20, highest_first);
    at = FILE_HEADER;
    for (;;) {
        if (!ready(RECORD_HEADER)) {
            if (have == at)
                finish(0, 0, "");
            finish(SHORT_RECORD, before + at, "truncated packet record");
        }
        uint64_t began = before + at;
        uint32_t length = number(input + at + 8, highest_first);
        Outcome outcome;
        if (length <= BLOCK - RECORD_HEADER) {
            if (!ready(RECORD_HEADER + length))
                finish(SHORT_RECORD, began, "truncated packet record");
            outcome = packet(link_type, input + at + RECORD_HEADER, length);
            at += RECORD_HEADER + length;
        } else {
            /* longer than a block: its first bytes are kept until the last is there */
            uint8_t first[LOOKED_AT];
            if (!ready(RECORD_HEADER + LOOKED_AT))
                finish(SHORT_RECORD, began, "truncated packet record");
            memcpy(first, input + at + RECORD_HEADER, LOOKED_AT);
            if (!skip(RECORD_HEADER + (uint64_t)length))
                finish(SHORT_RECORD, began, "truncated packet record");
            outcome = packet(link_type, first, LOOKED_AT);
        }
        packets[outcome]++;
    }
}
