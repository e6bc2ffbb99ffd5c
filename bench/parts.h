/* What the balancer of documents 01 and 02 is made of, in plain C, written from their sentences: hashes, the table, the
 * roster, the three methods (each weight once; positions hashed once for a change). */
#include "libc.h"

enum { RECORD = 20, PLACES = 3276, SERVERS = 64, ROWS = 4096 };

typedef struct {
    uint32_t servers[SERVERS];      /* rising; unused places zero */
    uint8_t states[SERVERS];        /* 1 working, 2 in the horizon */
    size_t held;
    uint8_t method;                 /* 1 HRW, 2 ring, 3 rows */
    uint16_t rows;
} Roster;

typedef struct { uint32_t position, server; uint8_t track; } Entry;

typedef struct { unsigned refusal; uint32_t server; unsigned mark; size_t reads; } Reply;

typedef struct {
    Roster roster;
    Entry ring[SERVERS];
    uint32_t rows[ROWS];
    uint8_t flags[ROWS];
    uint8_t table[PLACES * RECORD];
} Balancer;

/* ---- hashes */

static inline uint32_t fnv(const uint8_t *bytes, size_t n)
{
    uint32_t h = 2166136261u;
    for (size_t i = 0; i < n; i++)
        h = (h ^ bytes[i]) * 16777619u;
    return h;
}

static inline uint32_t weight(uint32_t server, uint32_t digest)
{
    return (1103515245u * ((1103515245u * server + 12345u) ^ digest) + 12345u) & 0x7fffffffu;
}

static inline uint32_t join4(const uint8_t *b)
{
    return (uint32_t)b[0] << 24 | (uint32_t)b[1] << 16 | (uint32_t)b[2] << 8 | b[3];
}

static inline void split4(uint8_t *b, uint32_t n)
{
    b[0] = n >> 24, b[1] = n >> 16, b[2] = n >> 8, b[3] = n;
}

static inline uint32_t position(uint32_t server)
{
    uint8_t b[4];
    split4(b, server);
    return fnv(b, 4);
}

/* ---- the table: 13 bytes key, tag, two zeros, server */

enum { TAG = 13, OPEN = 1, HALF_CLOSED = 2 };

static inline bool used_at(const uint8_t *table, size_t i)
{
    uint8_t tag = table[i * RECORD + TAG];
    return tag == OPEN || tag == HALF_CLOSED;
}

static inline size_t used(const uint8_t *table)
{
    size_t i = 0;
    while (i < PLACES && used_at(table, i))
        i++;
    return i;
}

/* The place of a key's record counted from 1, or the number of used records where it has none. */
typedef struct { bool known; size_t reads; } Found;

static inline Found find(const uint8_t *table, const uint8_t *key)
{
    size_t i;
    for (i = 0; i < PLACES && used_at(table, i); i++)
        if (memcmp(table + i * RECORD, key, 13) == 0)
            return (Found){ true, i + 1 };
    return (Found){ false, i };
}

static inline void write_record(uint8_t *at, const uint8_t *key, uint32_t server)
{
    memcpy(at, key, 13);
    at[TAG] = OPEN, at[14] = 0, at[15] = 0;
    split4(at + 16, server);
}

static inline void remove_place(uint8_t *table, size_t place)
{
    size_t n = used(table);
    memmove(table + (place - 1) * RECORD, table + place * RECORD, (n - place) * RECORD);
    memset(table + (n - 1) * RECORD, 0, RECORD);
}

static inline void remove_server(uint8_t *table, uint32_t server)
{
    size_t n = used(table), kept = 0;
    for (size_t i = 0; i < n; i++)
        if (join4(table + i * RECORD + 16) != server) {
            if (kept != i)
                memcpy(table + kept * RECORD, table + i * RECORD, RECORD);
            kept++;
        }
    memset(table + kept * RECORD, 0, (n - kept) * RECORD);
}

/* ---- the roster */

/* Looks at every byte and has no early exit, so that clang makes vectors of it. */
static inline bool zeros(const void *bytes, size_t n)
{
    const uint8_t *s = bytes;
    uint8_t any = 0;
    for (size_t i = 0; i < n; i++)
        any |= s[i];
    return any == 0;
}

static inline bool valid_settings(uint8_t method, uint16_t rows)
{
    if (method == 3)
        return rows >= 1 && rows <= ROWS;
    return (method == 1 || method == 2) && rows == 0;
}

static inline bool sound(const Roster *r)
{
    if (r->held > SERVERS)
        return false;
    uint32_t last = 0;
    for (size_t i = 0; i < r->held; i++) {
        if (r->servers[i] <= last)
            return false;
        last = r->servers[i];
    }
    if (!zeros(r->servers + r->held, (SERVERS - r->held) * sizeof r->servers[0]))
        return false;
    for (size_t i = 0; i < r->held; i++)
        if (r->states[i] != 1 && r->states[i] != 2)
            return false;
    if (!zeros(r->states + r->held, SERVERS - r->held))
        return false;
    return valid_settings(r->method, r->rows);
}

static inline size_t place_of(const Roster *r, uint32_t server)
{
    size_t i = 0;
    while (i < r->held && r->servers[i] != server)
        i++;
    return i;
}

static inline unsigned state_of(const Roster *r, uint32_t server)
{
    size_t p = place_of(r, server);
    return p < r->held ? r->states[p] : 0;
}

static inline bool any_works(const Roster *r)
{
    for (size_t i = 0; i < r->held; i++)
        if (r->states[i] == 1)
            return true;
    return false;
}

static inline void insert(Roster *r, uint32_t server)
{
    size_t p = 0;
    while (p < r->held && r->servers[p] < server)
        p++;
    memmove(r->servers + p + 1, r->servers + p, (r->held - p) * sizeof r->servers[0]);
    memmove(r->states + p + 1, r->states + p, r->held - p);
    r->servers[p] = server;
    r->states[p] = 2;
    r->held++;
}

static inline void take_out(Roster *r, uint32_t server)
{
    size_t p = place_of(r, server);
    r->held--;
    memmove(r->servers + p, r->servers + p + 1, (r->held - p) * sizeof r->servers[0]);
    memmove(r->states + p, r->states + p + 1, r->held - p);
    r->servers[r->held] = 0;
    r->states[r->held] = 0;
}

/* ---- the methods */

static inline bool heavier(uint32_t wa, uint32_t a, uint32_t wb, uint32_t b)
{
    return wa == wb ? a > b : wa > wb;
}

/* The choice over the working servers, 0 where there is none, and whether a horizon server outranks it. */
static inline uint32_t pick(const Roster *r, uint32_t digest, bool *unsafe)
{
    uint32_t best = 0, best_weight = 0;
    *unsafe = false;
    for (size_t i = 0; i < r->held; i++)
        if (r->states[i] == 1) {
            uint32_t w = weight(r->servers[i], digest);
            if (best == 0 || heavier(w, r->servers[i], best_weight, best))
                best = r->servers[i], best_weight = w;
        }
    if (best == 0)
        return 0;
    for (size_t i = 0; i < r->held; i++)
        if (r->states[i] == 2 && heavier(weight(r->servers[i], digest), r->servers[i], best_weight, best)) {
            *unsafe = true;
            break;
        }
    return best;
}

static inline void fill_rows(Balancer *b)
{
    for (size_t r = 0; r < b->roster.rows; r++) {
        bool unsafe;
        b->rows[r] = pick(&b->roster, (uint32_t)r, &unsafe);
        b->flags[r] = unsafe;
    }
}

static inline bool stands_before(uint32_t pa, uint32_t a, uint32_t pb, uint32_t b)
{
    return pa == pb ? a > b : pa < pb;
}

static inline void draw_ring(Balancer *b)
{
    const Roster *r = &b->roster;
    uint32_t positions[SERVERS];
    struct { uint32_t position, server; uint8_t state; } order[SERVERS];
    for (size_t i = 0; i < r->held; i++) {
        uint32_t p = positions[i] = position(r->servers[i]);
        size_t at = i;
        while (at > 0 && !stands_before(order[at - 1].position, order[at - 1].server, p, r->servers[i])) {
            order[at] = order[at - 1];
            at--;
        }
        order[at].position = p, order[at].server = r->servers[i], order[at].state = r->states[i];
    }
    for (size_t i = 0; i < r->held; i++) {
        Entry e = { order[i].position, order[i].server, 0 };
        if (order[i].state != 1) {
            uint32_t best = 0, least = 0;
            for (size_t k = 0; k < r->held; k++)
                if (r->states[k] == 1) {
                    uint32_t away = positions[k] - e.position;
                    if (best == 0 || stands_before(away, r->servers[k], least, best))
                        best = r->servers[k], least = away;
                }
            e.server = best;
            e.track = best != 0;
        }
        b->ring[i] = e;
    }
}

static inline const Entry *read_ring(const Balancer *b, uint32_t point)
{
    for (size_t i = 0; i < b->roster.held; i++)
        if (point <= b->ring[i].position)
            return &b->ring[i];
    return &b->ring[0];
}

static inline void changed(Balancer *b)
{
    if (b->roster.method == 3)
        fill_rows(b);
    else if (b->roster.method == 2)
        draw_ring(b);
}
