/* The balancer of documents 01 and 02 in plain C: the same algorithm and the same data as the Rattle program (linear scan
 * of the table, since a reply says how many records were read; soundness of the roster at every event). session.c and
 * twin.c drive it. */
#include "parts.h"

static inline Reply refused(unsigned number) { return (Reply){ number, 0, 0, 0 }; }
static inline Reply accepted(uint32_t server, unsigned mark, size_t reads) { return (Reply){ 0, server, mark, reads }; }

static inline Reply packet(Balancer *b, const uint8_t *key)
{
    Found found = find(b->table, key);
    size_t reads = found.reads;
    if (!any_works(&b->roster))
        return refused(7);
    if (found.known) {
        uint32_t server = join4(b->table + (reads - 1) * RECORD + 16);
        return state_of(&b->roster, server) == 1 ? accepted(server, 1, reads) : refused(8);
    }
    uint32_t f = fnv(key, 13), server;
    bool unsafe;
    if (b->roster.method == 3) {
        size_t row = f % b->roster.rows;
        server = b->rows[row];
        unsafe = b->flags[row] != 0;
    } else if (b->roster.method == 2) {
        const Entry *e = read_ring(b, f);
        server = e->server;
        unsafe = e->track != 0;
    } else
        server = pick(&b->roster, f & 0x7fffffffu, &unsafe);
    if (state_of(&b->roster, server) != 1)
        return refused(8);
    if (!unsafe)
        return accepted(server, 2, reads);
    if (reads >= PLACES)
        return accepted(server, 4, reads);
    write_record(b->table + reads * RECORD, key, server);
    return accepted(server, 3, reads);
}

static inline Reply end(Balancer *b, const uint8_t *key)
{
    Found found = find(b->table, key);
    if (!found.known)
        return accepted(0, 6, found.reads);
    uint8_t *tag = b->table + (found.reads - 1) * RECORD + TAG;
    if (*tag == OPEN) {
        *tag = HALF_CLOSED;
        return accepted(0, 8, found.reads);
    }
    remove_place(b->table, found.reads);
    return accepted(0, 5, found.reads);
}

static inline Reply configure(Balancer *b, const uint8_t *body)
{
    uint8_t method = body[0];
    uint16_t rows = (uint16_t)(body[1] << 8 | body[2]);
    if (!zeros(body + 3, 10) || !valid_settings(method, rows))
        return refused(1);
    if (b->roster.held != 0 || used(b->table) != 0)
        return refused(10);
    b->roster.method = method;
    b->roster.rows = rows;
    memset(b->rows, 0, rows * sizeof b->rows[0]);
    memset(b->flags, 0, rows);
    return accepted(0, 0, 0);
}

static inline Reply change(Balancer *b, unsigned kind, const uint8_t *body)
{
    Roster *r = &b->roster;
    if (!zeros(body + 4, 9))
        return refused(1);
    uint32_t server = join4(body);
    if (server == 0)
        return refused(2);
    unsigned state = state_of(r, server);
    switch (kind) {
    case 3:
        if (state != 2)
            return refused(4);
        r->states[place_of(r, server)] = 1;
        break;
    case 4:
        if (state != 1)
            return refused(5);
        remove_server(b->table, server);
        r->states[place_of(r, server)] = 2;
        break;
    case 5:
        if (state != 0)
            return refused(3);
        if (r->held >= SERVERS)
            return refused(6);
        insert(r, server);
        break;
    default:
        if (state != 2)
            return refused(4);
        take_out(r, server);
    }
    changed(b);
    return accepted(0, 0, 0);
}

static inline Reply event(Balancer *b, const uint8_t *record, size_t length)
{
    if (!sound(&b->roster))
        return refused(11);
    if (length != 16 || record[1] != 0 || record[2] != 0)
        return refused(1);
    switch (record[0]) {
    case 1: return packet(b, record + 3);
    case 2: return end(b, record + 3);
    case 3: case 4: case 5: case 6: return change(b, record[0], record + 3);
    case 7: return configure(b, record + 3);
    default: return refused(1);
    }
}
