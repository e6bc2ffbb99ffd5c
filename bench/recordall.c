/* What a user would pick instead: every session is recorded at its first packet, in an open-addressing table (a power of
 * two of places, linear probing, at most half of them taken), and the horizon doesn't exist. The same generator; the word
 * RECORDS says how many sessions there are. A server that leaves work takes its records with it. The last line says how
 * many bytes the table takes. */
#include "parts.h"
#include "load.h"

typedef struct { uint8_t key[13], state; uint32_t server; } Place;       /* state: 0 never taken, 1 taken, 2 given up */

static Balancer balancer;               /* its roster holds working servers only; its table isn't used */
static Load load = { .x = 1 };
static Place *places;
static size_t size = 64, taken;         /* taken: places that are not 0 */

static Place *place_for(Place *in, size_t n, const uint8_t *key, uint32_t f)
{
    size_t i = f & (n - 1);
    while (in[i].state != 0 && memcmp(in[i].key, key, 13) != 0)
        i = (i + 1) & (n - 1);
    return &in[i];
}

static Place *fresh(size_t n)
{
    Place *made = calloc(n, sizeof *made);
    if (made == NULL) {
        dprintf(STDERR_FILENO, "recordall: no memory for the table\n");
        exit(1);
    }
    return made;
}

/* Twice the places, without those that were given up. */
static void grow(void)
{
    Place *more = fresh(2 * size);
    taken = 0;
    for (size_t i = 0; i < size; i++)
        if (places[i].state == 1) {
            *place_for(more, 2 * size, places[i].key, fnv(places[i].key, 13)) = places[i];
            taken++;
        }
    free(places);
    places = more;
    size *= 2;
}

static uint32_t choice(uint32_t f)
{
    bool unsafe;
    if (balancer.roster.method == 3)
        return balancer.rows[f % balancer.roster.rows];
    if (balancer.roster.method == 2)
        return read_ring(&balancer, f)->server;
    return pick(&balancer.roster, f & 0x7fffffffu, &unsafe);
}

/* Marks as in document 01: 1 from the record, 3 chosen and recorded. */
static void send_key(uint32_t i)
{
    uint8_t key[13];
    key_of(key, i);
    uint32_t f = fnv(key, 13);
    Place *at = place_for(places, size, key, f);
    unsigned mark = at->state == 1 ? 1 : 3;
    if (mark == 3) {
        if (at->state == 0 && 2 * (taken + 1) > size) {
            grow();
            at = place_for(places, size, key, f);
        }
        taken += at->state == 0;
        memcpy(at->key, key, 13);
        at->state = 1;
        at->server = choice(f);
    }
    heard(&load, 0, at->server, mark, 0);
}

static void join_work(uint32_t server)
{
    insert(&balancer.roster, server);
    balancer.roster.states[place_of(&balancer.roster, server)] = 1;
    changed(&balancer);
    heard(&load, 0, 0, 0, 0);
}

static void leave_work(uint32_t server)
{
    take_out(&balancer.roster, server);
    changed(&balancer);
    for (size_t i = 0; i < size; i++)
        if (places[i].state == 1 && places[i].server == server)
            places[i].state = 2;
    heard(&load, 0, 0, 0, 0);
}

int main(int count, char **words)
{
    Plan p = plan_of(count, words, MOST_KEYS);
    uint64_t working = p.servers - p.horizon;
    places = fresh(size);
    balancer.roster.method = (uint8_t)p.method;
    balancer.roster.rows = p.method == 3 ? ROWS : 0;
    for (uint64_t j = 0; j < working; j++)
        join_work(server_of(j));
    while (load.keys < p.records)
        send_key((uint32_t)load.keys++);
    part(&load, "filled");
    for (uint64_t n = 0; n < p.packets; n++)
        send_key(drawn(&load));
    part(&load, "packets");
    for (uint64_t n = 0; n < p.changes; n++) {
        join_work(server_of(working));
        leave_work(server_of(working));
    }
    part(&load, "changes");
    dprintf(STDOUT_FILENO, "bytes %zu\n", size * sizeof *places);
    return 0;
}
