/* What twin.c and recordall.c are run on: the generator that crates/program_bench/src/keys.rt states, the words, the checksum, and
 * the lines. Goes behind parts.h or engine.h. */

enum { MOST_KEYS = 100000, MOST_SERVERS = 64 };

typedef struct { uint64_t method, servers, horizon, records, packets, changes; } Plan;

typedef struct { uint32_t x; uint64_t sum, used, keys, refused; } Load;

/* The j-th server, from 0. */
static inline uint32_t server_of(uint64_t j)
{
    return (uint32_t)(j + 1) * 2654435769u;
}

/* The 13 bytes of the i-th key, from 0. */
static inline void key_of(uint8_t *key, uint32_t i)
{
    static const uint8_t target[4] = { 192, 0, 2, 1 }, service[3] = { 443 >> 8, 443 & 255, 6 };
    uint16_t port = (uint16_t)(i * 40503u);
    split4(key, i * 2654435761u);
    memcpy(key + 4, target, 4);
    key[8] = port >> 8, key[9] = (uint8_t)port;
    memcpy(key + 10, service, 3);
}

/* The number of a key that was sent while filling. */
static inline uint32_t drawn(Load *l)
{
    uint32_t i = l->keys ? l->x / 256 % (uint32_t)l->keys : 0;
    l->x = l->x * 1664525u + 1013904223u;
    return i;
}

/* A reply into the checksum. */
static inline void heard(Load *l, uint64_t refusal, uint64_t server, uint64_t mark, uint64_t reads)
{
    const uint64_t below = ((uint64_t)1 << 58) - 1;
    l->sum = (l->sum * 31 + server) & below;
    l->sum = (l->sum * 31 + reads * 65536 + mark * 256 + refusal) & below;
    l->used += mark == 3;
    l->refused += refusal > 0;
}

/* The line behind a part of the work. */
static inline void part(const Load *l, const char *name)
{
    dprintf(STDOUT_FILENO, "%s %lu %lu %lu %lu\n", name, l->sum, l->used, l->keys, l->refused);
}

/* The six words, or a usage line and the end. */
static inline Plan plan_of(int count, char **words, uint64_t most_records)
{
    uint64_t n[6];
    bool good = count == 7;
    for (int i = 0; good && i < 6; i++) {
        char *end;
        n[i] = strtoull(words[i + 1], &end, 10);
        good = *end == 0 && end != words[i + 1];
    }
    if (!good || n[0] < 1 || n[0] > 3 || n[1] > MOST_SERVERS || n[2] >= n[1] || n[3] > most_records) {
        dprintf(STDERR_FILENO, "usage: %s METHOD SERVERS HORIZON RECORDS PACKETS CHANGES\n", words[0]);
        exit(1);
    }
    return (Plan){ n[0], n[1], n[2], n[3], n[4], n[5] };
}
