/* The benchmark's program in plain C: the same events as crates/program_bench, through engine.h. */
#include "engine.h"
#include "load.h"

static Balancer balancer;
static Load load = { .x = 1 };

static void send(const uint8_t *record)
{
    Reply r = event(&balancer, record, 16);
    heard(&load, r.refusal, r.server, r.mark, r.reads);
}

static void change_server(uint8_t kind, uint64_t j)
{
    uint8_t record[16] = { kind };
    split4(record + 3, server_of(j));
    send(record);
}

static void send_key(uint32_t i)
{
    uint8_t record[16] = { 1 };
    key_of(record + 3, i);
    send(record);
}

int main(int count, char **words)
{
    Plan p = plan_of(count, words, PLACES);
    uint64_t working = p.servers - p.horizon;
    uint8_t configure[16] = { 7, 0, 0, (uint8_t)p.method, p.method == 3 ? ROWS >> 8 : 0 };
    balancer.roster.method = 1;
    send(configure);
    for (uint64_t j = 0; j < p.servers; j++)
        change_server(5, j);
    for (uint64_t j = 0; j < working; j++)
        change_server(3, j);
    while (load.used < p.records && load.keys < MOST_KEYS)
        send_key((uint32_t)load.keys++);
    part(&load, "filled");
    for (uint64_t n = 0; n < p.packets; n++)
        send_key(drawn(&load));
    part(&load, "packets");
    for (uint64_t n = 0; n < p.changes; n++) {
        change_server(3, working);
        change_server(4, working);
    }
    part(&load, "changes");
    return 0;
}
