/* The session program of documents 01 and 02 in plain C over engine.h: input and output in blocks of 65,536 bytes. */
#include "engine.h"

enum { BLOCK = 65536 };

static uint8_t input[BLOCK], text[BLOCK];
static size_t filled;

static void flush(void)
{
    size_t done = 0;
    while (done < filled) {
        ssize_t put = write(STDOUT_FILENO, text + done, filled - done);
        if (put <= 0)
            break;
        done += (size_t)put;
    }
    filled = 0;
}

static uint8_t *put(uint8_t *at, uint64_t number, uint8_t behind)
{
    uint8_t digits[20];
    size_t i = sizeof digits;
    do {
        digits[--i] = (uint8_t)('0' + number % 10);
        number /= 10;
    } while (number != 0);
    while (i < sizeof digits)
        *at++ = digits[i++];
    *at++ = behind;
    return at;
}

static void line(uint64_t number, uint8_t kind, Reply r, size_t used_now)
{
    if (filled > BLOCK - 160)
        flush();
    uint8_t *at = text + filled;
    at = put(at, number, ' ');
    at = put(at, kind, ' ');
    at = put(at, r.refusal, ' ');
    at = put(at, r.server, ' ');
    at = put(at, r.mark, ' ');
    at = put(at, r.reads, ' ');
    at = put(at, used_now, '\n');
    filled = (size_t)(at - text);
}

static Balancer balancer;

int main(void)
{
    size_t at = 0, have = 0;
    balancer.roster.method = 1;
    for (uint64_t number = 1;; number++) {
        if (have - at < 16) {
            flush();
            memmove(input, input + at, have - at);
            have -= at;
            at = 0;
            while (have < 16) {
                ssize_t got = read(STDIN_FILENO, input + have, BLOCK - have);
                if (got <= 0)
                    break;
                have += (size_t)got;
            }
            if (have == 0)
                return 0;
        }
        size_t length = have - at < 16 ? have - at : 16;
        Reply r = event(&balancer, input + at, length);
        line(number, input[at], r, used(balancer.table));
        at += length;
    }
}
