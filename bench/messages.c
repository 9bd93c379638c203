/* Reading and writing messages as plain C loops: `messages WHAT KIND ROUNDS`, as `part_cases wire messages` has them. */
#include <stdint.h>
#include <stdio.h>
#include <stdlib.h>
#include <string.h>

#include "network.h"

enum { MESSAGES = 64, HEADER = 16, DATA = 11, CUT = 13, MOST = 1491 };

struct message {
    uint64_t boot;
    uint32_t ip, number, acked;
    uint16_t port, length;
    uint8_t kind, fin;
    const uint8_t *bytes;
    size_t len;
};

/* 0, or the number of the first test that holds; of the eighteen kinds the two that are timed */
static __attribute__((noinline)) int read_message(const uint8_t *p, size_t n, struct message *out)
{
    if (n < HEADER)
        return 1;
    if (word(p) != 0x4654)
        return 2;
    if (p[2] != 1)
        return 3;
    if (p[3] != DATA && p[3] != CUT)
        return 4;
    if (word(p + 4) != n || n < (p[3] == DATA ? 31 : 28) || n > (p[3] == DATA ? MOST : 28))
        return 5;
    if (sum(p, n) != 0xFFFF)
        return 6;
    out->boot = (uint64_t)number(p + 8) << 32 | number(p + 12);
    out->kind = p[3];
    out->ip = number(p + 16);
    out->port = word(p + 20);
    out->number = number(p + 22);
    if (out->boot == 0)
        return 7;
    if (out->kind == CUT) {
        out->length = word(p + 26);
        return out->number > (1 << 24) + 1 || out->length > 2048 ? 7 : 0;
    }
    out->acked = number(p + 26);
    out->fin = p[30];
    out->bytes = p + 31;
    out->len = n - 31;
    return out->number + out->len > 1 << 24 || out->acked > (1 << 24) + 1 || out->fin > 1 ? 7 : 0;
}

static __attribute__((noinline)) size_t write_message(const struct message *m, uint8_t *p)
{
    size_t n = m->kind == DATA ? 31 + m->len : 28;
    put(p, 0x4654);
    p[2] = 1;
    p[3] = m->kind;
    put(p + 4, (uint16_t)n);
    put(p + 6, 0);
    put_number(p + 8, (uint32_t)(m->boot >> 32));
    put_number(p + 12, (uint32_t)m->boot);
    put_number(p + 16, m->ip);
    put(p + 20, m->port);
    put_number(p + 22, m->number);
    if (m->kind == CUT) {
        put(p + 26, m->length);
    } else {
        put_number(p + 26, m->acked);
        p[30] = m->fin;
        memcpy(p + 31, m->bytes, m->len);
    }
    put(p + 6, (uint16_t)~sum(p, n));
    return n;
}

int main(int argc, char **argv)
{
    static uint8_t text[1460], messages[MESSAGES * MOST], out[2048];
    struct message m = {1, 0xC0000201, 0, 0, 40000, 5, CUT, 0, text, 1460};
    unsigned long rounds, r;
    uint64_t total = 0;
    size_t i, n = 0;
    if (argc != 4)
        return 1;
    rounds = strtoul(argv[3], NULL, 10);
    memset(text, 'a', sizeof text);
    if (strcmp(argv[2], "data") == 0)
        m.kind = DATA;
    for (i = 0; i < MESSAGES; i++) {
        m.number = (uint32_t)i;
        n = write_message(&m, out);
        memcpy(messages + i * n, out, n);
    }
    for (r = 0; r < rounds; r++)
        for (i = 0; i < MESSAGES; i++) {
            if (strcmp(argv[1], "write") == 0) {
                m.number = (uint32_t)i;
                n = write_message(&m, out);
                total += n + word(out + 6);
            } else {
                struct message got;
                if (read_message(messages + i * n, n, &got) == 0)
                    total += got.number + (got.kind == DATA ? got.len : got.length);
            }
        }
    printf("%llu\n", (unsigned long long)total);
    return 0;
}
