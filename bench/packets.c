/* The checks of read_packet as a plain C loop: `packets BYTES ROUNDS` makes 64 packets of BYTES bytes, reads each of them ROUNDS times, and
   prints what their sequence numbers and payloads add up to. With a third word `set` it sets three fields of each of them ROUNDS times by
   the update of RFC 1624, reads each once, and prints what their checksums add up to besides. */
#include <stdint.h>
#include <stdio.h>
#include <stdlib.h>
#include <string.h>

#include "network.h"

enum { PACKETS = 64 };

struct packet {
    uint32_t src, dst, seq, ack;
    uint16_t sport, dport, window, mss;
    uint8_t flags, has_mss;
    const uint8_t *payload;
    size_t len;
};

static uint32_t add_words(const uint8_t *p, size_t n, uint32_t total)
{
    size_t i;
    for (i = 0; i + 1 < n; i += 2)
        total += (uint32_t)p[i] << 8 | p[i + 1];
    if (i < n)
        total += (uint32_t)p[i] << 8;
    return total;
}

static uint16_t folded(uint32_t total)
{
    while (total >> 16)
        total = (total & 0xFFFF) + (total >> 16);
    return (uint16_t)total;
}

static uint16_t tcp_sum(const uint8_t *p, size_t n)
{
    return folded(add_words(p + 20, n - 20, add_words(p + 12, 8, 6 + (uint32_t)(n - 20))));
}

/* 0, or the number of the first test that holds */
static int read_packet(const uint8_t *p, size_t n, struct packet *out)
{
    size_t start, at;
    if (n < 40)
        return 1;
    if (p[0] >> 4 != 4)
        return 2;
    if ((p[0] & 15) != 5)
        return 3;
    if (word(p + 2) != n)
        return 4;
    if (word(p + 6) & 0x3FFF)
        return 5;
    if (p[9] != 6)
        return 6;
    if (folded(add_words(p, 20, 0)) != 0xFFFF)
        return 7;
    start = 20 + 4 * (size_t)(p[32] >> 4);
    if (start < 40 || start > n)
        return 8;
    out->has_mss = 0;
    for (at = 40; at < start && p[at] != 0;) {
        if (p[at] == 1) {
            at++;
            continue;
        }
        if (at + 1 == start || p[at + 1] < 2 || p[at + 1] > start - at)
            return 9;
        if (p[at] == 2 && p[at + 1] == 4 && !out->has_mss) {
            out->has_mss = 1;
            out->mss = word(p + at + 2);
        }
        at += p[at + 1];
    }
    if (tcp_sum(p, n) != 0xFFFF)
        return 10;
    if (n > 1500)
        return 11;
    out->src = number(p + 12);
    out->dst = number(p + 16);
    out->sport = word(p + 20);
    out->dport = word(p + 22);
    out->seq = number(p + 24);
    out->ack = number(p + 28);
    out->flags = p[33];
    out->window = word(p + 34);
    out->payload = p + start;
    out->len = n - start;
    return 0;
}

static void write_packet(uint8_t *p, size_t n, uint32_t seq)
{
    static const uint8_t head[40] = {0x45, 0, 0, 0, 0, 0, 0x40, 0, 64, 6, 0, 0, 192, 0, 2, 1, 192, 0, 2, 100,
                                     0x9C, 0x40, 0, 7, 0, 0, 0, 0, 0, 0, 0, 1, 0x50, 0x10, 0xFF, 0xFF, 0, 0, 0, 0};
    memcpy(p, head, 40);
    memset(p + 40, 'a', n - 40);
    put(p + 2, (uint16_t)n);
    put(p + 26, (uint16_t)seq);
    put(p + 10, (uint16_t)~folded(add_words(p, 20, 0)));
    put(p + 36, (uint16_t)~tcp_sum(p, n));
}

static uint16_t patched(uint16_t check, uint16_t old, uint16_t new)
{
    return (uint16_t)~folded((uint32_t)(uint16_t)~check + (uint16_t)~old + new);
}

static void set_word(uint8_t *p, size_t at, uint16_t n)
{
    uint16_t check = patched(word(p + 36), word(p + at), n);
    put(p + at, n);
    put(p + 36, check);
}

static void set_number(uint8_t *p, size_t at, uint32_t n)
{
    set_word(p, at, (uint16_t)(n >> 16));
    set_word(p, at + 2, (uint16_t)n);
}

/* as functions of their own, as a library has them */
static __attribute__((noinline)) void set_seq(uint8_t *p, uint32_t n) { set_number(p, 24, n); }

static __attribute__((noinline)) void set_ack(uint8_t *p, uint32_t n) { set_number(p, 28, n); }

static __attribute__((noinline)) void set_window(uint8_t *p, uint16_t n) { set_word(p, 34, n); }

int main(int argc, char **argv)
{
    size_t n, i;
    unsigned long rounds, r;
    uint64_t total = 0;
    uint8_t *packets;
    int sets = argc == 4 && strcmp(argv[3], "set") == 0;
    if ((argc != 3 && !sets) || (n = strtoul(argv[1], NULL, 10)) < 40 || n > 1500)
        return 1;
    rounds = strtoul(argv[2], NULL, 10);
    packets = malloc(PACKETS * n);
    if (!packets)
        return 1;
    for (i = 0; i < PACKETS; i++)
        write_packet(packets + i * n, n, (uint32_t)i);
    for (r = 0; sets && r < rounds; r++)
        for (i = 0; i < PACKETS; i++) {
            set_seq(packets + i * n, (uint32_t)r * 77777u);
            set_ack(packets + i * n, (uint32_t)r * 55555u);
            set_window(packets + i * n, (uint16_t)r);
        }
    for (i = 0; sets && i < PACKETS; i++)
        total += word(packets + i * n + 36);
    for (r = 0; r < (sets ? 1 : rounds); r++)
        for (i = 0; i < PACKETS; i++) {
            struct packet packet;
            if (read_packet(packets + i * n, n, &packet) == 0)
                total += packet.seq + packet.len;
        }
    printf("%llu\n", (unsigned long long)total);
    free(packets);
    return 0;
}
