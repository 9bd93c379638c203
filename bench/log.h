/* The log of one connection in plain C: what a message does to it, and the answer. Bytes and lengths stand in arrays. */
#ifndef LOG_H
#define LOG_H
#include <stdint.h>
#include <string.h>

#include "network.h"

enum { HEADER = 16, MOST = 1491, STREAM = 1 << 24 };
enum { HELLO = 1, SUMMARY, LIST, ENTRY, BYTES, PART, CUTS, LENS, OPEN, OPENED, DATA, STABLE, READ, READS };

struct log {
    uint64_t boot;
    int is_open, fin;
    uint32_t cisn, sisn, acked, length, reads, read;
    uint16_t mss;
    uint8_t bytes[STREAM];
    uint16_t lengths[STREAM / 1024];
};

/* writes the header of a message whose fields stand behind it */
static size_t seal(uint8_t *p, uint8_t kind, uint64_t boot, size_t n)
{
    put(p, 0x4654);
    p[2] = 1;
    p[3] = kind;
    put(p + 4, (uint16_t)n);
    put(p + 6, 0);
    put_number(p + 8, (uint32_t)(boot >> 32));
    put_number(p + 12, (uint32_t)boot);
    put(p + 6, (uint16_t)~sum(p, n));
    return n;
}

static void put_key(uint8_t *p)
{
    put_number(p + 16, 0xC0000201);
    put(p + 20, 40000);
}

/* the least and the most bytes of a kind that is given to the log */
static int has_length(uint8_t kind, size_t n)
{
    switch (kind) {
    case HELLO: return n == 16;
    case BYTES: case CUTS: return n == 26;
    case OPEN: return n == 32;
    case DATA: return n >= 31 && n <= MOST;
    case READ: return n == 28;
    default: return 0;
    }
}

static int is_message(const uint8_t *p, size_t n)
{
    return n >= HEADER && word(p) == 0x4654 && p[2] == 1 && has_length(p[3], n) && word(p + 4) == n && sum(p, n) == 0xFFFF;
}

static size_t kept(const struct log *l, uint8_t kind, uint64_t boot, uint8_t *out)
{
    put_key(out);
    put_number(out + 22, l->length);
    out[26] = (uint8_t)l->fin;
    put_number(out + 27, l->reads);
    return seal(out, kind, boot, 31);
}

static size_t take_data(struct log *l, uint64_t boot, const uint8_t *p, size_t n, uint8_t *out)
{
    uint32_t offset = number(p + 22), acked = number(p + 26), len = (uint32_t)(n - 31);
    if (offset + len > STREAM || acked > STREAM + 1 || p[30] > 1)
        return 0;
    if (acked > l->acked)
        l->acked = acked;
    if (!l->fin && offset <= l->length && l->length - offset < len) {
        memcpy(l->bytes + l->length, p + 31 + (l->length - offset), len - (l->length - offset));
        l->length = offset + len;
    }
    if (p[30] && offset + len == l->length)
        l->fin = 1;
    return kept(l, STABLE, boot, out);
}

static size_t take_read(struct log *l, uint64_t boot, const uint8_t *p, uint8_t *out)
{
    uint32_t index = number(p + 22);
    uint16_t len = word(p + 26);
    if (index > STREAM + 1 || len > 2048)
        return 0;
    if (index == l->reads && index < STREAM / 1024 && len > 0 && l->read + len <= l->length) {
        l->lengths[l->reads++] = len;
        l->read += len;
    }
    return kept(l, READS, boot, out);
}

static size_t tell_part(const struct log *l, uint64_t boot, uint32_t offset, uint8_t *out)
{
    uint32_t n = l->length - offset;
    if (offset >= l->length)
        return 0;
    if (n > 1024)
        n = 1024;
    put_key(out);
    put_number(out + 22, offset);
    memcpy(out + 26, l->bytes + offset, n);
    return seal(out, PART, boot, 26 + n);
}

static size_t tell_lens(const struct log *l, uint64_t boot, uint32_t first, uint8_t *out)
{
    uint32_t i, n = l->reads - first;
    if (first >= l->reads)
        return 0;
    if (n > 512)
        n = 512;
    put_key(out);
    put_number(out + 22, first);
    for (i = 0; i < n; i++)
        put(out + 26 + 2 * i, l->lengths[first + i]);
    return seal(out, LENS, boot, 26 + 2 * n);
}

/* the answer's bytes */
static __attribute__((noinline)) size_t answer(struct log *l, const uint8_t *p, size_t n, uint8_t *out)
{
    uint64_t boot;
    if (!is_message(p, n))
        return 0;
    boot = (uint64_t)number(p + 8) << 32 | number(p + 12);
    if (boot == 0 || boot < l->boot)
        return 0;
    if (p[3] == HELLO) {
        l->boot = boot;
        put(out + 16, (uint16_t)l->is_open);
        return seal(out, SUMMARY, boot, 18);
    }
    if (boot != l->boot || number(p + 16) != 0xC0000201 || word(p + 20) != 40000)
        return 0;
    switch (p[3]) {
    case OPEN:
        l->is_open = 1;
        l->cisn = number(p + 22);
        l->sisn = number(p + 26);
        l->mss = word(p + 30);
        put_key(out);
        put_number(out + 22, l->cisn);
        put_number(out + 26, l->sisn);
        put(out + 30, l->mss);
        return seal(out, OPENED, boot, 32);
    case DATA: return take_data(l, boot, p, n, out);
    case READ: return take_read(l, boot, p, out);
    case BYTES: return tell_part(l, boot, number(p + 22), out);
    case CUTS: return tell_lens(l, boot, number(p + 22), out);
    default: return 0;
    }
}

#endif
