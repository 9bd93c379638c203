/* Numbers in network byte order, and the Internet checksum's sum (RFC 1071), in plain C. */
#ifndef NETWORK_H
#define NETWORK_H
#include <stddef.h>
#include <stdint.h>

static inline uint16_t word(const uint8_t *p) { return (uint16_t)(p[0] << 8 | p[1]); }

static inline uint32_t number(const uint8_t *p) { return (uint32_t)word(p) << 16 | word(p + 2); }

static inline void put(uint8_t *p, uint16_t n)
{
    p[0] = (uint8_t)(n >> 8);
    p[1] = (uint8_t)n;
}

static inline void put_number(uint8_t *p, uint32_t n)
{
    put(p, (uint16_t)(n >> 16));
    put(p + 2, (uint16_t)n);
}

static inline uint16_t sum(const uint8_t *p, size_t n)
{
    uint32_t total = 0;
    size_t i;
    for (i = 0; i + 1 < n; i += 2)
        total += (uint32_t)p[i] << 8 | p[i + 1];
    if (i < n)
        total += (uint32_t)p[i] << 8;
    while (total >> 16)
        total = (total & 0xFFFF) + (total >> 16);
    return (uint16_t)total;
}

#endif
