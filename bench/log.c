/* The log of one connection as a plain C program: `log READS BYTES ROUNDS`, as `part_cases wire log` has them. */
#include <stdint.h>
#include <stdio.h>
#include <stdlib.h>
#include <string.h>

#include "log.h"

static uint64_t messages, total;
static int heard = 1;
static uint8_t datagram[2048], out[2048];

static void say(struct log *l, uint8_t kind, size_t n)
{
    size_t len;
    n = seal(datagram, kind, 1, n);
    messages++;
    if (heard && (len = answer(l, datagram, n, out)) != 0)
        total += len + word(out + 6);
}

static uint32_t least(uint32_t a, uint32_t b) { return a < b ? a : b; }

static void run(struct log *l, uint32_t bytes, int alternates)
{
    uint32_t i, read = 0;
    say(l, HELLO, 16);
    put_key(datagram);
    put_number(datagram + 22, 1000);
    put_number(datagram + 26, 5000);
    put(datagram + 30, 1460);
    say(l, OPEN, 32);
    for (i = 0; i * 1460 < bytes; i++) {
        uint32_t offset = i * 1460, len = least(1460, bytes - offset), next = alternates ? (i % 2 ? 1461 : 1459) : len;
        put_number(datagram + 22, offset);
        put_number(datagram + 26, 0);
        datagram[30] = 0;
        memset(datagram + 31, 'a', len);
        say(l, DATA, 31 + len);
        next = least(next, offset + len - read);
        put_number(datagram + 22, i);
        put(datagram + 26, (uint16_t)next);
        say(l, READ, 28);
        read += next;
    }
    for (i = 0; i * 1024 < bytes; i++) {
        put_number(datagram + 22, i * 1024);
        say(l, BYTES, 26);
    }
    for (i = 0; i * 512 < (bytes + 1459) / 1460; i++) {
        put_number(datagram + 22, i * 512);
        say(l, CUTS, 26);
    }
}

int main(int argc, char **argv)
{
    unsigned long rounds, r;
    if (argc != 4)
        return 1;
    heard = strcmp(argv[1], "made") != 0;
    rounds = strtoul(argv[3], NULL, 10);
    for (r = 0; r < rounds; r++) {
        struct log *l = calloc(1, sizeof *l);
        if (!l)
            return 1;
        run(l, (uint32_t)strtoul(argv[2], NULL, 10), strcmp(argv[1], "other") == 0);
        free(l);
    }
    printf("%llu messages, %llu\n", (unsigned long long)messages, (unsigned long long)total);
    return 0;
}
