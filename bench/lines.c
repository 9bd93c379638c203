/* Writes the lines of the turns in which one client sends a byte and hears its echo, with fprintf: CYCLES of them, ROUNDS times, the lines that
 * `part_cases wire lines write CYCLES ROUNDS` writes. */
#include <stdio.h>
#include <stdlib.h>

static const char *KEY = "192.0.2.1:40000";

static void from_client(unsigned p, unsigned seq, unsigned ack, const char *data) {
    fprintf(stdout, "packet %u 1>S A seq %u ack %u window 65535 mss - data %s\n", p, seq, ack, data);
}

static void to_client(unsigned p, unsigned seq, unsigned ack, const char *data) {
    fprintf(stdout, "packet %u S>1 A seq %u ack %u window 65535 mss - data %s\n", p, seq, ack, data);
}

static void to_logger(unsigned p, unsigned offset, unsigned acked, const char *bytes) {
    fprintf(stdout, "packet %u S>L Data boot 1 key %s offset %u acked %u fin 0 bytes %s\n", p, KEY, offset, acked, bytes);
}

static void from_logger(unsigned p, const char *kind, unsigned length, unsigned reads) {
    fprintf(stdout, "packet %u L>S %s boot 1 key %s length %u fin 0 reads %u\n", p, kind, KEY, length, reads);
}

static void delivered(unsigned event, unsigned p) {
    fprintf(stdout, "event %u deliver %u\n", event, p);
}

static void cycle(unsigned i) {
    unsigned p = 8 + 11 * i, e = 11 + 10 * i;
    char byte[3];
    snprintf(byte, sizeof byte, "%02x", i % 256);
    fprintf(stdout, "event %u send 1 %u 1\n", e, i);
    from_client(p, 1001 + i, 5001 + i, byte);
    delivered(e + 1, p);
    to_client(p + 1, 5001 + i, 1001 + i, "-");
    to_logger(p + 2, i, i, byte);
    fprintf(stdout, "packet %u S>L Read boot 1 key %s index %u length 1\n", p + 3, KEY, i);
    delivered(e + 2, p + 2);
    from_logger(p + 4, "Stable", i + 1, i);
    delivered(e + 3, p + 4);
    to_client(p + 5, 5001 + i, 1002 + i, "-");
    delivered(e + 4, p + 3);
    from_logger(p + 6, "Reads", i + 1, i + 1);
    delivered(e + 5, p + 6);
    to_client(p + 7, 5001 + i, 1002 + i, byte);
    delivered(e + 6, p + 7);
    fprintf(stdout, "event %u ack 1 65535\n", e + 7);
    from_client(p + 8, 1002 + i, 5002 + i, "-");
    delivered(e + 8, p + 8);
    to_logger(p + 9, i + 1, i + 1, "-");
    delivered(e + 9, p + 9);
    from_logger(p + 10, "Stable", i + 1, i + 1);
}

int main(int argc, char **argv) {
    unsigned cycles = argc > 1 ? (unsigned)atoi(argv[1]) : 0, rounds = argc > 2 ? (unsigned)atoi(argv[2]) : 0;
    for (unsigned round = 0; round < rounds; round++)
        for (unsigned i = 0; i < cycles; i++) cycle(i);
    return 0;
}
