/* Sends one TCP packet again and again, as fast as it can: flood SOURCE DESTINATION PORT BYTES SECONDS. The packet has BYTES bytes with its headers, no flag but
   ACK, and a right IPv4 checksum (the kernel fills it in). It prints how many it sent. It needs root (a raw socket). For bench/gateway.sh. */
#define _GNU_SOURCE
#include <arpa/inet.h>
#include <stdio.h>
#include <stdlib.h>
#include <string.h>
#include <sys/socket.h>
#include <time.h>

enum { BATCH = 64 };

static double now(void) {
    struct timespec t;
    clock_gettime(CLOCK_MONOTONIC, &t);
    return t.tv_sec + t.tv_nsec / 1e9;
}

int main(int count, char **words) {
    unsigned char packet[1500] = {0x45};
    struct sockaddr_in to = {.sin_family = AF_INET};
    struct mmsghdr batch[BATCH];
    struct iovec piece = {packet, 0};
    if (count != 6) {
        fputs("flood SOURCE DESTINATION PORT BYTES SECONDS\n", stderr);
        return 2;
    }
    piece.iov_len = strtoul(words[4], NULL, 10);
    if (piece.iov_len < 40 || piece.iov_len > sizeof packet) return 2;
    packet[2] = piece.iov_len >> 8, packet[3] = piece.iov_len & 255;
    packet[6] = 0x40, packet[8] = 64, packet[9] = 6;
    inet_pton(AF_INET, words[1], packet + 12);
    inet_pton(AF_INET, words[2], packet + 16);
    to.sin_addr.s_addr = inet_addr(words[2]);
    packet[20] = 0x9c, packet[21] = 0x40; /* port 40000 */
    packet[22] = atoi(words[3]) >> 8, packet[23] = atoi(words[3]) & 255;
    packet[32] = 0x50, packet[33] = 0x10;
    int link = socket(AF_INET, SOCK_RAW, IPPROTO_RAW);
    if (link < 0) {
        perror("flood");
        return 1;
    }
    memset(batch, 0, sizeof batch);
    for (int i = 0; i < BATCH; i++) batch[i].msg_hdr = (struct msghdr){&to, sizeof to, &piece, 1, NULL, 0, 0};
    unsigned long sent = 0;
    double end = now() + atof(words[5]);
    while (now() < end) {
        int some = sendmmsg(link, batch, BATCH, 0);
        if (some > 0) sent += some;
    }
    printf("%lu\n", sent);
    return 0;
}
