/* What bench/journal.sh has beside `ftnode logger --journal`:
 *     journal serve PORT [FILE]       a logger of one connection, which keeps its log in FILE: the messages of a round that changed the log, with their length, in one
 *                                     write, fdatasync, and then the answers
 *     journal ask PORT AHEAD COUNT    sends Data of 1,460 bytes, AHEAD of them under way, until COUNT are in the log, and prints how many microseconds that took
 *     journal read FILE               reads a file from the disk, and prints its bytes and how many microseconds that took
 */
#define _GNU_SOURCE
#include <arpa/inet.h>
#include <fcntl.h>
#include <stdint.h>
#include <stdio.h>
#include <stdlib.h>
#include <string.h>
#include <sys/socket.h>
#include <sys/time.h>
#include <time.h>
#include <unistd.h>

#include "log.h"

enum { ROUND = 256, TEXT = 1460, ROOM = 2048 };

static int fail(const char *what)
{
    perror(what);
    exit(1);
}

static long microseconds(void)
{
    struct timespec now;
    clock_gettime(CLOCK_MONOTONIC, &now);
    return now.tv_sec * 1000000L + now.tv_nsec / 1000;
}

static int bound(unsigned short port, struct timeval patience)
{
    int here = socket(AF_INET, SOCK_DGRAM, 0);
    struct sockaddr_in at = {.sin_family = AF_INET, .sin_port = htons(port), .sin_addr.s_addr = htonl(INADDR_LOOPBACK)};
    if (bind(here, (struct sockaddr *)&at, sizeof at) != 0 || setsockopt(here, SOL_SOCKET, SO_RCVTIMEO, &patience, sizeof patience) != 0)
        fail("bind");
    return here;
}

static void write_at(int file, const uint8_t *bytes, size_t n, off_t at)
{
    while (n > 0) {
        ssize_t done = pwrite(file, bytes, n, at);
        if (done <= 0)
            fail("write");
        bytes += done, n -= (size_t)done, at += done;
    }
}

static void sync_data(int file)
{
    if (fdatasync(file) != 0)
        fail("fdatasync");
}

/* the block of a round, and where it goes */
static uint8_t block[4 + ROUND * MOST];
static size_t filled;
static off_t end;

static void keep(int file)
{
    if (filled == 0)
        return;
    put_number(block, (uint32_t)filled);
    write_at(file, block, 4 + filled, end);
    sync_data(file);
    end += 4 + (off_t)filled;
    filled = 0;
}

/* a new file */
static int open_new(const char *name)
{
    int file = open(name, O_RDWR | O_CREAT | O_TRUNC, 0600);
    if (file < 0)
        fail(name);
    return file;
}

static int is_other(const struct log *before, const struct log *now)
{
    return before->boot != now->boot || before->is_open != now->is_open || before->fin != now->fin || before->acked != now->acked
        || before->length != now->length || before->reads != now->reads;
}

struct waiting {
    struct sockaddr_in to;
    size_t length;
    uint8_t bytes[ROOM];
};

static void serve(unsigned short port, const char *name)
{
    static struct waiting answers[ROUND];
    static struct log kept, before; /* of the latter what stands before the bytes */
    static uint8_t datagram[ROOM];
    int here = bound(port, (struct timeval){0, 20000}), file = name ? open_new(name) : -1;
    for (;;) {
        size_t count = 0, i;
        while (count < ROUND) {
            struct waiting *one = &answers[count];
            socklen_t size = sizeof one->to;
            ssize_t n = recvfrom(here, datagram, sizeof datagram, count ? MSG_DONTWAIT : 0, (struct sockaddr *)&one->to, &size);
            if (n < 0)
                break;
            memcpy(&before, &kept, offsetof(struct log, bytes));
            one->length = answer(&kept, datagram, (size_t)n, one->bytes);
            if (file >= 0 && is_other(&before, &kept)) {
                memcpy(block + 4 + filled, datagram, (size_t)n);
                filled += (size_t)n;
            }
            count++;
        }
        keep(file);
        for (i = 0; i < count; i++)
            if (answers[i].length > 0 && sendto(here, answers[i].bytes, answers[i].length, 0, (struct sockaddr *)&answers[i].to, sizeof answers[i].to) < 0)
                fail("send");
    }
}

static size_t data_of(uint8_t *p, uint32_t offset)
{
    put_key(p);
    put_number(p + 22, offset);
    put_number(p + 26, 0);
    p[30] = 0;
    memset(p + 31, 'a', TEXT);
    return seal(p, DATA, 1, 31 + TEXT);
}

static size_t open_of(uint8_t *p)
{
    put_key(p);
    put_number(p + 22, 1000);
    put_number(p + 26, 5000);
    put(p + 30, 1460);
    return seal(p, OPEN, 1, 32);
}

/* asks until it is answered */
static void settle(int here, const uint8_t *bytes, size_t n)
{
    static uint8_t answer[ROOM];
    do
        send(here, bytes, n, 0);
    while (recv(here, answer, sizeof answer, 0) < 0);
}

static void ask(unsigned short port, uint32_t ahead, uint32_t count)
{
    static uint8_t datagram[ROOM], said[ROOM];
    struct sockaddr_in to = {.sin_family = AF_INET, .sin_port = htons(port), .sin_addr.s_addr = htonl(INADDR_LOOPBACK)};
    int here = bound(0, (struct timeval){2, 0});
    uint32_t sent = 0, stable = 0;
    long begun;
    if (connect(here, (struct sockaddr *)&to, sizeof to) != 0)
        fail("connect");
    settle(here, datagram, seal(datagram, HELLO, 1, 16));
    settle(here, datagram, open_of(datagram));
    begun = microseconds();
    while (stable < count) {
        ssize_t n;
        while (sent < count && sent < stable + ahead) {
            n = (ssize_t)data_of(datagram, sent * TEXT);
            if (send(here, datagram, (size_t)n, 0) == n)
                sent++;
        }
        n = recv(here, said, sizeof said, 0);
        if (n < 0) { /* something was lost: once more from what is logged */
            fprintf(stderr, "silence after %u of %u\n", stable, count);
            sent = stable;
        } else if (n == 31 && said[3] == STABLE && sum(said, 31) == 0xFFFF && number(said + 22) / TEXT > stable)
            stable = number(said + 22) / TEXT;
    }
    printf("%ld\n", microseconds() - begun);
}

static void read_whole(const char *name)
{
    static uint8_t chunk[65536];
    int file = open(name, O_RDONLY);
    long total = 0, begun;
    ssize_t n;
    if (file < 0 || posix_fadvise(file, 0, 0, POSIX_FADV_DONTNEED) != 0)
        fail(name);
    begun = microseconds();
    while ((n = read(file, chunk, sizeof chunk)) > 0)
        total += n;
    printf("%ld %ld\n", total, microseconds() - begun);
}

int main(int argc, char **argv)
{
    if ((argc == 3 || argc == 4) && strcmp(argv[1], "serve") == 0)
        serve((unsigned short)atoi(argv[2]), argc > 3 ? argv[3] : NULL);
    else if (argc == 5 && strcmp(argv[1], "ask") == 0)
        ask((unsigned short)atoi(argv[2]), (uint32_t)atoi(argv[3]), (uint32_t)atoi(argv[4]));
    else if (argc == 3 && strcmp(argv[1], "read") == 0)
        read_whole(argv[2]);
    else
        return 1;
    return 0;
}
