/* A library that is loaded before libc: it tells each allocation by a byte on descriptor 3, and refuses the one whose number, from 1, is in the
   environment, for bench/memory.sh and bench/log_memory.sh. */
#define _GNU_SOURCE
#include <dlfcn.h>
#include <errno.h>
#include <stdlib.h>
#include <unistd.h>

static int is_refused(void) {
    static long calls, refused = -1;
    if (refused < 0) {
        const char *number = getenv("REFUSED");
        refused = number ? atol(number) : 0;
    }
    if (write(3, ".", 1) != 1) errno = 0;
    return ++calls == refused;
}

#define REFUSE(name, args, pass)                           \
    void *name args {                                      \
        static void *(*real) args;                         \
        if (!real) real = dlsym(RTLD_NEXT, #name);         \
        if (is_refused()) { errno = ENOMEM; return NULL; } \
        return real pass;                                  \
    }

REFUSE(malloc, (size_t size), (size))
REFUSE(realloc, (void *old, size_t size), (old, size))
