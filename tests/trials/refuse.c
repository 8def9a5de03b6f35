/* Loaded before the C library (LD_PRELOAD): refuses one growth of memory, that of the number in REFUSE, and says at the
   end on standard error how many there were. */
#define _GNU_SOURCE
#include <dlfcn.h>
#include <errno.h>
#include <stdio.h>
#include <stdlib.h>

static long asked, refused = -1;

static int refuses(void) {
    if (refused < 0) refused = getenv("REFUSE") ? atol(getenv("REFUSE")) : 0;
    if (++asked != refused) return 0;
    errno = ENOMEM;
    return 1;
}

void *malloc(size_t size) {
    static void *(*next)(size_t);
    if (!next) next = dlsym(RTLD_NEXT, "malloc");
    return refuses() ? NULL : next(size);
}

void *realloc(void *old, size_t size) {
    static void *(*next)(void *, size_t);
    if (!next) next = dlsym(RTLD_NEXT, "realloc");
    return refuses() ? NULL : next(old, size);
}

__attribute__((destructor)) static void tell(void) {
    long growths = asked;
    fprintf(stderr, "growths %ld\n", growths);
}
