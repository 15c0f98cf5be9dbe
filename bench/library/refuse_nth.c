/* A malloc that refuses one call, for LD_PRELOAD: the one whose number REFUSE has, counted from the first call of the library. */
#define _GNU_SOURCE
#include <dlfcn.h>
#include <stdlib.h>

static long left = -1;

void refuse_from_here(long number) { left = number; }

static int refuses(void) { return left > 0 && --left == 0; }

void *malloc(size_t size) {
    static void *(*next)(size_t);
    if (!next) next = dlsym(RTLD_NEXT, "malloc");
    return refuses() ? 0 : next(size);
}

void *realloc(void *at, size_t size) {
    static void *(*next)(void *, size_t);
    if (!next) next = dlsym(RTLD_NEXT, "realloc");
    return refuses() ? 0 : next(at, size);
}
