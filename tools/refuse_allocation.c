/* Refuses one allocation: the one whose number, from 1, stands in REFUSED. Loaded before the C library by
   tools/refused_allocations. */
#define _GNU_SOURCE
#include <dlfcn.h>
#include <stddef.h>
#include <stdlib.h>

static int refused(void) {
    static long before = 0, number = -1;
    if (number < 0) {
        const char *word = getenv("REFUSED");
        number = word ? atol(word) : 0;
    }
    return ++before == number;
}

void *malloc(size_t size) {
    static void *(*next)(size_t);
    if (!next) next = (void *(*)(size_t))dlsym(RTLD_NEXT, "malloc");
    return refused() ? NULL : next(size);
}

void *realloc(void *old, size_t size) {
    static void *(*next)(void *, size_t);
    if (!next) next = (void *(*)(void *, size_t))dlsym(RTLD_NEXT, "realloc");
    return refused() ? NULL : next(old, size);
}
