/* Loaded before the C library: lets the request for memory of the number REFUSE fail, once; counts all, from 1. At the end the count
   is written to the file descriptor COUNT, where there is one. */
#define _GNU_SOURCE
#include <dlfcn.h>
#include <stddef.h>
#include <stdio.h>
#include <stdlib.h>

static long made;

static long number_of(const char *name) {
    const char *text = getenv(name);
    return text ? atol(text) : 0;
}

static int is_refused(void) {
    static long refused = -1;
    if (refused < 0) refused = number_of("REFUSE");
    made++;
    return made == refused;
}

void *malloc(size_t size) {
    static void *(*next)(size_t);
    if (!next) next = (void *(*)(size_t))dlsym(RTLD_NEXT, "malloc");
    return is_refused() ? NULL : next(size);
}

void *realloc(void *block, size_t size) {
    static void *(*next)(void *, size_t);
    if (!next) next = (void *(*)(void *, size_t))dlsym(RTLD_NEXT, "realloc");
    return is_refused() ? NULL : next(block, size);
}

__attribute__((destructor)) static void say(void) {
    long count = number_of("COUNT");
    if (count > 0) dprintf(count, "%ld\n", made);
}
