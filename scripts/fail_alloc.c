/* Preloaded beside a program, lets one of its allocations fail: the one whose number, from 1, FAIL_ALLOC says. Where COUNT_TO names
 * a file, the count of allocations is written there at the end. */
#define _GNU_SOURCE
#include <dlfcn.h>
#include <stdio.h>
#include <stdlib.h>

static unsigned long calls;

static int fails(void) {
    const char *number = getenv("FAIL_ALLOC");
    calls++;
    return number != NULL && calls == strtoul(number, NULL, 10);
}

void *malloc(size_t size) {
    static void *(*next)(size_t);
    if (next == NULL) next = dlsym(RTLD_NEXT, "malloc");
    return fails() ? NULL : next(size);
}

void *realloc(void *old, size_t size) {
    static void *(*next)(void *, size_t);
    if (next == NULL) next = dlsym(RTLD_NEXT, "realloc");
    return fails() ? NULL : next(old, size);
}

__attribute__((destructor)) static void tell(void) {
    const char *name = getenv("COUNT_TO");
    unsigned long count = calls;
    FILE *file = name == NULL ? NULL : fopen(name, "w");
    if (file == NULL) return;
    fprintf(file, "%lu\n", count);
    fclose(file);
}
