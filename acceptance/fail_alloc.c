/* Fails the allocation of the number FAIL_AT, from 1 on, and no other. At the end it writes how many there were to the file
   ALLOCATIONS, where that is named. For LD_PRELOAD. */
#define _GNU_SOURCE
#include <dlfcn.h>
#include <stdio.h>
#include <stdlib.h>

static unsigned long count, fail_at;

static void *(*next_malloc)(size_t);
static void *(*next_realloc)(void *, size_t);

__attribute__((constructor)) static void begin(void) {
    const char *at = getenv("FAIL_AT");
    next_malloc = dlsym(RTLD_NEXT, "malloc");
    next_realloc = dlsym(RTLD_NEXT, "realloc");
    count = 0;
    fail_at = at ? strtoul(at, NULL, 10) : 0;
}

__attribute__((destructor)) static void end(void) {
    const char *name = getenv("ALLOCATIONS");
    FILE *file;
    fail_at = 0;
    if (name && (file = fopen(name, "w"))) {
        fprintf(file, "%lu\n", count);
        fclose(file);
    }
}

void *malloc(size_t size) {
    if (!next_malloc)
        next_malloc = dlsym(RTLD_NEXT, "malloc");
    return ++count == fail_at ? NULL : next_malloc(size);
}

void *realloc(void *old, size_t size) {
    if (!next_realloc)
        next_realloc = dlsym(RTLD_NEXT, "realloc");
    return ++count == fail_at ? NULL : next_realloc(old, size);
}
