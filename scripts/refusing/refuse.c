/* Refuses one allocation of memory of the program that it is loaded into, or each from it on.

   REFUSE_AT: the number of the allocation, from 1; 0 refuses none. REFUSE_ON: 1 refuses each from
   it on. REFUSE_COUNT: the file that gets the count of allocations at the end, and how many bytes
   they asked for together. */

#define _GNU_SOURCE
#include <dlfcn.h>
#include <errno.h>
#include <stdio.h>
#include <stdlib.h>

static void *(*real_malloc)(size_t);
static void *(*real_realloc)(void *, size_t);
static unsigned long count, bytes, at;
static int is_each;

static unsigned long number_in(const char *name) {
    const char *text = getenv(name);
    return text ? strtoul(text, NULL, 10) : 0;
}

__attribute__((constructor)) static void begin(void) {
    real_malloc = (void *(*)(size_t))dlsym(RTLD_NEXT, "malloc");
    real_realloc = (void *(*)(void *, size_t))dlsym(RTLD_NEXT, "realloc");
    at = number_in("REFUSE_AT");
    is_each = number_in("REFUSE_ON") != 0;
    count = 0;
}

__attribute__((destructor)) static void end(void) {
    const char *name = getenv("REFUSE_COUNT");
    unsigned long told = count, asked = bytes;
    FILE *file = name ? fopen(name, "w") : NULL;
    if (file) {
        fprintf(file, "%lu %lu\n", told, asked);
        fclose(file);
    }
}

static int is_refused(size_t size) {
    count += 1;
    bytes += size;
    return at && (count == at || (is_each && count > at));
}

void *malloc(size_t size) {
    if (!real_malloc) begin();
    if (is_refused(size)) {
        errno = ENOMEM;
        return NULL;
    }
    return real_malloc(size);
}

void *realloc(void *old, size_t size) {
    if (!real_realloc) begin();
    if (is_refused(size)) {
        errno = ENOMEM;
        return NULL;
    }
    return real_realloc(old, size);
}
