/* Counts the bytes that the program it is loaded into holds in the heap, and writes them to the file HELD when the
   program asks for its processor time for the first time. */
#define _GNU_SOURCE
#include <dlfcn.h>
#include <malloc.h>
#include <stdio.h>
#include <stdlib.h>
#include <time.h>

static long held;
static int is_told;

static void *taken(void *block) {
    if (block) held += malloc_usable_size(block);
    return block;
}

static void *next(const char *name) { return dlsym(RTLD_NEXT, name); }

void *malloc(size_t size) {
    static void *(*real)(size_t);
    if (!real) real = next("malloc");
    return taken(real(size));
}

void *realloc(void *old, size_t size) {
    static void *(*real)(void *, size_t);
    if (!real) real = next("realloc");
    long before = old ? malloc_usable_size(old) : 0;
    void *block = real(old, size);
    if (block || !size) held -= before;
    return taken(block);
}

void *aligned_alloc(size_t align, size_t size) {
    static void *(*real)(size_t, size_t);
    if (!real) real = next("aligned_alloc");
    return taken(real(align, size));
}

int posix_memalign(void **out, size_t align, size_t size) {
    static int (*real)(void **, size_t, size_t);
    if (!real) real = next("posix_memalign");
    int status = real(out, align, size);
    if (!status) taken(*out);
    return status;
}

void free(void *block) {
    static void (*real)(void *);
    if (!real) real = next("free");
    if (block) held -= malloc_usable_size(block);
    real(block);
}

int clock_gettime(clockid_t clock, struct timespec *time) {
    static int (*real)(clockid_t, struct timespec *);
    if (!real) real = next("clock_gettime");
    const char *path = clock == CLOCK_PROCESS_CPUTIME_ID && !is_told ? getenv("HELD") : NULL;
    if (path) {
        is_told = 1;
        long count = held;
        FILE *file = fopen(path, "w");
        if (file) {
            fprintf(file, "%ld\n", count);
            fclose(file);
        }
    }
    return real(clock, time);
}
