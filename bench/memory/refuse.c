/* Refuses one request for memory of the program it is loaded into: the one whose number REFUSED says, counted from 1; and
   with COUNTED writes to that file how many there were. */
#define _GNU_SOURCE
#include <dlfcn.h>
#include <errno.h>
#include <stdio.h>
#include <stdlib.h>

static long count, refused = -1;
static void *(*next_malloc)(size_t);
static void *(*next_realloc)(void *, size_t);
static void *(*next_aligned)(size_t, size_t);
static int (*next_posix)(void **, size_t, size_t);

static void start(void) {
    if (refused >= 0) return;
    refused = 0;
    next_malloc = dlsym(RTLD_NEXT, "malloc");
    next_realloc = dlsym(RTLD_NEXT, "realloc");
    next_aligned = dlsym(RTLD_NEXT, "aligned_alloc");
    next_posix = dlsym(RTLD_NEXT, "posix_memalign");
    const char *number = getenv("REFUSED");
    count = 0;
    if (number) refused = atol(number);
}

static int is_refused(void) {
    start();
    return ++count == refused;
}

void *malloc(size_t size) { return is_refused() ? (errno = ENOMEM, NULL) : next_malloc(size); }
void *realloc(void *old, size_t size) { return is_refused() ? (errno = ENOMEM, NULL) : next_realloc(old, size); }
void *aligned_alloc(size_t align, size_t size)
{
    return is_refused() ? (errno = ENOMEM, NULL) : next_aligned(align, size);
}
int posix_memalign(void **out, size_t align, size_t size)
{
    return is_refused() ? ENOMEM : next_posix(out, align, size);
}

__attribute__((destructor)) static void tell(void) {
    const char *path = getenv("COUNTED");
    FILE *file = path ? fopen(path, "w") : NULL;
    if (!file) return;
    fprintf(file, "%ld\n", count);
    fclose(file);
}
