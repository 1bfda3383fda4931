/* Loaded before the C library's functions: the request for memory whose number is in FAILING_REQUEST is refused, the first
 * one being 1. With COUNT_REQUESTS set, the number of requests is written to standard error at the end. */
#define _GNU_SOURCE
#include <dlfcn.h>
#include <errno.h>
#include <stdio.h>
#include <stdlib.h>

static unsigned long requests, failing;
static void *(*next_malloc)(size_t);
static void *(*next_realloc)(void *, size_t);
static void *(*next_aligned_alloc)(size_t, size_t);
static int (*next_posix_memalign)(void **, size_t, size_t);

static void find_next(void) {
    const char *number = getenv("FAILING_REQUEST");
    failing = number ? strtoul(number, NULL, 10) : 0;
    next_realloc = dlsym(RTLD_NEXT, "realloc");
    next_aligned_alloc = dlsym(RTLD_NEXT, "aligned_alloc");
    next_posix_memalign = dlsym(RTLD_NEXT, "posix_memalign");
    next_malloc = dlsym(RTLD_NEXT, "malloc");
}

static int is_refused(void) {
    if (!next_malloc) find_next();
    requests += 1;
    if (requests != failing) return 0;
    errno = ENOMEM;
    return 1;
}

void *malloc(size_t size) { return is_refused() ? NULL : next_malloc(size); }

void *realloc(void *block, size_t size) { return is_refused() ? NULL : next_realloc(block, size); }

void *aligned_alloc(size_t alignment, size_t size) {
    return is_refused() ? NULL : next_aligned_alloc(alignment, size);
}

int posix_memalign(void **block, size_t alignment, size_t size) {
    return is_refused() ? ENOMEM : next_posix_memalign(block, alignment, size);
}

__attribute__((destructor)) static void tell(void) {
    if (getenv("COUNT_REQUESTS")) fprintf(stderr, "%lu\n", requests);
}
