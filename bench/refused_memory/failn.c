/* Loaded before a program by LD_PRELOAD, this library refuses one of its allocations: the one whose number, counted from
 * 1, is in the variable FAIL_AT. Then it makes the empty file that the variable FAIL_MARK names, so that whoever ran the
 * program knows that it came so far. */
#define _GNU_SOURCE
#include <dlfcn.h>
#include <errno.h>
#include <fcntl.h>
#include <stddef.h>
#include <stdlib.h>
#include <unistd.h>

static void *(*next_malloc)(size_t);
static void *(*next_calloc)(size_t, size_t);
static void *(*next_realloc)(void *, size_t);
static void *(*next_aligned_alloc)(size_t, size_t);
static int (*next_posix_memalign)(void **, size_t, size_t);

static long fail_at;
static long count;
static const char *mark;

__attribute__((constructor)) static void find(void) {
    next_malloc = dlsym(RTLD_NEXT, "malloc");
    next_calloc = dlsym(RTLD_NEXT, "calloc");
    next_realloc = dlsym(RTLD_NEXT, "realloc");
    next_aligned_alloc = dlsym(RTLD_NEXT, "aligned_alloc");
    next_posix_memalign = dlsym(RTLD_NEXT, "posix_memalign");
    mark = getenv("FAIL_MARK");
    const char *number = getenv("FAIL_AT");
    fail_at = number ? atol(number) : 0;
}

/* Whether this allocation is the one to refuse. Until the library is ready, none is counted. */
static int refuses(void) {
    if (fail_at == 0 || ++count != fail_at)
        return 0;
    if (mark)
        close(open(mark, O_CREAT | O_WRONLY, 0600));
    errno = ENOMEM;
    return 1;
}

void *malloc(size_t size) {
    if (!next_malloc)
        next_malloc = dlsym(RTLD_NEXT, "malloc");
    return refuses() ? NULL : next_malloc(size);
}

void *calloc(size_t number, size_t size) {
    /* dlsym itself may ask for memory here, and does without */
    if (!next_calloc)
        return NULL;
    return refuses() ? NULL : next_calloc(number, size);
}

void *realloc(void *old, size_t size) {
    if (!next_realloc)
        next_realloc = dlsym(RTLD_NEXT, "realloc");
    return refuses() ? NULL : next_realloc(old, size);
}

void *aligned_alloc(size_t alignment, size_t size) {
    if (!next_aligned_alloc)
        next_aligned_alloc = dlsym(RTLD_NEXT, "aligned_alloc");
    return refuses() ? NULL : next_aligned_alloc(alignment, size);
}

int posix_memalign(void **place, size_t alignment, size_t size) {
    if (!next_posix_memalign)
        next_posix_memalign = dlsym(RTLD_NEXT, "posix_memalign");
    return refuses() ? ENOMEM : next_posix_memalign(place, alignment, size);
}
