/* Refuses one allocation of a program: the one whose number, from 1, stands in the variable FAIL_ALLOC. Says "refused" on standard error
   when it does. Loaded before the C library (LD_PRELOAD), by memory.sh. */
#define _GNU_SOURCE
#include <dlfcn.h>
#include <errno.h>
#include <stddef.h>
#include <stdlib.h>
#include <unistd.h>

static long left = -1;

static int refuses(void) {
    if (left < 0) {
        const char *number = getenv("FAIL_ALLOC");
        left = number ? atol(number) : 0;
    }
    if (left == 0 || --left != 0) {
        return 0;
    }
    static const char said[] = "refused\n";
    ssize_t written = write(2, said, sizeof said - 1);
    (void)written;
    errno = ENOMEM;
    return 1;
}

void *malloc(size_t size) {
    static void *(*real)(size_t);
    if (!real) {
        real = (void *(*)(size_t))dlsym(RTLD_NEXT, "malloc");
    }
    return refuses() ? NULL : real(size);
}

void *realloc(void *old, size_t size) {
    static void *(*real)(void *, size_t);
    if (!real) {
        real = (void *(*)(void *, size_t))dlsym(RTLD_NEXT, "realloc");
    }
    return refuses() ? NULL : real(old, size);
}

void *aligned_alloc(size_t alignment, size_t size) {
    static void *(*real)(size_t, size_t);
    if (!real) {
        real = (void *(*)(size_t, size_t))dlsym(RTLD_NEXT, "aligned_alloc");
    }
    return refuses() ? NULL : real(alignment, size);
}

int posix_memalign(void **place, size_t alignment, size_t size) {
    static int (*real)(void **, size_t, size_t);
    if (!real) {
        real = (int (*)(void **, size_t, size_t))dlsym(RTLD_NEXT, "posix_memalign");
    }
    return refuses() ? ENOMEM : real(place, alignment, size);
}
