/* Refuses one request of a program for memory: the one whose number REFUSE has, counted from 1; and says so on standard
 * error. refuse.py loads it in front of the C library. */
#define _GNU_SOURCE
#include <dlfcn.h>
#include <errno.h>
#include <stdlib.h>
#include <string.h>
#include <unistd.h>

static unsigned long asked;

static int refuses(void) {
    static unsigned long wanted;
    static const char said[] = "refused\n";
    if (!wanted) {
        const char *text = getenv("REFUSE");
        wanted = text ? strtoul(text, NULL, 10) : (unsigned long)-1;
    }
    if (++asked != wanted)
        return 0;
    if (write(2, said, strlen(said)) < 0)
        _exit(99);
    errno = ENOMEM;
    return 1;
}

void *malloc(size_t size) {
    static void *(*next)(size_t);
    if (!next)
        next = (void *(*)(size_t))dlsym(RTLD_NEXT, "malloc");
    return refuses() ? NULL : next(size);
}

void *realloc(void *old, size_t size) {
    static void *(*next)(void *, size_t);
    if (!next)
        next = (void *(*)(void *, size_t))dlsym(RTLD_NEXT, "realloc");
    return refuses() ? NULL : next(old, size);
}

void *aligned_alloc(size_t alignment, size_t size) {
    static void *(*next)(size_t, size_t);
    if (!next)
        next = (void *(*)(size_t, size_t))dlsym(RTLD_NEXT, "aligned_alloc");
    return refuses() ? NULL : next(alignment, size);
}

int posix_memalign(void **to, size_t alignment, size_t size) {
    static int (*next)(void **, size_t, size_t);
    if (!next)
        next = (int (*)(void **, size_t, size_t))dlsym(RTLD_NEXT, "posix_memalign");
    return refuses() ? ENOMEM : next(to, alignment, size);
}
