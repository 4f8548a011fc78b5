/* Makes one allocation of a program fail: the one whose number FAILING_ALLOCATION says, counted from 1. Where FAILING_BESIDE is set, each fails that
   another thread than the first makes. To be loaded before the C library. */
#define _GNU_SOURCE
#include <dlfcn.h>
#include <errno.h>
#include <stdatomic.h>
#include <stddef.h>
#include <stdlib.h>
#include <sys/syscall.h>
#include <unistd.h>

static void *(*plain_malloc)(size_t);
static void *(*plain_realloc)(void *, size_t);
static unsigned long failing;
static int beside;
static atomic_ulong made;

__attribute__((constructor)) static void begin(void) {
    const char *text = getenv("FAILING_ALLOCATION");
    plain_malloc = dlsym(RTLD_NEXT, "malloc");
    plain_realloc = dlsym(RTLD_NEXT, "realloc");
    atomic_store(&made, 0);
    failing = text ? strtoul(text, NULL, 10) : 0;
    beside = getenv("FAILING_BESIDE") != NULL;
}

static int fails(void) {
    int late = beside && syscall(SYS_gettid) != getpid();
    if (!late && (failing == 0 || atomic_fetch_add(&made, 1) + 1 != failing)) return 0;
    errno = ENOMEM;
    return 1;
}

void *malloc(size_t size) {
    if (!plain_malloc) plain_malloc = dlsym(RTLD_NEXT, "malloc");
    return fails() ? NULL : plain_malloc(size);
}

void *realloc(void *old, size_t size) {
    if (!plain_realloc) plain_realloc = dlsym(RTLD_NEXT, "realloc");
    return fails() ? NULL : plain_realloc(old, size);
}
