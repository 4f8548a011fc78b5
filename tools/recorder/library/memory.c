/* Memory that is given back with a mutex in it. A std::mutex is made and destroyed without a call, so what has its memory next may be
 * another one. */
#include "library.h"
#include <dlfcn.h>

/* For each 64 bytes of memory, modulo 64 MB: whether a mutex or read-write lock was got there since they were given back. */
#define CELLS (1u << 20)
static uint8_t cells[CELLS];

void note_mutex(const volatile void *mutex) {
    uint8_t *cell = &cells[(uint64_t)mutex >> 6 & (CELLS - 1)];
    if (!*cell) *cell = 1;
}

static int was_in(uint64_t from, uint64_t to) {
    int found = 0;
    uint64_t last = (to - 1) >> 6, first = from >> 6;
    if (last - first >= CELLS) first = last - CELLS + 1;
    for (uint64_t i = first; i <= last; i++)
        if (cells[i & (CELLS - 1)]) cells[i & (CELLS - 1)] = 0, found = 1;
    return found;
}

/* Whether malloc_usable_size is of the allocator that frees: another one's could read memory in front of a block that isn't there. */
int knows_sizes;

void look_at_allocator(void) {
    Dl_info frees, sizes;
    knows_sizes = real[R_free] && real[R_malloc_usable_size] && dladdr(real[R_free], &frees) && dladdr(real[R_malloc_usable_size], &sizes) &&
                  frees.dli_fbase == sizes.dli_fbase;
}

/* Before the calls beneath are known there is no mutex in it. The loader frees memory already then, so they aren't searched for here, and
 * what is freed is lost. */
void free(void *at) {
    if (!at || atomic_load_explicit(&state, memory_order_acquire) != READY) return;
    if (head && knows_sizes) {
        size_t n = REAL(malloc_usable_size)(at);
        if (n >= sizeof(pthread_mutex_t) && was_in((uint64_t)at, (uint64_t)at + n)) put(FREED, at, n, 0);
    }
    REAL(free)(at);
}
