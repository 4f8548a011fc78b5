/* What each thread writes into: chunks of the record file, one for each depth of signal handlers that interrupt the recording itself. */
#include "library.h"
#include <errno.h>
#include <sys/mman.h>
#include <sys/syscall.h>
#include <unistd.h>

#define SMALLEST 4096ull /* of a thread's first chunk, in bytes; each later one is 4 times as large, up to LARGEST */
#define LARGEST 1048576ull

__thread struct me me __attribute__((tls_model("initial-exec")));
_Atomic uint32_t threads;
pthread_key_t key;

/* Gives the lane room for a record. */
static int more(struct lane *lane) {
    int error = errno, cancel;
    pthread_setcancelstate(PTHREAD_CANCEL_DISABLE, &cancel); /* files are opened here */
    if (!me.known) {
        me.known = 1;
        me.thread = atomic_fetch_add(&threads, 1);
    }
    if (!me.owner && !is_provided()) me.owner = (int)REAL(syscall)(SYS_gettid);
    pthread_setspecific(key, &me);
    drop_chunk(lane->chunk);
    lane->size = lane->size == 0 ? SMALLEST : lane->size < LARGEST ? 4 * lane->size : LARGEST;
    lane->chunk = new_chunk(lane->size, me.thread);
    lane->count = 0;
    lane->room = lane->chunk ? (lane->size - sizeof(struct chunk)) / sizeof(struct record) : 0;
    pthread_setcancelstate(cancel, NULL);
    errno = error;
    return lane->chunk != NULL;
}

struct lane *enter_slowly(void) {
    if (!head || atomic_load_explicit(&stopped, memory_order_relaxed)) return NULL;
    if (atomic_load_explicit(here, memory_order_relaxed) != 1) begin_forked();
    if (!head) return NULL;
    if (me.depth == LANES) {
        stop("signal handlers interrupt each other");
        return NULL;
    }
    struct lane *lane = &me.lanes[me.depth++];
    atomic_signal_fence(memory_order_seq_cst);
    if (lane->count < lane->room || more(lane)) return lane;
    me.depth--;
    return NULL;
}

void put(enum operation operation, const volatile void *a, uint64_t b, uint32_t place) {
    struct lane *lane = enter();
    if (!lane) return;
    struct record *r = (struct record *)(lane->chunk + 1) + lane->count;
    uint64_t ticks = ticks_now();
    me.last = atomic_fetch_add(&head->next, 1);
    r->number = ticks >> 32 << NUMBER_BITS | me.last;
    r->what = (uint64_t)operation << 56 | (uint64_t)a;
    r->b = b;
    r->place = place;
    r->ticks = (uint32_t)ticks;
    __atomic_store_n(&lane->chunk->count, ++lane->count, __ATOMIC_RELEASE);
    leave();
}

void count(enum left_out kind) {
    struct lane *lane = enter();
    if (!lane) return;
    lane->chunk->left_out[kind]++;
    leave();
}

void drop_lanes(void) {
    for (int i = 0; i < LANES; i++) {
        struct lane lane = me.lanes[i];
        me.lanes[i] = (struct lane){ 0 };
        drop_chunk(lane.chunk), drop_chunk(lane.places);
        forget_places(&lane);
    }
}

void thread_ended(void *of) {
    (void)of;
    int error = errno;
    put(THREAD_END, NULL, 0, 0);
    if (head && atomic_load(here) == 1 && me.depth == 0) drop_lanes();
    errno = error;
}
