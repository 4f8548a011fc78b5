/* What the parts of the preloaded library share. */
#ifndef LIBRARY_H
#define LIBRARY_H
#define _GNU_SOURCE
#include "../record.h"
#include <pthread.h>
#include <semaphore.h>
#include <dlfcn.h>
#include <malloc.h>
#include <stdlib.h>
#include <threads.h>
#include <time.h>
#include <unistd.h>

#define HIDDEN __attribute__((visibility("hidden")))

/* ---- threads.c: what each thread writes into ---- */

#define LANES 3 /* a call, one of a signal handler in the midst of its recording, and one in the midst of that */
struct remembered;
struct lane {
    struct chunk *chunk, *places;
    uint32_t count, room, n_places, places_room, first_place, unwound, found;
    uint64_t size, places_size;
    struct remembered *memory; /* places that this lane has seen */
};
struct me {
    uint32_t known, thread;
    int depth, begins;
    int owner, owner_before_fork; /* what the C library writes into a mutex that this thread has */
    uint64_t last;
    struct lane lanes[LANES];
};
extern HIDDEN __thread struct me me __attribute__((tls_model("initial-exec")));
extern HIDDEN _Atomic uint32_t threads;
extern HIDDEN pthread_key_t key;

HIDDEN struct lane *enter_slowly(void);
HIDDEN void put(enum operation operation, const volatile void *a, uint64_t b, uint32_t place);
HIDDEN void count(enum left_out kind);
HIDDEN void drop_lanes(void);
HIDDEN void thread_ended(void *of);

/* ---- places.c: where a call comes from ---- */

struct site { void *from, *frame; };
#define FROM ((struct site){ __builtin_return_address(0), __builtin_dwarf_cfa() })
HIDDEN uint32_t place_of(struct site site);
HIDDEN void forget_places(struct lane *lane);
HIDDEN void forget_all_places(void);
HIDDEN void put_modules(void);
HIDDEN void put_modules_again(void);

/* ---- file.c: the record file of a process ---- */

enum { UNBEGUN, BEGINNING, READY };
extern HIDDEN _Atomic int state, stopped;
extern HIDDEN _Atomic int *here; /* 1; in a forked process 0 at first, 2 while it begins its own file */
extern HIDDEN struct head *head; /* NULL: nothing is recorded */
extern HIDDEN int kept_file;     /* a descriptor of the file, which the program doesn't know; -1: none */
HIDDEN void stop(const char *why);
HIDDEN struct chunk *new_chunk(uint64_t size, uint32_t thread);
HIDDEN void drop_chunk(struct chunk *chunk);
HIDDEN void begin_forked(void);
HIDDEN void provide(void); /* room for the time when the program forbids itself system calls */
HIDDEN int is_provided(void);
HIDDEN int begin_slowly(void);

/* Whether the calls beneath are known. No: this call comes from their search itself, before there is a second thread. */
static inline int begin(void) {
    return __builtin_expect(atomic_load_explicit(&state, memory_order_acquire) == READY, 1) || begin_slowly();
}

/* Where this thread records; NULL: it doesn't now. leave() ends what it began. */
static inline struct lane *enter(void) {
    int *depth = &me.depth;
    struct lane *lane = &me.lanes[*depth];
    if (__builtin_expect(!head || atomic_load_explicit(&stopped, memory_order_relaxed) ||
                             atomic_load_explicit(here, memory_order_relaxed) != 1 || *depth == LANES || lane->count == lane->room, 0))
        return enter_slowly();
    ++*depth;
    atomic_signal_fence(memory_order_seq_cst);
    return lane;
}

static inline void leave(void) {
    atomic_signal_fence(memory_order_seq_cst);
    me.depth--;
}

/* ---- the calls that are taken over, with the version that is wanted where an old one of another meaning exists ---- */

#define CALLS(X) \
    X(pthread_mutex_lock, 0) X(pthread_mutex_unlock, 0) X(pthread_mutex_trylock, 0) X(pthread_mutex_timedlock, 0) X(pthread_mutex_clocklock, 0) \
    X(pthread_mutex_init, 0) X(pthread_mutex_destroy, 0) X(pthread_cond_wait, "GLIBC_2.3.2") X(pthread_cond_timedwait, "GLIBC_2.3.2") \
    X(pthread_cond_clockwait, 0) X(pthread_cond_signal, "GLIBC_2.3.2") X(pthread_cond_broadcast, "GLIBC_2.3.2") \
    X(pthread_cond_init, "GLIBC_2.3.2") X(pthread_cond_destroy, "GLIBC_2.3.2") X(sem_init, 0) X(sem_destroy, 0) X(sem_wait, 0) \
    X(sem_trywait, 0) X(sem_timedwait, 0) X(sem_clockwait, 0) X(sem_post, 0) X(pthread_create, 0) X(pthread_join, 0) \
    X(pthread_rwlock_rdlock, 0) X(pthread_rwlock_wrlock, 0) X(pthread_rwlock_tryrdlock, 0) X(pthread_rwlock_trywrlock, 0) \
    X(pthread_rwlock_timedrdlock, 0) X(pthread_rwlock_timedwrlock, 0) X(pthread_rwlock_clockrdlock, 0) X(pthread_rwlock_clockwrlock, 0) \
    X(pthread_rwlock_unlock, 0) X(pthread_rwlock_init, 0) X(pthread_rwlock_destroy, 0) \
    X(pthread_barrier_wait, 0) X(pthread_spin_lock, 0) X(pthread_spin_trylock, 0) X(mtx_lock, 0) \
    X(mtx_unlock, 0) X(mtx_trylock, 0) X(mtx_timedlock, 0) X(mtx_init, 0) X(mtx_destroy, 0) X(cnd_wait, 0) X(cnd_timedwait, 0) X(cnd_signal, 0) \
    X(cnd_broadcast, 0) X(cnd_init, 0) X(cnd_destroy, 0) X(thrd_create, 0) X(thrd_join, 0) X(free, 0) X(malloc_usable_size, 0) X(syscall, 0) \
    X(prctl, 0) X(close, 0) X(close_range, 0) X(closefrom, 0) X(dlopen, 0)
#define CALL_NUMBER(name, version) R_##name,
enum { CALLS(CALL_NUMBER) HOW_MANY };
extern HIDDEN void *real[HOW_MANY];
#define REAL(name) ((__typeof__(&name))real[R_##name])

/* ---- memory.c: memory that is given back with a mutex in it ---- */

HIDDEN void note_mutex(const volatile void *mutex);
extern HIDDEN int knows_sizes;
HIDDEN void look_at_allocator(void);

/* A call that has to wait. Where the thread is cancelled in it, that is recorded too. */
struct blocking { const volatile void *object; uint32_t place; int open; };
static inline void end_blocking(struct blocking *b) {
    if (b->open) put(UNBLOCKED, b->object, 0, b->place);
    b->open = 0;
}
#define BLOCKING(object, wait_for, place) \
    struct blocking blocking __attribute__((cleanup(end_blocking))) = { object, place, 1 }; \
    put(BLOCKED, object, wait_for, place)

#endif
