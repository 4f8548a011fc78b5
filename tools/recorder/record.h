/* A record file: what the preloaded library (library/) writes and the converter (converter/) reads.
 *
 * The first page is the head. Then come chunks, each from a page's beginning on: a chunk's head and its contents. A page that is reserved
 * and not yet begun is zero. All of it is mapped and shared, so what a thread has published is in the file whatever ends the process. */
#ifndef RECORD_H
#define RECORD_H
#include <stdatomic.h>
#include <stdint.h>

#define RECORD_MAGIC "firefly-record 2"
#define CHUNK_MAGIC 0x6b6e7568632d6666ull
#define PAGE 4096ull

/* In place of a chunk's thread. */
#define MODULES UINT32_MAX      /* the contents are a text: bias, begin, end, x or - and file of each segment, a line each */
#define PLACES (UINT32_MAX - 1) /* the contents are places, whose first number is in left_out[0] */

/* Kinds of calls that are left out of traces, and counted; of tries those that got nothing. */
enum left_out { LEFT_BARRIER, LEFT_SPIN, LEFT_TRY, LEFT_OUT_KINDS };

struct head {
    char magic[16];
    char name[64];         /* of this file, without its folder */
    char forked_from[64];  /* of the file of the process that this one was forked from; empty: none */
    uint64_t fork_thread;  /* the thread that forked, with the same number in both files */
    uint64_t fork_number;  /* and the next number at that time */
    uint64_t pid;
    char program[256];
    /* From this number on records may be missing; UINT64_MAX: none is. */
    _Atomic uint64_t stop;
    char why[128];
    _Atomic uint64_t futex_calls;    /* by syscall(), which the C library itself doesn't use */
    _Atomic uint64_t deep_libraries; /* that were loaded with RTLD_DEEPBIND, so that their calls don't come here */
    _Atomic uint64_t lost_processes; /* forked ones that could make no file of their own */
    _Atomic uint64_t lost_error;     /* of the last one */
    /* The next number, in a line of its own. */
    _Alignas(64) _Atomic uint64_t next;
};

struct chunk {
    uint64_t magic;
    uint64_t size; /* in bytes, with this head */
    uint32_t thread;
    uint32_t count; /* records or places that are published; of a text its bytes */
    uint64_t left_out[LEFT_OUT_KINDS];
};

/* A place in the code: the return address of the call, and those of its callers; zero behind the last one that is known. */
#define FRAMES 4
struct place { uint64_t frames[FRAMES]; };

/* What gives (unlock, the first part of a wait, post) has its number from before the call and stands in the file before it takes effect.
 * What gets (lock, the second part of a wait, a semaphore's wait) has its number from after the call. A signal has one before and one
 * after. */
enum operation {
    NOTHING,
    LOCK,         /* a: mutex, b: result, RECURSIVE, TRIED */
    UNLOCK,       /* a: mutex, b: OWNED */
    REFUSED,      /* the unlock before it, of the same thread, was refused; b: result */
    MUTEX_INIT,   /* a: mutex */
    MUTEX_GONE,
    WAIT,         /* a: mutex, b: condition, SHARED, OWNED */
    TIMED_WAIT,
    BACK,         /* a: mutex, b: result; ECANCELED where the thread was cancelled */
    SIGNAL,       /* a: condition */
    BROADCAST,
    SIGNALLED,    /* the signal or broadcast before it is done */
    COND_INIT,    /* a: condition */
    COND_GONE,
    SEM_INIT,     /* a: semaphore, b: value, or UNKNOWN_VALUE */
    SEM_GONE,
    GOT,          /* a: semaphore */
    POST,
    THREAD_BEGIN, /* a: the thread's handle, b: its function */
    THREAD_RUNS,  /* of a std::thread: a: the method that runs it, b: the function that it was given, or 0 */
    THREAD_END,
    PROCESS_END,  /* by exit or the end of main, by this thread */
    BLOCKED,      /* a call has to wait; a: its object, b: for what */
    UNBLOCKED,    /* it ended without having got it, or was a barrier or join */
    RW_LOCK,      /* a: read-write lock, b: WRITES, TRIED */
    RW_UNLOCK,
    RW_INIT,
    RW_GONE,
    FREED,        /* a: memory where a mutex was, b: how many bytes */
    OPERATIONS
};
#define RECURSIVE (1ull << 32)
#define TRIED (1ull << 33) /* by a call that doesn't wait, or not for ever */
#define WRITES (1ull << 34)
#define UNKNOWN_VALUE (1ull << 32)
#define SHARED (1ull << 63) /* other processes share the condition */
#define OWNED (1ull << 62)  /* the C library itself knows this thread as the mutex's owner */

enum wait_for { FOR_MUTEX, FOR_READ, FOR_WRITE, FOR_SEMAPHORE, FOR_BARRIER, FOR_THREAD };

struct record {
    uint64_t number; /* in its upper bits those of the time */
    uint64_t what;   /* operation << 56 | a */
    uint64_t b;
    uint32_t place, ticks;
};
#define NUMBER_BITS 40
#define NUMBER(r) ((r)->number & ((1ull << NUMBER_BITS) - 1))
#define TICKS(r) ((r)->number >> NUMBER_BITS << 32 | (r)->ticks)
#define OPERATION(r) ((enum operation)((r)->what >> 56))
#define ADDRESS(r) ((r)->what & ((1ull << 56) - 1))

/* The time, in units that the converter measures. */
static inline uint64_t ticks_now(void);
#if defined __x86_64__ || defined __i386__
static inline uint64_t ticks_now(void) { return __builtin_ia32_rdtsc() & ((1ull << 56) - 1); }
#else
#include <time.h>
static inline uint64_t ticks_now(void) {
    struct timespec t;
    clock_gettime(CLOCK_MONOTONIC, &t);
    return (uint64_t)t.tv_sec * 1000000000ull + (uint64_t)t.tv_nsec;
}
#endif

#endif
