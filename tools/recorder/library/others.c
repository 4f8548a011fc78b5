/* Read-write locks, which take part in lock orders alone; barriers, spin locks and joins; threads; descriptors; and calls of the kernel. */
#include "library.h"
#include <dlfcn.h>
#include <errno.h>
#include <string.h>
#include <sys/syscall.h>
#include <linux/prctl.h>

/* ---- read-write locks ---- */

static int note_rwlock(pthread_rwlock_t *l, int result, uint64_t how, uint32_t place) {
    if (result == 0) note_mutex(l), put(RW_LOCK, l, how, place);
    return result;
}

#define GETS(name, trial, how, wait_for, good, parameters, ...) \
    int name parameters { \
        begin(); \
        uint32_t place = place_of(FROM); \
        int result = (good) ? REAL(trial)(l) : EBUSY; \
        if (result == EBUSY) { \
            put(BLOCKED, l, wait_for, place); \
            result = REAL(name)(__VA_ARGS__); \
            if (result) put(UNBLOCKED, l, 0, place); \
        } \
        return note_rwlock(l, result, how, place); \
    }
#define IS_TIME (t->tv_nsec >= 0 && t->tv_nsec < 1000000000)
#define IS_CLOCK ((clock == CLOCK_REALTIME || clock == CLOCK_MONOTONIC) && IS_TIME)
GETS(pthread_rwlock_rdlock, pthread_rwlock_tryrdlock, 0, FOR_READ, 1, (pthread_rwlock_t * l), l)
GETS(pthread_rwlock_wrlock, pthread_rwlock_trywrlock, WRITES, FOR_WRITE, 1, (pthread_rwlock_t * l), l)
GETS(pthread_rwlock_timedrdlock, pthread_rwlock_tryrdlock, TRIED, FOR_READ, IS_TIME, (pthread_rwlock_t * l, const struct timespec *t), l, t)
GETS(pthread_rwlock_timedwrlock, pthread_rwlock_trywrlock, WRITES | TRIED, FOR_WRITE, IS_TIME,
     (pthread_rwlock_t * l, const struct timespec *t), l, t)
GETS(pthread_rwlock_clockrdlock, pthread_rwlock_tryrdlock, TRIED, FOR_READ, IS_CLOCK,
     (pthread_rwlock_t * l, clockid_t clock, const struct timespec *t), l, clock, t)
GETS(pthread_rwlock_clockwrlock, pthread_rwlock_trywrlock, WRITES | TRIED, FOR_WRITE, IS_CLOCK,
     (pthread_rwlock_t * l, clockid_t clock, const struct timespec *t), l, clock, t)

int pthread_rwlock_tryrdlock(pthread_rwlock_t *l) {
    begin();
    uint32_t place = place_of(FROM);
    return note_rwlock(l, REAL(pthread_rwlock_tryrdlock)(l), TRIED, place);
}

int pthread_rwlock_trywrlock(pthread_rwlock_t *l) {
    begin();
    uint32_t place = place_of(FROM);
    return note_rwlock(l, REAL(pthread_rwlock_trywrlock)(l), WRITES | TRIED, place);
}

int pthread_rwlock_unlock(pthread_rwlock_t *l) {
    begin();
    put(RW_UNLOCK, l, 0, place_of(FROM));
    return REAL(pthread_rwlock_unlock)(l);
}

int pthread_rwlock_init(pthread_rwlock_t *l, const pthread_rwlockattr_t *a) {
    begin();
    put(RW_INIT, l, 0, place_of(FROM));
    return REAL(pthread_rwlock_init)(l, a);
}

int pthread_rwlock_destroy(pthread_rwlock_t *l) {
    begin();
    uint32_t place = place_of(FROM);
    int result = REAL(pthread_rwlock_destroy)(l);
    if (result == 0) put(RW_GONE, l, 0, place);
    return result;
}

/* ---- barriers, spin locks, joins ---- */

int pthread_barrier_wait(pthread_barrier_t *b) {
    begin();
    uint32_t place = place_of(FROM);
    count(LEFT_BARRIER);
    BLOCKING(b, FOR_BARRIER, place);
    return REAL(pthread_barrier_wait)(b);
}

int pthread_spin_lock(pthread_spinlock_t *l) {
    begin();
    count(LEFT_SPIN);
    return REAL(pthread_spin_lock)(l);
}

int pthread_spin_trylock(pthread_spinlock_t *l) {
    begin();
    count(LEFT_SPIN);
    return REAL(pthread_spin_trylock)(l);
}

int pthread_join(pthread_t thread, void **result) {
    begin();
    uint32_t place = place_of(FROM);
    BLOCKING((void *)thread, FOR_THREAD, place);
    return REAL(pthread_join)(thread, result);
}

int thrd_join(thrd_t thread, int *result) {
    begin();
    uint32_t place = place_of(FROM);
    BLOCKING((void *)thread, FOR_THREAD, place);
    return REAL(thrd_join)(thread, result);
}

/* ---- threads ---- */

struct start { void *(*function)(void *); int (*c11_function)(void *); void *argument, *method, *target; };

static struct start announce(void *of) {
    struct start start = *(struct start *)of;
    free(of);
    put(THREAD_BEGIN, (void *)pthread_self(), start.function ? (uint64_t)start.function : (uint64_t)start.c11_function, 0);
    if (start.method) put(THREAD_RUNS, start.method, (uint64_t)start.target, 0);
    return start;
}

static void *run_thread(void *of) {
    struct start start = announce(of);
    return start.function(start.argument);
}

static int run_c11_thread(void *of) {
    struct start start = announce(of);
    return start.c11_function(start.argument);
}

/* A std::thread is begun with a function of libstdc++ and an object whose third virtual method runs it. The function that it was given,
 * where it is one, is the last word of that object which lies in a module's code; the converter decides. */
static void look_behind(struct start *start) {
    Dl_info info;
    if (!start->argument || !dladdr((void *)start->function, &info) || !info.dli_fname || !strstr(info.dli_fname, "libstdc++")) return;
    void **object = start->argument, **methods = object[0];
    size_t words = knows_sizes ? REAL(malloc_usable_size)(object) / sizeof *object : 2;
    start->method = methods[2];
    for (size_t i = 1; i < words && i < 8; i++)
        if (dladdr(object[i], &info) && info.dli_fname && !strstr(info.dli_fname, "libstdc++") && object[i] != (void *)methods)
            start->target = object[i];
}

int pthread_create(pthread_t *thread, const pthread_attr_t *a, void *(*function)(void *), void *argument) {
    begin();
    struct start *start = head ? malloc(sizeof *start) : NULL;
    if (!start) return REAL(pthread_create)(thread, a, function, argument);
    *start = (struct start){ .function = function, .argument = argument };
    look_behind(start);
    int result = REAL(pthread_create)(thread, a, run_thread, start);
    if (result) free(start);
    return result;
}

int thrd_create(thrd_t *thread, thrd_start_t function, void *argument) {
    begin();
    struct start *start = head ? malloc(sizeof *start) : NULL;
    if (!start) return REAL(thrd_create)(thread, function, argument);
    *start = (struct start){ .c11_function = function, .argument = argument };
    int result = REAL(thrd_create)(thread, run_c11_thread, start);
    if (result != thrd_success) free(start);
    return result;
}

/* ---- descriptors: a program that closes all that it doesn't know leaves the record file's open ---- */

static unsigned kept_number(void) { return head && kept_file >= 0 ? (unsigned)kept_file : UINT32_MAX; }

int close(int fd) {
    begin();
    return (unsigned)fd == kept_number() ? 0 : REAL(close)(fd);
}

int close_range(unsigned first, unsigned last, int flags) {
    begin();
    unsigned kept = kept_number();
    if (kept < first || kept > last || kept == UINT32_MAX) return REAL(close_range)(first, last, flags);
    int below = kept > first ? REAL(close_range)(first, kept - 1, flags) : 0;
    int above = kept < last ? REAL(close_range)(kept + 1, last, flags) : 0;
    return below ? below : above;
}

void closefrom(int first) {
    begin();
    unsigned kept = kept_number();
    if (kept < (unsigned)(first > 0 ? first : 0) || kept == UINT32_MAX) REAL(closefrom)(first);
    else close_range((unsigned)(first > 0 ? first : 0), UINT32_MAX, 0);
}

/* ---- libraries whose calls don't come here ---- */

/* The C library looks at where it is called from, so the last call has to be a jump, as compilers make it. */
void *dlopen(const char *file, int mode) {
    begin();
    if (mode & RTLD_DEEPBIND && head && atomic_load_explicit(here, memory_order_relaxed) == 1) atomic_fetch_add(&head->deep_libraries, 1);
    return REAL(dlopen)(file, mode);
}

/* ---- calls of the kernel: futexes of others are counted; before a program forbids itself calls, room is reserved ---- */

typedef long call_of_kernel(long number, long a, long b, long c, long d, long e, long f);
typedef int call_of_prctl(int option, long a, long b, long c, long d);

static void notice(long number, long option) {
    if (number == SYS_futex) {
        if (head && atomic_load_explicit(here, memory_order_relaxed) == 1)
            atomic_fetch_add_explicit(&head->futex_calls, 1, memory_order_relaxed);
    } else if (number == SYS_seccomp || (number == SYS_prctl && option == PR_SET_SECCOMP)) provide();
}

long any_call(long number, long a, long b, long c, long d, long e, long f) __asm__("syscall");
long any_call(long number, long a, long b, long c, long d, long e, long f) {
    begin();
    notice(number, a);
    return ((call_of_kernel *)real[R_syscall])(number, a, b, c, d, e, f);
}

int any_prctl(int option, long a, long b, long c, long d) __asm__("prctl");
int any_prctl(int option, long a, long b, long c, long d) {
    begin();
    if (option == PR_SET_SECCOMP) provide();
    return ((call_of_prctl *)real[R_prctl])(option, a, b, c, d);
}
