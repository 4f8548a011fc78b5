/* Mutexes, conditions and semaphores. A call that may have to wait is tried first, so that a record says where it had to. */
#include "library.h"
#include <errno.h>

static uint64_t recursive_flag(const pthread_mutex_t *m) { return (m->__data.__kind & 3) == PTHREAD_MUTEX_RECURSIVE ? RECURSIVE : 0; }

/* Whether the C library itself knows this thread as the owner, however it got the mutex. */
static uint64_t owner_flag(const pthread_mutex_t *m) {
    int owner = m->__data.__owner;
    return owner != 0 && (owner == me.owner || owner == me.owner_before_fork) ? OWNED : 0;
}

static int note_lock(pthread_mutex_t *m, int result, uint64_t tried, uint32_t place) {
    if (result == 0 || result == EOWNERDEAD) {
        if (!me.owner) me.owner = m->__data.__owner;
        note_mutex(m);
        put(LOCK, m, (uint64_t)result | recursive_flag(m) | tried, place);
    } else if (tried && (result == EBUSY || result == ETIMEDOUT)) count(LEFT_TRY);
    return result;
}

/* `call` waits. */
#define LOCKS(m, tried, place, call) \
    int result = REAL(pthread_mutex_trylock)(m); \
    if (result == EBUSY) { \
        put(BLOCKED, m, FOR_MUTEX, place); \
        result = call; \
        if (result != 0 && result != EOWNERDEAD) put(UNBLOCKED, m, 0, place); \
    } \
    note_lock(m, result, tried, place)

int pthread_mutex_lock(pthread_mutex_t *m) {
    if (!begin()) return 0;
    uint32_t place = place_of(FROM);
    LOCKS(m, 0, place, REAL(pthread_mutex_lock)(m));
    return result;
}

int pthread_mutex_trylock(pthread_mutex_t *m) {
    if (!begin()) return 0;
    uint32_t place = place_of(FROM);
    return note_lock(m, REAL(pthread_mutex_trylock)(m), TRIED, place);
}

int pthread_mutex_timedlock(pthread_mutex_t *m, const struct timespec *t) {
    if (!begin()) return 0;
    uint32_t place = place_of(FROM);
    LOCKS(m, TRIED, place, REAL(pthread_mutex_timedlock)(m, t));
    return result;
}

int pthread_mutex_clocklock(pthread_mutex_t *m, clockid_t clock, const struct timespec *t) {
    if (!begin()) return 0;
    uint32_t place = place_of(FROM);
    if (clock != CLOCK_REALTIME && clock != CLOCK_MONOTONIC) return REAL(pthread_mutex_clocklock)(m, clock, t);
    LOCKS(m, TRIED, place, REAL(pthread_mutex_clocklock)(m, clock, t));
    return result;
}

static int release(pthread_mutex_t *m, int (*call)(pthread_mutex_t *), uint32_t place) {
    put(UNLOCK, m, owner_flag(m), place);
    int result = call(m);
    if (result) put(REFUSED, m, (uint64_t)result, place);
    return result;
}

int pthread_mutex_unlock(pthread_mutex_t *m) { return begin() ? release(m, REAL(pthread_mutex_unlock), place_of(FROM)) : 0; }

int pthread_mutex_init(pthread_mutex_t *m, const pthread_mutexattr_t *a) {
    if (!begin()) return 0;
    put(MUTEX_INIT, m, 0, place_of(FROM));
    return REAL(pthread_mutex_init)(m, a);
}

int pthread_mutex_destroy(pthread_mutex_t *m) {
    if (!begin()) return 0;
    uint32_t place = place_of(FROM);
    int result = REAL(pthread_mutex_destroy)(m);
    if (result == 0) put(MUTEX_GONE, m, 0, place);
    return result;
}

/* ---- conditions ---- */

struct waiting { pthread_mutex_t *mutex; uint32_t place; int result; };

static struct waiting wait_begun(enum operation operation, pthread_cond_t *c, pthread_mutex_t *m, uint32_t place) {
    put(operation, m, (uint64_t)c | (c->__data.__wrefs & 1 ? SHARED : 0) | owner_flag(m), place);
    return (struct waiting){ m, place, ECANCELED };
}

/* Also where the thread is cancelled: the C library has taken the mutex again then. */
static void wait_done(struct waiting *w) { put(BACK, w->mutex, (uint64_t)w->result, w->place); }
#define WAITING(operation, c, m) struct waiting w __attribute__((cleanup(wait_done))) = wait_begun(operation, c, m, place_of(FROM))

int pthread_cond_wait(pthread_cond_t *c, pthread_mutex_t *m) {
    begin();
    WAITING(WAIT, c, m);
    return w.result = REAL(pthread_cond_wait)(c, m);
}

int pthread_cond_timedwait(pthread_cond_t *c, pthread_mutex_t *m, const struct timespec *t) {
    begin();
    WAITING(TIMED_WAIT, c, m);
    return w.result = REAL(pthread_cond_timedwait)(c, m, t);
}

int pthread_cond_clockwait(pthread_cond_t *c, pthread_mutex_t *m, clockid_t clock, const struct timespec *t) {
    begin();
    WAITING(TIMED_WAIT, c, m);
    return w.result = REAL(pthread_cond_clockwait)(c, m, clock, t);
}

static int signals(enum operation operation, pthread_cond_t *c, int (*call)(pthread_cond_t *), uint32_t place) {
    put(operation, c, 0, place);
    int result = call(c);
    put(SIGNALLED, c, (uint64_t)result, place);
    return result;
}

int pthread_cond_signal(pthread_cond_t *c) { return begin() ? signals(SIGNAL, c, REAL(pthread_cond_signal), place_of(FROM)) : 0; }
int pthread_cond_broadcast(pthread_cond_t *c) { return begin() ? signals(BROADCAST, c, REAL(pthread_cond_broadcast), place_of(FROM)) : 0; }

int pthread_cond_init(pthread_cond_t *c, const pthread_condattr_t *a) {
    if (!begin()) return 0;
    put(COND_INIT, c, 0, place_of(FROM));
    return REAL(pthread_cond_init)(c, a);
}

int pthread_cond_destroy(pthread_cond_t *c) {
    begin();
    uint32_t place = place_of(FROM);
    int result = REAL(pthread_cond_destroy)(c);
    if (result == 0) put(COND_GONE, c, 0, place);
    return result;
}

/* ---- C11's threads: the same objects by other names ---- */

static int of_c11(int result) {
    return result == thrd_success ? 0 : result == thrd_timedout ? ETIMEDOUT : result == thrd_busy ? EBUSY : EINVAL;
}
static pthread_mutex_t *mutex_of(mtx_t *m) { return (pthread_mutex_t *)m; }
static pthread_cond_t *condition_of(cnd_t *c) { return (pthread_cond_t *)c; }

/* `c11` gets what the call itself answers, or success where it wasn't needed. */
#define LOCKS_C11(m, tried, call) \
    uint32_t place = place_of(FROM); \
    int c11 = thrd_success; \
    LOCKS(mutex_of(m), tried, place, of_c11(c11 = call)); \
    return result == 0 ? thrd_success : c11 != thrd_success ? c11 : thrd_error

int mtx_lock(mtx_t *m) {
    begin();
    LOCKS_C11(m, 0, REAL(mtx_lock)(m));
}

int mtx_timedlock(mtx_t *m, const struct timespec *t) {
    begin();
    LOCKS_C11(m, TRIED, REAL(mtx_timedlock)(m, t));
}

int mtx_trylock(mtx_t *m) {
    begin();
    uint32_t place = place_of(FROM);
    int result = REAL(mtx_trylock)(m);
    note_lock(mutex_of(m), of_c11(result), TRIED, place);
    return result;
}

int mtx_unlock(mtx_t *m) { begin(); return release(mutex_of(m), (int (*)(pthread_mutex_t *))REAL(mtx_unlock), place_of(FROM)); }
int mtx_init(mtx_t *m, int kind) { begin(); put(MUTEX_INIT, m, 0, place_of(FROM)); return REAL(mtx_init)(m, kind); }
void mtx_destroy(mtx_t *m) { begin(); uint32_t place = place_of(FROM); REAL(mtx_destroy)(m); put(MUTEX_GONE, m, 0, place); }

int cnd_wait(cnd_t *c, mtx_t *m) {
    begin();
    WAITING(WAIT, condition_of(c), mutex_of(m));
    int result = REAL(cnd_wait)(c, m);
    w.result = of_c11(result);
    return result;
}

int cnd_timedwait(cnd_t *c, mtx_t *m, const struct timespec *t) {
    begin();
    WAITING(TIMED_WAIT, condition_of(c), mutex_of(m));
    int result = REAL(cnd_timedwait)(c, m, t);
    w.result = of_c11(result);
    return result;
}

int cnd_signal(cnd_t *c) { begin(); return signals(SIGNAL, condition_of(c), (int (*)(pthread_cond_t *))REAL(cnd_signal), place_of(FROM)); }
int cnd_broadcast(cnd_t *c) {
    begin();
    return signals(BROADCAST, condition_of(c), (int (*)(pthread_cond_t *))REAL(cnd_broadcast), place_of(FROM));
}
int cnd_init(cnd_t *c) { begin(); put(COND_INIT, c, 0, place_of(FROM)); return REAL(cnd_init)(c); }
void cnd_destroy(cnd_t *c) { begin(); uint32_t place = place_of(FROM); REAL(cnd_destroy)(c); put(COND_GONE, c, 0, place); }

/* ---- semaphores ---- */

static int is_time(const struct timespec *t) { return t->tv_nsec >= 0 && t->tv_nsec < 1000000000; }

/* Whether it was got without waiting. */
static int take_at_once(sem_t *s, uint32_t place) {
    int error = errno;
    if (REAL(sem_trywait)(s) == 0) {
        put(GOT, s, 0, place);
        return 1;
    }
    errno = error;
    return 0;
}

#define TAKES(s, good, call) \
    begin(); \
    uint32_t place = place_of(FROM); \
    pthread_testcancel(); \
    if ((good) && take_at_once(s, place)) return 0; \
    BLOCKING(s, FOR_SEMAPHORE, place); \
    int result = call; \
    if (result == 0) blocking.open = 0, put(GOT, s, 0, place); \
    return result

int sem_wait(sem_t *s) { TAKES(s, 1, REAL(sem_wait)(s)); }
int sem_timedwait(sem_t *s, const struct timespec *t) { TAKES(s, is_time(t), REAL(sem_timedwait)(s, t)); }
int sem_clockwait(sem_t *s, clockid_t clock, const struct timespec *t) {
    TAKES(s, is_time(t) && (clock == CLOCK_REALTIME || clock == CLOCK_MONOTONIC), REAL(sem_clockwait)(s, clock, t));
}

int sem_trywait(sem_t *s) {
    begin();
    uint32_t place = place_of(FROM);
    int result = REAL(sem_trywait)(s);
    if (result == 0) put(GOT, s, 0, place);
    return result;
}

int sem_post(sem_t *s) {
    begin();
    put(POST, s, 0, place_of(FROM));
    return REAL(sem_post)(s);
}

int sem_init(sem_t *s, int shared, unsigned value) {
    begin();
    put(SEM_INIT, s, shared ? UNKNOWN_VALUE : value, place_of(FROM));
    return REAL(sem_init)(s, shared, value);
}

int sem_destroy(sem_t *s) {
    begin();
    uint32_t place = place_of(FROM);
    int result = REAL(sem_destroy)(s);
    if (result == 0) put(SEM_GONE, s, 0, place);
    return result;
}
