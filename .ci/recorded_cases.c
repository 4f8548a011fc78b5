/* Uses the C library's threads in one way, which the first argument names. .ci/recorded_programs records it. */
#define _GNU_SOURCE
#include <errno.h>
#include <pthread.h>
#include <semaphore.h>
#include <signal.h>
#include <stdio.h>
#include <stdlib.h>
#include <string.h>
#include <sys/mman.h>
#include <sys/wait.h>
#include <threads.h>
#include <time.h>
#include <unistd.h>

static pthread_mutex_t m = PTHREAD_MUTEX_INITIALIZER;
static pthread_cond_t c = PTHREAD_COND_INITIALIZER;
static sem_t s;
static int number, turns = 200;

static void nap(long microseconds) { nanosleep(&(struct timespec){ 0, microseconds * 1000 }, NULL); }

static struct timespec in(long microseconds) {
    struct timespec t;
    clock_gettime(CLOCK_REALTIME, &t);
    t.tv_nsec += microseconds * 1000;
    t.tv_sec += t.tv_nsec / 1000000000;
    t.tv_nsec %= 1000000000;
    return t;
}

/* So many threads run a function; all are joined. */
static void crew(int n, void *(*f)(void *)) {
    pthread_t *t = malloc((size_t)n * sizeof *t);
    for (long i = 0; i < n; i++) pthread_create(&t[i], NULL, f, (void *)i);
    for (int i = 0; i < n; i++) pthread_join(t[i], NULL);
    free(t);
}

/* ---- a recursive mutex: the outermost lock and unlock count ---- */

static pthread_mutex_t again;
static void *recursive_body(void *of) {
    for (int i = 0; i < turns; i++) {
        for (int k = 0; k < 3; k++) pthread_mutex_lock(&again);
        number++;
        for (int k = 0; k < 3; k++) pthread_mutex_unlock(&again);
    }
    return of;
}
static void recursive(void) {
    pthread_mutexattr_t a;
    pthread_mutexattr_init(&a);
    pthread_mutexattr_settype(&a, PTHREAD_MUTEX_RECURSIVE);
    pthread_mutex_init(&again, &a);
    crew(4, recursive_body);
}

static void *trylock_body(void *of) {
    for (int i = 0; i < turns; i++) {
        if (pthread_mutex_trylock(&m) == 0) pthread_mutex_unlock(&m);
        struct timespec t = in(100);
        if (pthread_mutex_timedlock(&m, &t) == 0) {
            if (i % 20 == 0) nap(300);
            pthread_mutex_unlock(&m);
        }
    }
    return of;
}
static void trylock(void) { crew(4, trylock_body); }

/* ---- timed waits, which a signal or the clock ends. Counts under the mutex, by itself, the waits that no signal of their own can have ended: all is
 * numbered by turns of the mutex, a broadcast ends each wait that it meets, a signal one, and of several the first that a wait met is taken. ---- */

static long now, told, at[4000], last_broadcast, without;
static void timed_wait(void) {
    struct timespec t = in(200);
    long begun = ++now, i = 0;
    if (pthread_cond_timedwait(&c, &m, &t) != 0 || last_broadcast > begun) return;
    while (i < told && at[i] < begun) i++;
    if (i == told) without++;
    else at[i] = 0;
}
static void *timed_body(void *of) {
    for (int i = 0; i < turns; i++) {
        pthread_mutex_lock(&m);
        if (of) timed_wait();
        else if (i % 8 == 0) last_broadcast = ++now, pthread_cond_broadcast(&c);
        else at[told++] = ++now, pthread_cond_signal(&c);
        pthread_mutex_unlock(&m);
        if (!of) nap(50);
    }
    return of;
}
static void timed(void) {
    crew(5, timed_body);
    printf("waits without a signal of their own: %ld\n", without);
}

/* ---- a counting semaphore, from 3 and from 0 ---- */

static sem_t zero;
static void *semaphore_body(void *of) {
    for (int i = 0; i < turns; i++) {
        sem_wait(&s);
        sem_post(&zero);
        sem_wait(&zero);
        sem_post(&s);
        if (sem_trywait(&zero) == 0) sem_post(&zero);
    }
    return of;
}
static void semaphores(void) {
    for (int i = 0; i < 3; i++) {
        sem_init(&s, 0, 3), sem_init(&zero, 0, 0);
        crew(6, semaphore_body);
        sem_destroy(&s), sem_destroy(&zero);
    }
}

/* ---- threads that are cancelled in a wait give the mutex back in a handler ---- */

static void give_back(void *of) { pthread_mutex_unlock(of); }
static void *cancelled_body(void *of) {
    pthread_mutex_lock(&m);
    pthread_cleanup_push(give_back, &m);
    for (;;) pthread_cond_wait(&c, &m);
    pthread_cleanup_pop(1);
    return of;
}
static void cancelled(void) {
    for (int i = 0; i < 20; i++) {
        pthread_t t[3];
        for (int k = 0; k < 3; k++) pthread_create(&t[k], NULL, cancelled_body, NULL);
        nap(300);
        pthread_cond_signal(&c);
        for (int k = 0; k < 3; k++) pthread_cancel(t[k]);
        for (int k = 0; k < 3; k++) pthread_join(t[k], NULL);
        pthread_mutex_lock(&m);
        pthread_mutex_unlock(&m);
    }
}

/* ---- threads that are in the midst of all kinds of calls when the process ends ---- */

static void *busy_body(void *of) {
    for (;;) {
        pthread_mutex_lock(&m);
        number++;
        if (number % 3 == 0) pthread_cond_signal(&c);
        struct timespec t = in(50);
        if (number % 5 == 0) pthread_cond_timedwait(&c, &m, &t);
        pthread_mutex_unlock(&m);
        sem_post(&s);
        sem_wait(&s);
    }
    return of;
}
static void busy(void) {
    sem_init(&s, 0, 2);
    for (long i = 0; i < 4; i++) {
        pthread_t t;
        pthread_create(&t, NULL, busy_body, NULL);
    }
    while (!*(volatile int *)&number) nap(100);
    nap(3000);
}
static void quick_end(void) {
    busy();
    _exit(0);
}
static void left_running(void) {
    if (fork() == 0) {
        busy();
        nap(900000);
        _exit(0);
    }
    nap(20000);
}
static void killed(void) {
    busy();
    kill(getpid(), SIGKILL);
}

/* Tells how many unlocks a process had completed that was killed. */
static void *counted_body(void *of) {
    for (volatile long *done = of;; (*done)++) {
        pthread_mutex_lock(&m);
        number++;
        pthread_mutex_unlock(&m);
    }
    return of;
}
static void counted(void) {
    volatile long *done = mmap(NULL, 4096, PROT_READ | PROT_WRITE, MAP_SHARED | MAP_ANONYMOUS, -1, 0);
    long all = 0;
    pid_t child = fork();
    if (child == 0) {
        pthread_t t;
        for (int i = 0; i < 4; i++) pthread_create(&t, NULL, counted_body, (void *)(done + 8 * i));
        pause();
    }
    while (done[0] == 0) nap(1000); /* it has begun, however busy the machine is */
    nap(20000);
    kill(child, SIGKILL);
    waitpid(child, NULL, 0);
    for (int i = 0; i < 4; i++) all += done[8 * i];
    printf("completed: %ld\n", all);
}

/* ---- a fork by a thread that has mutexes, which both processes give back ---- */

static pthread_mutex_t second = PTHREAD_MUTEX_INITIALIZER;
static void take_both(void) { pthread_mutex_lock(&m), pthread_mutex_lock(&second); }
static void give_both(void) { pthread_mutex_unlock(&second), pthread_mutex_unlock(&m); }
static void *fork_body(void *of) {
    for (int i = 0; i < 5; i++) {
        pid_t child = fork();
        if (child == 0) {
            crew(2, trylock_body);
            exit(0);
        }
        waitpid(child, NULL, 0);
        pthread_mutex_lock(&m);
        number++;
        pthread_mutex_unlock(&m);
    }
    return of;
}
static void forks(void) {
    turns = 20;
    pthread_atfork(take_both, give_both, give_both);
    crew(2, fork_body);
}

/* ---- more objects, and more threads, than a trace has names for ---- */

static struct { pthread_mutex_t m; pthread_cond_t c; int full; } boxes[100];
static void *boxes_body(void *of) {
    for (int i = 0; i < 300; i++) {
        long k = of ? (long)of * 25 - 1 - i % 25 : i % 100;
        pthread_mutex_lock(&boxes[k].m);
        if (of && boxes[k].full == 0) {
            struct timespec t = in(100);
            pthread_cond_timedwait(&boxes[k].c, &boxes[k].m, &t);
        } else boxes[k].full = !of;
        pthread_cond_signal(&boxes[k].c);
        pthread_mutex_unlock(&boxes[k].m);
    }
    return of;
}
static void hundred(void) {
    for (int i = 0; i < 100; i++) pthread_mutex_init(&boxes[i].m, NULL), pthread_cond_init(&boxes[i].c, NULL);
    crew(5, boxes_body);
}

static void *conditions_body(void *of) {
    for (int i = 0; i < 100; i++) {
        pthread_mutex_lock(&m);
        struct timespec t = in(50);
        if (of) pthread_cond_timedwait(&boxes[i].c, &m, &t);
        else pthread_cond_signal(&boxes[i].c);
        pthread_mutex_unlock(&m);
    }
    return of;
}
static void conditions(void) {
    for (int i = 0; i < 100; i++) pthread_cond_init(&boxes[i].c, NULL);
    crew(4, conditions_body);
}

static void *threads_body(void *of) {
    for (int i = 0; i < 10; i++) {
        pthread_mutex_lock(&m);
        number++;
        pthread_mutex_unlock(&m);
        nap(500);
    }
    return of;
}
static void many_threads(void) { crew(100, threads_body); }

static void *waiting_body(void *of) {
    pthread_mutex_lock(&m);
    number++;
    pthread_cond_wait(&c, &m);
    pthread_mutex_unlock(&m);
    return of;
}
static void many_waiting(void) {
    pthread_t t[100];
    for (int i = 0; i < 100; i++) pthread_create(&t[i], NULL, waiting_body, NULL);
    for (int there = 0; there < 100;) {
        pthread_mutex_lock(&m);
        there = number;
        pthread_mutex_unlock(&m);
        nap(100);
    }
    pthread_cond_broadcast(&c);
    for (int i = 0; i < 100; i++) pthread_join(t[i], NULL);
}

/* ---- a post by a signal handler within a wait ---- */

static void post(int signal) { (void)signal, sem_post(&s); }
static void *handler_body(void *of) {
    for (int i = 0; i < turns; i++) {
        pthread_mutex_lock(&m);
        struct timespec t = in(400);
        pthread_cond_timedwait(&c, &m, &t);
        pthread_mutex_unlock(&m);
    }
    return of;
}
static void handler(void) {
    pthread_t t;
    sem_init(&s, 0, 0);
    signal(SIGUSR1, post);
    pthread_create(&t, NULL, handler_body, NULL);
    for (int i = 0; i < 100; i++) {
        pthread_kill(t, SIGUSR1);
        sem_wait(&s);
    }
    pthread_join(t, NULL);
}

/* ---- a condition that is destroyed as soon as those in it were told ---- */

static pthread_cond_t *short_lived;
static void *short_body(void *of) {
    pthread_mutex_lock(&m);
    number++;
    pthread_cond_wait(short_lived, &m);
    pthread_mutex_unlock(&m);
    return of;
}
static void destroyed(void) {
    for (int i = 0; i < 50; i++) {
        pthread_t t[3];
        short_lived = malloc(sizeof *short_lived);
        pthread_cond_init(short_lived, NULL);
        number = 0;
        for (int k = 0; k < 3; k++) pthread_create(&t[k], NULL, short_body, NULL);
        for (int there = 0; there < 3;) {
            pthread_mutex_lock(&m);
            there = number;
            if (there == 3) {
                pthread_cond_broadcast(short_lived);
                pthread_mutex_unlock(&m);
                pthread_cond_destroy(short_lived);
                memset(short_lived, 0, sizeof *short_lived);
                continue;
            }
            pthread_mutex_unlock(&m);
            nap(50);
        }
        for (int k = 0; k < 3; k++) pthread_join(t[k], NULL);
        free(short_lived);
    }
}

/* ---- signals with and without the mutex, and broadcasts beside them, as fast as may be ---- */

static void *storm_body(void *of) {
    for (int i = 0; i < 10 * turns; i++) {
        if ((long)of < 4) {
            pthread_mutex_lock(&m);
            if (number) number--;
            else pthread_cond_wait(&c, &m);
            pthread_mutex_unlock(&m);
        } else {
            if ((i + (long)of) % 16 == 0) pthread_cond_broadcast(&c);
            else pthread_cond_signal(&c);
        }
    }
    return of;
}
static void *storm_end(void *of) {
    for (;;) pthread_cond_broadcast(&c), nap(10);
    return of;
}
static void storm(void) {
    pthread_t t;
    pthread_create(&t, NULL, storm_end, NULL);
    crew(6, storm_body);
}

static void *robust_body(void *of) {
    pthread_mutex_lock(of);
    return NULL; /* with the mutex */
}
static void robust(void) {
    pthread_mutex_t r;
    pthread_mutexattr_t a;
    pthread_mutexattr_init(&a);
    pthread_mutexattr_setrobust(&a, PTHREAD_MUTEX_ROBUST);
    pthread_mutex_init(&r, &a);
    for (int i = 0; i < 5; i++) {
        pthread_t t;
        pthread_create(&t, NULL, robust_body, &r);
        pthread_join(t, NULL);
        if (pthread_mutex_lock(&r) == EOWNERDEAD) pthread_mutex_consistent(&r);
        pthread_mutex_unlock(&r);
    }
}

static void refused(void) {
    pthread_mutexattr_t a;
    pthread_mutexattr_init(&a);
    pthread_mutexattr_settype(&a, PTHREAD_MUTEX_ERRORCHECK);
    pthread_mutex_init(&again, &a);
    pthread_mutex_unlock(&again);
    pthread_mutex_lock(&again);
    pthread_mutex_lock(&again);
    pthread_mutex_unlock(&again);
    pthread_mutex_unlock(&again);
}

static mtx_t c11;
static cnd_t c11_full;
static int c11_body(void *of) {
    for (int i = 0; i < turns; i++) {
        mtx_lock(&c11);
        while (number % 2 != (of != NULL)) cnd_wait(&c11_full, &c11);
        number++;
        cnd_signal(&c11_full);
        mtx_unlock(&c11);
    }
    return 0;
}
static void c11_threads(void) {
    thrd_t t[2];
    mtx_init(&c11, mtx_plain), cnd_init(&c11_full);
    thrd_create(&t[0], c11_body, NULL), thrd_create(&t[1], c11_body, &c11);
    thrd_join(t[0], NULL), thrd_join(t[1], NULL);
}

/* ---- faults ---- */

static void *stranger_body(void *of) {
    pthread_mutex_unlock(&m);
    return of;
}
static void stranger(void) {
    pthread_mutex_lock(&m);
    crew(1, stranger_body);
}

static void *unheld_body(void *of) {
    struct timespec t = in(1000);
    pthread_cond_timedwait(&c, &m, &t);
    return of;
}
static void unheld(void) { crew(1, unheld_body); }

static void set_anew(void) {
    pthread_mutex_lock(&m);
    m = (pthread_mutex_t)PTHREAD_MUTEX_INITIALIZER;
    pthread_mutex_lock(&m);
    pthread_mutex_unlock(&m);
}

#define CASE(f) { #f, f }
static const struct { const char *name; void (*f)(void); } cases[] = {
    CASE(recursive), CASE(trylock), CASE(timed), CASE(semaphores), CASE(cancelled), CASE(quick_end),
    CASE(killed), CASE(left_running), CASE(counted), CASE(busy), CASE(forks), CASE(hundred), CASE(conditions),
    CASE(many_threads), CASE(many_waiting), CASE(handler), CASE(destroyed), CASE(storm), CASE(robust),
    CASE(refused), CASE(c11_threads), CASE(stranger), CASE(unheld), CASE(set_anew),
};

int main(int argc, char **argv) {
    for (size_t i = 0; argc == 2 && i < sizeof cases / sizeof *cases; i++)
        if (strcmp(argv[1], cases[i].name) == 0) {
            cases[i].f();
            return 0;
        }
    return 1;
}
