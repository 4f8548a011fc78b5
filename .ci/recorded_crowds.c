/* crowds THREADS MUTEXES: more threads than a trace has names for wait in four conditions, with some time limits, beside signals and broadcasts with
 * and without the mutex. .ci/recorded_programs records it. */
#define _GNU_SOURCE
#include <pthread.h>
#include <stdatomic.h>
#include <stdlib.h>
#include <time.h>
#include <unistd.h>

#define TURNS 40
static pthread_mutex_t m[4] = { PTHREAD_MUTEX_INITIALIZER, PTHREAD_MUTEX_INITIALIZER, PTHREAD_MUTEX_INITIALIZER, PTHREAD_MUTEX_INITIALIZER };
static pthread_cond_t c[4] = { PTHREAD_COND_INITIALIZER, PTHREAD_COND_INITIALIZER, PTHREAD_COND_INITIALIZER, PTHREAD_COND_INITIALIZER };
static int mutexes;
static atomic_int ended;

static void wait_shortly(int k, unsigned *drawn) {
    struct timespec t;
    clock_gettime(CLOCK_REALTIME, &t);
    t.tv_nsec += rand_r(drawn) % 3000000;
    t.tv_sec += t.tv_nsec / 1000000000, t.tv_nsec %= 1000000000;
    pthread_cond_timedwait(&c[k], &m[k % mutexes], &t);
}

static void *waits(void *of) {
    unsigned drawn = (unsigned)(long)of * 77 + 3;
    for (int i = 0; i < TURNS; i++) {
        int k = rand_r(&drawn) % 4;
        pthread_mutex_lock(&m[k % mutexes]);
        if (rand_r(&drawn) % 3 == 0) wait_shortly(k, &drawn);
        else pthread_cond_wait(&c[k], &m[k % mutexes]);
        pthread_mutex_unlock(&m[k % mutexes]);
    }
    ended++;
    return NULL;
}

static void wake(unsigned *drawn) {
    int k = rand_r(drawn) % 4, held = rand_r(drawn) % 2;
    if (held) pthread_mutex_lock(&m[k % mutexes]);
    if (rand_r(drawn) % 6 == 0) pthread_cond_broadcast(&c[k]);
    else pthread_cond_signal(&c[k]);
    if (held) pthread_mutex_unlock(&m[k % mutexes]);
    if (rand_r(drawn) % 8 == 0) usleep(100);
}

int main(int argc, char **argv) {
    int n = argc == 3 ? atoi(argv[1]) : 0;
    unsigned drawn = 5;
    mutexes = argc == 3 ? atoi(argv[2]) : 0;
    if (n < 1 || mutexes < 1 || mutexes > 4) return 1;
    pthread_t *t = malloc((size_t)n * sizeof *t);
    for (long i = 0; i < n; i++) pthread_create(&t[i], NULL, waits, (void *)i);
    while (ended < n) wake(&drawn);
    for (int i = 0; i < n; i++) pthread_join(t[i], NULL);
    return 0;
}
