/* Small programs with one fault each, or with what looks like one and is none. The first argument names it. .ci/recorded_faults records them. */
#define _GNU_SOURCE
#include <dlfcn.h>
#include <errno.h>
#include <linux/filter.h>
#include <linux/seccomp.h>
#include <pthread.h>
#include <semaphore.h>
#include <stddef.h>
#include <stdio.h>
#include <stdlib.h>
#include <string.h>
#include <sys/mman.h>
#include <sys/prctl.h>
#include <sys/syscall.h>
#include <sys/wait.h>
#include <unistd.h>

static pthread_mutex_t a = PTHREAD_MUTEX_INITIALIZER, b = PTHREAD_MUTEX_INITIALIZER, gate = PTHREAD_MUTEX_INITIALIZER;
static pthread_rwlock_t shelf = PTHREAD_RWLOCK_INITIALIZER, board = PTHREAD_RWLOCK_INITIALIZER;
static pthread_cond_t c = PTHREAD_COND_INITIALIZER;
static pthread_mutex_t many[1000];
static sem_t s;
static int number;

static void lock(pthread_mutex_t *m) { pthread_mutex_lock(m); }
static void unlock(pthread_mutex_t *m) { pthread_mutex_unlock(m); }

/* Runs one after the other, so that nothing stops. */
static void in_turn(void *(*first)(void *), void *(*second)(void *)) {
    pthread_t t;
    pthread_create(&t, NULL, first, NULL), pthread_join(t, NULL);
    pthread_create(&t, NULL, second, NULL), pthread_join(t, NULL);
}

static void at_once(void *(*first)(void *), void *(*second)(void *)) {
    pthread_t t, u;
    pthread_create(&t, NULL, first, NULL), pthread_create(&u, NULL, second, NULL);
    pthread_join(t, NULL), pthread_join(u, NULL);
}

static void both(pthread_mutex_t *first, pthread_mutex_t *second) { lock(first), lock(second), number++, unlock(second), unlock(first); }

/* ---- the order of locks: faults ---- */

static void *a_then_b(void *of) { return both(&a, &b), of; }
static void *b_then_a(void *of) { return both(&b, &a), of; }
static void inversion(void) { in_turn(a_then_b, b_then_a); }

static void *first_then_last(void *of) { return both(&many[0], &many[199]), of; }
static void *last_then_first(void *of) { return both(&many[199], &many[0]), of; }
static void among_many(void) {
    for (int i = 0; i < 200; i++) lock(&many[i]);
    for (int i = 0; i < 200; i++) unlock(&many[i]);
    in_turn(first_then_last, last_then_first);
}

static void *lock_then_write(void *of) {
    lock(&a), pthread_rwlock_wrlock(&shelf);
    pthread_rwlock_unlock(&shelf), unlock(&a);
    return of;
}
static void *read_then_lock(void *of) {
    pthread_rwlock_rdlock(&shelf), lock(&a);
    unlock(&a), pthread_rwlock_unlock(&shelf);
    return of;
}
static void with_rwlock(void) { in_turn(lock_then_write, read_then_lock); }

/* What a try got is held like any other. */
static void *tried_then_b(void *of) {
    if (pthread_mutex_trylock(&a) == 0) lock(&b), unlock(&b), unlock(&a);
    return of;
}
static void try_first(void) { in_turn(tried_then_b, b_then_a); }

static void *a_b(void *of) { return both(&a, &b), of; }
static void *b_gate(void *of) { return both(&b, &gate), of; }
static void *gate_a(void *of) { return both(&gate, &a), of; }
static void cycle_of_three(void) { in_turn(a_b, b_gate), in_turn(gate_a, gate_a); }

/* ---- the order of locks: no faults ---- */

static void *gated_ab(void *of) { return lock(&gate), both(&a, &b), unlock(&gate), of; }
static void *gated_ba(void *of) { return lock(&gate), both(&b, &a), unlock(&gate), of; }
static void behind_gate(void) { at_once(gated_ab, gated_ba); }

static void *either_way(void *of) { return both(&a, &b), both(&b, &a), of; }
static void one_thread(void) { either_way(NULL); }

static void *reads_ab(void *of) {
    pthread_rwlock_rdlock(&shelf), pthread_rwlock_rdlock(&board);
    pthread_rwlock_unlock(&board), pthread_rwlock_unlock(&shelf);
    return of;
}
static void *reads_ba(void *of) {
    pthread_rwlock_rdlock(&board), pthread_rwlock_rdlock(&shelf);
    pthread_rwlock_unlock(&shelf), pthread_rwlock_unlock(&board);
    return of;
}
static void readers(void) { at_once(reads_ab, reads_ba); }

static void *a_then_tries_b(void *of) {
    lock(&a);
    if (pthread_mutex_trylock(&b) == 0) unlock(&b);
    unlock(&a);
    return of;
}
static void try_second(void) { in_turn(a_then_tries_b, b_then_a); }

/* Mutexes that are made and destroyed, before half of them under one and then above it: none of them is in a cycle. */
static void *short_lived(void *of) {
    pthread_mutex_t *own = &many[(long)of];
    pthread_mutex_init(own, NULL);
    if ((long)of < 100) both(&a, own);
    else both(own, &a);
    pthread_mutex_destroy(own);
    return NULL;
}
static void made_anew(void) {
    pthread_t t;
    for (long i = 0; i < 200; i++) pthread_create(&t, NULL, short_lived, (void *)i), pthread_join(t, NULL);
}

/* Memory that is given back holds another mutex next. */
static void *of_heap(void *of) {
    pthread_mutex_t *own = calloc(4, sizeof *own);
    if (number++ == 0) both(&a, own);
    else both(own, &a);
    free(own);
    return of;
}
static void heap_used_again(void) { in_turn(of_heap, of_heap); }

/* ---- threads that wait for ever ---- */

static void *slow_ab(void *of) { return lock(&a), usleep(100000), lock(&b), of; }
static void *slow_ba(void *of) { return lock(&b), usleep(100000), lock(&a), of; }
static void deadlock(void) { alarm(1), at_once(slow_ab, slow_ba); }
static void deadlock_unended(void) { at_once(slow_ab, slow_ba); }

static void *reads_then_locks(void *of) { return pthread_rwlock_rdlock(&shelf), usleep(100000), lock(&a), of; }
static void *locks_then_writes(void *of) { return lock(&a), usleep(100000), pthread_rwlock_wrlock(&shelf), of; }
static void deadlock_rwlock(void) { alarm(1), at_once(reads_then_locks, locks_then_writes); }

static void *wants_a(void *of) { return lock(&a), of; }
static void deadlock_join(void) {
    pthread_t t;
    alarm(1), lock(&a);
    pthread_create(&t, NULL, wants_a, NULL), pthread_join(t, NULL);
}

static void relock(void) { alarm(1), lock(&a), lock(&a); }

static void *tests_then_waits(void *of) {
    lock(&a);
    if (!number) usleep(200000), pthread_cond_wait(&c, &a);
    unlock(&a);
    return of;
}
static void lost_signal(void) {
    pthread_t t;
    alarm(1), pthread_create(&t, NULL, tests_then_waits, NULL);
    usleep(100000), number = 1, pthread_cond_signal(&c), pthread_join(t, NULL);
}

static void *ends_with_it(void *of) { return lock(&a), of; }
static void left_locked(void) {
    pthread_t t;
    pthread_create(&t, NULL, ends_with_it, NULL), pthread_join(t, NULL);
    pthread_mutex_trylock(&a);
}

static void *takes_unit(void *of) { return sem_wait(&s), of; }
static void no_unit(void) { sem_init(&s, 0, 0), alarm(1), at_once(takes_unit, takes_unit); }

/* ---- faults of single calls ---- */

static void *unlocks(void *of) { return unlock(&a), of; }
static void stranger(void) { lock(&a), in_turn(unlocks, wants_a); }
static void double_unlock(void) { lock(&a), unlock(&a), unlock(&a); }
static void destroyed_held(void) { lock(&a), pthread_mutex_destroy(&a), pthread_mutex_init(&a, NULL), unlock(&a); }
static void *waits_unheld(void *of) { return pthread_cond_wait(&c, &a), unlock(&a), of; }
static void unheld(void) {
    pthread_t t;
    pthread_create(&t, NULL, waits_unheld, NULL);
    usleep(200000), lock(&a), pthread_cond_signal(&c), unlock(&a), pthread_join(t, NULL);
}
static void freed_held(void) {
    pthread_mutex_t *own = calloc(2, sizeof *own);
    lock(own), free(own);
}

static void *waits_with(void *of) {
    pthread_mutex_t *m = of;
    return lock(m), pthread_cond_wait(&c, m), unlock(m), of;
}
static void two_mutexes(void) {
    pthread_t t, u;
    pthread_create(&t, NULL, waits_with, &a), pthread_create(&u, NULL, waits_with, &b);
    usleep(200000), pthread_cond_broadcast(&c), pthread_join(t, NULL), pthread_join(u, NULL);
}

static void *posts_twice(void *of) { return sem_wait(&s), number++, usleep(1000), sem_post(&s), sem_post(&s), of; }
static void posted_twice(void) { sem_init(&s, 0, 1), at_once(posts_twice, posts_twice), at_once(posts_twice, posts_twice); }

static void *races(void *of) {
    for (int i = 0; i < 1000; i++) (*(volatile int *)&number)++;
    return of;
}
static void race(void) { at_once(races, races); }

/* ---- what a recorder has to bear ---- */

static void *takes_all(void *of) {
    for (int i = 0; i < 100000; i++) sem_wait(&s);
    return of;
}
static void counted(void) {
    pthread_t t;
    sem_init(&s, 0, 0);
    for (int i = 0; i < 100000; i++) sem_post(&s);
    pthread_create(&t, NULL, takes_all, NULL), pthread_join(t, NULL);
}

static void fork_held(void) {
    for (int i = 0; i < 100; i++) lock(&many[i]);
    pid_t child = fork();
    for (int i = 100; i-- > 0;) unlock(&many[i]);
    if (child == 0) _exit(0);
    waitpid(child, NULL, 0);
}

static void many_forks(void) {
    for (int i = 0; i < 300000; i++) lock(&a), unlock(&a);
    for (int i = 0; i < 30; i++) {
        if (fork() == 0) lock(&a), unlock(&a), _exit(0);
        wait(NULL);
    }
}

static void child_only(void) {
    if (fork() == 0) lock(&a), unlock(&a), _exit(0);
    wait(NULL);
}

static void other_user(void) {
    lock(&a), unlock(&a);
    if (setuid(65534)) exit(1);
    child_only();
}

/* Closes all that it doesn't know, and gives up its rights, as servers do. */
static void gives_up(void) {
    closefrom(3);
    for (int i = 3; i < 1024; i++) close(i);
    if (getuid() == 0 && setuid(65534)) exit(1);
    for (int i = 0; i < 20000; i++) lock(&a), unlock(&a);
}

/* Opens no file from then on, as sandboxed servers do. */
static void no_files(void) {
    struct sock_filter lines[] = { BPF_STMT(BPF_LD | BPF_W | BPF_ABS, offsetof(struct seccomp_data, nr)),
                                   BPF_JUMP(BPF_JMP | BPF_JEQ | BPF_K, SYS_openat, 0, 1), BPF_STMT(BPF_RET | BPF_K, SECCOMP_RET_KILL_PROCESS),
                                   BPF_STMT(BPF_RET | BPF_K, SECCOMP_RET_ALLOW) };
    struct sock_fprog filter = { 4, lines };
    if (prctl(PR_SET_NO_NEW_PRIVS, 1, 0, 0, 0) || prctl(PR_SET_SECCOMP, SECCOMP_MODE_FILTER, &filter)) exit(1);
    for (int i = 0; i < 20000; i++) lock(&a), unlock(&a);
}

static void by_handle(void) {
    int (*own)(pthread_mutex_t *) = (int (*)(pthread_mutex_t *))dlsym(dlopen("libc.so.6", RTLD_NOW), "pthread_mutex_lock");
    for (int i = 0; i < 3; i++) own(&a), unlock(&a);
}

static void deep_plugin(void) {
    void *plugin = dlopen("./plugin.so", RTLD_NOW | RTLD_DEEPBIND);
    void (*locks)(pthread_mutex_t *) = plugin ? (void (*)(pthread_mutex_t *))dlsym(plugin, "plugin_locks") : NULL;
    if (!locks) exit(1);
    for (int i = 0; i < 3; i++) locks(&a), unlock(&a);
}

static void *waits_here(void *of) {
    lock(&a), number++;
    while (number < 1000) pthread_cond_wait(&c, &a);
    unlock(&a);
    return of;
}
static void crowd(void) {
    pthread_t t[100];
    for (int i = 0; i < 100; i++) pthread_create(&t[i], NULL, waits_here, NULL);
    for (int there = 0; there < 100; usleep(1000)) lock(&a), there = number, unlock(&a);
    lock(&a), number = 1000, pthread_cond_broadcast(&c), unlock(&a);
    for (int i = 0; i < 100; i++) pthread_join(t[i], NULL);
}

/* Mutexes of all kinds, by threads of which one is cancelled and one ends with a mutex. */
enum { INHERITS, CHECKS, AGAIN, ROBUST, PROTECTS, KINDS };
static void make_kinds(void) {
    for (int kind = 0; kind < KINDS; kind++) {
        pthread_mutexattr_t of;
        pthread_mutexattr_init(&of);
        if (kind == INHERITS) pthread_mutexattr_setprotocol(&of, PTHREAD_PRIO_INHERIT);
        if (kind == CHECKS) pthread_mutexattr_settype(&of, PTHREAD_MUTEX_ERRORCHECK);
        if (kind == AGAIN) pthread_mutexattr_settype(&of, PTHREAD_MUTEX_RECURSIVE);
        if (kind == ROBUST) pthread_mutexattr_setrobust(&of, PTHREAD_MUTEX_ROBUST);
        if (kind == PROTECTS) pthread_mutexattr_setprotocol(&of, PTHREAD_PRIO_PROTECT), pthread_mutexattr_setprioceiling(&of, 1);
        pthread_mutex_init(&many[kind], &of);
    }
}
static void *uses_kinds(void *of) {
    for (int i = 0; i < 100; i++) {
        lock(&many[INHERITS]), unlock(&many[INHERITS]);
        lock(&many[AGAIN]), lock(&many[AGAIN]), unlock(&many[AGAIN]), unlock(&many[AGAIN]);
        lock(&many[CHECKS]);
        if (pthread_mutex_lock(&many[CHECKS]) != EDEADLK) abort();
        unlock(&many[CHECKS]);
        if (pthread_mutex_unlock(&many[CHECKS]) != EPERM) abort();
        if (pthread_mutex_lock(&many[PROTECTS]) == 0) unlock(&many[PROTECTS]);
    }
    return of;
}
static void give_back(void *m) { unlock(m); }
static void *is_cancelled(void *of) {
    lock(&many[CHECKS]);
    pthread_cleanup_push(give_back, &many[CHECKS]);
    for (;;) pthread_cond_wait(&c, &many[CHECKS]);
    pthread_cleanup_pop(1);
    return of;
}
static void *ends_with_robust(void *of) { return lock(&many[ROBUST]), of; }
static void kinds(void) {
    pthread_t t;
    make_kinds();
    pthread_create(&t, NULL, is_cancelled, NULL);
    at_once(uses_kinds, uses_kinds);
    usleep(50000), pthread_cancel(t), pthread_join(t, NULL);
    in_turn(ends_with_robust, uses_kinds);
    if (pthread_mutex_lock(&many[ROBUST]) == EOWNERDEAD) pthread_mutex_consistent(&many[ROBUST]);
    unlock(&many[ROBUST]);
}

/* Two processes play ping-pong by what they share. */
struct table { pthread_mutex_t m; pthread_cond_t c; sem_t ping, pong; int number; };
static void shares(void) {
    struct table *all = mmap(NULL, sizeof *all, PROT_READ | PROT_WRITE, MAP_SHARED | MAP_ANONYMOUS, -1, 0);
    pthread_mutexattr_t of_mutex;
    pthread_condattr_t of_condition;
    pthread_mutexattr_init(&of_mutex), pthread_mutexattr_setpshared(&of_mutex, 1), pthread_mutex_init(&all->m, &of_mutex);
    pthread_condattr_init(&of_condition), pthread_condattr_setpshared(&of_condition, 1), pthread_cond_init(&all->c, &of_condition);
    sem_init(&all->ping, 1, 0), sem_init(&all->pong, 1, 0);
    int turn = fork() == 0;
    for (int i = 0; i < 500; i++) {
        lock(&all->m);
        while (all->number % 2 != turn) pthread_cond_wait(&all->c, &all->m);
        all->number++, pthread_cond_signal(&all->c), unlock(&all->m);
        sem_post(turn ? &all->ping : &all->pong), sem_wait(turn ? &all->pong : &all->ping);
    }
    if (turn) _exit(0);
    wait(NULL);
}

static void own_futex(void) {
    syscall(SYS_futex, &number, 1 /* wake */, 1, NULL, NULL, 0);
    lock(&a), unlock(&a);
}

#define CASE(f) { #f, f }
static const struct { const char *name; void (*f)(void); } cases[] = {
    CASE(inversion), CASE(among_many), CASE(with_rwlock), CASE(try_first), CASE(cycle_of_three), CASE(behind_gate), CASE(one_thread), CASE(readers),
    CASE(try_second), CASE(made_anew), CASE(heap_used_again), CASE(deadlock), CASE(deadlock_unended), CASE(deadlock_rwlock), CASE(deadlock_join),
    CASE(relock), CASE(lost_signal), CASE(left_locked), CASE(no_unit), CASE(stranger), CASE(double_unlock), CASE(destroyed_held), CASE(unheld),
    CASE(freed_held), CASE(two_mutexes), CASE(posted_twice), CASE(race), CASE(counted), CASE(fork_held), CASE(many_forks), CASE(child_only),
    CASE(other_user), CASE(gives_up), CASE(no_files), CASE(by_handle), CASE(deep_plugin), CASE(crowd), CASE(own_futex), CASE(kinds), CASE(shares),
};

int main(int argc, char **argv) {
    for (size_t i = 0; argc == 2 && i < sizeof cases / sizeof *cases; i++)
        if (strcmp(argv[1], cases[i].name) == 0) {
            cases[i].f();
            return 0;
        }
    return 1;
}
