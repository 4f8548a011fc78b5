/* How long mutexes were waited for and held. */
#include "convert.h"
#include <stdlib.h>
#include <time.h>

#define MOST_SAID 10

static double now_in_nanoseconds(void) {
    struct timespec t;
    clock_gettime(CLOCK_MONOTONIC, &t);
    return (double)t.tv_sec * 1e9 + (double)t.tv_nsec;
}

/* Measured over some milliseconds on this machine, which is taken to be the one that recorded. */
double nanoseconds_of_a_tick(void) {
    static double known;
    if (known > 0) return known;
    double begin = now_in_nanoseconds(), end;
    uint64_t first = ticks_now();
    do end = now_in_nanoseconds();
    while (end - begin < 4e6);
    return known = (end - begin) / (double)(ticks_now() - first);
}

struct use_of_lock {
    int object;
    int64_t got, contended;
    uint64_t waited, longest_wait, longest_hold, since;
};

static void note_got(const struct process *p, struct use_of_lock *u, const struct entry *e) {
    u->got++;
    u->since = TICKS(&e->r);
    if (e->mate < 0 || OPERATION(&p->entries.at[e->mate].r) != BLOCKED) return;
    uint64_t wait = TICKS(&e->r) - TICKS(&p->entries.at[e->mate].r);
    u->contended++;
    u->waited += wait;
    if (wait > u->longest_wait) u->longest_wait = wait;
}

static void note_gave(struct use_of_lock *u, const struct entry *e) {
    uint64_t hold = TICKS(&e->r) - u->since;
    if (u->since && TICKS(&e->r) > u->since && hold > u->longest_hold) u->longest_hold = hold;
    u->since = 0;
}

static int by_wait(const void *x, const void *y) {
    const struct use_of_lock *a = x, *b = y;
    return a->waited != b->waited ? (a->waited < b->waited ? 1 : -1) : a->object - b->object;
}

static void say_time(string *text, double nanoseconds) {
    if (nanoseconds < 1e4) say(text, "%8.0f ns", nanoseconds);
    else if (nanoseconds < 1e7) say(text, "%8.0f us", nanoseconds / 1e3);
    else say(text, "%8.0f ms", nanoseconds / 1e6);
}

void say_times(const struct process *p, const struct found *f, string *text) {
    struct use_of_lock *uses = clean((size_t)f->objects.n, sizeof *uses);
    double tick = nanoseconds_of_a_tick();
    char what[2600];
    for (int64_t i = 0; i < p->entries.n; i++) {
        const struct entry *e = &p->entries.at[i];
        if (e->dropped || e->a < 0) continue;
        switch (OPERATION(&e->r)) {
        case LOCK: note_got(p, &uses[e->a], e); break;
        case BACK: uses[e->a].since = TICKS(&e->r); break;
        case UNLOCK:
        case WAIT:
        case TIMED_WAIT: note_gave(&uses[e->a], e); break;
        case RW_LOCK:
            note_got(p, &uses[e->a], e);
            if (!(e->r.b & WRITES)) uses[e->a].since = 0; /* several may read */
            break;
        case RW_UNLOCK: note_gave(&uses[e->a], e); break;
        default: break;
        }
    }
    for (int64_t k = 0; k < f->objects.n; k++) uses[k].object = (int)k;
    qsort(uses, (size_t)f->objects.n, sizeof *uses, by_wait);
    if (uses[0].contended) say(text, "  most waited for:   got  after a wait  waited in all  longest wait  longest hold\n");
    for (int64_t k = 0; k < f->objects.n && k < MOST_SAID && uses[k].contended; k++) {
        describe(p, f, uses[k].object, what, sizeof what);
        say(text, "  %20lld %13lld    ", (long long)uses[k].got, (long long)uses[k].contended);
        say_time(text, (double)uses[k].waited * tick), say(text, "   ");
        say_time(text, (double)uses[k].longest_wait * tick), say(text, "   ");
        say_time(text, (double)uses[k].longest_hold * tick), say(text, "  %s\n", what);
    }
    free(uses);
}
