/* Makes the events of a process: puts signals where signals.c places them, and says whom each takes. */
#include "convert.h"
#include <errno.h>
#include <stdlib.h>

/* ---- where signals take effect ---- */

struct placed {
    int64_t gap, entry;
};

static int by_gap(const void *x, const void *y) {
    const struct placed *a = x, *b = y;
    return a->gap != b->gap ? (a->gap < b->gap ? -1 : 1) : a->entry < b->entry ? -1 : a->entry > b->entry;
}

/* Sorts the waits and calls of all conditions by condition, places each condition's, and gives the calls in the order of their gaps. */
static struct placed *place_all(struct process *p, struct found *f, int64_t *n) {
    int64_t *n_waits = clean((size_t)f->objects.n + 1, sizeof *n_waits), *n_calls = clean((size_t)f->objects.n + 1, sizeof *n_calls);
    struct wait *waits = clean((size_t)p->entries.n, sizeof *waits);
    struct call *calls = clean((size_t)p->entries.n, sizeof *calls);
    struct placed *placed = clean((size_t)p->entries.n, sizeof *placed);
    for (int turn = 0; turn < 2; turn++) { /* first counts, then fills, from each condition's first place on */
        for (int64_t i = 0; i < p->entries.n; i++) {
            struct entry *e = &p->entries.at[i];
            enum operation o = OPERATION(&e->r);
            if ((o == WAIT || o == TIMED_WAIT) && !e->dropped && e->mate >= 0 && returns(&p->entries.at[e->mate])) {
                if (turn) waits[n_waits[e->b]] = (struct wait){ i, e->mate };
                n_waits[e->b]++;
            } else if (o == SIGNAL || o == BROADCAST) {
                if (turn) calls[n_calls[e->a]] = (struct call){ i, e->mate >= 0 ? e->mate : INT64_MAX, -1, o == BROADCAST };
                n_calls[e->a]++;
            }
        }
        if (turn) continue;
        int64_t w = 0, c = 0;
        for (int64_t k = 0; k < f->objects.n; k++) {
            int64_t more_waits = n_waits[k], more_calls = n_calls[k];
            n_waits[k] = w, n_calls[k] = c;
            w += more_waits, c += more_calls;
        }
    }
    *n = 0;
    for (int64_t k = 0, w = 0, c = 0; k < f->objects.n; w = n_waits[k], c = n_calls[k], k++) {
        if (n_waits[k] == w && n_calls[k] == c) continue;
        place_calls(waits + w, n_waits[k] - w, calls + c, n_calls[k] - c);
        for (int64_t i = c; i < n_calls[k]; i++)
            if (calls[i].at >= 0) placed[(*n)++] = (struct placed){ calls[i].at, calls[i].from };
    }
    qsort(placed, (size_t)*n, sizeof *placed, by_gap);
    free(n_waits), free(n_calls), free(waits), free(calls);
    return placed;
}

/* ---- the events ---- */

/* Who is in a condition, and when the wait ends: by a return that is to be explained, never, or by time. */
struct inside {
    int thread;
    int64_t key, event;
};
#define NEVER (INT64_MAX - 1)
#define BY_TIME INT64_MAX
struct condition {
    LIST(struct inside) in;
    int64_t last_signal;
};

struct making {
    struct process *p;
    struct found *f;
    struct condition *conditions; /* of each object */
    int *waits;                   /* of each thread: whether it is within a wait */
    int *owner;                   /* of each mutex */
    int64_t now;                  /* the record that is gone through */
};

static int64_t add(struct making *s, enum action action, int thread, int a, int b) {
    struct found *f = s->f;
    int used[] = { thread, a, b };
    for (int i = 0; i < 3; i++) {
        if (used[i] < 0) continue;
        struct object *o = &f->objects.at[used[i]];
        if (o->first < 0) o->first = f->events.n;
        o->last = f->events.n;
    }
    ADD(f->events, (struct event){ action, thread, a, b, s->now });
    return f->events.n - 1;
}

static int64_t in_condition(const struct condition *c, int thread) {
    for (int64_t i = 0; i < c->in.n; i++)
        if (c->in.at[i].thread == thread) return i;
    return -1;
}

static int take_out(struct condition *c, int64_t i) {
    int thread = c->in.at[i].thread;
    c->in.at[i] = c->in.at[--c->in.n];
    return thread;
}

/* A signal takes the thread whose wait returns first. */
static void signal_now(struct making *s, int thread, int condition, bool all) {
    struct condition *c = &s->conditions[condition];
    int64_t event = add(s, all ? BROADCASTS : SIGNALS, thread, condition, -1), best = 0;
    s->f->signals++;
    if (c->in.n == 0) s->f->nobody++;
    if (all) {
        c->in.n = 0;
        return;
    }
    c->last_signal = event;
    if (c->in.n == 0) return;
    for (int64_t i = 1; i < c->in.n; i++)
        if (c->in.at[i].key < c->in.at[best].key) best = i;
    s->f->events.at[event].b = take_out(c, best);
}

/* Who returns has to be out of the condition: by the last signal since its wait began, which then takes several; where there was none, by
 * the system, since nothing that was recorded explains it. */
static void be_out(struct making *s, int thread, int condition, bool shared) {
    struct condition *c = &s->conditions[condition];
    int64_t i = in_condition(c, thread);
    if (i < 0) return;
    if (c->last_signal > c->in.at[i].event) {
        ADD(s->f->also, (struct also){ c->last_signal, take_out(c, i) });
        s->f->several++;
        return;
    }
    take_out(c, i);
    c->last_signal = add(s, SIGNALS, s->f->system, condition, -1);
    s->f->events.at[c->last_signal].b = thread;
    if (shared) s->f->from_outside++;
    else s->f->unexplained++;
}

/* How the thread got the mutex that it gives now was not recorded. */
static void take_unseen(struct making *s, const struct entry *e) {
    if (!e->unseen || s->owner[e->a] >= 0) return;
    add(s, ACQUIRE, e->thread, e->a, -1);
    s->owner[e->a] = e->thread;
}

static void enqueue_now(struct making *s, const struct entry *e) {
    const struct entry *back = e->mate >= 0 ? &s->p->entries.at[e->mate] : NULL;
    bool alertable = OPERATION(&e->r) == TIMED_WAIT || (back && raises(back));
    take_unseen(s, e);
    int64_t event = add(s, alertable ? ALERT_ENQUEUE : ENQUEUE, e->thread, e->a, e->b);
    ADD(s->conditions[e->b].in, (struct inside){ e->thread, !back ? NEVER : returns(back) ? e->mate : BY_TIME, event });
    s->waits[e->thread] = 1 + alertable;
    s->owner[e->a] = -1;
}

static void back_now(struct making *s, const struct entry *e) {
    const struct entry *begin = &s->p->entries.at[e->mate];
    bool alertable = s->waits[e->thread] == 2;
    s->waits[e->thread] = 0;
    if (s->owner[e->a] >= 0) add(s, RELEASE, s->owner[e->a], e->a, -1); /* it ended with it, or how it gave it was not recorded */
    if (raises(e)) {
        int64_t i = in_condition(&s->conditions[e->b], e->thread);
        if (i >= 0) take_out(&s->conditions[e->b], i);
        if (e->r.b == ETIMEDOUT) s->f->timeouts++;
        else s->f->cancelled++;
        add(s, ALERT, s->f->system, e->thread, -1);
        add(s, ALERT_RAISE, e->thread, e->a, e->b);
    } else {
        be_out(s, e->thread, e->b, begin->r.b & SHARED);
        add(s, alertable ? ALERT_RETURN : RESUME, e->thread, e->a, e->b);
    }
    s->owner[e->a] = e->thread;
}

/* ---- a counting semaphore: available exactly while it has units ---- */

static struct object *semaphore(struct making *s, int k) { return &s->f->objects.at[k]; }

static void set_available(struct making *s, int thread, int k, bool available) {
    add(s, available ? V : P, thread, k, -1);
    semaphore(s, k)->available = available;
}

/* One that begins without units is taken by the system first. */
static void begin_using(struct making *s, int k) {
    if (semaphore(s, k)->begun) return;
    semaphore(s, k)->begun = semaphore(s, k)->available = true;
    semaphore(s, k)->most = semaphore(s, k)->began_with;
    if (semaphore(s, k)->known && semaphore(s, k)->began_with == 0) set_available(s, s->f->system, k, false);
}

static void post_now(struct making *s, int thread, int k) {
    begin_using(s, k);
    set_available(s, thread, k, true);
    if (++semaphore(s, k)->units > semaphore(s, k)->most) semaphore(s, k)->most = semaphore(s, k)->units;
}

/* After one is got, the system makes it available again while there are more. Where none was there by the record, the post wasn't recorded:
 * of one whose beginning wasn't seen, or that other processes share, it may have had that one from the beginning. */
static void got_now(struct making *s, int thread, int k) {
    begin_using(s, k);
    if (semaphore(s, k)->units > 0) semaphore(s, k)->units--;
    else if (semaphore(s, k)->known) s->f->unposted++;
    if (!semaphore(s, k)->available) set_available(s, s->f->system, k, true);
    set_available(s, thread, k, false);
    if (semaphore(s, k)->units > 0) set_available(s, s->f->system, k, true);
}

/* One that is gone is at rest, so that its name can be used again. */
static void rest_now(struct making *s, int k) {
    if (semaphore(s, k)->begun && !semaphore(s, k)->available) set_available(s, s->f->system, k, true);
}

static void event_of(struct making *s, const struct entry *e) {
    /* what a signal handler does within a wait is no event of its thread */
    int thread = s->waits[e->thread] ? s->f->system : e->thread;
    switch (OPERATION(&e->r)) {
    case LOCK:
        if ((uint32_t)e->r.b == EOWNERDEAD && s->owner[e->a] >= 0) add(s, RELEASE, s->owner[e->a], e->a, -1);
        add(s, ACQUIRE, thread, e->a, -1);
        s->owner[e->a] = thread;
        break;
    case UNLOCK:
        take_unseen(s, e);
        /* what a signal handler got within a wait it may give after that */
        add(s, RELEASE, s->owner[e->a] == s->f->system ? s->f->system : thread, e->a, -1);
        s->owner[e->a] = -1;
        break;
    case WAIT:
    case TIMED_WAIT: enqueue_now(s, e); break;
    case BACK: back_now(s, e); break;
    case POST: post_now(s, thread, e->a); break;
    case GOT: got_now(s, thread, e->a); break;
    case SEM_INIT:
    case SEM_GONE: rest_now(s, e->b); break;
    default: break;
    }
}

static void note_rest(struct making *s) {
    for (int64_t k = 0; k < s->f->objects.n; k++) {
        struct object *o = &s->f->objects.at[k];
        if (o->kind == MUTEX) o->at_rest = s->owner[k] < 0;
        else if (o->kind == CONDITION) o->at_rest = s->conditions[k].in.n == 0;
        else if (o->kind == SEMAPHORE) o->at_rest = !o->begun || o->available;
        for (int64_t i = 0; i < s->conditions[k].in.n; i++) s->f->in_condition[s->conditions[k].in.at[i].thread] = (int)k;
    }
}

static int by_event(const void *x, const void *y) {
    int64_t a = *(const int64_t *)x, b = *(const int64_t *)y;
    return a < b ? -1 : a > b;
}

void find_events(struct process *p, struct found *f) {
    f->ends_early = p->ends_early;
    find_holds(p, f);
    int64_t n_placed, next = 0, n = f->objects.n;
    struct placed *placed = place_all(p, f, &n_placed);
    struct making s = {
        p, f, clean((size_t)n, sizeof(struct condition)), clean((size_t)p->threads + 1, sizeof(int)), clean((size_t)n, sizeof(int)), -1
    };
    f->in_condition = clean((size_t)p->threads + 1, sizeof(int));
    for (int k = 0; k <= p->threads; k++) f->in_condition[k] = -1;
    for (int64_t k = 0; k < n; k++) s.conditions[k].last_signal = -1, s.owner[k] = -1;
    for (int64_t i = 0; i < f->events.n; i++) s.owner[f->events.at[i].a] = 0;
    for (int64_t i = 0; i < p->entries.n; i++) {
        for (; next < n_placed && placed[next].gap == i; next++) {
            const struct entry *e = &p->entries.at[s.now = placed[next].entry];
            signal_now(&s, s.waits[e->thread] ? f->system : e->thread, e->a, OPERATION(&e->r) == BROADCAST);
        }
        s.now = i;
        if (!p->entries.at[i].dropped) event_of(&s, &p->entries.at[i]);
    }
    note_rest(&s);
    if (f->also.n) qsort(f->also.at, (size_t)f->also.n, sizeof *f->also.at, by_event);
    for (int64_t k = 0; k < n; k++) free(s.conditions[k].in.at);
    free(placed), free(s.waits), free(s.owner), free(s.conditions);
}
