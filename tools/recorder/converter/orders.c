/* Which locks were got, or waited for, while others were held: by object, over the whole process. A call that tries is no reason to wait
 * for ever, so what it gets comes after nothing; but what is got while that is held comes after it. */
#include "convert.h"
#include <stdlib.h>

#define EXAMPLES 8 /* of each pair */
#define EXAMPLES_OF_THREAD 3

struct following {
    const struct process *p;
    const struct found *f;
    struct orders *o;
    bool *waits; /* of each thread: what a signal handler does within a wait is left out */
};

/* ---- edges ---- */

static int64_t slot_of(const struct orders *o, int from, int to) {
    int64_t k = (int64_t)(((uint64_t)from << 32 | (uint32_t)to) * 0x9e3779b97f4a7c15ull >> 24 & (uint64_t)(o->room - 1));
    for (; o->table[k]; k = (k + 1) & (o->room - 1)) {
        const struct edge *e = &o->edges.at[o->table[k] - 1];
        if (e->from == from && e->to == to) break;
    }
    return k;
}

int64_t find_edge(const struct orders *o, int from, int to) { return o->room ? o->table[slot_of(o, from, to)] - 1 : -1; }

static void widen(struct orders *o) {
    o->room = o->room ? 2 * o->room : 1024;
    free(o->table);
    o->table = clean((size_t)o->room, sizeof *o->table);
    for (int64_t i = 0; i < o->edges.n; i++) o->table[slot_of(o, o->edges.at[i].from, o->edges.at[i].to)] = i + 1;
}

static struct edge *edge(struct orders *o, int from, int to) {
    if (2 * o->edges.n >= o->room) widen(o);
    int64_t k = slot_of(o, from, to);
    if (!o->table[k]) {
        ADD(o->edges, (struct edge){ .from = from, .to = to });
        o->table[k] = o->edges.n;
    }
    return &o->edges.at[o->table[k] - 1];
}

/* ---- examples of an edge ---- */

static int by_object(const void *x, const void *y) { return ((const struct holding *)x)->object - ((const struct holding *)y)->object; }

/* What the thread holds now; it stays. */
static const struct holdings *holdings_of(const struct held_now *held) {
    struct holdings *all = clean(1, sizeof *all + (size_t)held->now.n * sizeof *all->at);
    all->mark = held->mark, all->n = held->now.n;
    for (int64_t i = 0; i < held->now.n; i++) all->at[i] = held->now.at[i];
    qsort(all->at, (size_t)all->n, sizeof *all->at, by_object);
    return all;
}

/* Where this example of an edge is kept: at the end, or in place of one with more locks, since fewer locks are common to others; -1: it
 * says nothing new. */
static int64_t place_for(const struct edge *e, int thread, bool reads, const struct held_now *held) {
    int64_t of_thread = 0, longest = -1;
    for (int64_t i = 0; i < e->of.n; i++) {
        const struct witness *w = &e->of.at[i];
        if (w->thread == thread && w->reads == reads && !w->never && w->held->mark == held->mark) return -1;
        of_thread += w->thread == thread;
    }
    bool full = of_thread >= EXAMPLES_OF_THREAD;
    if (!full && e->of.n < EXAMPLES) return e->of.n;
    for (int64_t i = 0; i < e->of.n; i++)
        if ((!full || e->of.at[i].thread == thread) && (longest < 0 || e->of.at[i].held->n > e->of.at[longest].held->n)) longest = i;
    return held->now.n < e->of.at[longest].held->n ? longest : -1;
}

/* The thread got the lock, or waits for it at the end, with all that it holds. */
static void add_example(struct following *s, int thread, int object, int64_t got, bool reads, bool never) {
    const struct held_now *held = &s->o->held[thread];
    const struct holdings *all = NULL;
    for (int64_t i = 0; i < held->now.n; i++) {
        if (held->now.at[i].object == object) continue;
        struct edge *e = edge(s->o, held->now.at[i].object, object);
        int64_t k = never ? e->of.n : place_for(e, thread, reads, held);
        if (k < 0) continue;
        if (!all) all = holdings_of(held);
        struct witness w = { thread, got, reads, never, all };
        if (k == e->of.n) ADD(e->of, w);
        else e->of.at[k] = w;
    }
}

/* ---- who holds what ---- */

static uint64_t mark_of(int object, bool reads) {
    uint64_t x = ((uint64_t)object << 1 | reads) + 0x9e3779b97f4a7c15ull;
    x = (x ^ x >> 30) * 0xbf58476d1ce4e5b9ull;
    return (x ^ x >> 27) * 0x94d049bb133111ebull;
}

static void hold(struct following *s, int thread, int object, int64_t entry, bool reads) {
    ADD(s->o->held[thread].now, (struct holding){ object, entry, reads });
    s->o->held[thread].mark += mark_of(object, reads);
}

static bool let_go_of(struct following *s, int thread, int object) {
    struct held_now *held = &s->o->held[thread];
    for (int64_t i = held->now.n; i-- > 0;) {
        if (held->now.at[i].object != object) continue;
        held->mark -= mark_of(object, held->now.at[i].reads);
        for (; i + 1 < held->now.n; i++) held->now.at[i] = held->now.at[i + 1];
        held->now.n--;
        return true;
    }
    return false;
}

/* Also what another thread got, since mutexes are given by strangers. */
static void let_go(struct following *s, int thread, int object) {
    if (let_go_of(s, thread, object)) return;
    for (int other = 0; other <= s->f->system; other++)
        if (let_go_of(s, other, object)) return;
}

static void follow(struct following *s, int64_t i) {
    const struct entry *e = &s->p->entries.at[i];
    enum operation operation = OPERATION(&e->r);
    if (operation == BACK && e->mate >= 0) {
        s->waits[e->thread] = false;
        if (s->p->entries.at[e->mate].dropped || e->a < 0) return;
        add_example(s, e->thread, e->a, i, false, false);
        hold(s, e->thread, e->a, i, false);
    }
    if (e->dropped || s->waits[e->thread]) return;
    switch (operation) {
    case LOCK:
        if ((uint32_t)e->r.b) let_go(s, e->thread, e->a); /* of a thread that ended with it */
        if (!(e->r.b & TRIED)) add_example(s, e->thread, e->a, i, false, false);
        hold(s, e->thread, e->a, i, false);
        break;
    case RW_LOCK:
        if (!(e->r.b & TRIED)) add_example(s, e->thread, e->a, i, !(e->r.b & WRITES), false);
        hold(s, e->thread, e->a, i, !(e->r.b & WRITES));
        break;
    case UNLOCK:
        if (!e->unseen) let_go(s, e->thread, e->a);
        break;
    case RW_UNLOCK: let_go(s, e->thread, e->a); break;
    case WAIT:
    case TIMED_WAIT:
        if (!e->unseen) let_go(s, e->thread, e->a);
        s->waits[e->thread] = true;
        break;
    case BLOCKED:
        if (e->mate < 0) ADD(s->o->blocked, (struct blocked){ e->thread, i, e->a, (enum wait_for)e->r.b });
        break;
    default: break;
    }
}

void find_orders(const struct process *p, const struct found *f, struct orders *o) {
    struct following s = { p, f, o, clean((size_t)f->system + 1, sizeof(bool)) };
    o->held = clean((size_t)f->system + 1, sizeof *o->held);
    for (int64_t i = 0; i < f->events.n && f->events.at[i].entry < 0; i++) hold(&s, 0, f->events.at[i].a, -1, false); /* inherited */
    for (int64_t i = 0; i < p->entries.n; i++) follow(&s, i);
    for (int64_t i = 0; i < o->blocked.n; i++) {
        const struct blocked *b = &o->blocked.at[i];
        if (b->wait_for <= FOR_WRITE) add_example(&s, b->thread, b->object, b->entry, b->wait_for == FOR_READ, true);
    }
    free(s.waits);
}
