/* Cycles of locks, each got while the one before is held. Those that can't stop the program are told apart: where a lock that all of its
 * threads have at that time lets only one of them there, where one thread alone makes it, or where two of its steps only read the same
 * lock. */
#include "convert.h"
#include <stdlib.h>
#include <string.h>

#define MOST_TRIES 2000    /* of choices of examples for a cycle */
#define MOST_WORK 20000000 /* edges that are gone along, of one component */

struct graph {
    const struct found *f;
    const struct orders *o;
    numbers *out;   /* of each object: its edges */
    int *component; /* of each object, from 1; 0: none */
    int components;
};

/* ---- strongly connected components, without recursion ---- */

struct visit {
    int object;
    int64_t next;
};

static void find_components(struct graph *g) {
    int64_t n = g->f->objects.n;
    int *index = clean((size_t)n, sizeof *index), *low = clean((size_t)n, sizeof *low), next = 0;
    numbers stack = { 0 };
    LIST(struct visit) path = { 0 };
    for (int64_t k = 0; k < n; k++) {
        if (index[k] || !g->out[k].n) continue;
        ADD(path, (struct visit){ (int)k, 0 });
        while (path.n) {
            struct visit *v = &path.at[path.n - 1];
            int object = v->object;
            if (v->next == 0) {
                index[object] = low[object] = ++next;
                ADD(stack, object);
            }
            if (v->next < g->out[object].n) {
                int to = g->o->edges.at[g->out[object].at[v->next++]].to;
                if (!index[to]) ADD(path, (struct visit){ to, 0 });
                else if (!g->component[to] && index[to] < low[object]) low[object] = index[to];
                continue;
            }
            path.n--;
            if (path.n && low[object] < low[path.at[path.n - 1].object]) low[path.at[path.n - 1].object] = low[object];
            if (low[object] != index[object]) continue;
            g->components++;
            for (int last = -1; last != object;) g->component[last = stack.at[--stack.n]] = g->components;
        }
    }
    free(index), free(low), free(stack.at), free(path.at);
}

/* ---- what a cycle is ---- */

/* The lock that both examples hold, other than both reading; -1: none. */
static int common_lock(const struct holdings *a, const struct holdings *b) {
    for (int64_t i = 0, k = 0; i < a->n && k < b->n;) {
        if (a->at[i].object == b->at[k].object && !(a->at[i].reads && b->at[k].reads)) return a->at[i].object;
        if (a->at[i].object < b->at[k].object) i++;
        else k++;
    }
    return -1;
}

static const struct witness *example(const struct graph *g, const struct cycle *c, int64_t i) {
    return &g->o->edges.at[c->edges.at[i]].of.at[c->examples.at[i]];
}

static bool reads_it(const struct witness *w, int object) {
    for (int64_t i = 0; i < w->held->n; i++)
        if (w->held->at[i].object == object) return w->held->at[i].reads;
    return false;
}

/* What the examples that are chosen so far make of the cycle, at best. */
static enum sort sort_of(const struct graph *g, const struct cycle *c, int *gate) {
    enum sort worst = CAN_BLOCK;
    int64_t n = c->examples.n;
    for (int64_t i = 0; i < n; i++)
        for (int64_t k = 0; k < i; k++) {
            const struct witness *a = example(g, c, i), *b = example(g, c, k);
            if (a->thread == b->thread) return ONE_THREAD;
            int lock = common_lock(a->held, b->held);
            if (lock >= 0) worst = UNDER_GATE, *gate = lock;
        }
    for (int64_t i = 0; i < n && n == c->edges.n && worst == CAN_BLOCK; i++) {
        int64_t next = (i + 1) % n;
        if (example(g, c, i)->reads && reads_it(example(g, c, next), g->o->edges.at[c->edges.at[i]].to)) worst = BY_READING;
    }
    return worst;
}

/* Tries the examples of the edges from the i-th on, and keeps the best choice in `best`. */
static void choose(const struct graph *g, struct cycle *c, struct cycle *best, int *tries) {
    int gate = -1;
    enum sort sort = sort_of(g, c, &gate);
    if (best->examples.n && sort >= best->sort) return;
    if (c->examples.n == c->edges.n) {
        best->sort = sort, best->gate = gate, best->examples.n = 0;
        for (int64_t i = 0; i < c->examples.n; i++) ADD(best->examples, c->examples.at[i]);
        return;
    }
    int n = (int)g->o->edges.at[c->edges.at[c->examples.n]].of.n;
    for (int k = 0; k < n && ++*tries < MOST_TRIES && !(best->examples.n && best->sort == CAN_BLOCK); k++) {
        ADD(c->examples, k);
        choose(g, c, best, tries);
        c->examples.n--;
    }
}

/* The shortest way from the end of an edge to its beginning, within its component; with that edge in front it is a cycle. */
static bool close_cycle(const struct graph *g, int first, int64_t *by, numbers *queue, struct cycle *c) {
    const struct edge *edges = g->o->edges.at;
    int from = edges[first].to, to = edges[first].from;
    queue->n = 0;
    ADD(*queue, from);
    for (int64_t i = 0; i < queue->n && !by[to]; i++) {
        const numbers *out = &g->out[queue->at[i]];
        for (int64_t k = 0; k < out->n; k++) {
            int next = edges[out->at[k]].to;
            if (g->component[next] != g->component[to] || by[next] || next == from) continue;
            by[next] = out->at[k] + 1;
            ADD(*queue, next);
        }
    }
    bool found = by[to] != 0;
    numbers back = { 0 };
    for (int k = to; found && k != from; k = edges[by[k] - 1].from) ADD(back, (int)by[k] - 1);
    ADD(c->edges, first);
    while (back.n) ADD(c->edges, back.at[--back.n]);
    for (int64_t i = 0; i < queue->n; i++) by[queue->at[i]] = 0;
    free(back.at);
    return found;
}

static void take_better(struct cycle *best, struct cycle *new) {
    if (!best->edges.n || new->sort < best->sort || (new->sort == best->sort &&new->edges.n < best->edges.n)) {
        struct cycle old = *best;
        *best = *new, *new = old;
    }
    free(new->edges.at), free(new->examples.at);
}

/* What is best of the choices of examples for a cycle is compared with the best one so far. */
static void consider(const struct graph *g, struct cycle *new, struct cycle *best) {
    struct cycle trial = { .edges = new->edges };
    int tries = 0;
    choose(g, &trial, new, &tries);
    free(trial.examples.at);
    if (new->examples.n) take_better(best, new);
    else free(new->edges.at), free(new->examples.at);
}

static void look_at_pairs(const struct graph *g, const numbers *edges, struct cycle *best) {
    for (int64_t i = 0; i < edges->n && !(best->edges.n && best->sort == CAN_BLOCK); i++) {
        const struct edge *e = &g->o->edges.at[edges->at[i]];
        int64_t back = find_edge(g->o, e->to, e->from);
        if (back <= edges->at[i] || !g->o->edges.at[back].of.n) continue;
        struct cycle new = { .gate = -1, .sort = ONE_THREAD };
        ADD(new.edges, edges->at[i]);
        ADD(new.edges, (int)back);
        consider(g, &new, best);
    }
}

/* The best cycle of a component, pairs of locks first, and its other edges, where they aren't more objects than a trace has names for. */
static struct cycle look_at(const struct graph *g, int component, const numbers *edges, int objects, int64_t *by, numbers *queue) {
    struct cycle best = { 0 };
    look_at_pairs(g, edges, &best);
    int64_t work = MOST_WORK;
    for (int64_t i = 0; i < edges->n && work > 0 && !(best.edges.n && best.sort == CAN_BLOCK); i++) {
        struct cycle new = { .gate = -1, .sort = ONE_THREAD };
        work -= edges->n;
        if (close_cycle(g, edges->at[i], by, queue, &new)) consider(g, &new, &best);
        else free(new.edges.at);
    }
    best.component = component;
    for (int64_t i = 0; i < edges->n && objects <= NAMES; i++) {
        bool is_in = false;
        for (int64_t k = 0; k < best.edges.n; k++) is_in |= best.edges.at[k] == edges->at[i];
        if (!is_in) ADD(best.others, edges->at[i]);
    }
    return best;
}

static int by_sort(const void *x, const void *y) {
    const struct cycle *a = x, *b = y;
    return a->sort != b->sort ? (int)a->sort - (int)b->sort : a->component - b->component;
}

/* Examples with fewer locks have fewer in common. */
static int by_holdings(const void *x, const void *y) {
    const struct witness *a = x, *b = y;
    return a->held->n != b->held->n ? (a->held->n < b->held->n ? -1 : 1) : a->got < b->got ? -1 : a->got > b->got;
}

void find_cycles(const struct found *f, const struct orders *o, cycles *all) {
    size_t n = (size_t)f->objects.n;
    for (int64_t i = 0; i < o->edges.n; i++)
        if (o->edges.at[i].of.n) qsort(o->edges.at[i].of.at, (size_t)o->edges.at[i].of.n, sizeof *o->edges.at[i].of.at, by_holdings);
    struct graph g = { f, o, clean(n, sizeof(numbers)), clean(n, sizeof(int)), 0 };
    for (int64_t i = 0; i < o->edges.n; i++)
        if (o->edges.at[i].of.n) ADD(g.out[o->edges.at[i].from], (int)i);
    find_components(&g);
    int64_t *by = clean(n, sizeof *by);
    int *objects = clean((size_t)g.components + 1, sizeof *objects);
    numbers queue = { 0 }, *within = clean((size_t)g.components + 1, sizeof *within);
    for (size_t k = 0; k < n; k++) objects[g.component[k]]++;
    for (int64_t i = 0; i < o->edges.n; i++) {
        int from = g.component[o->edges.at[i].from];
        if (from && from == g.component[o->edges.at[i].to] && o->edges.at[i].of.n) ADD(within[from], (int)i);
    }
    for (int k = 1; k <= g.components; k++) {
        if (objects[k] < 2) continue;
        struct cycle cycle = look_at(&g, k, &within[k], objects[k], by, &queue);
        if (cycle.edges.n) ADD(*all, cycle);
    }
    if (all->n) qsort(all->at, (size_t)all->n, sizeof *all->at, by_sort);
    for (size_t k = 0; k < n; k++) free(g.out[k].at);
    free(g.out), free(g.component), free(by), free(objects), free(queue.at), free(within);
}
