/* What of each event stands in a part, and what state it leaves there. */
#include "convert.h"
#include <stdlib.h>

void begin_replay(struct replay *y, const struct found *f, struct parts *s) {
    size_t objects = (size_t)f->objects.n, threads = (size_t)f->system + 1;
    *y = (struct replay){ .f = f,
                          .s = s,
                          .holder = clean(objects, sizeof(int)),
                          .since = clean(objects, sizeof(int64_t)),
                          .holds = clean(threads, sizeof(int)),
                          .waits = clean(threads, sizeof *y->waits),
                          .slot = clean(threads, sizeof(int)),
                          .inside = clean(objects, sizeof *y->inside) };
    for (size_t k = 0; k < objects; k++) y->holder[k] = -1, y->since[k] = -1;
}

static void touch(struct replay *y, const struct event *e) {
    ADD(y->touched_objects, e->a);
    if (e->action != SIGNALS && e->b >= 0) ADD(y->touched_objects, e->b);
    ADD(y->touched_threads, e->thread);
}

void start_part(struct replay *y, int part) {
    for (int64_t i = 0; i < y->touched_objects.n; i++) {
        int k = y->touched_objects.at[i];
        y->holder[k] = -1, y->since[k] = -1, y->inside[k].n = 0;
    }
    for (int64_t i = 0; i < y->touched_threads.n; i++) y->holds[y->touched_threads.at[i]] = 0, y->waits[y->touched_threads.at[i]] = OUTSIDE;
    y->touched_objects.n = y->touched_threads.n = y->slots.n = 0;
    y->part = part, y->pinned = y->most = 0;
    y->system_acts = false;
}

/* ---- waits ---- */

/* Waits that are under way have numbers of their own; those of one part are of its class. */
static int class_of(const struct replay *y, int slot) {
    int classes = y->s->parts.at[y->part].classes;
    return slot % classes;
}

static int free_slot(const struct replay *y) {
    int slot = 0;
    while (slot < y->slots.n && y->slots.at[slot]) slot++;
    return slot;
}

static bool is_inside(const numbers *in, int thread) {
    for (int64_t i = 0; i < in->n; i++)
        if (in->at[i] == thread) return true;
    return false;
}

static void take_out(numbers *in, int thread) {
    for (int64_t i = 0; i < in->n; i++)
        if (in->at[i] == thread) in->at[i--] = in->at[--in->n];
}

/* The further threads of a signal, by a search for its first one. */
static int64_t first_also(const struct found *f, int64_t event) {
    int64_t low = 0, high = f->also.n;
    while (low < high) {
        int64_t middle = (low + high) / 2;
        if (f->also.at[middle].event < event) low = middle + 1;
        else high = middle;
    }
    return low;
}

bool is_taken(const struct found *f, int64_t event, int thread) {
    if (f->events.at[event].b == thread) return true;
    for (int64_t i = first_also(f, event); i < f->also.n && f->also.at[i].event == event; i++)
        if (f->also.at[i].thread == thread) return true;
    return false;
}

/* ---- events ---- */

/* Of a condition whose waits are in several parts, a signal stands in those where it takes one, and where nobody is. */
static bool signal_stands(const struct replay *y, int64_t event) {
    const struct event *e = &y->f->events.at[event];
    const numbers *in = &y->inside[e->a];
    if (in->n == 0 || y->s->parts.at[y->part].classes == 1) return true;
    if (e->b >= 0 && is_inside(in, e->b)) return true;
    for (int64_t i = first_also(y->f, event); i < y->f->also.n && y->f->also.at[i].event == event; i++)
        if (is_inside(in, y->f->also.at[i].thread)) return true;
    return false;
}

bool stands(struct replay *y, int64_t event, enum action *action) {
    const struct event *e = &y->f->events.at[event];
    *action = e->action;
    switch (e->action) {
    case ALERT: return y->waits[e->a] == WITHIN;
    case SIGNALS: return signal_stands(y, event);
    case ENQUEUE:
    case ALERT_ENQUEUE:
        if (name_in(y->s, e->b, y->part) < 0 || class_of(y, free_slot(y)) != y->s->parts.at[y->part].class) *action = RELEASE;
        return true;
    case RESUME:
    case ALERT_RETURN:
    case ALERT_RAISE:
        if (y->waits[e->thread] != WITHIN) *action = ACQUIRE;
        return true;
    default: return true;
    }
}

static bool is_pinned(const struct replay *y, int thread) { return y->holds[thread] > 0 || y->waits[thread] == WITHIN; }

/* A thread's state changes; counts those that need their names. */
static void change(struct replay *y, int thread, int holds, int waits) {
    int before = is_pinned(y, thread);
    y->holds[thread] += holds;
    if (waits >= 0) y->waits[thread] = waits;
    y->pinned += is_pinned(y, thread) - before;
}

static void set_holder(struct replay *y, int mutex, int thread, int64_t event) {
    if (y->holder[mutex] >= 0) change(y, y->holder[mutex], -1, -1);
    y->holder[mutex] = thread, y->since[mutex] = event;
    if (thread >= 0) change(y, thread, 1, -1);
}

static void begin_wait(struct replay *y, const struct event *e, bool here, int64_t event) {
    int slot = free_slot(y);
    set_holder(y, e->a, -1, event);
    while (y->slots.n <= slot) ADD(y->slots, 0);
    y->slots.at[slot] = 1, y->slot[e->thread] = slot;
    change(y, e->thread, 0, here ? WITHIN : WITHIN_ELSEWHERE);
    if (here) ADD(y->inside[e->b], e->thread);
}

static void end_wait(struct replay *y, const struct event *e, bool here, int64_t event) {
    if (here) take_out(&y->inside[e->b], e->thread);
    if (y->waits[e->thread] != OUTSIDE) y->slots.at[y->slot[e->thread]] = 0;
    change(y, e->thread, 0, OUTSIDE);
    set_holder(y, e->a, e->thread, event);
}

static void take_signalled(struct replay *y, int64_t event) {
    const struct event *e = &y->f->events.at[event];
    if (e->b >= 0) take_out(&y->inside[e->a], e->b);
    for (int64_t i = first_also(y->f, event); i < y->f->also.n && y->f->also.at[i].event == event; i++)
        take_out(&y->inside[e->a], y->f->also.at[i].thread);
}

void advance(struct replay *y, int64_t event, enum action action) {
    const struct event *e = &y->f->events.at[event];
    int needed = y->pinned + !is_pinned(y, e->thread);
    if (e->thread == y->f->system) y->system_acts = true, needed--;
    if (needed > y->most) y->most = needed;
    touch(y, e);
    switch (e->action) {
    case ACQUIRE: set_holder(y, e->a, e->thread, event); break;
    case RELEASE: set_holder(y, e->a, -1, event); break;
    case ENQUEUE:
    case ALERT_ENQUEUE: begin_wait(y, e, action != RELEASE, event); break;
    case RESUME:
    case ALERT_RETURN:
    case ALERT_RAISE: end_wait(y, e, action != ACQUIRE, event); break;
    case SIGNALS: take_signalled(y, event); break;
    case BROADCASTS: y->inside[e->a].n = 0; break;
    default: break;
    }
}

void fit_parts(struct replay *y) {
    for (int part = 0; part < y->s->parts.n;) {
        enum action action;
        int most_waits = 0;
        start_part(y, part);
        for (int64_t i = 0; i < y->s->parts.at[part].events.n; i++) {
            int64_t event = y->s->parts.at[part].events.at[i];
            if (!stands(y, event, &action)) continue;
            advance(y, event, action);
            if (y->slots.n > most_waits) most_waits = (int)y->slots.n;
        }
        if (y->most <= NAMES - y->system_acts || !split_part(y->s, part, most_waits)) part++;
    }
}
