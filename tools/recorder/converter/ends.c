/* Who waits for what when the record ends, and whether that can ever end. */
#include "convert.h"
#include <stdlib.h>
#include <string.h>

#define MOST_SAID 12

struct ends {
    const struct process *p;
    const struct found *f;
    const struct orders *o;
    int *blocked; /* of each thread: its blocked call, from 1; 0: none */
    bool *said;   /* and whether it stands in a deadlock */
    string *text;
};

static void name_thread(const struct ends *s, int thread, char *text, size_t size) {
    char what[2500];
    describe(s->p, s->f, thread, what, sizeof what);
    snprintf(text, size, "thread %d (%s)", thread,
             thread == 0 && !s->f->objects.at[0].made ? "the first"
             : strncmp(what, "thread, ", 8) == 0      ? what + 8
                                                      : what);
}

static int thread_of_handle(const struct ends *s, uint64_t handle) {
    int found = -1;
    for (int k = 0; k < s->f->system; k++)
        if (s->f->objects.at[k].made && s->f->objects.at[k].handle == handle) found = k;
    return found;
}

/* The threads that one waits for: that have the lock, or that it joins. */
static void find_culprits(const struct ends *s, int thread, numbers *to) {
    to->n = 0;
    if (!s->blocked[thread]) return;
    const struct blocked *b = &s->o->blocked.at[s->blocked[thread] - 1];
    if (b->wait_for == FOR_THREAD) {
        int other = thread_of_handle(s, ADDRESS(&s->p->entries.at[b->entry].r));
        if (other >= 0) ADD(*to, other);
        return;
    }
    for (int other = 0; b->object >= 0 && b->wait_for <= FOR_WRITE && other < s->f->system; other++)
        for (int64_t i = 0; i < s->o->held[other].now.n; i++)
            if (s->o->held[other].now.at[i].object == b->object && !(b->wait_for == FOR_READ && s->o->held[other].now.at[i].reads)) {
                ADD(*to, other);
                break;
            }
}

/* ---- deadlocks: a cycle of threads each of which waits for the next ---- */

/* Comes from this thread to one that is on the way already; the way from there on is the cycle. */
static bool search(const struct ends *s, int thread, int *state, numbers *way) {
    numbers next = { 0 };
    bool found = false;
    state[thread] = 1;
    ADD(*way, thread);
    find_culprits(s, thread, &next);
    for (int64_t i = 0; i < next.n && !found; i++) {
        if (state[next.at[i]] == 1) {
            ADD(*way, next.at[i]);
            found = true;
        } else if (state[next.at[i]] == 0) found = search(s, next.at[i], state, way);
    }
    if (!found) way->n--, state[thread] = 2;
    free(next.at);
    return found;
}

static void say_wait(const struct ends *s, const struct blocked *b) {
    static const char *const words[] = { "waits for",           "waits to read",      "waits to write",
                                         "waits for a unit of", "waits at a barrier", "waits for the end of" };
    char what[2600], place[2000];
    const struct record *r = &s->p->entries.at[b->entry].r;
    name_thread(s, b->thread, what, sizeof what);
    say(s->text, "    %s %s", what, words[b->wait_for]);
    if (b->wait_for == FOR_THREAD) {
        int other = thread_of_handle(s, ADDRESS(r));
        if (other >= 0) name_thread(s, other, what, sizeof what);
        say(s->text, " %s", other >= 0 ? what : "a thread that is not known");
    } else if (b->object >= 0) {
        describe(s->p, s->f, b->object, what, sizeof what);
        say(s->text, " %s", what);
    }
    name_place(s->p, r->place, place, sizeof place);
    say(s->text, "\n      called in %s\n", place);
}

static void say_holders(const struct ends *s, const struct blocked *b) {
    char what[2600], place[2000];
    for (int other = 0; b->object >= 0 && other < s->f->system; other++)
        for (int64_t i = 0; i < s->o->held[other].now.n; i++) {
            if (s->o->held[other].now.at[i].object != b->object) continue;
            int64_t entry = s->o->held[other].now.at[i].entry;
            name_thread(s, other, what, sizeof what);
            name_place(s->p, entry < 0 ? 0 : s->p->entries.at[entry].r.place, place, sizeof place);
            say(s->text, "      held by %s%s, which got it in %s\n", what, s->f->objects.at[other].ended ? ", which has ended" : "", place);
        }
}

static void say_deadlocks(const struct ends *s, int *state) {
    for (int thread = 0; thread < s->f->system; thread++) {
        numbers way = { 0 };
        if (state[thread] == 0 && s->blocked[thread] && search(s, thread, state, &way)) {
            int64_t begin = 0;
            while (way.at[begin] != way.at[way.n - 1]) begin++;
            if (way.n - 1 - begin == 1) say(s->text, "  DEADLOCK: a thread waits for itself:\n");
            else say(s->text, "  DEADLOCK: %lld threads wait for each other:\n", (long long)(way.n - 1 - begin));
            for (int64_t i = begin; i < way.n - 1; i++) {
                const struct blocked *b = &s->o->blocked.at[s->blocked[way.at[i]] - 1];
                say_wait(s, b);
                say_holders(s, b);
                s->said[way.at[i]] = true;
            }
        }
        for (int64_t i = 0; i < way.n; i++) state[way.at[i]] = 2;
        free(way.at);
    }
}

/* ---- all that wait ---- */

static void say_in_condition(const struct ends *s, int thread, int64_t wait) {
    char what[2600], condition[2600], place[2000];
    const struct entry *e = &s->p->entries.at[wait];
    name_thread(s, thread, what, sizeof what);
    describe(s->p, s->f, e->b, condition, sizeof condition);
    name_place(s->p, e->r.place, place, sizeof place);
    say(s->text, "    %s %s %s\n      called in %s\n", what,
        s->f->in_condition[thread] >= 0 ? "waits in" : "was signalled, and has not come back from", condition, place);
    if (s->f->in_condition[thread] >= 0) return;
    struct blocked b = { thread, wait, e->a, FOR_MUTEX };
    say_holders(s, &b);
}

static void say_waits(const struct ends *s, const int64_t *wait) {
    int64_t n = 0, said = 0;
    bool others = false;
    for (int thread = 0; thread < s->f->system; thread++) {
        n += !s->said[thread] && (s->blocked[thread] || wait[thread] >= 0);
        others |= s->said[thread];
    }
    if (n) say(s->text, "  at the end %lld %sthreads wait:\n", (long long)n, others ? "more " : "");
    for (int thread = 0; thread < s->f->system && said < MOST_SAID; thread++) {
        if (s->said[thread] || (!s->blocked[thread] && wait[thread] < 0)) continue;
        said++;
        if (!s->blocked[thread]) say_in_condition(s, thread, wait[thread]);
        else {
            say_wait(s, &s->o->blocked.at[s->blocked[thread] - 1]);
            say_holders(s, &s->o->blocked.at[s->blocked[thread] - 1]);
        }
    }
    if (n > said) say(s->text, "    and %lld more\n", (long long)(n - said));
}

/* A mutex that a thread had when it ended, and that nobody can get any more. */
static void say_left(const struct ends *s) {
    char what[2600], thread[2600];
    int said = 0;
    for (int other = 0; other < s->f->system && said < 5; other++)
        for (int64_t i = 0; s->f->objects.at[other].ended && i < s->o->held[other].now.n && said < 5; i++, said++) {
            describe(s->p, s->f, s->o->held[other].now.at[i].object, what, sizeof what);
            name_thread(s, other, thread, sizeof thread);
            say(s->text, "  NOTE: %s ended and holds still: %s\n", thread, what);
        }
}

void say_ends(const struct process *p, struct found *f, const struct orders *o, string *text) {
    size_t threads = (size_t)f->system + 1;
    struct ends s = { p, f, o, clean(threads, sizeof(int)), clean(threads, sizeof(bool)), text };
    int64_t *wait = clean(threads, sizeof *wait);
    int *state = clean(threads, sizeof *state);
    for (size_t k = 0; k < threads; k++) wait[k] = -1;
    for (int64_t i = 0; i < o->blocked.n; i++) s.blocked[o->blocked.at[i].thread] = (int)i + 1;
    for (int64_t i = 0; i < p->entries.n; i++) {
        const struct entry *e = &p->entries.at[i];
        if ((OPERATION(&e->r) == WAIT || OPERATION(&e->r) == TIMED_WAIT) && e->mate < 0 && !e->dropped && !f->objects.at[e->thread].ended)
            wait[e->thread] = i;
    }
    say_deadlocks(&s, state);
    say_waits(&s, wait);
    say_left(&s);
    free(s.blocked), free(s.said), free(wait), free(state);
}
