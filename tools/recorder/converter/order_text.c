/* Writes a cycle of locks as a trace of its own, one example after the other, and says in words what it is. */
#include "convert.h"
#include <stdlib.h>
#include <string.h>

#define MOST_SAID 10 /* cycles in words and files; of the others how many there are */
#define MOST_STEPS 400

struct step {
    int place, thread;
    int64_t entry;
    bool never;
};
struct order {
    const struct process *p;
    const struct found *f;
    const struct orders *o;
    numbers locks, threads; /* by their names */
    FILE *out;
    LIST(struct step) steps;
    int place;
};

static int name_among(numbers *names, int object) {
    for (int64_t i = 0; i < names->n; i++)
        if (names->at[i] == object) return (int)i;
    ADD(*names, object);
    return (int)names->n - 1;
}

static const struct holding *held_by(const struct witness *w, int object) {
    for (int64_t i = 0; i < w->held->n; i++)
        if (w->held->at[i].object == object) return &w->held->at[i];
    return NULL;
}

/* One example: the thread has one lock, gets the other, and gives both. */
static void put_example(struct order *x, const struct edge *e, const struct witness *w) {
    int thread = name_among(&x->threads, w->thread), from = name_among(&x->locks, e->from), to = name_among(&x->locks, e->to);
    const struct holding *held = held_by(w, e->from);
    ADD(x->steps, (struct step){ x->place, thread, held ? held->entry : -1, false });
    ADD(x->steps, (struct step){ x->place + 1, thread, w->got, w->never });
    fprintf(x->out, "%d t%d acquire m%d\n%d t%d acquire m%d\n", x->place, thread, from, x->place + 1, thread, to);
    fprintf(x->out, "%d t%d release m%d\n%d t%d release m%d\n", x->place + 2, thread, to, x->place + 3, thread, from);
    x->place += 4;
}

static void put_all(struct order *x, const struct cycle *c) {
    for (int64_t i = 0; i < c->edges.n; i++) {
        const struct edge *e = &x->o->edges.at[c->edges.at[i]];
        put_example(x, e, &e->of.at[c->examples.at[i]]);
    }
    for (int64_t i = 0; i < c->others.n && i < MOST_STEPS && x->threads.n < NAMES; i++) {
        const struct edge *e = &x->o->edges.at[c->others.at[i]];
        put_example(x, e, &e->of.at[0]);
    }
}

static bool write_legend_of(const struct order *x, const char *out, int number) {
    char what[2600];
    FILE *to = create(out, "order", number, "legend");
    if (!to) return false;
    fprintf(to, "# name, first event, last event, what it is\n");
    for (int64_t i = 0; i < x->locks.n; i++) {
        describe(x->p, x->f, x->locks.at[i], what, sizeof what);
        fprintf(to, "m%d 0 %d %s\n", (int)i, x->place - 1, what);
    }
    for (int64_t i = 0; i < x->threads.n; i++) {
        describe(x->p, x->f, x->threads.at[i], what, sizeof what);
        fprintf(to, "t%d 0 %d %s\n", (int)i, x->place - 1, what);
    }
    fprintf(to, "# events that were not side by side: each pair is an example from another time\n");
    for (int64_t i = 0; i < x->steps.n; i++) {
        int64_t entry = x->steps.at[i].entry;
        name_place(x->p, entry < 0 ? 0 : x->p->entries.at[entry].r.place, what, sizeof what);
        fprintf(to, "# event %d, record %lld: t%d%s in %s\n", x->steps.at[i].place,
                entry < 0 ? -1 : (long long)NUMBER(&x->p->entries.at[entry].r), x->steps.at[i].thread,
                x->steps.at[i].never ? " waits for it at the end" : "", what);
    }
    bool good = !ferror(to);
    return fclose(to) == 0 && good;
}

/* The layout line comes before the events, and says how many names there are: so these go to memory first. */
static bool write_order(struct order *x, const struct cycle *c, const char *out, int number) {
    char *lines = NULL;
    size_t n = 0;
    x->out = open_memstream(&lines, &n);
    if (!x->out) return false;
    put_all(x, c);
    bool good = fclose(x->out) == 0;
    FILE *to = create(out, "order", number, "trace");
    if (!to || !good) return false;
    fprintf(to, "firefly-trace 1\nthreads %d mutexes %d conditions 0 semaphores 0\n", (int)x->threads.n, (int)x->locks.n);
    fwrite(lines, 1, n, to);
    fprintf(to, "end %d\n", x->place);
    free(lines);
    good = !ferror(to);
    return fclose(to) == 0 && good && write_legend_of(x, out, number);
}

static void say_steps(struct order *x, const struct cycle *c, string *text) {
    char what[2600], place[2000];
    for (int64_t i = 0; i < c->edges.n; i++) {
        const struct edge *e = &x->o->edges.at[c->edges.at[i]];
        const struct witness *w = &e->of.at[c->examples.at[i]];
        const struct holding *held = held_by(w, e->from);
        describe(x->p, x->f, e->from, what, sizeof what);
        say(text, "    m%d, %s\n", name_among(&x->locks, e->from), what);
        name_place(x->p, held && held->entry >= 0 ? x->p->entries.at[held->entry].r.place : 0, place, sizeof place);
        say(text, "      t%d%s it in %s\n", name_among(&x->threads, w->thread), held && held->reads ? " reads" : " holds", place);
        name_place(x->p, x->p->entries.at[w->got].r.place, place, sizeof place);
        say(text, "      and %s m%d%s in %s\n", w->never ? "waits for" : "gets", name_among(&x->locks, e->to), w->reads ? " to read" : "",
            place);
    }
}

void say_cycle(const struct process *p, const struct found *f, const struct orders *o, const struct cycle *c, const char *out, int number,
               string *text) {
    static const char *const words[] = {
        "threads can deadlock, each with one of these locks and waiting for the next",
        "no fault by itself: two steps only read the same lock, so threads deadlock only if a writer waits between them",
        "no fault: all its threads hold one further lock at that time", "no fault: one thread alone makes it"
    };
    char what[2600];
    struct order x = { .p = p, .f = f, .o = o };
    if (number == MOST_SAID + 1) say(text, "  further cycles in the order of locks are left out\n");
    if (number > MOST_SAID) return;
    if (!write_order(&x, c, out, number)) {
        say(text, "  %s.order%d.trace can't be written\n", out, number);
        return;
    }
    say(text, "  %s of %lld locks: %s.order%d.trace: %s\n", c->sort == CAN_BLOCK ? "LOCK ORDER: a cycle" : "a cycle", (long long)c->edges.n,
        out, number, words[c->sort]);
    if (c->sort == UNDER_GATE && c->gate >= 0) {
        describe(p, f, c->gate, what, sizeof what);
        say(text, "    the further lock: %s\n", what);
    }
    if (c->sort == CAN_BLOCK || c->sort == BY_READING) say_steps(&x, c, text);
    free(x.locks.at), free(x.threads.at), free(x.steps.at);
}
