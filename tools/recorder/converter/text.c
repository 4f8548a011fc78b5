/* Writes the trace texts. */
#include "convert.h"
#include <stdlib.h>
#include <string.h>

struct text {
    const struct process *p;
    const struct found *f;
    struct parts *s;
    struct replay *y;
    int part, most[PARTED]; /* names of each kind */
    int names;              /* for threads, without the system's */
    int given;              /* of these */
    int *name;              /* of each thread: its name now, or -1 */
    int64_t *use_of;        /* of each object: its last use */
    int bearer[NAMES];      /* of each thread's name: who has it */
    struct legend legend;
    int64_t place;
    struct where *where;
    const char *ends_early;
    char *buffer;
    size_t filled;
    FILE *out;
};

FILE *create(const char *out, const char *kind, int number, const char *ending) {
    char path[4600];
    if (number) snprintf(path, sizeof path, "%s.%s%d.%s", out, kind, number, ending);
    else snprintf(path, sizeof path, "%s.%s", out, ending);
    return fopen(path, "w");
}

/* ---- a buffer: a trace may have millions of lines ---- */

#define BUFFER 65536
static void flush(struct text *x) {
    fwrite(x->buffer, 1, x->filled, x->out);
    x->filled = 0;
}

static void put_text(struct text *x, const char *text) {
    size_t n = strlen(text);
    if (x->filled + n > BUFFER) flush(x);
    memcpy(x->buffer + x->filled, text, n);
    x->filled += n;
}

static void put_number(struct text *x, int64_t number) {
    char digits[24];
    int n = 24;
    digits[--n] = 0;
    do digits[--n] = (char)('0' + number % 10);
    while (number /= 10);
    put_text(x, digits + n);
}

static void put_name(struct text *x, const char *before, int number) {
    put_text(x, before);
    put_number(x, number);
}

/* ---- names ---- */

static void note_use(struct text *x, int object, int kind, int name) {
    int64_t *k = &x->use_of[object];
    if (*k < 0 || x->legend.uses.at[*k].name != name) {
        *k = x->legend.uses.n;
        ADD(x->legend.uses, (struct use){ kind, name, object, x->place, x->place });
    }
    x->legend.uses.at[*k].last = x->place;
}

static int64_t last_use(const struct text *x, int thread) { return x->use_of[thread] < 0 ? -1 : x->legend.uses.at[x->use_of[thread]].last; }

/* A thread's name: its own one as long as there are enough, else that of one at rest which was used longest ago. -1: there is none. */
static int name_of(struct text *x, int thread) {
    if (x->name[thread] >= 0) return x->name[thread];
    int best = -1;
    if (x->given < x->names) best = x->given++;
    else
        for (int i = 0; i < x->names; i++) {
            int other = x->bearer[i];
            if (x->y->holds[other] || x->y->waits[other] == WITHIN) continue;
            if (best < 0 || last_use(x, other) < last_use(x, x->bearer[best])) best = i;
        }
    if (best < 0) return -1;
    if (x->bearer[best] >= 0) x->name[x->bearer[best]] = -1;
    x->bearer[best] = thread;
    return x->name[thread] = best;
}

/* How many names each kind has in this part, and whether the system acts in it. */
static void count_names(struct text *x) {
    const struct part *part = &x->s->parts.at[x->part];
    numbers acting = { 0 };
    bool *acts = clean((size_t)x->f->system + 1, sizeof *acts);
    enum action action;
    start_part(x->y, x->part);
    for (int64_t i = 0; i < part->events.n; i++) {
        if (!stands(x->y, part->events.at[i], &action)) continue;
        int thread = x->f->events.at[part->events.at[i]].thread;
        if (!acts[thread] && thread != x->f->system) ADD(acting, thread);
        acts[thread] = true;
        advance(x->y, part->events.at[i], action);
    }
    int limit = acts[x->f->system] ? NAMES - 1 : NAMES;
    x->names = acting.n < limit ? (int)acting.n : limit;
    x->given = 0;
    x->name[x->f->system] = acts[x->f->system] ? x->names : -1;
    if (acts[0]) name_of(x, 0);
    memset(x->most, 0, sizeof x->most);
    for (int64_t i = 0; i < part->objects.n; i++) {
        int k = part->objects.at[i], name = name_in(x->s, k, x->part), *most = &x->most[x->f->objects.at[k].kind];
        if (name >= *most) *most = name + 1;
    }
    free(acts), free(acting.at);
}

/* ---- events ---- */

static int by_int(const void *a, const void *b) { return *(const int *)a - *(const int *)b; }

static void put_left(struct text *x, int64_t event) {
    const numbers *in = &x->y->inside[x->f->events.at[event].a];
    int names[NAMES], n = 0;
    for (int64_t i = 0; i < in->n && n < NAMES; i++)
        if (!is_taken(x->f, event, in->at[i])) names[n++] = x->name[in->at[i]];
    qsort(names, (size_t)n, sizeof *names, by_int);
    put_text(x, " left");
    for (int i = 0; i < n; i++) put_name(x, " t", names[i]);
}

static void put_event(struct text *x, int64_t event, enum action action, int thread) {
    static const char *const words[] = {
        " acquire ", " release ",   " enqueue ", " resume ", " alert-enqueue ", " alert-resume ", " alert-resume ",
        " signal ",  " broadcast ", " p ",       " v ",      " alert "
    };
    const struct event *e = &x->f->events.at[event];
    put_number(x, x->place);
    put_name(x, " t", thread);
    put_text(x, words[action]);
    if (action == ALERT) put_name(x, "t", x->name[e->a]);
    else {
        static const char *const letters[] = { "m", "c", "s" };
        int kind = (int)x->f->objects.at[e->a].kind, a = name_in(x->s, e->a, x->part);
        put_name(x, letters[kind], a);
        note_use(x, e->a, kind, a);
    }
    if (action >= ENQUEUE && action <= ALERT_RAISE) {
        int b = name_in(x->s, e->b, x->part);
        put_name(x, " c", b);
        note_use(x, e->b, CONDITION, b);
    }
    if (action == ALERT_RETURN || action == ALERT_RAISE) put_text(x, action == ALERT_RETURN ? " returns" : " raises");
    if (action == SIGNALS) put_left(x, event);
    put_text(x, "\n");
}

/* The first release or wait without the mutex is what a checker will refuse. */
static void note_refusal(struct text *x, int64_t event, enum action action) {
    const struct event *e = &x->f->events.at[event];
    if (x->legend.refusal.place >= 0 || (action != RELEASE && action != ENQUEUE && action != ALERT_ENQUEUE)) return;
    int holder = x->y->holder[e->a];
    if (holder != e->thread) x->legend.refusal = (struct refusal){ x->place, event, x->y->since[e->a], e->thread, e->a, holder >= 0 };
}

/* Puts the events; where the names of threads don't suffice, it ends before that event. */
static void put_events(struct text *x) {
    const struct part *part = &x->s->parts.at[x->part];
    enum action action;
    start_part(x->y, x->part);
    for (int64_t i = 0; i < part->events.n; i++) {
        int64_t event = part->events.at[i];
        const struct event *e = &x->f->events.at[event];
        if (!stands(x->y, event, &action)) continue;
        int thread = name_of(x, e->thread);
        if (thread < 0) {
            x->ends_early = "more threads hold or wait at once than a trace has names for";
            break;
        }
        note_use(x, e->thread, THREAD, thread);
        put_event(x, event, action, thread);
        note_refusal(x, event, action);
        if (x->where && !x->where[event].part) x->where[event] = (struct where){ x->part + 1, x->place };
        advance(x->y, event, action);
        x->place++;
    }
    put_text(x, "end ");
    put_number(x, x->place);
    put_text(x, "\n");
}

/* ---- parts ---- */

static void forget_names(struct text *x) {
    for (int64_t i = 0; i < x->legend.uses.n; i++) {
        int k = x->legend.uses.at[i].object;
        x->use_of[k] = -1;
        if (k <= x->f->system) x->name[k] = -1;
    }
    for (int k = 0; k < NAMES; k++) {
        if (x->bearer[k] >= 0) x->name[x->bearer[k]] = -1;
        x->bearer[k] = -1;
    }
    x->name[x->f->system] = -1;
    x->legend.uses.n = 0, x->legend.refusal.place = -1, x->place = 0;
}

static bool write_part(struct text *x, int part, const char *out) {
    forget_names(x);
    x->part = part;
    count_names(x);
    int number = part ? part + 1 : 0, named = x->names + (x->name[x->f->system] >= 0);
    x->out = create(out, "part", number, "trace");
    if (!x->out) return false;
    fprintf(x->out, "firefly-trace 1\nthreads %d mutexes %d conditions %d semaphores %d\n", named ? named : 1, x->most[MUTEX],
            x->most[CONDITION], x->most[SEMAPHORE]);
    put_events(x);
    flush(x);
    bool good = !ferror(x->out);
    good = fclose(x->out) == 0 && good;
    char path[4600];
    if (number) snprintf(path, sizeof path, "%s.part%d.legend", out, number);
    else snprintf(path, sizeof path, "%s.legend", out);
    return good && write_legend(x->p, x->f, &x->legend, path);
}

int write_parts(const struct process *p, struct found *f, const char *out, struct where *where) {
    struct parts s;
    struct replay y;
    size_t threads = (size_t)f->system + 1;
    make_parts(&s, f);
    begin_replay(&y, f, &s);
    fit_parts(&y);
    struct text x = { .p = p,
                      .f = f,
                      .s = &s,
                      .y = &y,
                      .name = clean(threads, sizeof(int)),
                      .use_of = clean((size_t)f->objects.n, sizeof(int64_t)),
                      .where = where,
                      .buffer = clean(BUFFER + 64, 1) };
    for (int64_t k = 0; k < f->objects.n; k++) x.use_of[k] = -1;
    for (size_t k = 0; k < threads; k++) x.name[k] = -1;
    for (int k = 0; k < NAMES; k++) x.bearer[k] = -1;
    for (int part = 0; part < s.parts.n; part++) {
        if (!write_part(&x, part, out)) return -1;
        if (x.legend.refusal.place >= 0) ADD(f->strange, (struct refused){ part + 1, x.legend.refusal.place, x.legend.refusal.event });
    }
    if (s.ends_early) f->ends_early = s.ends_early;
    if (x.ends_early) f->ends_early = x.ends_early;
    return (int)s.parts.n;
}
