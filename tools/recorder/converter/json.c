/* Writes all calls with their times: as events that Chrome's trace viewer and Perfetto load, and as lines. */
#include "convert.h"
#include <stdlib.h>
#include <string.h>

static const char *const words[OPERATIONS] = { [LOCK] = "lock",
                                               [UNLOCK] = "unlock",
                                               [WAIT] = "wait",
                                               [TIMED_WAIT] = "timed wait",
                                               [BACK] = "back from wait",
                                               [SIGNAL] = "signal",
                                               [BROADCAST] = "broadcast",
                                               [GOT] = "semaphore wait",
                                               [POST] = "semaphore post",
                                               [THREAD_BEGIN] = "thread begins",
                                               [THREAD_END] = "thread ends",
                                               [PROCESS_END] = "process ends",
                                               [BLOCKED] = "blocked",
                                               [UNBLOCKED] = "goes on",
                                               [RW_LOCK] = "lock to read",
                                               [RW_UNLOCK] = "unlock read-write" };
static const char *const waiting[] = { "waits for a mutex", "waits to read",      "waits to write",
                                       "waits for a unit",  "waits at a barrier", "joins a thread" };

struct output {
    const struct process *p;
    const struct found *f;
    const struct where *where;
    int64_t *event; /* of each record: its first event, from 1; 0: none */
    double tick;
    uint64_t begin;
    FILE *out;
    bool any;
};

static int64_t *events_of(const struct process *p, const struct found *f) {
    int64_t *event = clean((size_t)p->entries.n, sizeof *event);
    for (int64_t i = f->events.n; i-- > 0;)
        if (f->events.at[i].entry >= 0) event[f->events.at[i].entry] = i + 1;
    return event;
}

static void open_output(struct output *x, const struct process *p, const struct found *f, const struct where *where, FILE *out) {
    *x = (struct output){ p, f, where, events_of(p, f), nanoseconds_of_a_tick(), 0, out, false };
    x->begin = p->entries.n ? TICKS(&p->entries.at[0].r) : 0;
    for (int64_t i = 1; i < p->entries.n; i++)
        if (TICKS(&p->entries.at[i].r) < x->begin) x->begin = TICKS(&p->entries.at[i].r);
}

static bool close_output(struct output *x) {
    free(x->event);
    bool good = !ferror(x->out);
    return fclose(x->out) == 0 && good;
}

static double time_of(const struct output *x, const struct entry *e) { return (double)(TICKS(&e->r) - x->begin) * x->tick; }

/* ---- as JSON ---- */

static void put_quoted(FILE *out, const char *text) {
    putc('"', out);
    for (; *text; text++) {
        if (*text == '"' || *text == '\\') putc('\\', out);
        if ((unsigned char)*text >= 32) putc(*text, out);
    }
    putc('"', out);
}

static void begin_item(struct output *x, const char *name, const char *phase, const struct entry *e, double time) {
    fputs(x->any ? ",\n" : "\n", x->out);
    x->any = true;
    fputs("{\"name\":", x->out);
    put_quoted(x->out, name);
    fprintf(x->out, ",\"ph\":\"%s\",\"pid\":%lld,\"tid\":%d,\"ts\":%.3f", phase, (long long)x->p->head.pid, e->thread, time / 1e3);
}

static void put_arguments(struct output *x, const struct entry *e) {
    char text[2600];
    int64_t event = x->event[e - x->p->entries.at];
    fprintf(x->out, ",\"args\":{\"record\":%lld", (long long)NUMBER(&e->r));
    if (event && x->where[event - 1].part)
        fprintf(x->out, ",\"part\":%d,\"event\":%lld", x->where[event - 1].part, (long long)x->where[event - 1].place);
    if (e->a >= 0) {
        describe(x->p, x->f, e->a, text, sizeof text);
        fputs(",\"object\":", x->out), put_quoted(x->out, text);
    }
    name_place(x->p, e->r.place, text, sizeof text);
    fputs(",\"from\":", x->out), put_quoted(x->out, text);
    fputs("}}", x->out);
}

/* What lasts from one record of a thread to another. */
static void put_span(struct output *x, const char *name, const struct entry *from, const struct entry *to) {
    double begin = time_of(x, from), end = time_of(x, to);
    begin_item(x, name, "X", from, begin);
    fprintf(x->out, ",\"dur\":%.3f", end > begin ? (end - begin) / 1e3 : 0.0);
    put_arguments(x, from);
}

/* A mutex that is held: spans of one mutex are a row of their own, since holds needn't be within each other. */
static void put_hold(struct output *x, const struct entry *e, bool begins) {
    char name[80];
    snprintf(name, sizeof name, "held 0x%llx", (unsigned long long)x->f->objects.at[e->a].address);
    begin_item(x, name, begins ? "b" : "e", e, time_of(x, e));
    fprintf(x->out, ",\"cat\":\"held\",\"id\":%d", e->a);
    put_arguments(x, e);
}

static void put_thread_name(struct output *x, int thread) {
    char what[2600];
    describe(x->p, x->f, thread, what, sizeof what);
    fputs(x->any ? ",\n" : "\n", x->out);
    x->any = true;
    fprintf(x->out, "{\"name\":\"thread_name\",\"ph\":\"M\",\"pid\":%lld,\"tid\":%d,\"args\":{\"name\":", (long long)x->p->head.pid,
            thread);
    put_quoted(x->out, what);
    fputs("}}", x->out);
}

static void put_entry(struct output *x, const struct entry *e, bool *is_held) {
    /* what never ended lasts to the end */
    const struct entry *mate = &x->p->entries.at[e->mate >= 0 ? e->mate : x->p->entries.n - 1];
    enum operation operation = OPERATION(&e->r);
    bool gets = operation == LOCK || operation == BACK, gives = operation == UNLOCK || operation == WAIT || operation == TIMED_WAIT;
    if (e->dropped) return;
    if (operation == BLOCKED) put_span(x, waiting[e->r.b % 6], e, mate);
    else if ((operation == WAIT || operation == TIMED_WAIT)) put_span(x, words[operation], e, mate);
    else if (operation == SIGNAL || operation == BROADCAST || operation == POST || operation == GOT) {
        begin_item(x, words[operation], "i", e, time_of(x, e));
        fputs(",\"s\":\"t\"", x->out);
        put_arguments(x, e);
    }
    if (e->a < 0 || !(gets || gives) || is_held[e->a] == gets) return;
    put_hold(x, e, gets);
    is_held[e->a] = gets;
}

bool write_json(const struct process *p, const struct found *f, const struct where *where, const char *out) {
    struct output x;
    FILE *to = create(out, "", 0, "json");
    if (!to) return false;
    open_output(&x, p, f, where, to);
    bool *is_held = clean((size_t)f->objects.n, sizeof *is_held);
    fputs("{\"displayTimeUnit\":\"ns\",\"traceEvents\":[", to);
    for (int k = 0; k < p->threads; k++) put_thread_name(&x, k);
    for (int64_t i = 0; i < p->entries.n; i++) put_entry(&x, &p->entries.at[i], is_held);
    fputs("\n]}\n", to);
    free(is_held);
    return close_output(&x);
}

/* ---- as lines ---- */

bool write_calls(const struct process *p, const struct found *f, const struct where *where, const char *out) {
    struct output x;
    char text[2600];
    FILE *to = create(out, "", 0, "calls");
    if (!to) return false;
    open_output(&x, p, f, where, to);
    fprintf(to, "# record, microseconds, part, event, thread, call, object, place\n");
    for (int64_t i = 0; i < p->entries.n; i++) {
        const struct entry *e = &p->entries.at[i];
        int64_t event = x.event[i];
        if (!words[OPERATION(&e->r)]) continue;
        fprintf(to, "%lld\t%.3f\t", (long long)NUMBER(&e->r), time_of(&x, e) / 1e3);
        if (event && where[event - 1].part) fprintf(to, "%d\t%lld\t", where[event - 1].part, (long long)where[event - 1].place);
        else fprintf(to, "-\t-\t");
        fprintf(to, "%d\t%s\t", e->thread, words[OPERATION(&e->r)]);
        if (e->a >= 0) fprintf(to, "0x%llx\t", (unsigned long long)f->objects.at[e->a].address);
        else fprintf(to, "-\t");
        name_place(p, e->r.place, text, sizeof text);
        fprintf(to, "%s\n", text);
    }
    return close_output(&x);
}
