/* Converts a record file, and says what was found. */
#include "convert.h"
#include <stdlib.h>
#include <string.h>

#define N(x) ((long long)(x))
#define SAY(condition, ...)                         \
    do {                                            \
        if (condition) say(text, "  " __VA_ARGS__); \
    } while (0)

static void say_counts(const struct process *p, const struct found *f, string *text) {
    SAY(f->signals, "signals and broadcasts: %lld, of these with nobody in the condition: %lld\n", N(f->signals), N(f->nobody));
    SAY(f->several, "waits that took a signal with another one: %lld\n", N(f->several));
    SAY(f->timeouts, "waits ended by time: %lld\n", N(f->timeouts));
    SAY(f->cancelled, "waits ended by cancelling: %lld\n", N(f->cancelled));
    SAY(f->recursive, "locks of a recursive mutex by its holder: %lld\n", N(f->recursive));
    SAY(f->refused, "unlocks that were refused: %lld\n", N(f->refused));
    SAY(f->robust, "robust mutexes got after their holder ended: %lld\n", N(f->robust));
    SAY(f->from_outside, "waits ended from another process: %lld\n", N(f->from_outside));
    SAY(f->doubtful, "last calls without the mutex, left out since they may have had no effect: %lld\n", N(f->doubtful));
    SAY(p->left_out[LEFT_TRY], "tries and timed locks that got nothing: %lld\n", N(p->left_out[LEFT_TRY]));
    SAY(f->rwlocks, "read-write locks got, which take part in lock orders, times and waits alone: %lld\n", N(f->rwlocks));
    SAY(p->left_out[LEFT_BARRIER], "waits at barriers, left out: %lld\n", N(p->left_out[LEFT_BARRIER]));
    SAY(p->left_out[LEFT_SPIN], "calls that take spin locks, left out: %lld\n", N(p->left_out[LEFT_SPIN]));
}

/* What was not seen, so that a verdict says nothing of it. */
static void say_not_seen(const struct process *p, string *text) {
    uint64_t futexes = atomic_load(&p->head.futex_calls), lost = atomic_load(&p->head.lost_processes);
    SAY(futexes,
        "NOT SEEN: %lld calls of the kernel's futex by locks of the program's own, as those of GLib and of C++20's semaphores are\n",
        N(futexes));
    SAY(p->modules.n && (strstr(p->modules.at, "/libgomp.so") || strstr(p->modules.at, "/libomp.so")),
        "NOT SEEN: what OpenMP does, whose locks and barriers are its own\n");
    uint64_t deep = atomic_load(&p->head.deep_libraries);
    SAY(deep, "NOT SEEN: calls of %lld libraries that were loaded with RTLD_DEEPBIND\n", N(deep));
    SAY(lost, "NOT SEEN: %lld processes that it forked, which could make no record file: %s\n", N(lost),
        strerror((int)atomic_load(&p->head.lost_error)));
}

/* What the system stands for. */
static void say_unexplained(const struct process *p, const struct found *f, string *text) {
    SAY(f->events.n == 0, "no call that a trace has was recorded of this process\n");
    say_not_seen(p, text);
    SAY(f->unseen,
        "UNEXPLAINED: %lld times a thread released a mutex that it has by the C library, though no recorded call got it (a library "
        "loaded with RTLD_DEEPBIND, or a call by dlsym); it acquires it just before\n",
        N(f->unseen));
    SAY(f->unreleased,
        "UNEXPLAINED: %lld times a wait ended while by the record another thread had the mutex, whose unlock was not recorded; it "
        "releases it just before\n",
        N(f->unreleased));
    SAY(f->unposted, "UNEXPLAINED: %lld times a semaphore gave a unit that no recorded call posted; a post by the system stands for each\n",
        N(f->unposted));
    SAY(f->unexplained, "UNEXPLAINED: %lld waits returned that no recorded signal can have ended; a signal by the system stands for each\n",
        N(f->unexplained));
    SAY(f->renewed,
        "UNEXPLAINED: %lld times a mutex was got that a thread had: its memory was set anew, or it doesn't exclude, or its unlock "
        "was not recorded; it has a new name\n",
        N(f->renewed));
    SAY(f->ends_early != NULL, "ENDS EARLY: %s\n", f->ends_early);
}

/* What POSIX forbids. */
static void say_faults(const struct process *p, const struct found *f, const char *out, string *text) {
    char what[2600], first[2600], second[2600];
    for (int64_t i = 0; i < f->strange.n && i < 5; i++) {
        const struct refused *r = &f->strange.at[i];
        const struct event *e = &f->events.at[r->event];
        char number[32] = "";
        if (r->part > 1) snprintf(number, sizeof number, ".part%d", r->part);
        describe(p, f, e->a, what, sizeof what);
        name_place(p, e->entry < 0 ? 0 : p->entries.at[e->entry].r.place, first, sizeof first);
        SAY(true, "FAULT: a thread %s a mutex that it doesn't have, where `check` refuses %s%s.trace: event %lld, in %s\n    %s\n",
            e->action == RELEASE ? "releases" : "waits with", out, number, N(r->place), first, what);
    }
    for (int64_t i = 0; i < f->two.n && i < 5; i++) {
        const struct two_mutexes *two = &f->two.at[i];
        describe(p, f, two->condition, what, sizeof what), describe(p, f, two->first, first, sizeof first),
            describe(p, f, two->second, second, sizeof second);
        SAY(true, "FAULT: threads wait with two mutexes at once in one condition, which POSIX leaves undefined: %s\n    %s\n    %s\n", what,
            first, second);
    }
    for (int64_t i = 0; i < f->freed.n && i < 5; i++) {
        describe(p, f, f->freed.at[i].object, what, sizeof what);
        SAY(true, "FAULT: memory was freed with a mutex in it that a thread had: %s\n", what);
    }
    for (int64_t k = 0, said = 0; k < f->objects.n && said < 5; k++) {
        const struct object *o = &f->objects.at[k];
        if (o->kind != SEMAPHORE || !o->known || o->began_with != 1 || o->most < 2) continue;
        describe(p, f, (int)k, what, sizeof what);
        SAY(true, "NOTE: a semaphore that began with 1 unit had %lld: if it guards something, it let several in: %s\n", N(o->most), what);
        said++;
    }
}

static void say_orders(const struct process *p, struct found *f, const char *out, string *text) {
    struct orders orders = { 0 };
    cycles all = { 0 };
    find_orders(p, f, &orders);
    find_cycles(f, &orders, &all);
    for (int64_t i = 0; i < all.n; i++) say_cycle(p, f, &orders, &all.at[i], out, (int)i + 1, text);
    say_ends(p, f, &orders, text);
}

/* Calls besides the beginnings and ends of threads. */
static bool has_enough(const struct process *p, const struct found *f, enum need need) {
    if (f->events.n || f->ends_early || need == NOTHING_NEEDED) return true;
    for (int64_t i = 0; i < p->entries.n; i++) {
        const struct record *r = &p->entries.at[i].r;
        if (OPERATION(r) == RW_LOCK && need == CALLS) return true;
        if (OPERATION(r) == BLOCKED && r->b != FOR_THREAD && (need == CALLS || p->entries.at[i].mate < 0)) return true;
    }
    return false;
}

enum outcome convert(const char *folder, const char *name, const char *out, enum need need, struct wishes wishes) {
    struct process p = { 0 };
    struct found f = { 0 };
    string text = { 0 };
    if (!read_process(folder, name, &p)) {
        fprintf(stderr, "record: %s/%s can't be read as a record\n", folder, name);
        return NOT_CONVERTED;
    }
    find_events(&p, &f);
    if (!has_enough(&p, &f, need)) {
        say_not_seen(&p, &text);
        if (text.n && need != EVENTS_FIRST) fprintf(stderr, "record: process %lld, %s: no call was recorded\n%s", N(p.head.pid), p.head.program, text.at);
        return NO_CALLS;
    }
    struct where *where = wishes.json || wishes.calls ? clean((size_t)f.events.n, sizeof *where) : NULL;
    int parts = write_parts(&p, &f, out, where);
    if (parts < 0 || (wishes.json && !write_json(&p, &f, where, out)) || (wishes.calls && !write_calls(&p, &f, where, out))) {
        fprintf(stderr, "record: the files %s.* can't be written\n", out);
        return NOT_CONVERTED;
    }
    say(&text, "record: %s.trace: %lld events of process %lld, %s", out, N(f.events.n), N(p.head.pid), p.head.program);
    say(&text, parts > 1 ? "; %d parts, for its objects or threads are more than a trace has names for\n" : "\n", parts);
    say_counts(&p, &f, &text);
    say_unexplained(&p, &f, &text);
    say_faults(&p, &f, out, &text);
    say_orders(&p, &f, out, &text);
    say_times(&p, &f, &text);
    fwrite(text.at, 1, (size_t)text.n, stderr);
    return f.ends_early ? ENDS_EARLY : f.unexplained || f.renewed || f.unseen || f.unreleased || f.unposted ? UNEXPLAINED : CONVERTED;
}
