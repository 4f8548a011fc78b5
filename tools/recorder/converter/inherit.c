/* What the threads that forked processes had then. The records of each thread that forked are gone through once, however many processes it
 * forked. */
#include "convert.h"
#include <stdlib.h>
#include <string.h>

typedef LIST(struct held) holdings;
/* The names are those of the files. */
struct fork {
    char name[72], from[72];
    uint64_t thread, number;
    holdings held;
    bool done;
};
static LIST(struct fork) forks;

static struct held *find(holdings *held, uint64_t address) {
    for (int64_t i = 0; i < held->n; i++)
        if (held->at[i].address == address) return &held->at[i];
    return NULL;
}

static void drop(holdings *held, uint64_t address) {
    struct held *it = find(held, address);
    if (it) *it = held->at[--held->n];
}

static void lock(holdings *held, const struct record *r) {
    struct held *it = find(held, ADDRESS(r));
    if (it) it->depth = r->b & RECURSIVE ? it->depth + 1 : 1;
    else ADD(*held, (struct held){ ADDRESS(r), 1, r->place, { { 0 } } });
}

/* An unlock that is refused is followed by a record of that. */
static void unlock(holdings *held, const struct record *r, bool refused) {
    struct held *it = find(held, ADDRESS(r));
    if (it && !refused && --it->depth == 0) drop(held, ADDRESS(r));
}

static void apply(holdings *held, const struct record *r, bool refused) {
    switch (OPERATION(r)) {
    case LOCK: lock(held, r); break;
    case UNLOCK: unlock(held, r, refused); break;
    case MUTEX_INIT:
    case MUTEX_GONE: drop(held, ADDRESS(r)); break;
    default: break; /* a wait came back before the thread forked */
    }
}

static int by_number(const void *x, const void *y) {
    uint64_t a = NUMBER((const struct record *)x), b = NUMBER((const struct record *)y);
    return a < b ? -1 : a > b;
}
static int by_fork(const void *x, const void *y) {
    const struct fork *a = *(struct fork *const *)x, *b = *(struct fork *const *)y;
    return a->number < b->number ? -1 : a->number > b->number;
}

typedef LIST(struct record) records;
static void records_of(const struct file *file, uint64_t thread, records *all) {
    uint32_t count;
    const struct chunk *chunk;
    for (uint64_t at = PAGE; (chunk = next_chunk(file, &at, &count));)
        if (chunk->thread == thread)
            for (uint32_t i = 0; i < count; i++) ADD(*all, ((const struct record *)(chunk + 1))[i]);
    if (all->n) qsort(all->at, (size_t)all->n, sizeof *all->at, by_number);
}

/* The places of what is held have numbers of the process that forked, so their frames are copied. */
static void copy_places(const struct file *file, holdings *held) {
    uint32_t count;
    const struct chunk *chunk;
    for (uint64_t at = PAGE; (chunk = next_chunk(file, &at, &count));)
        for (int64_t i = 0; chunk->thread == PLACES && i < held->n; i++)
            if (held->at[i].place >= chunk->left_out[0] && held->at[i].place < chunk->left_out[0] + count)
                held->at[i].from = ((const struct place *)(chunk + 1))[held->at[i].place - chunk->left_out[0]];
}

static void find_of(const char *folder, const char *name);

/* The forks of one thread of one process, by their numbers. */
static void find_of_thread(const struct file *file, struct fork **of, int64_t n) {
    holdings held = { 0 };
    records all = { 0 };
    for (int64_t i = 0; i < forks.n && file->head.forked_from[0] && file->head.fork_thread == of[0]->thread; i++)
        if (strcmp(forks.at[i].name + 3, file->head.name) == 0)
            for (int64_t k = 0; k < forks.at[i].held.n; k++) ADD(held, forks.at[i].held.at[k]);
    records_of(file, of[0]->thread, &all);
    qsort(of, (size_t)n, sizeof *of, by_fork);
    for (int64_t i = 0, next = 0; next < n; i++) {
        for (; next < n && (i == all.n || NUMBER(&all.at[i]) >= of[next]->number); next++) {
            copy_places(file, &held);
            for (int64_t k = 0; k < held.n; k++) ADD(of[next]->held, held.at[k]);
        }
        if (i < all.n) apply(&held, &all.at[i], i + 1 < all.n && OPERATION(&all.at[i + 1]) == REFUSED);
    }
    free(held.at), free(all.at);
}

/* The forks of one process. */
static void find_of(const char *folder, const char *name) {
    struct file file;
    if (!open_file(folder, name, &file)) return;
    if (file.head.forked_from[0])
        for (int64_t i = 0; i < forks.n; i++)
            if (strcmp(forks.at[i].name, name) == 0 && !forks.at[i].done) find_of(folder, forks.at[i].from);
    for (int64_t i = 0; i < forks.n; i++) {
        LIST(struct fork *) of = { 0 };
        for (int64_t k = i; k < forks.n; k++)
            if (!forks.at[k].done && strcmp(forks.at[k].from, name) == 0 && forks.at[k].thread == forks.at[i].thread) {
                forks.at[k].done = true;
                ADD(of, &forks.at[k]);
            }
        if (of.n) find_of_thread(&file, of.at, of.n);
        free(of.at);
    }
    close_file(&file);
}

void find_inheritances(const char *folder, char *const *names, int64_t n) {
    for (int64_t i = 0; i < n; i++) {
        struct file file;
        struct fork fork = { 0 };
        if (!open_file(folder, names[i], &file)) continue;
        snprintf(fork.name, sizeof fork.name, "of.%.60s", file.head.name);
        snprintf(fork.from, sizeof fork.from, "of.%.60s", file.head.forked_from);
        fork.thread = file.head.fork_thread, fork.number = file.head.fork_number;
        if (file.head.forked_from[0]) ADD(forks, fork);
        close_file(&file);
    }
    for (int64_t i = 0; i < forks.n; i++)
        if (!forks.at[i].done) find_of(folder, forks.at[i].from);
}

void inherit(struct process *p) {
    for (int64_t i = 0; i < forks.n; i++) {
        if (strcmp(forks.at[i].name + 3, p->head.name) != 0) continue;
        for (int64_t k = 0; k < forks.at[i].held.n; k++) {
            struct held held = forks.at[i].held.at[k];
            ADD(p->places, held.from);
            held.place = (uint32_t)p->places.n - 1;
            ADD(p->inherited, held);
        }
    }
}
