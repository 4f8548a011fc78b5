/* Reads the record file of a process. */
#define _GNU_SOURCE
#include "convert.h"
#include <errno.h>
#include <fcntl.h>
#include <stdarg.h>
#include <stdlib.h>
#include <string.h>
#include <sys/mman.h>
#include <sys/stat.h>
#include <unistd.h>

static void no_memory(void) {
    fprintf(stderr, "record: out of memory\n");
    exit(NOT_CONVERTED);
}

void *clean(size_t n, size_t size) {
    void *found = calloc(n ? n : 1, size);
    if (!found) no_memory();
    return found;
}

void *grown(void *at, int64_t *room, size_t size) {
    *room = *room ? 2 * *room : 16;
    at = realloc(at, (size_t)*room * size);
    if (!at) no_memory();
    return at;
}

void say(string *text, const char *form, ...) {
    va_list list;
    va_start(list, form);
    char *line = NULL;
    int n = vasprintf(&line, form, list);
    va_end(list);
    if (n < 0) no_memory();
    for (int i = 0; i < n; i++) ADD(*text, line[i]);
    ADD(*text, 0);
    text->n--;
    free(line);
}

/* ---- the file ---- */

bool open_file(const char *folder, const char *name, struct file *file) {
    char path[4400];
    struct stat info;
    snprintf(path, sizeof path, "%s/%s", folder, name);
    int fd = open(path, O_RDONLY | O_CLOEXEC);
    *file = (struct file){ .at = MAP_FAILED };
    if (fd >= 0 && fstat(fd, &info) == 0 && (uint64_t)info.st_size >= PAGE) {
        file->size = (size_t)info.st_size;
        file->at = mmap(NULL, file->size, PROT_READ, MAP_SHARED, fd, 0);
    }
    if (fd >= 0) close(fd);
    if (file->at == MAP_FAILED) return false;
    memcpy(&file->head, file->at, sizeof file->head);
    if (memcmp(file->head.magic, RECORD_MAGIC, sizeof file->head.magic) == 0) return true;
    close_file(file);
    return false;
}

void close_file(struct file *file) { munmap((void *)file->at, file->size); }

const struct chunk *next_chunk(const struct file *file, uint64_t *at, uint32_t *count) {
    for (; *at + sizeof(struct chunk) <= file->size; *at += PAGE) {
        const struct chunk *chunk = (const struct chunk *)(file->at + *at);
        if (chunk->magic != CHUNK_MAGIC || chunk->size > file->size - *at || chunk->size < sizeof *chunk) continue;
        uint64_t one = chunk->thread == MODULES ? 1 : chunk->thread == PLACES ? sizeof(struct place) : sizeof(struct record);
        uint64_t most = (chunk->size - sizeof *chunk) / one;
        *count = __atomic_load_n(&chunk->count, __ATOMIC_ACQUIRE);
        if (*count > most) *count = (uint32_t)most;
        *at += (chunk->size + PAGE - 1) / PAGE * PAGE;
        return chunk;
    }
    return NULL;
}

/* ---- its records ---- */

static void read_places(struct process *p, const struct chunk *chunk, uint32_t count) {
    const struct place *places = (const struct place *)(chunk + 1);
    uint64_t first = chunk->left_out[0];
    if (first > 1u << 28) return;
    while ((uint64_t)p->places.n < first + count) ADD(p->places, (struct place){ { 0 } });
    memcpy(p->places.at + first, places, count * sizeof *places);
}

/* What was written later says more, except of what was unloaded. */
static void read_modules(struct process *p, const struct chunk *chunk, uint32_t count) {
    string all = { 0 };
    say(&all, "%.*s%s", (int)count, (const char *)(chunk + 1), p->modules.n ? p->modules.at : "");
    free(p->modules.at);
    memcpy(&p->modules, &all, sizeof all);
}

static void read_chunks(const struct file *file, uint64_t stop, struct process *p) {
    uint32_t count;
    const struct chunk *chunk;
    for (uint64_t at = PAGE; (chunk = next_chunk(file, &at, &count));) {
        if (chunk->thread == MODULES) read_modules(p, chunk, count);
        else if (chunk->thread == PLACES) read_places(p, chunk, count);
        else {
            const struct record *r = (const struct record *)(chunk + 1);
            for (uint32_t i = 0; i < count; i++)
                if (NUMBER(&r[i]) < stop)
                    ADD(p->entries, (struct entry){ .r = r[i], .thread = (int)chunk->thread, .mate = -1, .a = -1, .b = -1 });
            for (int i = 0; i < LEFT_OUT_KINDS; i++) p->left_out[i] += chunk->left_out[i];
        }
    }
}

static int by_number(const void *x, const void *y) {
    uint64_t a = NUMBER(&((const struct entry *)x)->r), b = NUMBER(&((const struct entry *)y)->r);
    return a < b ? -1 : a > b;
}

/* Numbers are given without gaps, but for those of records that a stopped thread didn't write. */
static void sort_entries(struct process *p) {
    int64_t n = p->entries.n, kept = 0;
    uint64_t low = UINT64_MAX, high = 0;
    for (int64_t i = 0; i < n; i++) {
        uint64_t number = NUMBER(&p->entries.at[i].r);
        if (number < low) low = number;
        if (number > high) high = number;
    }
    if (!n || high - low > 2 * (uint64_t)n + 1000) {
        if (n) qsort(p->entries.at, (size_t)n, sizeof *p->entries.at, by_number);
        return;
    }
    struct entry *sorted = clean(high - low + 1, sizeof *sorted);
    for (int64_t i = 0; i < n; i++) sorted[NUMBER(&p->entries.at[i].r) - low] = p->entries.at[i];
    for (uint64_t k = 0; k <= high - low; k++)
        if (sorted[k].r.what) sorted[kept++] = sorted[k];
    free(p->entries.at);
    p->entries.at = sorted, p->entries.n = kept, p->entries.room = (int64_t)(high - low + 1);
}

/* Numbers the threads anew: first the one that the process began with, then in the order of their first records. */
static void number_threads(struct process *p) {
    uint64_t first = p->head.forked_from[0] ? p->head.fork_thread : 0;
    int most = (int)first;
    for (int64_t i = 0; i < p->entries.n; i++)
        if (p->entries.at[i].thread > most) most = p->entries.at[i].thread;
    int *new = clean((size_t)most + 1, sizeof *new);
    new[first] = ++p->threads;
    for (int64_t i = 0; i < p->entries.n; i++) {
        struct entry *e = &p->entries.at[i];
        if (!new[e->thread]) new[e->thread] = ++p->threads;
        e->thread = new[e->thread] - 1;
    }
    free(new);
}

/* The last records of each thread that are still without what ends them; -1: none. */
struct open {
    int64_t wait, signal, unlock, blocked, last;
};

static void tie_to(struct process *p, int64_t *open, int64_t i) {
    if (*open < 0) return;
    p->entries.at[i].mate = *open;
    p->entries.at[*open].mate = i;
    *open = -1;
}

/* Ties an entry to the one before it that it ends. False: a wait begins within a wait. */
static bool tie(struct process *p, struct open *open, int64_t i) {
    struct entry *e = &p->entries.at[i];
    switch (OPERATION(&e->r)) {
    case WAIT:
    case TIMED_WAIT:
        if (open->wait >= 0) return false;
        open->wait = i;
        break;
    case SIGNAL:
    case BROADCAST: open->signal = i; break;
    case UNLOCK: open->unlock = i; break;
    case BACK: tie_to(p, &open->wait, i); break;
    case SIGNALLED: tie_to(p, &open->signal, i); break;
    case REFUSED:
        if (open->unlock >= 0) p->entries.at[open->unlock].dropped = true;
        break;
    case BLOCKED: open->blocked = i; break;
    case LOCK:
    case RW_LOCK:
    case GOT:
    case UNBLOCKED:
        if (open->blocked >= 0 && ADDRESS(&p->entries.at[open->blocked].r) == ADDRESS(&e->r)) tie_to(p, &open->blocked, i);
        break;
    case THREAD_END: tie_to(p, &open->blocked, i); break;
    default: break;
    }
    open->last = i;
    return true;
}

/* Ties waits and signals to their ends, takes refused unlocks out, and notes each thread's last record. Where a wait begins within a wait,
 * the record ends. */
static void tie_all(struct process *p) {
    struct open *open = clean((size_t)p->threads, sizeof *open);
    for (int i = 0; i < p->threads; i++) open[i] = (struct open){ -1, -1, -1, -1, -1 };
    for (int64_t i = 0; i < p->entries.n; i++)
        if (!tie(p, &open[p->entries.at[i].thread], i)) {
            p->ends_early = "a wait begins within a wait of the same thread";
            p->entries.n = i;
        }
    for (int i = 0; i < p->threads; i++)
        if (open[i].last >= 0) p->entries.at[open[i].last].last = true;
    free(open);
}

/* Where the process still runs, its records are read up to the number that was the next one before. */
bool read_process(const char *folder, const char *name, struct process *p) {
    struct file file;
    if (!open_file(folder, name, &file)) return false;
    p->head = file.head;
    uint64_t next = atomic_load(&p->head.next), stop = atomic_load(&p->head.stop);
    read_chunks(&file, stop < next ? stop : next, p);
    close_file(&file);
    if (!p->places.n) ADD(p->places, (struct place){ { 0 } });
    sort_entries(p);
    number_threads(p);
    tie_all(p);
    inherit(p);
    if (stop != UINT64_MAX) p->ends_early = p->head.why;
    return true;
}
