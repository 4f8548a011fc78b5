/* Writes what the names of a trace are. */
#include "convert.h"
#include <stdlib.h>
#include <string.h>

static int by_name(const void *x, const void *y) {
    const struct use *a = x, *b = y;
    int order = (a->kind == THREAD) - (b->kind == THREAD); /* threads last */
    if (!order) order = a->kind - b->kind;
    return order ? order : a->name != b->name ? a->name - b->name : a->first < b->first ? -1 : a->first > b->first;
}

static const char letters[] = "mcst";

static void print_use(const struct process *p, const struct found *f, const struct use *u, FILE *out) {
    char what[2600];
    describe(p, f, u->object, what, sizeof what);
    fprintf(out, "%c%d %lld %lld %s", letters[u->kind], u->name, (long long)u->first, (long long)u->last, what);
}

static uint32_t place_of_event(const struct process *p, const struct found *f, int64_t event) {
    int64_t entry = event < 0 ? -1 : f->events.at[event].entry;
    return entry < 0 ? 0 : p->entries.at[entry].r.place;
}

/* What a checker says of the event that it refuses names the thread and the mutex, so their lines at that event say where the calls were.
 */
static void print_refusal(const struct process *p, const struct found *f, const struct legend *l, const struct use *u, FILE *out) {
    const struct refusal *r = &l->refusal;
    char place[2000];
    struct use at = { u->kind, u->name, u->object, r->place, r->place };
    print_use(p, f, &at, out);
    if (u->kind == THREAD) {
        name_place(p, place_of_event(p, f, r->event), place, sizeof place);
        fprintf(out, "; event %lld is called in %s\n", (long long)r->place, place);
        return;
    }
    if (r->since < 0) {
        fprintf(out, "; never acquired before\n");
        return;
    }
    name_place(p, place_of_event(p, f, r->since), place, sizeof place);
    fprintf(out, "; %s by a call in %s\n", r->is_held ? "it was acquired" : "it was released", place);
}

bool write_legend(const struct process *p, const struct found *f, struct legend *l, const char *path) {
    FILE *out = fopen(path, "w");
    if (!out) return false;
    if (l->uses.n) qsort(l->uses.at, (size_t)l->uses.n, sizeof *l->uses.at, by_name);
    fprintf(out, "# name, first event, last event, what it is\n");
    for (int64_t i = 0; i < l->uses.n; i++) {
        const struct use *u = &l->uses.at[i];
        const struct refusal *r = &l->refusal;
        print_use(p, f, u, out);
        putc('\n', out);
        if (r->place >= u->first && r->place <= u->last && (u->object == r->thread || u->object == r->mutex))
            print_refusal(p, f, l, u, out);
    }
    bool good = !ferror(out);
    return fclose(out) == 0 && good;
}
