/* Which objects stand in which trace. Each object has a name of its own as long as there are enough; then a name is used again once its
 * object is used no more and at rest. Where more objects are in use at once than a trace has names for, there are several parts, each of
 * some mutexes with their conditions, or of some semaphores: an event changes and reads only its own mutex, condition and semaphore and its
 * own thread's wait, and alerts come here in pairs of an alert and the raise by it, so the whole keeps the table exactly where each part
 * does. Of a mutex with too many conditions each part has some; a wait in another one is a release and an acquire.
 *
 * Where more threads hold mutexes or wait at once than there are names, a part is split further, by its objects. Of one condition with more
 * threads each part has some of its waits, and those signals that take one of them, or nobody. */
#include "convert.h"
#include <stdlib.h>
#include <string.h>

int name_in(const struct parts *s, int object, int part) {
    const struct members *of = &s->of[object];
    for (int64_t i = 0; i < of->in.n; i++)
        if (of->in.at[i].part == part) return of->in.at[i].name;
    return -1;
}

int root_of(struct parts *s, int k) {
    while (s->root[k] != k) k = s->root[k] = s->root[s->root[k]];
    return k;
}

static const struct object *object(const struct parts *s, int k) { return &s->f->objects.at[k]; }

/* A name for an object: one that none had, as long as there are some, else one that is free again. NAMES: there is none. */
static int free_name(const struct part *p, const struct object *o) {
    int fresh = 0, again = 0;
    while (fresh < NAMES && p->free_from[o->kind][fresh] != 0) fresh++;
    while (again < NAMES && p->free_from[o->kind][again] > o->first) again++;
    return fresh < NAMES ? fresh : again;
}

static void note_soonest(struct part *p, enum kind kind) {
    p->soonest[kind] = INT64_MAX;
    for (int i = 0; i < NAMES; i++)
        if (p->free_from[kind][i] < p->soonest[kind]) p->soonest[kind] = p->free_from[kind][i];
}

static void put_member(struct parts *s, int part, int k, int name) {
    ADD(s->of[k].in, (struct member){ part, name });
    ADD(s->parts.at[part].objects, k);
}

/* Puts those of these objects into a part that are not in it; where one finds no name, none. */
static bool put_into(struct parts *s, int part, const int *objects, int64_t n) {
    struct part *p = &s->parts.at[part], now;
    if (p->soonest[object(s, objects[0])->kind] > object(s, objects[0])->first) return false;
    now = *p;
    int *names = clean((size_t)n, sizeof *names);
    bool good = true;
    for (int64_t i = 0; i < n && good; i++) {
        const struct object *o = object(s, objects[i]);
        names[i] = NAMES;
        if (name_in(s, objects[i], part) >= 0) continue;
        names[i] = free_name(&now, o);
        good = names[i] < NAMES;
        if (good) now.free_from[o->kind][names[i]] = o->at_rest ? o->last + 1 : INT64_MAX;
    }
    if (good) {
        *p = now;
        for (int kind = 0; kind < PARTED; kind++) note_soonest(p, (enum kind)kind);
        for (int64_t i = 0; i < n; i++)
            if (names[i] < NAMES) put_member(s, part, objects[i], names[i]);
    }
    free(names);
    return good;
}

static bool put_anywhere(struct parts *s, const int *objects, int64_t n) {
    for (int k = 0; k < s->parts.n; k++)
        if (put_into(s, k, objects, n)) return true;
    ADD(s->parts, (struct part){ .classes = 1 });
    if (put_into(s, (int)s->parts.n - 1, objects, n)) return true;
    s->parts.n--;
    return false;
}

/* Too many for one part: condition by condition, each with its mutexes, and then the mutexes that no condition brought. */
static void put_apart(struct parts *s, const int *objects, int64_t n) {
    for (int64_t i = 0; i < n; i++) {
        numbers with = { 0 };
        if (object(s, objects[i])->kind != CONDITION) continue;
        ADD(with, objects[i]);
        for (int64_t k = 0; k < s->waited[objects[i]].n; k++) ADD(with, s->waited[objects[i]].at[k]);
        if (!put_anywhere(s, with.at, with.n)) s->ends_early = "a condition is left out, whose waits are with more than 64 mutexes at once";
        free(with.at);
    }
    for (int64_t i = 0; i < n; i++)
        if (object(s, objects[i])->kind == MUTEX && !s->of[objects[i]].in.n) put_anywhere(s, &objects[i], 1);
}

static struct parts *sorting;
static int by_root(const void *x, const void *y) {
    int a = *(const int *)x, b = *(const int *)y, p = root_of(sorting, a), q = root_of(sorting, b);
    const struct object *o = sorting->f->objects.at;
    if (p != q) return o[p].first != o[q].first ? (o[p].first < o[q].first ? -1 : 1) : p < q ? -1 : 1;
    return o[a].first != o[b].first ? (o[a].first < o[b].first ? -1 : 1) : a < b ? -1 : a > b;
}

/* Ties each condition to the mutexes of its waits; of what is tied the one that is used first is the root. */
static void tie_conditions(struct parts *s) {
    for (int64_t i = 0; i < s->f->events.n; i++) {
        const struct event *e = &s->f->events.at[i];
        if (e->action != ENQUEUE && e->action != ALERT_ENQUEUE) continue;
        bool known = false;
        for (int64_t k = s->waited[e->b].n; k-- > 0 && !known;) known = s->waited[e->b].at[k] == e->a;
        if (!known) ADD(s->waited[e->b], e->a);
        int a = root_of(s, e->a), b = root_of(s, e->b);
        bool first = object(s, a)->first <= object(s, b)->first;
        s->root[first ? b : a] = first ? a : b;
    }
}

/* Gives each part its events. That of a raise stands with the alert before it. */
static void share_events(struct parts *s) {
    const struct event *e = s->f->events.at;
    for (int64_t i = 0; i < s->f->events.n; i++) {
        const struct members *of = &s->of[e[i].action == ALERT ? e[i + 1].a : e[i].a];
        for (int64_t k = 0; k < of->in.n; k++) ADD(s->parts.at[of->in.at[k].part].events, i);
    }
}

void make_parts(struct parts *s, const struct found *f) {
    size_t n = (size_t)f->objects.n;
    numbers all = { 0 };
    *s = (struct parts){ .f = f, .of = clean(n, sizeof *s->of), .waited = clean(n, sizeof *s->waited), .root = clean(n, sizeof(int)) };
    for (int64_t k = 0; k < f->objects.n; k++) {
        s->root[k] = (int)k;
        if (f->objects.at[k].kind < PARTED && f->objects.at[k].first >= 0) ADD(all, (int)k);
    }
    tie_conditions(s);
    sorting = s;
    if (all.n) qsort(all.at, (size_t)all.n, sizeof *all.at, by_root);
    for (int64_t i = 0, next; i < all.n; i = next) {
        for (next = i; next < all.n && root_of(s, all.at[next]) == root_of(s, all.at[i]);) next++;
        if (!put_anywhere(s, all.at + i, next - i)) put_apart(s, all.at + i, next - i);
    }
    free(all.at);
    if (!s->parts.n) ADD(s->parts, (struct part){ .classes = 1 });
    share_events(s);
}

/* ---- splitting ---- */

/* Objects that have to stand together: a condition, and each mutex of its waits. */
static int find_groups(struct parts *s, const struct part *p, int *root) {
    int n = 0;
    for (int64_t i = 0; i < p->objects.n; i++) root[i] = (int)i;
    for (int64_t i = 0; i < p->objects.n; i++) {
        int k = p->objects.at[i];
        if (object(s, k)->kind != CONDITION) continue;
        for (int64_t j = 0; j < p->objects.n; j++)
            for (int64_t w = 0; w < s->waited[k].n; w++)
                if (s->waited[k].at[w] == p->objects.at[j]) {
                    int old = root[j], new = root[i];
                    for (int64_t x = 0; x < p->objects.n; x++)
                        if (root[x] == old) root[x] = new;
                }
    }
    for (int64_t i = 0; i < p->objects.n; i++) n += root[i] == i;
    return n;
}

/* Half of the groups of a part move to a new one, where they keep their names. */
static void move_half(struct parts *s, int part, const int *root, int groups) {
    int new = (int)s->parts.n - 1, passed = 0;
    numbers old = s->parts.at[part].objects;
    bool *moves = clean((size_t)old.n, sizeof *moves);
    for (int64_t i = 0; i < old.n; i++)
        if (root[i] == i) moves[i] = passed++ >= groups / 2;
    s->parts.at[part].objects = (numbers){ 0 };
    for (int64_t i = 0; i < old.n; i++) {
        int to = moves[root[i]] ? new : part;
        ADD(s->parts.at[to].objects, old.at[i]);
        for (int64_t k = 0; k < s->of[old.at[i]].in.n; k++)
            if (s->of[old.at[i]].in.at[k].part == part) s->of[old.at[i]].in.at[k].part = to;
    }
    free(moves), free(old.at);
}

/* The events of a part go to this one and a new one. */
static void move_events(struct parts *s, int part, int new) {
    struct part *from = &s->parts.at[part], *to = &s->parts.at[new];
    int64_t kept = 0;
    for (int64_t i = 0; i < from->events.n; i++) {
        int64_t event = from->events.at[i];
        const struct event *e = &s->f->events.at[event];
        int k = e->action == ALERT ? e[1].a : e->a;
        if (name_in(s, k, new) >= 0) ADD(to->events, event);
        if (name_in(s, k, part) >= 0) from->events.at[kept++] = event;
    }
    from->events.n = kept;
}

/* Each further part has the same objects and events, and other waits. */
static void split_waits(struct parts *s, int part, int classes) {
    for (int class = 1; class < classes; class ++) {
        ADD(s->parts, s->parts.at[part]);
        int new = (int)s->parts.n - 1;
        struct part *from = &s->parts.at[part], *to = &s->parts.at[new];
        to->class = class, to->classes = classes;
        memset(&to->objects, 0, sizeof to->objects), memset(&to->events, 0, sizeof to->events);
        for (int64_t i = 0; i < from->objects.n; i++) put_member(s, new, from->objects.at[i], name_in(s, from->objects.at[i], part));
        for (int64_t i = 0; i < from->events.n; i++) ADD(to->events, from->events.at[i]);
    }
    s->parts.at[part].classes = classes;
}

/* A condition too many for the others in its group goes to a part of its own, with its mutexes. */
static bool move_condition(struct parts *s, int part) {
    int conditions = 0, last = -1;
    for (int64_t i = 0; i < s->parts.at[part].objects.n; i++)
        if (object(s, s->parts.at[part].objects.at[i])->kind == CONDITION) conditions++, last = (int)i;
    if (conditions < 2) return false;
    ADD(s->parts, (struct part){ .classes = 1 });
    int new = (int)s->parts.n - 1, k = s->parts.at[part].objects.at[last];
    numbers *objects = &s->parts.at[part].objects;
    objects->at[last] = objects->at[--objects->n];
    for (int64_t i = 0; i < s->of[k].in.n; i++)
        if (s->of[k].in.at[i].part == part) s->of[k].in.at[i].part = new;
    ADD(s->parts.at[new].objects, k);
    for (int64_t i = 0; i < s->waited[k].n; i++)
        if (name_in(s, s->waited[k].at[i], part) >= 0) put_member(s, new, s->waited[k].at[i], name_in(s, s->waited[k].at[i], part));
    move_events(s, part, new);
    return true;
}

bool split_part(struct parts *s, int part, int most_waits) {
    int64_t n = s->parts.at[part].objects.n;
    if (s->parts.at[part].classes > 1) return false;
    int *root = clean((size_t)n, sizeof *root), groups = find_groups(s, &s->parts.at[part], root), mutexes = 0;
    for (int64_t i = 0; i < n; i++) mutexes += object(s, s->parts.at[part].objects.at[i])->kind == MUTEX;
    bool good = true;
    if (groups > 1) {
        ADD(s->parts, (struct part){ .classes = 1 });
        move_half(s, part, root, groups);
        move_events(s, part, (int)s->parts.n - 1);
    } else if (!move_condition(s, part)) {
        int a_class = NAMES - 4 - mutexes;
        good = a_class > 0;
        if (good) split_waits(s, part, (most_waits + a_class - 1) / a_class);
    }
    free(root);
    return good;
}
