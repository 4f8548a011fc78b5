/* Who has which mutex, and which calls are events. What gets stands at its number, which is from after the call, what gives at its number,
 * from before it. So the times in which a thread has a mutex are as short as they can be, and if any order within the calls' intervals
 * keeps the table, this one does. */
#include "convert.h"
#include <errno.h>
#include <stdlib.h>
#include <string.h>

bool returns(const struct entry *back) { return back->r.b == 0 || back->r.b == EOWNERDEAD; }
bool raises(const struct entry *back) { return back->r.b == ETIMEDOUT || back->r.b == ECANCELED; }

struct pass {
    struct process *p;
    struct found *f;
    struct map map;
    int *depth; /* of each thread's wait: how often it had the mutex */
    struct {
        int mutex, waits;
    } * waited_with; /* of each condition: the mutex of the waits in it, and how many */
    int64_t n_waited_with;
};

static struct object *object(struct pass *s, int k) { return &s->f->objects.at[k]; }

/* A thread has got a mutex. Of one that it has already only a recursive one can be got again. Where by the record another thread has it, or
 * the same one and it isn't recursive, its memory was set anew (or the lock doesn't exclude, or an unlock wasn't recorded): a new object.
 */
static void lock(struct pass *s, struct entry *e) {
    uint64_t address = ADDRESS(&e->r);
    e->a = object_at(s->f, &s->map, MUTEX, address, e->r.place);
    struct object *m = object(s, e->a);
    if (m->owner == e->thread && e->r.b & RECURSIVE) {
        m->depth++;
        s->f->recursive++;
        e->dropped = true;
        return;
    }
    if (m->owner >= 0 && (uint32_t)e->r.b == EOWNERDEAD) s->f->robust++;
    else if (m->owner >= 0) {
        s->f->renewed++;
        renew(s->f, &s->map, MUTEX, address, e->r.place, false);
        e->a = object_at(s->f, &s->map, MUTEX, address, e->r.place);
        m = object(s, e->a);
    }
    m->owner = e->thread, m->depth = 1;
}

/* A thread gives a mutex that by the record it doesn't have. False: its last call may have had no effect, so nothing can be said of it.
 * Where the C library knows the thread as the owner, it got the mutex by a call that wasn't recorded. */
static bool gives_strange(struct pass *s, struct entry *e, struct object *m) {
    if (e->r.b & OWNED) {
        if (m->owner >= 0) { /* and the one who had it gave it back by such a call */
            renew(s->f, &s->map, MUTEX, m->address, e->r.place, false);
            e->a = object_at(s->f, &s->map, MUTEX, ADDRESS(&e->r), e->r.place);
        }
        s->f->unseen++;
        e->unseen = true;
        return true;
    }
    if (!e->last) return true;
    s->f->doubtful++;
    return false;
}

static void unlock(struct pass *s, struct entry *e) {
    if (e->dropped) {
        s->f->refused++;
        return;
    }
    e->a = object_at(s->f, &s->map, MUTEX, ADDRESS(&e->r), e->r.place);
    struct object *m = object(s, e->a);
    if (m->owner == e->thread && m->depth > 1) {
        m->depth--;
        e->dropped = true;
        return;
    }
    if (m->owner != e->thread && !gives_strange(s, e, m)) e->dropped = true;
    else m = object(s, e->a), m->owner = -1, m->depth = 0;
}

/* POSIX wants that the waits in a condition are with one mutex at a time. */
static void note_mutex_of(struct pass *s, const struct entry *e, bool begins) {
    if (s->n_waited_with <= e->b) {
        int64_t n = 2 * (int64_t)e->b + 64;
        s->waited_with = realloc(s->waited_with, (size_t)n * sizeof *s->waited_with);
        memset(s->waited_with + s->n_waited_with, 0, (size_t)(n - s->n_waited_with) * sizeof *s->waited_with);
        s->n_waited_with = n;
    }
    if (!begins) {
        s->waited_with[e->b].waits--;
        return;
    }
    int other = s->waited_with[e->b].mutex;
    if (s->waited_with[e->b].waits++ > 0 && other != e->a) {
        int64_t n = s->f->two.n;
        if (!n || s->f->two.at[n - 1].condition != e->b) ADD(s->f->two, (struct two_mutexes){ e->b, other, e->a, e - s->p->entries.at });
    }
    s->waited_with[e->b].mutex = e->a;
}

static void wait_begins(struct pass *s, struct entry *e) {
    struct entry *back = e->mate >= 0 ? &s->p->entries.at[e->mate] : NULL;
    e->a = object_at(s->f, &s->map, MUTEX, ADDRESS(&e->r), e->r.place);
    e->b = object_at(s->f, &s->map, CONDITION, e->r.b & ~(SHARED | OWNED), e->r.place);
    struct object *m = object(s, e->a);
    if (back && !returns(back) && !raises(back)) { /* refused at once */
        e->dropped = back->dropped = true;
        return;
    }
    if (m->owner != e->thread && !gives_strange(s, e, m)) {
        e->dropped = true;
        return;
    }
    m = object(s, e->a);
    s->depth[e->thread] = m->owner == e->thread ? m->depth : 1;
    m->owner = -1, m->depth = 0;
    note_mutex_of(s, e, true);
}

static void wait_ends(struct pass *s, struct entry *e) {
    if (e->mate < 0) e->dropped = true;
    if (e->dropped) return;
    const struct entry *begin = &s->p->entries.at[e->mate];
    if (begin->dropped) {
        e->dropped = true;
        return;
    }
    e->a = begin->a, e->b = begin->b;
    struct object *m = object(s, e->a);
    if (m->owner >= 0 && e->r.b == EOWNERDEAD) s->f->robust++;
    else if (m->owner >= 0) s->f->unreleased++;
    m->owner = e->thread, m->depth = s->depth[e->thread];
    note_mutex_of(s, e, false);
}

static void begin_semaphore(struct pass *s, struct entry *e) {
    uint64_t address = ADDRESS(&e->r);
    e->b = object_at(s->f, &s->map, SEMAPHORE, address, e->r.place); /* the one before, which is at rest from now on */
    renew(s->f, &s->map, SEMAPHORE, address, e->r.place, OPERATION(&e->r) == SEM_INIT);
    if (OPERATION(&e->r) == SEM_GONE) return;
    struct object *made = object(s, object_at(s->f, &s->map, SEMAPHORE, address, e->r.place));
    made->known = e->r.b != UNKNOWN_VALUE;
    made->began_with = made->units = e->r.b == UNKNOWN_VALUE ? 0 : (int64_t)e->r.b;
}

/* The memory is given back: what is made there next is another object. */
static void forget_at(struct pass *s, const struct entry *e, enum kind kind, uint64_t address, int known) {
    struct object *o = object(s, known);
    if (kind == MUTEX && o->owner >= 0) ADD(s->f->freed, (struct freed){ known, e - s->p->entries.at });
    renew(s->f, &s->map, kind, address, 0, false);
}

static void forget_freed(struct pass *s, struct entry *e) {
    static const enum kind kinds[] = { MUTEX, CONDITION, SEMAPHORE, RWLOCK };
    uint64_t from = ADDRESS(&e->r), to = from + e->r.b;
    if (e->r.b / 8 * 4 < s->map.room) {
        for (uint64_t address = from; address < to; address += 8)
            for (int k = 0; k < 4; k++) {
                int known = known_at(&s->map, kinds[k], address);
                if (known >= 0) forget_at(s, e, kinds[k], address, known);
            }
        return;
    }
    for (size_t i = 0; i < s->map.room; i++) {
        uint64_t address = s->map.at[i].address;
        if (address < from || address >= to || s->map.at[i].object < 0) continue;
        forget_at(s, e, (enum kind)s->map.at[i].kind, address, s->map.at[i].object);
    }
}

static void pass_over(struct pass *s, struct entry *e) {
    uint64_t address = ADDRESS(&e->r);
    switch (OPERATION(&e->r)) {
    case LOCK: lock(s, e); break;
    case UNLOCK: unlock(s, e); break;
    case MUTEX_INIT: renew(s->f, &s->map, MUTEX, address, e->r.place, true); break;
    case MUTEX_GONE: renew(s->f, &s->map, MUTEX, address, e->r.place, false); break;
    case WAIT:
    case TIMED_WAIT: wait_begins(s, e); break;
    case BACK: wait_ends(s, e); break;
    case SIGNAL:
    case BROADCAST: e->a = object_at(s->f, &s->map, CONDITION, address, e->r.place); break;
    case COND_INIT: renew(s->f, &s->map, CONDITION, address, e->r.place, true); break;
    case COND_GONE: renew(s->f, &s->map, CONDITION, address, e->r.place, false); break;
    case SEM_INIT:
    case SEM_GONE: begin_semaphore(s, e); break;
    case GOT:
    case POST: e->a = object_at(s->f, &s->map, SEMAPHORE, address, e->r.place); break;
    case RW_LOCK: s->f->rwlocks++; /* fall through */
    case RW_UNLOCK: e->a = object_at(s->f, &s->map, RWLOCK, address, e->r.place); break;
    case RW_INIT: renew(s->f, &s->map, RWLOCK, address, e->r.place, true); break;
    case RW_GONE: renew(s->f, &s->map, RWLOCK, address, e->r.place, false); break;
    case BLOCKED:
        if (e->r.b == FOR_MUTEX) e->a = object_at(s->f, &s->map, MUTEX, address, e->r.place);
        else if (e->r.b == FOR_READ || e->r.b == FOR_WRITE) e->a = object_at(s->f, &s->map, RWLOCK, address, e->r.place);
        else if (e->r.b == FOR_SEMAPHORE) e->a = object_at(s->f, &s->map, SEMAPHORE, address, e->r.place);
        break;
    case FREED: forget_freed(s, e); break;
    case THREAD_BEGIN: {
        struct object *thread = object(s, e->thread);
        thread->function = e->r.b, thread->handle = address, thread->made = true;
        break;
    }
    case THREAD_RUNS: object(s, e->thread)->method = address, object(s, e->thread)->target = e->r.b; break;
    case THREAD_END: object(s, e->thread)->ended = true; break;
    case PROCESS_END: s->f->is_ended = true; break;
    default: break;
    }
    if (OPERATION(&e->r) == BACK && e->mate >= 0 && !e->dropped && !returns(e) && !raises(e)) e->dropped = true;
}

/* What the thread that forked the process had comes first, as if it acquired it. */
static void take_inherited(struct pass *s) {
    for (int64_t i = 0; i < s->p->inherited.n; i++) {
        struct held *h = &s->p->inherited.at[i];
        int k = object_at(s->f, &s->map, MUTEX, h->address, h->place);
        object(s, k)->owner = 0, object(s, k)->depth = h->depth;
        ADD(s->f->events, (struct event){ ACQUIRE, 0, k, -1, -1 });
        object(s, k)->first = object(s, k)->last = object(s, 0)->last = i;
        if (object(s, 0)->first < 0) object(s, 0)->first = i;
    }
}

void find_holds(struct process *p, struct found *f) {
    struct pass s = { .p = p, .f = f, .depth = clean((size_t)p->threads + 1, sizeof(int)) };
    for (int i = 0; i <= p->threads; i++) f->system = new_object(f, THREAD, 0, 0, false);
    take_inherited(&s);
    for (int64_t i = 0; i < p->entries.n; i++) pass_over(&s, &p->entries.at[i]);
    free(s.depth), free(s.map.at), free(s.waited_with);
}
