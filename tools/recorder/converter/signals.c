/* Finds where the signals and broadcasts of one condition take effect.
 *
 * A wait that returned needs a call that takes effect within its time; each call takes effect once, within its own. Which wait a call ended
 * can't be observed. The search goes through the waits by their ends. What has begun by then is told apart by its own end alone: of two
 * calls the one that ends earlier serves no later wait that the other doesn't serve. So, by exchange:
 *
 * - Of calls that take all (and a signal of the published table may take several, or all) one whose end has passed takes effect there:
 * earlier it would take none more of those that are still to come. For a wait that none has taken, one that is still under way takes effect
 * just before the wait's end, and of several the one that ends first. So a wait is left over exactly where no choice explains all.
 * - Of signals that take one wait each, the one that ends first after the wait's beginning: that is a maximum matching of signals and
 * waits.
 *
 * Broadcasts beside signals of one wait each leave a choice that neither decides, so two ways are tried. Where they leave a wait over,
 * signals take several, which decides. */
#include "convert.h"
#include <stdlib.h>

/* A set of numbers below 64^5, with the least member from a number on. */
struct bits {
    uint64_t *level[5];
};

static void bits_make(struct bits *b, int64_t n) {
    for (int i = 0; i < 5; i++) n = n / 64 + 1, b->level[i] = clean((size_t)n, sizeof(uint64_t));
}

static void bits_free(struct bits *b) {
    for (int i = 0; i < 5; i++) free(b->level[i]);
}

static void bits_add(struct bits *b, int64_t k) {
    for (int i = 0; i < 5; i++, k /= 64) b->level[i][k / 64] |= 1ull << (k % 64);
}

static void bits_drop(struct bits *b, int64_t k) {
    for (int i = 0; i < 5; i++, k /= 64) {
        b->level[i][k / 64] &= ~(1ull << (k % 64));
        if (b->level[i][k / 64]) return;
    }
}

static int64_t bits_from(const struct bits *b, int64_t k, int64_t n) {
    int i = 0;
    while (k < n) {
        uint64_t word = b->level[i][k / 64] & ~0ull << (k % 64);
        if (word) {
            for (k = k / 64 * 64 + __builtin_ctzll(word); i > 0; i--) k = k * 64 + __builtin_ctzll(b->level[i - 1][k]);
            return k;
        }
        if (++i == 5) return -1;
        k = k / 64 + 1, n = n / 64 + 1;
    }
    return -1;
}

static struct call *by_end_of;
static int by_end(const void *x, const void *y) {
    const struct call *a = &by_end_of[*(const int64_t *)x], *b = &by_end_of[*(const int64_t *)y];
    return a->to < b->to ? -1 : a->to > b->to;
}
static int by_begin(const void *x, const void *y) {
    const struct call *a = x, *b = y;
    return a->from < b->from ? -1 : a->from > b->from;
}
static int by_return(const void *x, const void *y) {
    const struct wait *a = x, *b = y;
    return a->to < b->to ? -1 : a->to > b->to;
}

enum way { EARLIEST_END, SIGNALS_FIRST, SEVERAL };

struct search {
    struct call *calls;
    int64_t n, next;        /* those before `next` have begun */
    int64_t *ended, *place; /* the calls by their ends; and where each stands there */
    struct bits ones, alls; /* of these places those of unused calls that have begun: that take one, that take all */
    int64_t taken;          /* the last gap where all were taken, or -1 */
};

/* The first place whose call ends behind that record. */
static int64_t ends_behind(const struct search *s, int64_t record) {
    int64_t low = 0, high = s->n;
    while (low < high) {
        int64_t middle = (low + high) / 2;
        if (s->calls[s->ended[middle]].to > record) high = middle;
        else low = middle + 1;
    }
    return low;
}

/* Brings the search up to a record: calls before it have begun, and those that take all and have ended took effect at their ends. */
static void come_to(struct search *s, int64_t record, enum way way) {
    for (; s->next < s->n && s->calls[s->next].from < record; s->next++)
        bits_add(s->calls[s->next].takes_all || way == SEVERAL ? &s->alls : &s->ones, s->place[s->next]);
    for (int64_t k; (k = bits_from(&s->alls, 0, s->n)) >= 0 && s->calls[s->ended[k]].to < record;) {
        struct call *call = &s->calls[s->ended[k]];
        bits_drop(&s->alls, k);
        call->at = call->to;
        if (call->at > s->taken) s->taken = call->at;
    }
}

static bool explains(struct search *s, const struct wait *wait, enum way way) {
    come_to(s, wait->to, way);
    if (s->taken > wait->from) return true;
    int64_t one = bits_from(&s->ones, ends_behind(s, wait->from), s->n), all = bits_from(&s->alls, 0, s->n);
    if (one >= 0 && (all < 0 || way == SIGNALS_FIRST || one < all)) {
        struct call *call = &s->calls[s->ended[one]];
        bits_drop(&s->ones, one);
        call->at = (call->from > wait->from ? call->from : wait->from) + 1;
        return true;
    }
    if (all < 0) return false;
    bits_drop(&s->alls, all);
    s->calls[s->ended[all]].at = s->taken = wait->to;
    return true;
}

static int64_t search_by(enum way way, struct wait *waits, int64_t n_waits, struct call *calls, int64_t n) {
    struct search s = {
        .calls = calls, .n = n, .taken = -1, .ended = clean((size_t)n, sizeof(int64_t)), .place = clean((size_t)n, sizeof(int64_t))
    };
    int64_t left = 0;
    bits_make(&s.ones, n), bits_make(&s.alls, n);
    for (int64_t i = 0; i < n; i++) s.ended[i] = i, calls[i].at = -1;
    by_end_of = calls;
    qsort(s.ended, (size_t)n, sizeof *s.ended, by_end);
    for (int64_t i = 0; i < n; i++) s.place[s.ended[i]] = i;
    for (int64_t i = 0; i < n_waits; i++) left += !explains(&s, &waits[i], way);
    come_to(&s, INT64_MAX - 1, way);
    bits_free(&s.ones), bits_free(&s.alls);
    free(s.ended), free(s.place);
    return left;
}

int64_t place_calls(struct wait *waits, int64_t n_waits, struct call *calls, int64_t n) {
    qsort(waits, (size_t)n_waits, sizeof *waits, by_return);
    qsort(calls, (size_t)n, sizeof *calls, by_begin);
    int64_t left = search_by(EARLIEST_END, waits, n_waits, calls, n);
    if (left) left = search_by(SIGNALS_FIRST, waits, n_waits, calls, n);
    if (left) left = search_by(SEVERAL, waits, n_waits, calls, n);
    /* those that nobody needs: at their beginning, or nowhere if they never returned */
    for (int64_t i = 0; i < n; i++) {
        if (calls[i].at < 0 && calls[i].to != INT64_MAX) calls[i].at = calls[i].from + 1;
        if (calls[i].at == INT64_MAX) calls[i].at = -1;
    }
    return left;
}
