/* What the parts of the converter share. A record's place is its index in the order of numbers; a gap is named by the record behind it. */
#ifndef CONVERT_H
#define CONVERT_H
#include "../record.h"
#include <stdbool.h>
#include <stddef.h>
#include <stdio.h>

/* A growing array. */
#define LIST(type) struct { type *at; int64_t n, room; }
#define ADD(list, ...) \
    do { \
        if ((list).n == (list).room) (list).at = grown((list).at, &(list).room, sizeof *(list).at); \
        (list).at[(list).n++] = __VA_ARGS__; \
    } while (0)
void *grown(void *at, int64_t *room, size_t size);
void *clean(size_t n, size_t size); /* zeroed, never NULL */
typedef LIST(int) numbers;
typedef LIST(char) string;
void say(string *text, const char *form, ...) __attribute__((format(printf, 2, 3)));

/* ---- read.c: the record file of a process ---- */

struct entry {
    struct record r;
    int thread;
    int a, b;     /* the objects: a mutex, lock or semaphore, or the condition of a signal; the condition of a wait */
    int64_t mate; /* of a wait its return, of a signal or blocked call its end; -1: none. Of these the wait, signal or blocked call */
    bool dropped; /* it is no event */
    bool last;    /* its thread has no later record, so a call that gives may have had no effect */
    bool unseen;  /* of an unlock or wait: no record says how the thread got the mutex, and the C library knows that it has it */
};
struct held { uint64_t address; int depth; uint32_t place; struct place from; };
struct process {
    struct head head;
    LIST(struct entry) entries;  /* in the order of their numbers */
    LIST(struct held) inherited; /* what thread 0 held when it was forked */
    LIST(struct place) places;   /* by their numbers */
    int threads;                 /* 0 is the one that the process began with */
    uint64_t left_out[LEFT_OUT_KINDS];
    string modules;         /* texts of the segments, the last one first */
    const char *ends_early; /* NULL: no record is missing */
};
struct file { const char *at; size_t size; struct head head; };
bool open_file(const char *folder, const char *name, struct file *file);
void close_file(struct file *file);
/* The chunk from `*at` on, or the next one that is begun; NULL: there is none. Comes behind it with `*at`. */
const struct chunk *next_chunk(const struct file *file, uint64_t *at, uint32_t *count);
bool read_process(const char *folder, const char *name, struct process *p);

/* ---- inherit.c: what the threads that forked processes had ---- */

void find_inheritances(const char *folder, char *const *names, int64_t n);
/* Adds what this process began with; its places come behind those that it has. */
void inherit(struct process *p);

/* ---- places.c: names for places in the code ---- */

void name_address(const string *modules, uint64_t address, bool is_call, char *text, size_t size);
/* The frames of a place, as far as they are known. */
void name_place(const struct process *p, uint32_t place, char *text, size_t size);
bool is_code(const string *modules, uint64_t address);
/* " NAME+0xOFFSET" of a variable, or nothing. */
void name_variable(const string *modules, uint64_t address, char *text, size_t size);
/* symbols.c */
const char *find_symbol(const char *path, uint64_t address, bool is_variable, uint64_t *begin);
const char *readable_name(const char *symbol);

/* ---- signals.c: where signals take effect ---- */

struct wait { int64_t from, to; };   /* the places of its beginning and of its return */
struct call { int64_t from, to, at; bool takes_all; }; /* of a signal; at: the gap where it takes effect, or -1: in none */
/* Finds a gap for each call within its two places, so that in each wait's time there is one that takes it out: signals one wait each,
 * if that can be, else as many as need it. Gives the number of waits that are left over: 0 exactly where a choice explains all. */
int64_t place_calls(struct wait *waits, int64_t n_waits, struct call *calls, int64_t n_calls);

/* ---- objects.c: which object stands at an address ---- */

enum kind { MUTEX, CONDITION, SEMAPHORE, THREAD, RWLOCK, KINDS };
struct object {
    enum kind kind;
    uint64_t address;
    uint32_t place;            /* where it was made, or first used */
    bool made;
    bool at_rest;              /* at its end: a mutex free, a condition empty, a semaphore available */
    int64_t first, last;       /* its first and last event; -1: none */
    int owner, depth;          /* of a mutex: the thread that has it or -1, and how often */
    bool known, begun, available; /* of a semaphore: that its beginning was seen; whether it was used; whether it has units */
    int64_t units, began_with, most; /* how many it has, began with, and had at most */
    uint64_t function, method, target, handle; /* of a thread */
    bool ended;
};
struct map { struct { uint64_t address; int kind, object; } *at; size_t room, n; };
struct found;
int new_object(struct found *f, enum kind kind, uint64_t address, uint32_t place, bool made);
/* The object at an address, or a new one. */
int object_at(struct found *f, struct map *m, enum kind kind, uint64_t address, uint32_t place);
/* The object at an address, or -1. */
int known_at(const struct map *m, enum kind kind, uint64_t address);
/* Another object stands there from now on: one that is made there, or none yet. */
void renew(struct found *f, struct map *m, enum kind kind, uint64_t address, uint32_t place, bool made);
/* "mutex 0x.., made in ..", "thread, begun with .." */
void describe(const struct process *p, const struct found *f, int object, char *text, size_t size);

/* ---- holds.c and events.c: the events, in an order that keeps each call's interval ---- */

enum action { ACQUIRE, RELEASE, ENQUEUE, RESUME, ALERT_ENQUEUE, ALERT_RETURN, ALERT_RAISE, SIGNALS, BROADCASTS, P, V, ALERT };
/* b: the condition; of a signal the first thread that it takes, or -1. entry: the record that it comes from, or -1. */
struct event { enum action action; int thread, a, b; int64_t entry; };
struct also { int64_t event; int thread; };
struct two_mutexes { int condition, first, second; int64_t entry; };
struct freed { int object; int64_t entry; };
struct refused { int part; int64_t place, event; };
struct found {
    LIST(struct object) objects; /* the threads first, then the system, which stands for the clock and for what is not recorded */
    LIST(struct event) events;
    LIST(struct also) also; /* further threads that a signal takes, by its event */
    LIST(struct two_mutexes) two;                     /* conditions whose waits are with two mutexes at once */
    LIST(struct refused) strange; /* the first release or wait without the mutex of each part, which a checker refuses */
    LIST(struct freed) freed; /* mutexes whose memory was given back while a thread had them */
    int system;
    int *in_condition; /* of each thread: the condition that it is in at the end, or -1 */
    int64_t unexplained, from_outside, several, renewed, nobody, signals, timeouts, cancelled, recursive, refused, doubtful, robust, rwlocks;
    int64_t unseen, unreleased, unposted;
    bool is_ended; /* in an orderly way */
    const char *ends_early;
};
bool returns(const struct entry *back);
bool raises(const struct entry *back);
void find_holds(struct process *p, struct found *f);
void find_events(struct process *p, struct found *f);

/* ---- parts.c: which objects stand in which trace ---- */

#define NAMES 64
#define PARTED 3 /* kinds that have names of their own: mutexes, conditions, semaphores */
struct part {
    int64_t free_from[PARTED][NAMES]; /* of each name the event from which on it is free */
    int64_t soonest[PARTED];          /* the least of these */
    LIST(int64_t) events;
    numbers objects;
    int class, classes; /* of the waits those with numbers of this class stand in it */
};
struct member { int part, name; };
struct parts {
    const struct found *f;
    LIST(struct part) parts;
    struct members { LIST(struct member) in; } *of; /* of each object: the parts that have it, with its names */
    numbers *waited;                               /* of each condition: the mutexes of its waits */
    int *root;                                     /* objects that belong together */
    const char *ends_early;
};
void make_parts(struct parts *s, const struct found *f);
/* Parts the objects of a part in two, or its waits; false: it can't be parted. */
bool split_part(struct parts *s, int part, int most_waits);
int name_in(const struct parts *s, int object, int part);
int root_of(struct parts *s, int object);

/* ---- replay.c: what of each event stands in a part ---- */

struct replay {
    const struct found *f;
    struct parts *s;
    int part;
    int *holder;              /* of each object */
    int64_t *since;           /* the event by which it came to be so, or -1 */
    int *holds;               /* of each thread: how many mutexes it has */
    enum { OUTSIDE, WITHIN, WITHIN_ELSEWHERE } *waits; /* and whether it is within a wait that stands in this part */
    int *slot;                /* and the number of that wait among those that are under way */
    numbers *inside;          /* of each condition: the threads in it */
    numbers touched_objects, touched_threads, slots;
    int pinned;               /* threads that hold a mutex or are within a wait */
    int most;                 /* names that were needed at once */
    bool system_acts;
};
void begin_replay(struct replay *y, const struct found *f, struct parts *s);
void start_part(struct replay *y, int part);
/* Whether the event stands in the part, and as what; then the state after it. */
bool stands(struct replay *y, int64_t event, enum action *action);
void advance(struct replay *y, int64_t event, enum action action);
bool is_taken(const struct found *f, int64_t event, int thread);
/* Measures all parts, and splits those with more threads than there are names. */
void fit_parts(struct replay *y);

/* ---- text.c: the trace texts; legend.c: their legends ---- */

struct use { int kind, name, object; int64_t first, last; };
struct refusal { int64_t place, event, since; int thread, mutex; bool is_held; }; /* a release or wait without the mutex */
struct legend { LIST(struct use) uses; struct refusal refusal; };
/* Writes OUT.trace and OUT.legend, and OUT.partK of further parts; gives how many, or -1 where a file couldn't be written. `where` gets
 * each event's part and place. */
struct where { int part; int64_t place; };
int write_parts(const struct process *p, struct found *f, const char *out, struct where *where);
bool write_legend(const struct process *p, const struct found *f, struct legend *l, const char *path);
FILE *create(const char *out, const char *kind, int number, const char *ending);

/* ---- orders.c: which locks are got while others are held; cycles.c; order_text.c ---- */

struct holding { int object; int64_t entry; bool reads; };
/* An example of an order: the thread had all these when it got, or waited for, the lock. */
struct holdings { uint64_t mark; int64_t n; struct holding at[]; }; /* by their objects; those with the same mark are the same */
struct witness { int thread; int64_t got; bool reads, never; const struct holdings *held; };
struct edge { int from, to; LIST(struct witness) of; };
struct blocked { int thread; int64_t entry; int object; enum wait_for wait_for; };
struct held_now { LIST(struct holding) now; uint64_t mark; };
struct orders {
    LIST(struct edge) edges;
    int64_t *table, room;          /* of the edges, by what they join */
    struct held_now *held;         /* of each thread, at the end */
    LIST(struct blocked) blocked;  /* calls that wait at the end */
};
void find_orders(const struct process *p, const struct found *f, struct orders *o);
int64_t find_edge(const struct orders *o, int from, int to); /* or -1 */

enum sort { CAN_BLOCK, BY_READING, UNDER_GATE, ONE_THREAD };
/* Each of the objects is held while the next is got, and the last while the first is: by this edge, and this example of it. `others`:
 * further edges of its component, where that isn't too large for a trace. */
struct cycle { enum sort sort; int gate; numbers edges, examples, others; int component; };
typedef LIST(struct cycle) cycles;
void find_cycles(const struct found *f, const struct orders *o, cycles *all);
/* Writes OUT.orderK.trace and its legend, and says what it shows. */
void say_cycle(const struct process *p, const struct found *f, const struct orders *o, const struct cycle *cycle, const char *out,
               int number, string *text);

/* ---- ends.c: who waits for what at the end ---- */

void say_ends(const struct process *p, struct found *f, const struct orders *o, string *text);

/* ---- times.c: how long mutexes were waited for and held; json.c: all with its time ---- */

double nanoseconds_of_a_tick(void);
void say_times(const struct process *p, const struct found *f, string *text);
bool write_json(const struct process *p, const struct found *f, const struct where *where, const char *out);
bool write_calls(const struct process *p, const struct found *f, const struct where *where, const char *out);

/* ---- summary.c ---- */

struct wishes { bool json, calls; };
enum outcome { CONVERTED = 0, NOT_CONVERTED = 1, NO_CALLS = 2, ENDS_EARLY = 3, UNEXPLAINED = 4 };
/* Converts one record file, and says on standard error what it found. */
/* What a process needs for a trace; of the first nothing is said where it hasn't that. */
enum need { EVENTS_FIRST, EVENTS, CALLS, NOTHING_NEEDED };
enum outcome convert(const char *folder, const char *name, const char *out, enum need need, struct wishes wishes);

#endif
