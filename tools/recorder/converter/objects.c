/* Which object stands at an address at what time, and what is said of it. */
#include "convert.h"
#include <stdlib.h>
#include <string.h>

static size_t slot(const struct map *m, enum kind kind, uint64_t address) {
    size_t i = ((address >> 3) * 0x9e3779b97f4a7c15ull + (uint64_t)kind * 0x85ebca6b) >> 20 & (m->room - 1);
    while (m->at[i].address && !(m->at[i].address == address && m->at[i].kind == (int)kind)) i = (i + 1) & (m->room - 1);
    return i;
}

static void widen(struct map *m) {
    struct map new = { clean(m->room ? 2 * m->room : 1024, sizeof *m->at), m->room ? 2 * m->room : 1024, m->n };
    for (size_t i = 0; i < m->room; i++)
        if (m->at[i].address) new.at[slot(&new, m->at[i].kind, m->at[i].address)] = m->at[i];
    free(m->at);
    *m = new;
}

static size_t cell(struct map *m, enum kind kind, uint64_t address) {
    if (2 * m->n >= m->room) widen(m);
    size_t i = slot(m, kind, address);
    if (m->at[i].address) return i;
    m->at[i].address = address, m->at[i].kind = kind, m->at[i].object = -1;
    m->n++;
    return i;
}

int new_object(struct found *f, enum kind kind, uint64_t address, uint32_t place, bool made) {
    ADD(f->objects,
        (struct object){ .kind = kind, .address = address, .place = place, .made = made, .first = -1, .last = -1, .owner = -1 });
    return (int)f->objects.n - 1;
}

int object_at(struct found *f, struct map *m, enum kind kind, uint64_t address, uint32_t place) {
    if (!address) address = 1; /* no object can be there, and 0 marks what is empty */
    size_t i = cell(m, kind, address);
    if (m->at[i].object < 0) m->at[i].object = new_object(f, kind, address, place, false);
    return m->at[i].object;
}

int known_at(const struct map *m, enum kind kind, uint64_t address) {
    if (!m->room) return -1;
    size_t i = slot(m, kind, address);
    return m->at[i].address ? m->at[i].object : -1;
}

void renew(struct found *f, struct map *m, enum kind kind, uint64_t address, uint32_t place, bool made) {
    if (!address) address = 1;
    size_t i = cell(m, kind, address);
    m->at[i].object = made ? new_object(f, kind, address, place, true) : -1;
}

/* The name between these in a symbol like std::thread::_State_impl<std::thread::_Invoker<std::tuple<NAME> > >::_M_run(). */
static bool callable_in(const char *symbol, char *text, size_t size) {
    const char *begin = strstr(symbol, "_Invoker<std::tuple<"), *end = strstr(symbol, "::_M_run");
    if (!begin || !end) return false;
    begin += strlen("_Invoker<std::tuple<");
    while (end > begin && (end[-1] == '>' || end[-1] == ' ')) end--;
    snprintf(text, size, "%.*s", (int)(end - begin), begin);
    return true;
}

static void describe_thread(const struct process *p, const struct object *o, char *text, size_t size) {
    char place[2000], callable[1000];
    if (!o->made) {
        snprintf(text, size, "thread, which began the process, or whose beginning was not recorded");
        return;
    }
    name_address(&p->modules, o->function, false, place, sizeof place);
    int n = snprintf(text, size, "thread, begun with ");
    if (!o->method) {
        snprintf(text + n, size - (size_t)n, "%s", place);
        return;
    }
    name_address(&p->modules, o->method, false, place, sizeof place);
    bool is_named = callable_in(place, callable, sizeof callable);
    if (is_code(&p->modules, o->target) && (!is_named || strstr(callable, "(*)")))
        name_address(&p->modules, o->target, false, place, sizeof place);
    else if (is_named) snprintf(place, sizeof place, "%s", callable);
    snprintf(text + n, size - (size_t)n, "%s", place);
}

void describe(const struct process *p, const struct found *f, int object, char *text, size_t size) {
    static const char *const what[] = { "mutex", "condition", "semaphore", "thread", "read-write lock" };
    const struct object *o = &f->objects.at[object];
    char place[2000];
    if (object == f->system) snprintf(text, size, "the system: the clock, and what was not recorded");
    else if (o->kind == THREAD) describe_thread(p, o, text, size);
    else {
        char variable[600];
        name_place(p, o->place, place, sizeof place);
        name_variable(&p->modules, o->address, variable, sizeof variable);
        snprintf(text, size, "%s 0x%llx%s, %s in %s", what[o->kind], (unsigned long long)o->address, variable,
                 o->made ? "made" : "first used", place);
    }
}
