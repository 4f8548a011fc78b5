/* Names places in the code: the module, the address in it as its file and addr2line count, and the function where the file has its symbol.
 */
#include "convert.h"
#include <stdlib.h>
#include <string.h>

struct module {
    uint64_t bias, begin, end;
    bool is_code;
    char path[304];
};

/* The segments of one process at a time. */
static LIST(struct module) segments;
static const string *segments_of;

static void read_segments(const string *modules) {
    segments.n = 0, segments_of = modules;
    for (const char *line = modules->at; line && *line; line = strchr(line, '\n'), line += line != NULL) {
        unsigned long long bias, begin, end;
        char code;
        struct module m = { 0 };
        if (sscanf(line, "%llx %llx %llx %c %303[^\n]", &bias, &begin, &end, &code, m.path) < 5) continue;
        m.bias = bias, m.begin = begin, m.end = end, m.is_code = code == 'x';
        ADD(segments, m);
    }
}

static bool module_at(const string *modules, uint64_t address, struct module *m) {
    if (segments_of != modules) read_segments(modules);
    for (int64_t i = 0; i < segments.n; i++) {
        if (address < segments.at[i].begin || address >= segments.at[i].end) continue;
        *m = segments.at[i];
        return true;
    }
    return false;
}

bool is_code(const string *modules, uint64_t address) {
    struct module m;
    return address && module_at(modules, address, &m) && m.is_code;
}

static void look_up(const string *modules, uint64_t address, char *text, size_t size) {
    struct module m;
    uint64_t begin;
    if (!module_at(modules, address, &m)) {
        snprintf(text, size, address ? "0x%llx" : "a place that is not known", (unsigned long long)address);
        return;
    }
    const char *slash = strrchr(m.path, '/') + 1, *name = find_symbol(m.path, address - m.bias, false, &begin);
    snprintf(text, size, "%s+0x%llx%s%s", slash, (unsigned long long)(address - m.bias), name ? " " : "", name ? readable_name(name) : "");
}

void name_variable(const string *modules, uint64_t address, char *text, size_t size) {
    struct module m;
    uint64_t begin = 0;
    const char *name = module_at(modules, address, &m) && !m.is_code ? find_symbol(m.path, address - m.bias, true, &begin) : NULL;
    uint64_t offset = name ? address - m.bias - begin : 0;
    if (!name) *text = 0;
    else if (offset) snprintf(text, size, " %s+0x%llx", readable_name(name), (unsigned long long)offset);
    else snprintf(text, size, " %s", readable_name(name));
}

/* What was looked up, by addresses; of one process at a time. */
static struct {
    uint64_t address;
    char *text;
} * kept;
static size_t room, n_kept;
static const string *kept_of;

static void widen(void) {
    size_t old = room;
    __typeof__(kept) from = kept;
    room = room ? 2 * room : 1024;
    kept = clean(room, sizeof *kept);
    for (size_t i = 0; i < old; i++) {
        if (!from[i].text) continue;
        size_t k = from[i].address * 0x9e3779b97f4a7c15ull >> 30 & (room - 1);
        while (kept[k].text) k = (k + 1) & (room - 1);
        kept[k].address = from[i].address, kept[k].text = from[i].text;
    }
    free(from);
}

/* `is_call`: the address is the one behind a call, else a function's own. */
void name_address(const string *modules, uint64_t address, bool is_call, char *text, size_t size) {
    if (address && is_call) address--;
    if (kept_of != modules) free(kept), kept = NULL, room = n_kept = 0, kept_of = modules;
    if (2 * n_kept >= room) widen();
    size_t k = address * 0x9e3779b97f4a7c15ull >> 30 & (room - 1);
    while (kept[k].text && kept[k].address != address) k = (k + 1) & (room - 1);
    if (!kept[k].text) {
        char line[2000];
        look_up(modules, address, line, sizeof line);
        kept[k].address = address, kept[k].text = strdup(line), n_kept++;
        if (!kept[k].text) exit(NOT_CONVERTED);
    }
    snprintf(text, size, "%s", kept[k].text);
}

void name_place(const struct process *p, uint32_t place, char *text, size_t size) {
    struct place none = { { 0 } };
    const struct place *it = (int64_t)place < p->places.n ? &p->places.at[place] : &none;
    size_t n = 0;
    name_address(&p->modules, it->frames[0], true, text, size);
    for (int i = 1; i < FRAMES && it->frames[i]; i++) {
        char caller[2000];
        name_address(&p->modules, it->frames[i], true, caller, sizeof caller);
        n = strlen(text);
        if (!strncmp(caller, "libc.so", 7) || !strncmp(caller, "librecorder.so", 14)) continue; /* the beginning of a thread */
        snprintf(text + n, size - n, " < %s", caller);
    }
}
