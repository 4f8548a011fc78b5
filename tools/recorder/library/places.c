/* Where a call comes from: its return address and those of its callers, as far as unwind tables give them.
 *
 * Unwinding costs some microseconds, so each lane remembers the places that it has seen. A place is taken from there where the call has the
 * same return address at the same height of the stack, and each further return address still stands where it was found. */
#include "library.h"
#include <errno.h>
#include <link.h>
#include <stdio.h>
#include <string.h>
#include <sys/mman.h>
#include <unwind.h>

#define ENTRIES 128
#define FAR 32768 /* from the call, in bytes of its stack: where other stacks come to the same place, they are as large */
struct remembered {
    struct site site;
    int n; /* frames behind the first */
    uint32_t number;
    uint64_t frames[FRAMES - 1];
    const uint64_t *stands[FRAMES - 1];
};

/* Memories of threads; where there are more threads, those of the others are mapped. */
#define MEMORIES 128
static struct remembered memories[MEMORIES][ENTRIES];
static _Atomic uint8_t taken[MEMORIES];
static _Atomic uint32_t next_place = 1;

static struct remembered *new_memory(void) {
    for (int i = 0; i < MEMORIES; i++) {
        uint8_t no = 0;
        if (atomic_load(&taken[i]) || !atomic_compare_exchange_strong(&taken[i], &no, 1)) continue;
        memset(memories[i], 0, sizeof memories[i]);
        return memories[i];
    }
    if (is_provided()) return NULL;
    void *found = mmap(NULL, sizeof memories[0], PROT_READ | PROT_WRITE, MAP_PRIVATE | MAP_ANONYMOUS, -1, 0);
    return found == MAP_FAILED ? NULL : found;
}

void forget_places(struct lane *lane) {
    struct remembered *memory = lane->memory;
    if (!memory) return;
    if (memory < memories[0] || memory >= memories[0] + MEMORIES * ENTRIES) {
        if (!is_provided()) munmap(memory, sizeof memories[0]);
    } else atomic_store(&taken[(memory - memories[0]) / ENTRIES], 0);
}

void forget_all_places(void) {
    for (int i = 0; i < MEMORIES; i++) atomic_store(&taken[i], 0);
    atomic_store(&next_place, 1);
}

/* ---- unwinding ---- */

struct trail {
    struct remembered *to;
    int own, found;
};

static _Unwind_Reason_Code step(struct _Unwind_Context *context, void *of) {
    struct trail *trail = of;
    struct remembered *to = trail->to;
    uint64_t frame = _Unwind_GetCFA(context), address = _Unwind_GetIP(context);
    if (!trail->found) { /* the frames of this library come first */
        trail->found = frame == (uint64_t)to->site.frame && address == (uint64_t)to->site.from;
        return ++trail->own > 10 ? _URC_END_OF_STACK : _URC_NO_REASON;
    }
    const uint64_t *stands = (const uint64_t *)frame - 1;
    if (!address || frame - (uint64_t)to->site.frame > FAR || *stands != address) return _URC_END_OF_STACK;
    to->frames[to->n] = address, to->stands[to->n] = stands;
    return ++to->n == FRAMES - 1 ? _URC_END_OF_STACK : _URC_NO_REASON;
}

/* ---- the modules of the program ---- */

static struct { uint64_t begin, end; } segments[512];
static _Atomic int n_segments;
static _Atomic unsigned long long loaded;

static int is_known(uint64_t address) {
    for (int i = 0, n = atomic_load(&n_segments); i < n; i++)
        if (address >= segments[i].begin && address < segments[i].end) return 1;
    return 0;
}

static int note_loaded(struct dl_phdr_info *info, size_t size, void *of) {
    (void)size;
    *(unsigned long long *)of = info->dlpi_adds;
    return 1;
}

struct module_text {
    char *at;
    size_t n, room;
    int segments;
};

static int note_module(struct dl_phdr_info *info, size_t size, void *of) {
    struct module_text *text = of;
    const char *name = info->dlpi_name && *info->dlpi_name ? info->dlpi_name : head->program;
    (void)size;
    for (int i = 0; i < info->dlpi_phnum && *name == '/'; i++) {
        const ElfW(Phdr) *part = &info->dlpi_phdr[i];
        int is_code = part->p_flags & PF_X;
        if (part->p_type != PT_LOAD || !(part->p_flags & (PF_X | PF_W)) || text->n + 400 > text->room) continue;
        uint64_t begin = info->dlpi_addr + part->p_vaddr, end = begin + part->p_memsz;
        if (is_code && text->segments < 512) segments[text->segments].begin = begin, segments[text->segments++].end = end;
        text->n += (size_t)snprintf(text->at + text->n, 400, "%llx %llx %llx %c %.300s\n", (unsigned long long)info->dlpi_addr,
                                    (unsigned long long)begin, (unsigned long long)end, is_code ? 'x' : '-', name);
    }
    return 0;
}

static _Atomic int under_way;
static struct module_text text;

static void put_text(void) {
    struct chunk *chunk = new_chunk((sizeof(struct chunk) + text.n + PAGE - 1) / PAGE * PAGE, MODULES);
    if (!chunk) return;
    memcpy(chunk + 1, text.at, text.n);
    __atomic_store_n(&chunk->count, (uint32_t)text.n, __ATOMIC_RELEASE);
    drop_chunk(chunk);
}

void put_modules(void) {
    static char buffer[262144];
    if (!head || atomic_load(&stopped) || atomic_exchange(&under_way, 1)) return;
    unsigned long long now = 0;
    text = (struct module_text){ buffer, 0, sizeof buffer, 0 };
    dl_iterate_phdr(note_loaded, &now);
    dl_iterate_phdr(note_module, &text);
    atomic_store(&n_segments, text.segments), atomic_store(&loaded, now);
    put_text();
    atomic_store(&under_way, 0);
}

/* A forked process has the same modules. The loader isn't asked again, since another thread may have had its lock. */
void put_modules_again(void) {
    if (!atomic_exchange(&under_way, 0)) put_text();
}

/* A place in no module that is known: where others were loaded since, they are noted. */
static void look_for_modules(uint64_t address) {
    unsigned long long now = 0;
    if (is_known(address)) return;
    dl_iterate_phdr(note_loaded, &now);
    if (now != atomic_load(&loaded)) put_modules();
}

/* ---- places ---- */

static int more_places(struct lane *lane) {
    drop_chunk(lane->places);
    lane->places_size = lane->places_size == 0 ? PAGE : lane->places_size < 16 * PAGE ? 4 * lane->places_size : 16 * PAGE;
    lane->places = new_chunk(lane->places_size, PLACES);
    lane->n_places = 0;
    lane->places_room = lane->places ? (lane->places_size - sizeof(struct chunk)) / sizeof(struct place) : 0;
    lane->first_place = atomic_fetch_add(&next_place, lane->places_room);
    if (lane->places) lane->places->left_out[0] = lane->first_place;
    return lane->places != NULL;
}

static uint32_t put_place(struct lane *lane, const struct remembered *r) {
    if (lane->n_places == lane->places_room && !more_places(lane)) return 0;
    struct place *place = (struct place *)(lane->places + 1) + lane->n_places;
    place->frames[0] = (uint64_t)r->site.from;
    for (int i = 0; i < r->n; i++) place->frames[i + 1] = r->frames[i];
    __atomic_store_n(&lane->places->count, ++lane->n_places, __ATOMIC_RELEASE);
    return lane->first_place + lane->n_places - 1;
}

/* Places that are seen again and again at other heights of the stack are worth no unwinding. */
static int is_worth_unwinding(const struct lane *lane) { return lane->unwound < 2000 || lane->unwound < lane->found / 16; }

static uint32_t new_place(struct lane *lane, struct site site) {
    int error = errno, cancel;
    pthread_setcancelstate(PTHREAD_CANCEL_DISABLE, &cancel);
    struct remembered r = { .site = site };
    if (is_worth_unwinding(lane)) {
        struct trail trail = { &r, 0, 0 };
        lane->unwound++;
        _Unwind_Backtrace(step, &trail);
    }
    if (me.depth == 1) look_for_modules((uint64_t)site.from);
    if (!lane->memory) lane->memory = new_memory();
    r.number = put_place(lane, &r);
    if (lane->memory && r.number) lane->memory[((uint64_t)site.from ^ (uint64_t)site.frame >> 4) * 0x9e3779b97f4a7c15ull >> 57] = r;
    pthread_setcancelstate(cancel, NULL);
    errno = error;
    return r.number;
}

static int is_there(const struct remembered *r, struct site site) {
    if (r->site.from != site.from || r->site.frame != site.frame) return 0;
    for (int i = 0; i < r->n; i++)
        if (*r->stands[i] != r->frames[i]) return 0;
    return 1;
}

uint32_t place_of(struct site site) {
    struct lane *lane = enter();
    if (!lane) return 0;
    struct remembered *r =
        lane->memory ? &lane->memory[((uint64_t)site.from ^ (uint64_t)site.frame >> 4) * 0x9e3779b97f4a7c15ull >> 57] : NULL;
    int found = r && is_there(r, site);
    lane->found += (uint32_t)found;
    uint32_t number = found ? r->number : new_place(lane, site);
    leave();
    return number;
}
