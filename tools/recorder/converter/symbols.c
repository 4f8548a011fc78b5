/* The functions and variables of a module, by its file's symbols. */
#define _GNU_SOURCE
#include "convert.h"
#include <dlfcn.h>
#include <elf.h>
#include <fcntl.h>
#include <link.h>
#include <stdlib.h>
#include <string.h>
#include <sys/mman.h>
#include <sys/stat.h>
#include <unistd.h>

struct symbol {
    uint64_t begin, end;
    const char *name;
};
typedef LIST(struct symbol) symbols_by_place;
struct symbols {
    char path[304];
    symbols_by_place functions, variables;
};
static LIST(struct symbols) known;

static void add_section(struct symbols *to, const char *file, size_t size, const ElfW(Shdr) * s, const ElfW(Shdr) * names) {
    if (s->sh_offset + s->sh_size > size || names->sh_offset + names->sh_size > size) return;
    const ElfW(Sym) *symbols = (const ElfW(Sym) *)(file + s->sh_offset);
    for (size_t i = 0; i < s->sh_size / sizeof *symbols; i++) {
        const ElfW(Sym) *it = &symbols[i];
        int type = it->st_info & 15;
        if (it->st_shndx == SHN_UNDEF || it->st_name >= names->sh_size) continue;
        struct symbol new = { it->st_value, it->st_value + (it->st_size ? it->st_size : 1), file + names->sh_offset + it->st_name };
        if (type == STT_FUNC || type == STT_GNU_IFUNC) ADD(to->functions, new);
        else if (type == STT_OBJECT) ADD(to->variables, new);
    }
}

static int by_begin(const void *x, const void *y) {
    const struct symbol *a = x, *b = y;
    return a->begin != b->begin ? (a->begin < b->begin ? -1 : 1) : a->end < b->end ? -1 : a->end > b->end;
}

static void read_symbols(struct symbols *to, const char *file, size_t size) {
    const ElfW(Ehdr) *head = (const ElfW(Ehdr) *)file;
    if (size < sizeof *head || memcmp(head->e_ident, ELFMAG, SELFMAG) || head->e_shoff > size ||
        head->e_shoff + head->e_shnum * sizeof(ElfW(Shdr)) > size)
        return;
    const ElfW(Shdr) *sections = (const ElfW(Shdr) *)(file + head->e_shoff);
    for (int i = 0; i < head->e_shnum; i++)
        if ((sections[i].sh_type == SHT_SYMTAB || sections[i].sh_type == SHT_DYNSYM) && sections[i].sh_link < head->e_shnum)
            add_section(to, file, size, &sections[i], &sections[sections[i].sh_link]);
    if (to->functions.n) qsort(to->functions.at, (size_t)to->functions.n, sizeof *to->functions.at, by_begin);
    if (to->variables.n) qsort(to->variables.at, (size_t)to->variables.n, sizeof *to->variables.at, by_begin);
}

/* The symbols of a file, which is read once and stays mapped. */
static const struct symbols *symbols_of(const char *path) {
    for (int64_t i = 0; i < known.n; i++)
        if (strcmp(known.at[i].path, path) == 0) return &known.at[i];
    struct symbols new = { 0 };
    struct stat info;
    snprintf(new.path, sizeof new.path, "%s", path);
    int fd = open(path, O_RDONLY | O_CLOEXEC);
    if (fd >= 0 && fstat(fd, &info) == 0 && S_ISREG(info.st_mode) && info.st_size > 0) {
        char *file = mmap(NULL, (size_t)info.st_size, PROT_READ, MAP_PRIVATE, fd, 0);
        if (file != MAP_FAILED) read_symbols(&new, file, (size_t)info.st_size);
    }
    if (fd >= 0) close(fd);
    ADD(known, new);
    return &known.at[known.n - 1];
}

const char *find_symbol(const char *path, uint64_t address, bool is_variable, uint64_t *begin) {
    const struct symbols *all = symbols_of(path);
    const symbols_by_place *s = is_variable ? &all->variables : &all->functions;
    int64_t low = 0, high = s->n;
    while (low < high) {
        int64_t middle = (low + high) / 2;
        if (s->at[middle].begin <= address) low = middle + 1;
        else high = middle;
    }
    for (int64_t i = low - 1; i >= 0 && i >= low - 4; i--)
        if (address < s->at[i].end) {
            *begin = s->at[i].begin;
            return s->at[i].name;
        }
    return NULL;
}

/* A C++ name as it is written, where the machine has libstdc++; it is kept by the caller. */
const char *readable_name(const char *symbol) {
    static char *(*demangle)(const char *, char *, size_t *, int *);
    static bool asked;
    if (symbol[0] != '_' || symbol[1] != 'Z') return symbol;
    if (!asked) {
        void *library = dlopen("libstdc++.so.6", RTLD_LAZY | RTLD_LOCAL);
        if (library) *(void **)&demangle = dlsym(library, "__cxa_demangle");
        asked = true;
    }
    int status = -1;
    char *name = demangle ? demangle(symbol, NULL, NULL, &status) : NULL;
    return name && status == 0 ? name : symbol;
}
