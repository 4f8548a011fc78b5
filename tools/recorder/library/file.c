/* The record file of a process: how it begins, grows and, in a forked process, begins anew. */
#include "library.h"
#include <dlfcn.h>
#include <errno.h>
#include <fcntl.h>
#include <sched.h>
#include <stdio.h>
#include <string.h>
#include <sys/mman.h>
#include <sys/resource.h>
#include <sys/stat.h>
#include <unistd.h>

_Atomic int state, stopped;
_Atomic int *here;
struct head *head;
void *real[HOW_MANY];

#define CALL_NAME(name, version) { #name, version },
static const struct { const char *name, *version; } names[] = { CALLS(CALL_NAME) };
static _Atomic uint64_t end_of_file;
static char prefix[4000], path[4096], own_name[64];
int kept_file = -1; /* for a program that gives up the right to open it; as long as it is that file's (kept_is) */
static struct stat kept_is;

/* Room in the file that is mapped before the program forbids itself system calls. */
static struct {
    _Atomic int is_there;
    char *at;
    uint64_t size;
    _Atomic uint64_t used;
} provided;

/* From now on records may be missing. */
void stop(const char *why) {
    uint64_t at = atomic_fetch_add(&head->next, 1), old = atomic_load(&head->stop);
    if (old == UINT64_MAX) strncpy(head->why, why, sizeof head->why - 1);
    while (at < old && !atomic_compare_exchange_weak(&head->stop, &old, at)) {}
    atomic_store(&stopped, 1);
}

static int is_record_file(int fd) {
    struct stat is;
    return fd >= 0 && fstat(fd, &is) == 0 && is.st_dev == kept_is.st_dev && is.st_ino == kept_is.st_ino;
}

/* The file by the descriptor that is kept; where the program has another file there, by its name. */
static int open_file(void) {
    int fd = kept_file >= 0 ? fcntl(kept_file, F_DUPFD_CLOEXEC, 0) : -1;
    if (is_record_file(fd)) return fd;
    if (fd >= 0) close(fd);
    return open(path, O_RDWR | O_CLOEXEC);
}

/* The next bytes of the file, for sure on the disk, and mapped; NULL: there are none. */
static void *reserve(uint64_t size, const char **why) {
    struct rlimit most;
    uint64_t at = atomic_fetch_add(&end_of_file, size);
    *why = "the limit of a file's size is reached";
    if (getrlimit(RLIMIT_FSIZE, &most) || (most.rlim_cur != RLIM_INFINITY && at + size > most.rlim_cur)) return NULL;
    *why = "the record file can't be opened again";
    int fd = open_file();
    if (fd < 0) return NULL;
    *why = "the disk is full";
    void *found =
        posix_fallocate(fd, (off_t)at, (off_t)size) ? MAP_FAILED : mmap(NULL, size, PROT_READ | PROT_WRITE, MAP_SHARED, fd, (off_t)at);
    close(fd);
    if (found == MAP_FAILED) return NULL;
    madvise(found, size, MADV_DONTFORK);
#ifdef MADV_POPULATE_WRITE
    if (size <= PAGE * 256) madvise(found, size, MADV_POPULATE_WRITE);
#endif
    return found;
}

void provide(void) {
    const char *why;
    if (!begin() || !head || atomic_load(&stopped) || atomic_load(here) != 1 || is_provided()) return;
    put_modules();
    for (uint64_t size = 64ull << 20; size >= 1ull << 20 && !provided.at; size /= 4)
        if ((provided.at = reserve(size, &why))) provided.size = size;
    atomic_store(&provided.is_there, 1);
}

int is_provided(void) { return atomic_load_explicit(&provided.is_there, memory_order_relaxed); }

static void *from_provided(uint64_t size, const char **why) {
    uint64_t at = atomic_fetch_add(&provided.used, size);
    *why = "the program forbade itself system calls, and the room that was reserved before is used up";
    return at + size <= provided.size ? provided.at + at : NULL;
}

struct chunk *new_chunk(uint64_t size, uint32_t thread) {
    const char *why;
    struct chunk *found = is_provided() ? from_provided(size, &why) : reserve(size, &why);
    if (!found) {
        stop(why);
        return NULL;
    }
    found->size = size;
    found->thread = thread;
    found->magic = CHUNK_MAGIC;
    return found;
}

void drop_chunk(struct chunk *chunk) {
    if (chunk && !is_provided()) munmap(chunk, chunk->size);
}

static int make_file(void) {
    int fd = -1;
    for (int k = 1; *prefix && fd < 0 && k < 1000; k++) {
        snprintf(own_name, sizeof own_name, "%d.%d", (int)getpid(), k);
        snprintf(path, sizeof path, "%s.%s", prefix, own_name);
        fd = open(path, O_RDWR | O_CREAT | O_EXCL | O_CLOEXEC, 0600);
        if (fd < 0 && errno != EEXIST) return -1;
    }
    return fd;
}

/* A number that programs hardly use. */
static int keep(int fd) {
    struct rlimit most;
    rlim_t number = getrlimit(RLIMIT_NOFILE, &most) || most.rlim_cur > 700 ? 700 : most.rlim_cur - 1;
    return fcntl(fd, F_DUPFD_CLOEXEC, (int)number);
}

/* Says why, where no file can be made. */
static int begin_file(const char *forked_from, uint64_t fork_number) {
    const char *why;
    head = NULL;
    if (is_record_file(kept_file)) REAL(close)(kept_file); /* of the process that forked this one */
    kept_file = -1;
    int fd = make_file();
    if (fd < 0) return *prefix ? errno : 0;
    kept_file = fstat(fd, &kept_is) ? -1 : keep(fd);
    close(fd);
    atomic_store(&end_of_file, 0);
    atomic_store(&stopped, 0);
    struct head *made = reserve(PAGE, &why);
    if (!made) return ENOSPC;
    madvise(made, PAGE, MADV_DOFORK); /* a forked process that can't be recorded notes it there */
    strcpy(made->name, own_name);
    strcpy(made->forked_from, forked_from);
    made->fork_thread = me.thread;
    made->fork_number = fork_number;
    made->pid = (uint64_t)getpid();
    ssize_t n = readlink("/proc/self/exe", made->program, sizeof made->program - 1);
    if (n < 0) made->program[0] = 0;
    atomic_store(&made->stop, UINT64_MAX);
    atomic_store(&made->next, fork_number);
    memcpy(made->magic, RECORD_MAGIC, sizeof made->magic);
    head = made;
    if (*forked_from) put_modules_again();
    else put_modules();
    return 0;
}

/* In a forked process, which has the one thread that forked: a file of its own. What that thread held it holds still, so nothing can be
 * recorded where its own records were missing already. */
void begin_forked(void) {
    int none = 0, cancel, error;
    char parent[64];
    struct head *parents = head;
    if (!atomic_compare_exchange_strong(here, &none, 2)) return;
    pthread_setcancelstate(PTHREAD_CANCEL_DISABLE, &cancel);
    strcpy(parent, own_name);
    me.depth = 0;
    memset(me.lanes, 0, sizeof me.lanes);
    if (me.owner) me.owner_before_fork = me.owner;
    me.owner = 0;
    forget_all_places();
    head = NULL;
    if (is_provided()) error = EPERM; /* it may not open a file */
    else if (atomic_load(&stopped)) error = EIO;
    else error = begin_file(me.known ? parent : "", me.known ? me.last + 1 : 0);
    if (error) {
        atomic_fetch_add(&parents->lost_processes, 1);
        atomic_store(&parents->lost_error, (uint64_t)error);
    }
    if (!is_provided()) munmap(parents, PAGE);
    pthread_setcancelstate(cancel, NULL);
    atomic_store(here, 1);
}

static void forked(void) {
    int error = errno;
    if (head && atomic_load(here) == 0) begin_forked();
    errno = error;
}

int begin_slowly(void) {
    int now = UNBEGUN;
    if (me.begins) return 0;
    if (!atomic_compare_exchange_strong(&state, &now, BEGINNING)) {
        while (atomic_load(&state) != READY) sched_yield();
        return 1;
    }
    me.begins = 1;
    me.known = 1, me.thread = atomic_fetch_add(&threads, 1); /* 0: the process's first */
    const char *name = getenv("FIREFLY_RECORD");
    if (name && strlen(name) < sizeof prefix) strcpy(prefix, name);
    for (int i = 0; i < HOW_MANY; i++) {
        if (names[i].version) real[i] = dlvsym(RTLD_NEXT, names[i].name, names[i].version);
        if (!real[i]) real[i] = dlsym(RTLD_NEXT, names[i].name);
    }
    look_at_allocator();
    here = mmap(NULL, PAGE, PROT_READ | PROT_WRITE, MAP_PRIVATE | MAP_ANONYMOUS, -1, 0);
    if ((void *)here != MAP_FAILED && madvise((void *)here, PAGE, MADV_WIPEONFORK) == 0 && pthread_key_create(&key, thread_ended) == 0) {
        atomic_store(here, 1);
        begin_file("", 0);
        pthread_atfork(NULL, NULL, forked);
    }
    me.begins = 0;
    atomic_store_explicit(&state, READY, memory_order_release);
    return 1;
}

__attribute__((constructor)) static void loaded(void) { begin(); }

__attribute__((destructor)) static void unloaded(void) {
    put(PROCESS_END, NULL, 0, 0);
    put_modules();
}
