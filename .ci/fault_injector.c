// Makes the system harder to use for a program, as the words in its environment say. To be loaded before the C library (LD_PRELOAD).
//
//     FAULTS_OF=NAME       only a program of this name (15 bytes at most) is meant; others run as they are
//     DRAWN_FROM=N         what is left to chance below is drawn from this number
//     SHORT_READS=1        a read of several bytes moves some of them, often one
//     SHORT_WRITES=1       the same of a write
//     INPUT_ENDS=N         standard input gives N bytes, and then reading it fails
//     OUTPUT_TAKES=N       standard output takes N bytes, and then there is no room
//     FAILING_READ=K, FAILING_WRITE=K, FAILING_OPEN=K, FAILING_LOOK=K, FAILING_LISTING=K
//                          the Kth call of read, write, open, statx, getdents64 fails
//     FAULT=E              with this error in place of EIO
//     FAILING_PATH=P       to open this path fails, also with a slash behind it
//     GONE=P               the directory of this path, which has to be empty, is removed before it is listed first
//     REFUSED=BITS         the thread whose bit is set isn't started, the first started one having bit 0
//     EARLY_WAKES=1        one sleep in four returns at once, as if woken or interrupted, sleepers are woken at random, and calls around sleeping take longer
//     COUNTS=FILE          at the end this file gets how many reads, writes, opens, looks, listings, threads and sleeps there were
#define _GNU_SOURCE
#include <dlfcn.h>
#include <errno.h>
#include <fcntl.h>
#include <linux/futex.h>
#include <pthread.h>
#include <stdarg.h>
#include <stdatomic.h>
#include <stdio.h>
#include <stdlib.h>
#include <string.h>
#include <sys/stat.h>
#include <sys/syscall.h>
#include <time.h>
#include <unistd.h>

enum { SEEN = 16 };

static int works; // whether this program is meant, and has begun
static unsigned long seed;
static long short_reads, short_writes, input_ends = -1, output_takes = -1, early_wakes, refused;
static long failing_read, failing_write, failing_open, failing_look, failing_listing, fault = EIO;
static const char *failing_path, *gone, *counts;
static atomic_long reads, writes, opens, looks, listings, threads, sleeps, given, taken;
static _Atomic(int *) slept_on[SEEN]; // where threads slept last
static long (*plain_syscall)(long, ...);

static unsigned long draw(unsigned long below) {
    static _Thread_local unsigned long drawn;
    static atomic_ulong order;
    if (drawn == 0) drawn = (seed + 1) * 0x9E3779B97F4A7C15UL ^ (atomic_fetch_add(&order, 1) * 2 + 1);
    drawn ^= drawn << 13;
    drawn ^= drawn >> 7;
    drawn ^= drawn << 17;
    return (drawn * 0x2545F4914F6CDD1DUL >> 11) % below;
}

static long number(const char *name, long none) {
    const char *text = getenv(name);
    return text ? atol(text) : none;
}

__attribute__((constructor)) static void begin(void) {
    const char *of = getenv("FAULTS_OF");
    plain_syscall = dlsym(RTLD_NEXT, "syscall");
    if (of && strncmp(of, program_invocation_short_name, 15) != 0) return;
    seed = (unsigned long)number("DRAWN_FROM", 0);
    short_reads = number("SHORT_READS", 0);
    short_writes = number("SHORT_WRITES", 0);
    input_ends = number("INPUT_ENDS", -1);
    output_takes = number("OUTPUT_TAKES", -1);
    failing_read = number("FAILING_READ", 0);
    failing_write = number("FAILING_WRITE", 0);
    failing_open = number("FAILING_OPEN", 0);
    failing_look = number("FAILING_LOOK", 0);
    failing_listing = number("FAILING_LISTING", 0);
    fault = number("FAULT", EIO);
    failing_path = getenv("FAILING_PATH");
    gone = getenv("GONE");
    refused = number("REFUSED", 0);
    early_wakes = number("EARLY_WAKES", 0);
    counts = getenv("COUNTS");
    works = 1;
}

static void tell_counts(void) {
    int file = counts && works ? (int)plain_syscall(SYS_openat, AT_FDCWD, counts, O_WRONLY | O_CREAT | O_TRUNC, 0600) : -1;
    works = 0;
    if (file < 0) return;
    dprintf(file, "reads %ld writes %ld opens %ld looks %ld listings %ld threads %ld sleeps %ld\n", reads, writes, opens, looks, listings, threads, sleeps);
    plain_syscall(SYS_close, file);
}

__attribute__((destructor)) static void end(void) { tell_counts(); }

void _exit(int status) {
    tell_counts();
    for (;;) plain_syscall(SYS_exit_group, status);
}

// Whether the call with this number, of which the Kth fails, is that one.
static int fails(atomic_long *made, long k) {
    if (!works || atomic_fetch_add(made, 1) + 1 != k) return 0;
    errno = (int)fault;
    return 1;
}

// A part of so many bytes.
static size_t part(size_t size) {
    size_t drawn = draw(3) == 0 ? 1 : 1 + draw(draw(2) == 0 ? 40 : 70000);
    return drawn < size ? drawn : size;
}

ssize_t read(int file, void *bytes, size_t size) {
    if (fails(&reads, failing_read)) return -1;
    if (works && short_reads && size > 1) size = part(size);
    if (works && file == 0 && input_ends >= 0 && size > 0) {
        long left = input_ends - given;
        if (left <= 0) return errno = (int)fault, -1;
        if (size > (size_t)left) size = (size_t)left;
    }
    long moved = plain_syscall(SYS_read, file, bytes, size);
    if (works && file == 0 && moved > 0) given += moved;
    return moved;
}

ssize_t write(int file, const void *bytes, size_t size) {
    if (fails(&writes, failing_write)) return -1;
    if (works && short_writes && size > 1) size = part(size);
    if (works && file == 1 && output_takes >= 0 && size > 0) {
        long room = output_takes - taken;
        if (room <= 0) return errno = ENOSPC, -1;
        if (size > (size_t)room) size = (size_t)room;
    }
    long moved = plain_syscall(SYS_write, file, bytes, size);
    if (works && file == 1 && moved > 0) taken += moved;
    return moved;
}

// Whether the path is this one, but for slashes at its end.
static int is_path(const char *path, const char *one) {
    size_t length = strlen(one);
    return strncmp(path, one, length) == 0 && path[length + strspn(path + length, "/")] == 0;
}

static int open_at(int folder, const char *path, int how, int mode) {
    if (fails(&opens, failing_open)) return -1;
    if (works && failing_path && is_path(path, failing_path)) return errno = (int)fault, -1;
    return (int)plain_syscall(SYS_openat, folder, path, how, mode);
}

int open(const char *path, int how, ...) {
    va_list rest;
    va_start(rest, how);
    int mode = va_arg(rest, int);
    va_end(rest);
    return open_at(AT_FDCWD, path, how, mode);
}

int openat(int folder, const char *path, int how, ...) {
    va_list rest;
    va_start(rest, how);
    int mode = va_arg(rest, int);
    va_end(rest);
    return open_at(folder, path, how, mode);
}

int statx(int folder, const char *path, int how, unsigned what, struct statx *found) {
    if (fails(&looks, failing_look)) return -1;
    return (int)plain_syscall(SYS_statx, folder, path, how, what, found);
}

ssize_t getdents64(int file, void *entries, size_t size) {
    if (fails(&listings, failing_listing)) return -1;
    struct stat listed, named;
    if (works && gone && fstat(file, &listed) == 0 && stat(gone, &named) == 0 && listed.st_ino == named.st_ino) rmdir(gone);
    return plain_syscall(SYS_getdents64, file, entries, size);
}

int pthread_create(pthread_t *thread, const pthread_attr_t *how, void *(*start)(void *), void *with) {
    int (*plain)(pthread_t *, const pthread_attr_t *, void *(*)(void *), void *) = dlsym(RTLD_NEXT, "pthread_create");
    if (works) {
        long place = atomic_fetch_add(&threads, 1);
        if (place < 63 && (refused >> place & 1)) return EAGAIN;
    }
    return plain(thread, how, start, with);
}

static void nap(void) {
    struct timespec time = {0, (long)draw(200) * 1000};
    if (draw(4) == 0) nanosleep(&time, NULL);
}

int sched_yield(void) {
    if (works && early_wakes && draw(8) == 0) nap();
    return (int)plain_syscall(SYS_sched_yield);
}

long syscall(long number, ...) {
    va_list rest;
    va_start(rest, number);
    long a = va_arg(rest, long), b = va_arg(rest, long), c = va_arg(rest, long), d = va_arg(rest, long), e = va_arg(rest, long), f = va_arg(rest, long);
    va_end(rest);
    if (!works || number != SYS_futex) return plain_syscall(number, a, b, c, d, e, f);
    int waits = (b & 127) == FUTEX_WAIT || (b & 127) == FUTEX_WAIT_BITSET;
    if (waits) sleeps++;
    if (!early_wakes) return plain_syscall(number, a, b, c, d, e, f);
    nap();
    if (waits) {
        slept_on[draw(SEEN)] = (int *)a;
        if (draw(4) == 0) {
            if (draw(2) == 0) return 0;
            return errno = draw(2) == 0 ? EINTR : EAGAIN, -1;
        }
    }
    int *other = slept_on[draw(SEEN)];
    if (other) plain_syscall(SYS_futex, other, FUTEX_WAKE | FUTEX_PRIVATE_FLAG, 1, 0, 0, 0);
    long answer = plain_syscall(number, a, b, c, d, e, f);
    int told = errno;
    nap();
    errno = told;
    return answer;
}
