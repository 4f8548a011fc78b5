/* record [--json] [--calls] OUT PROGRAM [ARGUMENTS..] | record --convert FOLDER [OUT]: runs a program with the library loaded before the C
 * library's, and converts the record of each of its processes.
 *
 * INT, TERM, HUP and QUIT go on to the program. Where it hasn't ended some seconds later it is killed; what was recorded is converted all
 * the same. */
#define _GNU_SOURCE
#include "convert.h"
#include <dirent.h>
#include <errno.h>
#include <signal.h>
#include <stdlib.h>
#include <string.h>
#include <sys/stat.h>
#include <sys/wait.h>
#include <unistd.h>

#define CANT_RECORD 120
#define NO_CALL 121
#define EARLY 122
#define SYSTEM_STANDS 123
#define PATIENCE 5 /* seconds from a signal to the end of the program */

struct run {
    char folder[4200], out[4200];
    long main;
    int status;
    bool keeps_records;
    struct wishes wishes;
};

static int fail(const char *form, const char *of) {
    fprintf(stderr, "record: ");
    fprintf(stderr, form, of);
    putc('\n', stderr);
    return CANT_RECORD;
}

/* ---- the program ---- */

static volatile pid_t child;
static volatile sig_atomic_t signals_got, was_killed;

/* A signal from the terminal comes to the program by itself, since it is of the same group. */
static void pass_on(int signal, siginfo_t *info, void *context) {
    (void)context;
    pid_t to = child;
    if (to > 0 && signal == SIGALRM) was_killed = 1, kill(to, SIGKILL);
    else if (to > 0) {
        if (info->si_code <= 0) kill(to, signal);
        if (signals_got++ == 0) alarm(PATIENCE);
    }
}

static const char *folder_to_keep;
static void keep_records(int signal, siginfo_t *info, void *context) {
    static const char words[] = "record: stopped; the records stay in ";
    (void)info, (void)context;
    if (write(2, words, sizeof words - 1) < 0 || write(2, folder_to_keep, strlen(folder_to_keep)) < 0 || write(2, "\n", 1) < 0)
        _exit(CANT_RECORD);
    _exit(128 + signal);
}

static void take_signals(void (*handler)(int, siginfo_t *, void *)) {
    static const int all[] = { SIGINT, SIGTERM, SIGHUP, SIGQUIT, SIGALRM };
    struct sigaction action = { .sa_flags = SA_SIGINFO }, old;
    action.sa_sigaction = handler;
    for (size_t i = 0; i < sizeof all / sizeof *all; i++)
        if (sigaction(all[i], NULL, &old) == 0 && old.sa_handler != SIG_IGN) sigaction(all[i], &action, NULL);
}

static void set_environment(const struct run *run, const char *library) {
    const char *before = getenv("LD_PRELOAD"), *options = getenv("ASAN_OPTIONS");
    string value = { 0 };
    say(&value, "%s/of", run->folder);
    setenv("FIREFLY_RECORD", value.at, 1);
    value = (string){ 0 };
    say(&value, "%s%s%s", library, before && *before ? ":" : "", before ? before : "");
    setenv("LD_PRELOAD", value.at, 1);
    value = (string){ 0 };
    say(&value, "%s%sverify_asan_link_order=0", options ? options : "", options && *options ? ":" : ""); /* else it refuses to start */
    setenv("ASAN_OPTIONS", value.at, 1);
}

/* What is needed to convert the folder later. */
static bool write_about(const struct run *run) {
    char path[4300];
    snprintf(path, sizeof path, "%s/about", run->folder);
    FILE *out = fopen(path, "w");
    if (!out) return false;
    fprintf(out, "%ld\n%s\n", run->main, run->out);
    return fclose(out) == 0;
}

static bool read_about(struct run *run) {
    char path[4300];
    snprintf(path, sizeof path, "%s/about", run->folder);
    FILE *in = fopen(path, "r");
    bool good = in && fscanf(in, "%ld\n%4199[^\n]", &run->main, run->out) == 2;
    if (in) fclose(in);
    return good;
}

static int run_program(struct run *run, const char *library, char **program) {
    int ready[2], status = 0;
    if (pipe(ready)) return fail("%s", strerror(errno));
    child = fork();
    if (child < 0) return fail("no process can be begun: %s", strerror(errno));
    if (child == 0) {
        char byte;
        close(ready[1]);
        while (read(ready[0], &byte, 1) < 0 && errno == EINTR) {}
        close(ready[0]);
        set_environment(run, library);
        execvp(program[0], program);
        fprintf(stderr, "record: %s can't be run: %s\n", program[0], strerror(errno));
        _exit(127);
    }
    run->main = child;
    write_about(run);
    take_signals(pass_on);
    close(ready[0]), close(ready[1]);
    while (waitpid(child, &status, 0) < 0 && errno == EINTR) {}
    alarm(0);
    child = 0;
    if (was_killed) fprintf(stderr, "record: the program was killed, since it went on for %d seconds after the signal\n", PATIENCE);
    run->status = WIFSIGNALED(status) ? 128 + WTERMSIG(status) : WEXITSTATUS(status);
    return 0;
}

/* ---- its records ---- */

typedef LIST(char *) names;

static bool is_of(const char *name, long process) {
    char prefix[40];
    int n = snprintf(prefix, sizeof prefix, "of.%ld.", process);
    return strncmp(name, prefix, (size_t)n) == 0;
}

static long sorted_first;
static int by_process(const void *x, const void *y) {
    const char *a = *(char *const *)x, *b = *(char *const *)y;
    int first = is_of(b, sorted_first) - is_of(a, sorted_first);
    return first ? first : strverscmp(a, b);
}

/* The record files, those of the program's own process first. */
static names find_records(const struct run *run) {
    names all = { 0 };
    DIR *folder = opendir(run->folder);
    for (struct dirent *it; folder && (it = readdir(folder));)
        if (strncmp(it->d_name, "of.", 3) == 0) ADD(all, strdup(it->d_name));
    if (folder) closedir(folder);
    sorted_first = run->main;
    if (all.n) qsort(all.at, (size_t)all.n, sizeof *all.at, by_process);
    return all;
}

/* In a process of its own, so that of the others nothing is lost where one can't be converted. */
static enum outcome convert_apart(const struct run *run, const char *name, const char *out, enum need need) {
    int status = 0;
    fflush(NULL);
    pid_t converter = fork();
    if (converter < 0) return NOT_CONVERTED;
    if (converter == 0) _exit(convert(run->folder, name, out, need, run->wishes));
    while (waitpid(converter, &status, 0) < 0 && errno == EINTR) {}
    if (WIFEXITED(status) && WEXITSTATUS(status) <= UNEXPLAINED && WEXITSTATUS(status) != NOT_CONVERTED)
        return (enum outcome)WEXITSTATUS(status);
    struct file file;
    bool is_readable = open_file(run->folder, name, &file);
    fprintf(stderr, "record: the record of process %s, %s, is lost: %s %d\n", name + 3,
            is_readable ? file.head.program : "which can't be read",
            WIFSIGNALED(status) ? "the converter was ended by signal" : "the converter's status is",
            WIFSIGNALED(status) ? WTERMSIG(status) : WEXITSTATUS(status));
    return NOT_CONVERTED;
}

struct totals {
    int found, lost, early, unexplained, empty;
};

static void note(struct totals *t, enum outcome outcome) {
    t->found += outcome == CONVERTED || outcome == ENDS_EARLY || outcome == UNEXPLAINED;
    t->lost += outcome == NOT_CONVERTED;
    t->early += outcome == ENDS_EARLY;
    t->unexplained += outcome == UNEXPLAINED;
    t->empty += outcome == NO_CALLS;
}

/* The program's own process: what it ran first that made calls with events, else that made calls, else an empty trace where others made some. */
static void convert_main(const struct run *run, const names *all, struct totals *t) {
    int64_t last = -1;
    for (int64_t i = 0; i < all->n && is_of(all->at[i], run->main); i++) {
        enum outcome outcome = convert_apart(run, all->at[last = i], run->out, CALLS);
        note(t, outcome);
        if (outcome != NO_CALLS) return;
    }
    if (last >= 0 && t->found) convert_apart(run, all->at[last], run->out, NOTHING_NEEDED);
}

/* OUT is of the program's own process, OUT.processK of the others and of what else that process ran. */
static void convert_all(const struct run *run, const names *all, struct totals *t) {
    bool has_main = false;
    char out[4300];
    for (int64_t i = 0; i < all->n; i++) {
        bool of_main = is_of(all->at[i], run->main);
        if (of_main && !has_main) snprintf(out, sizeof out, "%s", run->out);
        else snprintf(out, sizeof out, "%s.process%d", run->out, t->found + 1 + !has_main);
        enum outcome outcome = convert_apart(run, all->at[i], out, of_main && !has_main ? EVENTS_FIRST : EVENTS);
        if (of_main && outcome != NO_CALLS) has_main = true;
        note(t, outcome);
    }
    if (!has_main) convert_main(run, all, t);
}

static void remove_folder(const struct run *run, names all) {
    char path[4600];
    for (int64_t i = 0; i < all.n; i++) {
        snprintf(path, sizeof path, "%s/%s", run->folder, all.at[i]);
        unlink(path);
    }
    snprintf(path, sizeof path, "%s/about", run->folder);
    unlink(path);
    rmdir(run->folder);
}

/* Files of an earlier recording by the same name. */
static void remove_old(const char *out) {
    string line = { 0 };
    static const char *const endings[] = { ".trace", ".legend", ".json", ".calls" };
    const char *slash = strrchr(out, '/');
    char folder[4200];
    snprintf(folder, sizeof folder, "%.*s", (int)(slash ? slash - out : 1), slash ? out : ".");
    const char *base = slash ? slash + 1 : out;
    DIR *entries = opendir(*folder ? folder : "/");
    for (struct dirent *it; entries && (it = readdir(entries));) {
        const char *rest = it->d_name + strlen(base), *dot = strrchr(it->d_name, '.');
        if (strncmp(it->d_name, base, strlen(base)) != 0 || !dot) continue;
        bool is_ours = dot == rest || !strncmp(rest, ".part", 5) || !strncmp(rest, ".process", 8) || !strncmp(rest, ".order", 6);
        for (size_t i = 0; is_ours && i < sizeof endings / sizeof *endings; i++)
            if (strcmp(dot, endings[i]) == 0) {
                line.n = 0;
                say(&line, "%s/%s", folder, it->d_name);
                unlink(line.at);
            }
    }
    if (entries) closedir(entries);
}

/* ---- what is said where nothing was recorded ---- */

static const char *why_nothing(const char *program, names all) {
    struct stat info;
    static char interpreter[2];
    const char *path = program;
    if (all.n) return "the program made no call of the C library's threads that is recorded";
    if (stat(path, &info) == 0 && info.st_mode & (S_ISUID | S_ISGID))
        return "the system gives the program other rights at its start, and no library is loaded before others then";
    FILE *in = fopen(path, "r");
    size_t n = in ? fread(interpreter, 1, 2, in) : 0;
    if (in) fclose(in);
    if (n == 2 && memcmp(interpreter, "\177E", 2) == 0)
        return "the library was not loaded: the program is static, or not for this C library";
    return "the library was not loaded";
}

static int finish(struct run *run, const char *program) {
    struct totals t = { 0 };
    names all = find_records(run);
    folder_to_keep = run->folder;
    take_signals(keep_records);
    find_inheritances(run->folder, all.at, all.n);
    convert_all(run, &all, &t);
    if (!t.found && !t.lost) fprintf(stderr, "record: nothing was recorded: %s\n", why_nothing(program, all));
    if (t.lost) fprintf(stderr, "record: the records stay in %s: tools/record --convert %s converts them\n", run->folder, run->folder);
    else if (!run->keeps_records) remove_folder(run, all);
    if (run->status) return run->status;
    return t.lost ? CANT_RECORD : !t.found ? NO_CALL : t.early ? EARLY : t.unexplained ? SYSTEM_STANDS : 0;
}

/* ---- the words ---- */

static void absolute(const char *path, char *to, size_t size) {
    char here[4096];
    if (*path == '/' || !getcwd(here, sizeof here)) snprintf(to, size, "%s", path);
    else snprintf(to, size, "%s/%s", here, path);
}

/* The program's file, as the shell finds it. */
static bool find_program(const char *name, char *path, size_t size) {
    const char *folders = getenv("PATH");
    snprintf(path, size, "%s", name);
    if (strchr(name, '/')) return access(name, X_OK) == 0;
    while (folders && *folders) {
        size_t n = strcspn(folders, ":");
        snprintf(path, size, "%.*s/%s", (int)n, folders, name);
        if (access(path, X_OK) == 0) return true;
        folders += n + (folders[n] == ':');
    }
    return false;
}

static int convert_folder(char **words, struct run *run) {
    if (!words[0]) return fail("%s", "usage: tools/record --convert FOLDER [OUT]");
    absolute(words[0], run->folder, sizeof run->folder);
    while (strlen(run->folder) > 1 && run->folder[strlen(run->folder) - 1] == '/') run->folder[strlen(run->folder) - 1] = 0;
    if (!read_about(run) && !words[1]) return fail("%s is no folder of records: which OUT?", run->folder);
    if (words[1]) absolute(words[1], run->out, sizeof run->out);
    if (!find_records(run).n) return fail("there are no records in %s", run->folder);
    remove_old(run->out);
    run->keeps_records = true; /* the program may run still */
    return finish(run, "");
}

static int record(char **words, struct run *run, const char *library) {
    char path[4300];
    if (!words[0] || !words[1]) return fail("%s", "usage: tools/record [--json] [--calls] OUT PROGRAM [ARGUMENTS..]");
    absolute(words[0], run->out, sizeof run->out);
    if (!find_program(words[1], path, sizeof path)) return fail("there is no program %s", words[1]);
    snprintf(run->folder, sizeof run->folder, "%.4000s.records.XXXXXX", run->out);
    if (!mkdtemp(run->folder)) return fail("no folder can be made beside %s", run->out);
    remove_old(run->out);
    int status = run_program(run, library, words + 1);
    if (status) return status;
    return finish(run, path);
}

int main(int argc, char **argv) {
    static struct run run;
    char library[4300];
    int k = 1;
    ssize_t n = readlink("/proc/self/exe", library, 4200);
    library[n < 0 ? 0 : n] = 0;
    char *slash = strrchr(library, '/');
    if (!slash) return fail("%s", "its own place is not known");
    strcpy(slash + 1, "librecorder.so");
    for (; k < argc && strncmp(argv[k], "--", 2) == 0; k++) {
        if (strcmp(argv[k], "--json") == 0) run.wishes.json = true;
        else if (strcmp(argv[k], "--calls") == 0) run.wishes.calls = true;
        else if (strcmp(argv[k], "--convert") == 0) return convert_folder(argv + k + 1, &run);
        else return fail("there is no option %s", argv[k]);
    }
    return record(argv + k, &run, library);
}
