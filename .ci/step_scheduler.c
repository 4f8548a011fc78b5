// Runs a program with its threads one machine instruction at a time, in an order drawn from a seed (Linux on x86-64).
//
//     step_scheduler THREADS SEED POLICY PROGRAM WORDS.. <INPUT >OUTPUT
//
// The program runs freely until it has started so many threads. From there on one thread at a time makes one instruction, and the
// policy says which: q40 changes the thread after about 40 instructions, p500 gives each a priority and lowers that of the one that runs
// at random places, about 500 apart. A system call that doesn't return at once leaves the others to run.
//
// It ends with the program's own status; with 100 where every thread sleeps for 8 seconds, that is after a wake that was lost or in a
// deadlock of the program's own; 101 past 30,000,000 steps; 102 where nothing can be traced; 90 where the program was killed. The number of steps
// is its last line of standard error.
#define _GNU_SOURCE
#include <errno.h>
#include <fcntl.h>
#include <sched.h>
#include <signal.h>
#include <stddef.h>
#include <stdio.h>
#include <stdlib.h>
#include <sys/ptrace.h>
#include <sys/user.h>
#include <sys/wait.h>
#include <time.h>
#include <unistd.h>

enum { MOST = 400, SLEEPS_FOR = 8, MOST_STEPS = 30000000, UNFAIR_FOR = 3000 };
enum State { STOPPED, RUNNING, GONE };

struct Thread {
    int id;
    enum State state;
    double priority;
    int signal; // to be handed over with the next step
};

static struct Thread threads[MOST];
static int count;
static int root;
static int ended = -1; // the program's status, once it has one
static unsigned long drawn;

static unsigned long draw(unsigned long below) {
    drawn ^= drawn << 13;
    drawn ^= drawn >> 7;
    drawn ^= drawn << 17;
    return (drawn * 0x2545F4914F6CDD1DUL >> 11) % below;
}

static double now(void) {
    struct timespec t;
    clock_gettime(CLOCK_MONOTONIC, &t);
    return (double)t.tv_sec + (double)t.tv_nsec / 1e9;
}

static int place_of(int id) {
    for (int i = 0; i < count; i++)
        if (threads[i].id == id) return i;
    if (count == MOST) exit(102);
    threads[count] = (struct Thread){id, RUNNING, 1 + (double)draw(1000000) / 1e6, 0};
    return count++;
}

static int is_event(int status, int event) { return status >> 8 == (SIGTRAP | (event << 8)); }

static int status_of(int status) { return WIFEXITED(status) ? WEXITSTATUS(status) : 90; }

// What the system says of a thread.
static void note(int id, int status) {
    struct Thread *t = &threads[place_of(id)];
    if (WIFEXITED(status) || WIFSIGNALED(status)) {
        t->state = GONE;
        if (id == root) ended = status_of(status);
        return;
    }
    t->state = STOPPED;
    if (is_event(status, PTRACE_EVENT_CLONE)) {
        unsigned long started;
        ptrace(PTRACE_GETEVENTMSG, id, 0, &started);
        place_of((int)started);
    }
    int signal = WSTOPSIG(status);
    t->signal = signal == SIGTRAP || signal == SIGSTOP || status >> 16 ? 0 : signal;
}

static int count_of(enum State state) {
    int n = 0;
    for (int i = 0; i < count; i++) n += threads[i].state == state;
    return n;
}

// Runs the program freely until it has started so many threads. Gives its memory, to read instructions from, or -1 where it has ended.
static int start(char **words, int wanted) {
    root = fork();
    if (root == 0) {
        ptrace(PTRACE_TRACEME, 0, 0, 0);
        raise(SIGSTOP);
        execv(words[0], words);
        _exit(127);
    }
    int status, memory = -1, signal = 0;
    char path[64];
    if (waitpid(root, &status, __WALL) < 0 || !WIFSTOPPED(status)) exit(102);
    if (ptrace(PTRACE_SETOPTIONS, root, 0, PTRACE_O_TRACECLONE | PTRACE_O_EXITKILL | PTRACE_O_TRACEEXEC) < 0) exit(102);
    place_of(root);
    for (;;) {
        ptrace(PTRACE_CONT, root, 0, signal);
        waitpid(root, &status, __WALL);
        signal = 0;
        if (WIFEXITED(status) || WIFSIGNALED(status)) {
            ended = status_of(status);
            return -1;
        }
        if (is_event(status, PTRACE_EVENT_EXEC)) {
            snprintf(path, sizeof path, "/proc/%d/mem", root);
            memory = open(path, O_RDONLY);
        } else if (is_event(status, PTRACE_EVENT_CLONE)) {
            note(root, status);
            if (count > wanted) return memory;
        } else if (WSTOPSIG(status) != SIGTRAP && WSTOPSIG(status) != SIGSTOP) {
            signal = WSTOPSIG(status);
        }
    }
}

// The place of the thread that makes the next step.
static int next(char policy, unsigned long mean, long step) {
    static int current = -1;
    static long left, change, alone;
    static double lowest = 1;
    if (policy == 'q') {
        if (current < 0 || threads[current].state != STOPPED || left <= 0) {
            int k = (int)draw((unsigned long)count_of(STOPPED));
            for (current = 0; threads[current].state != STOPPED || k-- > 0; current++) {}
            for (left = 1; left < 100000 && draw(mean + 1) != 0; left++) {}
        }
        left--;
        return current;
    }
    for (;;) {
        current = -1;
        for (int i = 0; i < count; i++)
            if (threads[i].state == STOPPED && (current < 0 || threads[i].priority > threads[current].priority)) current = i;
        if (change == 0) change = step + 1 + (long)draw(20000);
        // One that only looks, again and again, would keep the others from what it looks for.
        if (step < change && ++alone <= UNFAIR_FOR) return current;
        if (step >= change) change = step + 1 + (long)draw(mean);
        else alone = 0;
        lowest *= 0.999;
        threads[current].priority = lowest / 2;
    }
}

// One instruction of this thread. A system call is given a moment to return.
static void make_step(int memory, struct Thread *t) {
    unsigned short instruction = 0;
    int status, signal = t->signal;
    long at = ptrace(PTRACE_PEEKUSER, t->id, (void *)offsetof(struct user_regs_struct, rip), 0);
    int is_call = pread(memory, &instruction, 2, at) == 2 && instruction == 0x050f;
    t->signal = 0;
    t->state = RUNNING;
    if (ptrace(PTRACE_SINGLESTEP, t->id, 0, signal) < 0) {
        t->state = GONE;
        return;
    }
    if (!is_call) {
        if (waitpid(t->id, &status, __WALL) > 0) note(t->id, status);
        else t->state = GONE;
        return;
    }
    for (int k = 0; k < 20 && t->state == RUNNING; k++) {
        int id = waitpid(t->id, &status, __WALL | WNOHANG);
        if (id > 0) note(id, status);
        else if (id < 0) t->state = GONE;
        else sched_yield();
    }
}

// Waits until a thread returns from its call. False where all of them sleep on.
static int any_returns(void) {
    int status;
    for (double since = now(); now() - since < SLEEPS_FOR;) {
        int id = waitpid(-1, &status, __WALL | WNOHANG);
        if (id > 0) {
            note(id, status);
            return 1;
        }
        if (id < 0 && errno == ECHILD) {
            if (ended < 0) ended = 90;
            return 1;
        }
        usleep(20);
    }
    return 0;
}

int main(int words, char **word) {
    if (words < 5) return 102;
    int wanted = atoi(word[1]);
    drawn = strtoul(word[2], 0, 10) * 0x9e3779b97f4a7c15UL | 1;
    for (int i = 0; i < 8; i++) draw(2);
    char policy = word[3][0];
    unsigned long mean = strtoul(word[3] + 1, 0, 10);
    int memory = start(word + 4, wanted), status, id;
    long steps = 0;
    while (ended < 0) {
        while ((id = waitpid(-1, &status, __WALL | WNOHANG)) > 0) note(id, status);
        if (ended >= 0) break;
        // What the first thread does once it is alone needs no schedule.
        if (count_of(GONE) == count - 1 && threads[place_of(root)].state == STOPPED) {
            ptrace(PTRACE_DETACH, root, 0, 0);
            waitpid(root, &status, 0);
            ended = status_of(status);
            break;
        }
        if (count_of(STOPPED) == 0) {
            if (!any_returns()) ended = 100;
            continue;
        }
        make_step(memory, &threads[next(policy, mean, steps)]);
        if (++steps > MOST_STEPS) ended = 101;
    }
    fprintf(stderr, "%ld steps of %d threads\n", steps, count);
    return ended;
}
