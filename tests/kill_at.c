/*
** Runs a program and kills it at one of its system calls, for tests/killed:
**
**     kill_at [-l] STOP STATE LOG PROGRAM WORD..
**
** Each system call of its first thread is two stops: before it is made, and behind it; with -l each call of any thread that touches LOG, its
** folder or a file whose name begins with that of LOG. At the stop of this number, from 1, the program is killed by SIGKILL; with -l the other
** threads first go on for a moment, so that what was handed to them gets out. With -l a sync waits until another thread has written to LOG, or for
** some milliseconds, in which the other threads go on.
** STATE then has a line `STOPS SYNCED NAMED OPENED`: how many stops there were, how many bytes of LOG were on the disk for certain (its size
** when the last fsync or fdatasync of it began that was seen to succeed), 1 where its folder was synced, and at which stop LOG was opened.
** Where the program ends by itself first, the same line is written, and the status is the program's.
*/
#define _GNU_SOURCE
#include <limits.h>
#include <signal.h>
#include <stdbool.h>
#include <stdint.h>
#include <stdio.h>
#include <stdlib.h>
#include <string.h>
#include <sys/ptrace.h>
#include <sys/stat.h>
#include <sys/syscall.h>
#include <sys/uio.h>
#include <sys/user.h>
#include <sys/wait.h>
#include <time.h>
#include <unistd.h>

/* The status where the program cannot be traced. */
#define FAILED 125
/* How long other threads go on, and how long a sync takes at the most, in microseconds; how often one looks meanwhile. */
#define MOMENT 30000
#define SYNC_TAKES 40000
#define LOOK 200
#define MOST_THREADS 256

/* A thread, and the call that it is in. */
struct thread {
    pid_t id;
    /* Whether that counts, what a sync will have on the disk, and when it begins, 0 where it does not wait. */
    bool touches, naming;
    long long syncing;
    double held;
};

struct watch {
    const char *log;
    char folder[PATH_MAX];
    /* Whether calls count that touch the log alone. */
    bool is_choosy;
    long stops;
    /* What is on the disk for certain. */
    long long synced;
    bool named;
    long opened;
    struct thread thread[MOST_THREADS];
    int threads;
};

static void fail(const char *what) {
    perror(what);
    exit(FAILED);
}

static double now(void) {
    struct timespec time;
    clock_gettime(CLOCK_MONOTONIC, &time);
    return (double)time.tv_sec + (double)time.tv_nsec / 1e9;
}

/* Puts the name of an open file of the program into `at`; false where it has none. */
static bool name_of(pid_t child, unsigned long long file, char at[PATH_MAX]) {
    char link[64];
    snprintf(link, sizeof link, "/proc/%d/fd/%llu", (int)child, file);
    ssize_t size = readlink(link, at, PATH_MAX - 1);
    if (size >= 0) at[size] = '\0';
    return size >= 0;
}

/* Whether an open file of the program has this name. */
static bool is_file(pid_t child, unsigned long long file, const char *name) {
    char at[PATH_MAX];
    return name_of(child, file, at) && strcmp(at, name) == 0;
}

/* Whether the bytes of the program at a place are these. */
static bool has(pid_t child, unsigned long long place, const char *bytes, size_t size) {
    char at[PATH_MAX];
    struct iovec here = { at, size }, there = { (void *)(uintptr_t)place, size };
    return size <= sizeof at && process_vm_readv(child, &here, 1, &there, 1, 0) == (ssize_t)size && memcmp(at, bytes, size) == 0;
}

/* Whether a name of the program is that of the folder, or begins with that of the log. */
static bool names_log(const struct watch *watch, pid_t child, unsigned long long place) {
    return has(child, place, watch->log, strlen(watch->log)) || has(child, place, watch->folder, strlen(watch->folder) + 1);
}

/* Whether an open file of the program is the folder, or has a name that begins with that of the log. */
static bool has_log(const struct watch *watch, pid_t child, unsigned long long file) {
    char at[PATH_MAX];
    return name_of(child, file, at) && (strncmp(at, watch->log, strlen(watch->log)) == 0 || strcmp(at, watch->folder) == 0);
}

/* Whether a call touches the log, its folder or what lies beside it. */
static bool touches(const struct watch *watch, pid_t child, const struct user_regs_struct *registers) {
    switch (registers->orig_rax) {
    case SYS_read: case SYS_write: case SYS_pread64: case SYS_pwrite64: case SYS_readv: case SYS_writev: case SYS_lseek: case SYS_fstat:
    case SYS_fsync: case SYS_fdatasync: case SYS_ftruncate: case SYS_flock: case SYS_close:
        return has_log(watch, child, registers->rdi);
    case SYS_open: case SYS_stat: case SYS_access: case SYS_unlink: case SYS_rename: case SYS_link:
        return names_log(watch, child, registers->rdi);
    case SYS_newfstatat:
        return names_log(watch, child, registers->rsi) || has_log(watch, child, registers->rdi);
    case SYS_openat: case SYS_faccessat: case SYS_faccessat2: case SYS_unlinkat: case SYS_renameat: case SYS_statx:
        return names_log(watch, child, registers->rsi);
    default:
        return false;
    }
}

/* A sync begins: of the log as long as it is now, or of its folder. */
static void begin(const struct watch *watch, struct thread *thread, unsigned long long file) {
    struct stat at;
    thread->syncing = -1;
    if (is_file(thread->id, file, watch->log) && stat(watch->log, &at) == 0) thread->syncing = at.st_size;
    thread->naming = is_file(thread->id, file, watch->folder);
    if (watch->is_choosy && thread->syncing >= 0) thread->held = now() + SYNC_TAKES / 1e6;
}

static void end(struct watch *watch, struct thread *thread, long long result) {
    if (result == 0 && thread->syncing >= 0) watch->synced = thread->syncing;
    if (result == 0 && thread->naming) watch->named = true;
    thread->syncing = -1;
    thread->naming = false;
}

/* The log was written to while syncs wait: they go on. */
static void let_go(struct watch *watch) {
    for (int at = 0; at < watch->threads; at++)
        if (watch->thread[at].held != 0) watch->thread[at].held = now();
}

/* Notes a stop of a thread, before its call or behind it; whether it counts. */
static bool note(struct watch *watch, struct thread *thread) {
    struct user_regs_struct registers;
    struct __ptrace_syscall_info info;
    if (ptrace(PTRACE_GETREGS, thread->id, NULL, &registers) != 0) return false;
    if (ptrace(PTRACE_GET_SYSCALL_INFO, thread->id, (void *)sizeof info, &info) <= 0) return false;
    bool is_entry = info.op == PTRACE_SYSCALL_INFO_ENTRY;
    if (is_entry) thread->touches = !watch->is_choosy || touches(watch, thread->id, &registers);
    if (!thread->touches) return false;
    bool is_sync = registers.orig_rax == SYS_fsync || registers.orig_rax == SYS_fdatasync;
    if (is_sync && is_entry) begin(watch, thread, registers.rdi);
    if (is_sync && !is_entry) end(watch, thread, (long long)registers.rax);
    if (registers.orig_rax == SYS_write && !is_entry && is_file(thread->id, registers.rdi, watch->log)) let_go(watch);
    bool is_open = registers.orig_rax == SYS_openat && !is_entry && watch->opened == 0;
    watch->stops += 1;
    if (is_open && is_file(thread->id, registers.rax, watch->log)) watch->opened = watch->stops;
    return true;
}

static void tell(const struct watch *watch, const char *path) {
    FILE *file = fopen(path, "w");
    if (file == NULL) fail(path);
    fprintf(file, "%ld %lld %d %ld\n", watch->stops, watch->synced, watch->named, watch->opened);
    if (fclose(file) != 0) fail(path);
}

/* The thread of this id, which may be new. */
static struct thread *thread_of(struct watch *watch, pid_t id) {
    for (int at = 0; at < watch->threads; at++)
        if (watch->thread[at].id == id) return &watch->thread[at];
    if (watch->threads == MOST_THREADS) fail("too many threads");
    struct thread *made = &watch->thread[watch->threads++];
    *made = (struct thread){ .id = id, .syncing = -1 };
    return made;
}

static void forget(struct watch *watch, pid_t id) {
    struct thread *gone = thread_of(watch, id);
    *gone = watch->thread[--watch->threads];
}

/* Has threads go on whose syncs have waited; whether any waits still. */
static bool go_on(struct watch *watch) {
    bool waits = false;
    for (int at = 0; at < watch->threads; at++) {
        struct thread *thread = &watch->thread[at];
        if (thread->held == 0) continue;
        waits = waits || thread->held > now();
        if (thread->held > now()) continue;
        thread->held = 0;
        ptrace(PTRACE_SYSCALL, thread->id, NULL, NULL);
    }
    return waits;
}

/* The next thread that has come to a stop, and its status; 0 where none has until then, which 0 sets no end to. */
static pid_t stopped(struct watch *watch, int *status, double until) {
    for (;;) {
        bool waits = go_on(watch);
        pid_t id = waitpid(-1, status, __WALL | (waits || until > 0 ? WNOHANG : 0));
        if (id < 0) fail("waitpid");
        if (id > 0) return id;
        if (until > 0 && now() > until) return 0;
        usleep(LOOK);
    }
}

/* Takes a stop of a thread that lives: whether it is one that counts. The thread goes on, unless it is to be held. */
static bool take(struct watch *watch, pid_t id, int status, bool counts, long last) {
    struct thread *thread = thread_of(watch, id);
    long before = watch->stops;
    bool is_call = WSTOPSIG(status) == (SIGTRAP | 0x80), is_own = WSTOPSIG(status) == SIGTRAP || WSTOPSIG(status) == SIGSTOP;
    bool is_stop = is_call && note(watch, thread);
    if (!counts) watch->stops = before;
    if (counts && is_stop && watch->stops == last) return true;
    if (thread->held == 0) ptrace(PTRACE_SYSCALL, id, NULL, (void *)(long)(is_call || is_own ? 0 : WSTOPSIG(status)));
    return false;
}

/* Goes from stop to stop until the program is killed or ends; its status as a shell has it. */
static int follow(struct watch *watch, pid_t child, long last) {
    int status;
    ptrace(PTRACE_SYSCALL, child, NULL, NULL);
    for (;;) {
        pid_t id = stopped(watch, &status, 0);
        if (!WIFSTOPPED(status)) {
            forget(watch, id);
            if (id == child) return WIFEXITED(status) ? WEXITSTATUS(status) : 128 + WTERMSIG(status);
            continue;
        }
        if (!take(watch, id, status, true, last)) continue;
        double until = now() + MOMENT / 1e6;
        while (watch->is_choosy && (id = stopped(watch, &status, until)) != 0) {
            if (WIFSTOPPED(status)) take(watch, id, status, false, last);
            else if (id == child) break;
        }
        kill(child, SIGKILL);
        while (waitpid(-1, &status, __WALL) > 0) continue;
        return 128 + SIGKILL;
    }
}

int main(int count, char **words) {
    bool is_choosy = count > 1 && strcmp(words[1], "-l") == 0;
    words += is_choosy;
    if (count - is_choosy < 5) {
        fprintf(stderr, "kill_at [-l] STOP STATE LOG PROGRAM WORD..\n");
        return FAILED;
    }
    static struct watch watch;
    watch.log = words[3];
    watch.is_choosy = is_choosy;
    snprintf(watch.folder, sizeof watch.folder, "%s", watch.log);
    char *slash = strrchr(watch.folder, '/');
    if (slash != NULL) *slash = '\0';
    pid_t child = fork();
    if (child < 0) fail("fork");
    if (child == 0) {
        if (ptrace(PTRACE_TRACEME, 0, NULL, NULL) != 0) _exit(FAILED);
        raise(SIGSTOP);
        execv(words[4], words + 4);
        fail(words[4]);
    }
    int status;
    if (waitpid(child, &status, 0) < 0) fail("waitpid");
    if (!WIFSTOPPED(status)) return FAILED;
    long options = PTRACE_O_TRACESYSGOOD | PTRACE_O_EXITKILL | (is_choosy ? PTRACE_O_TRACECLONE : 0);
    if (ptrace(PTRACE_SETOPTIONS, child, NULL, (void *)options) != 0) fail("ptrace");
    int ended = follow(&watch, child, atol(words[1]));
    tell(&watch, words[2]);
    return ended;
}
