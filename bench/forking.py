"""The text in C of a library that stands before the C library's malloc and realloc, and forks the run at each of these calls: the copy is
refused this one call, and runs to its end over files of its own. So what comes before a call isn't done again for it.

The run has its database at run.db, and each copy a folder slotN: that has the files as they stood when the run was forked, and out, what the
copy wrote. Copies that end alike, with one status, with the same bytes written and left, behind as many replies, are counted together: what
the first of them left is kept in a folder endN, and the line N of the file ends has the status, the number of replies before, the number of the
call at which the first of them was forked, and how many there were.

In the environment are FORK_FOLDER, where all these lie; FORK_SLOTS, how many copies may run at once; FORK_FROM and FORK_UNTIL, between which
replies calls are refused, each of which is one write to the standard output; and FORK_STEP, where only every so many-th is. Once the run gets
SIGTERM it goes on without refusals."""

TEXT = r"""
#define _GNU_SOURCE
#include <errno.h>
#include <fcntl.h>
#include <signal.h>
#include <stdint.h>
#include <stdio.h>
#include <stdlib.h>
#include <string.h>
#include <sys/resource.h>
#include <sys/stat.h>
#include <sys/syscall.h>
#include <sys/wait.h>
#include <unistd.h>

extern void *__libc_malloc(size_t);
extern void *__libc_realloc(void *, size_t);
extern void __libc_free(void *);

enum { FILES = 2, MOST_SLOTS = 16, MOST_ENDS = 8192, SECONDS = 60 };
static const char *const NAMES[FILES] = {"run.db", "run.db-wal"};

/* A copy that runs: its number as a process, or 0; the call and the replies before it; which state of the files its folder has. */
static struct { pid_t process; long call, replies, state; } slots[MOST_SLOTS];

/* How copies ended. What they wrote and left is told by numbers made of the bytes, or by the state of the files where they wrote none. */
static struct end { long status, replies; uint64_t out, files; long call, count; } ends[MOST_ENDS];

static long slot_count, end_count, from, until, step, replies, calls, state;
static volatile sig_atomic_t is_over;
static int is_copy;
static char folder[256], home[256];

static void fail(const char *what) {
    dprintf(2, "%s: %s\n", what, strerror(errno));
    _exit(99);
}

static void stop(int number) {
    (void)number;
    is_over = 1;
}

__attribute__((constructor)) static void begin(void) {
    snprintf(folder, sizeof folder, "%s", getenv("FORK_FOLDER"));
    slot_count = atol(getenv("FORK_SLOTS"));
    from = atol(getenv("FORK_FROM"));
    until = atol(getenv("FORK_UNTIL"));
    step = atol(getenv("FORK_STEP"));
    if (!getcwd(home, sizeof home) || slot_count < 1 || slot_count > MOST_SLOTS || step < 1 || signal(SIGTERM, stop) == SIG_ERR)
        fail("begin");
    for (long slot = 0; slot < slot_count; slot++)
        slots[slot].state = -1;
}

/* The path of a file in a folder of this name and number. */
static const char *path_in(const char *kind, long number, const char *name) {
    static char path[512];
    snprintf(path, sizeof path, "%s/%s%ld/%s", folder, kind, number, name);
    return path;
}

/* A number made of the bytes of a file; 0 where there is none. */
static uint64_t number_of(const char *path) {
    static uint64_t block[8192];
    uint64_t number = 1;
    ssize_t size;
    int file = open(path, O_RDONLY);
    if (file < 0)
        return 0;
    while (memset(block, 0, sizeof block), (size = read(file, block, sizeof block)) > 0)
        for (ssize_t at = 0; at * 8 < size; at++)
            number = ((number ^ block[at] ^ (uint64_t)size << 32) * 0x9E3779B97F4A7C15u) ^ number >> 29;
    close(file);
    return number;
}

/* Makes the file at a path what another one is. */
static void copy(const char *source, const char *target) {
    static char block[65536];
    ssize_t size;
    unlink(target);
    int in = open(source, O_RDONLY);
    if (in < 0)
        return;
    int out = open(target, O_WRONLY | O_CREAT | O_TRUNC, 0644);
    while ((size = read(in, block, sizeof block)) > 0)
        if (write(out, block, size) != size)
            fail(target);
    close(in);
    close(out);
}

/* Whether a file was written since this was asked last. Its time is set to the first second of all then, so that any write shows. */
static int was_written(const char *path) {
    static const struct timespec first[2];
    struct stat it;
    return stat(path, &it) == 0 && it.st_mtim.tv_sec != 0 && utimensat(AT_FDCWD, path, first, 0) == 0;
}

/* Gives a copy files of its own in the place of those that it has open, and of its output. */
static void go_apart(long slot) {
    char link[64], path[512], own[512];
    for (int file = 3; file < 64; file++) {
        snprintf(link, sizeof link, "/proc/self/fd/%d", file);
        ssize_t size = readlink(link, path, sizeof path - 1);
        path[size < 0 ? 0 : size] = 0;
        for (int at = 0; at < FILES; at++) {
            snprintf(own, sizeof own, "%s/%s", home, NAMES[at]);
            if (strcmp(path, own) != 0)
                continue;
            int other = open(path_in("slot", slot, NAMES[at]), fcntl(file, F_GETFL) & (O_ACCMODE | O_APPEND));
            if (other < 0 || lseek(other, lseek(file, 0, SEEK_CUR), SEEK_SET) < 0 || dup2(other, file) < 0)
                fail(path);
            close(other);
        }
    }
    int out = open(path_in("slot", slot, "out"), O_WRONLY | O_CREAT | O_TRUNC, 0644);
    if (out < 0 || dup2(out, 1) < 0 || chdir(path_in("slot", slot, "")) < 0)
        fail("a copy");
    close(out);
    setrlimit(RLIMIT_CPU, &(struct rlimit){SECONDS, SECONDS});
}

/* Keeps what a copy left that ended as none before it. */
static void keep(long slot, long number) {
    char own[512];
    if (mkdir(path_in("end", number, ""), 0755) < 0)
        fail("mkdir");
    for (int at = 0; at <= FILES; at++) {
        const char *name = at < FILES ? NAMES[at] : "out";
        snprintf(own, sizeof own, "%s", path_in("end", number, name));
        copy(path_in("slot", slot, name), own);
    }
}

/* Takes down how a copy ended. */
static void settle(long slot, int status) {
    struct end it = {.status = WIFEXITED(status) ? WEXITSTATUS(status) : -WTERMSIG(status), .replies = slots[slot].replies};
    int written = 0;
    for (int at = 0; at < FILES; at++)
        written |= was_written(path_in("slot", slot, NAMES[at]));
    it.out = number_of(path_in("slot", slot, "out"));
    it.files = (uint64_t)slots[slot].state;
    if (written) {
        it.files = number_of(path_in("slot", slot, NAMES[0])) * 31;
        it.files += number_of(path_in("slot", slot, NAMES[1]));
        slots[slot].state = -1;
    }
    long at = 0;
    while (at < end_count && (ends[at].status != it.status || ends[at].replies != it.replies || ends[at].out != it.out || ends[at].files != it.files))
        at++;
    if (at == MOST_ENDS)
        fail("too many ends");
    if (at == end_count) {
        ends[at] = it;
        ends[at].call = slots[slot].call;
        keep(slot, at);
        end_count++;
    }
    ends[at].count++;
    slots[slot].process = 0;
}

/* Waits for one of the copies. */
static void wait_for_one(void) {
    int status;
    pid_t process = waitpid(-1, &status, 0);
    long slot = 0;
    while (slot < slot_count && slots[slot].process != process)
        slot++;
    if (process < 0 || slot == slot_count)
        fail("wait");
    settle(slot, status);
}

/* A folder that no copy has. */
static long free_slot(void) {
    for (;;) {
        for (long slot = 0; slot < slot_count; slot++)
            if (!slots[slot].process)
                return slot;
        wait_for_one();
    }
}

/* Whether this is the call that is refused here: forks the run, and answers yes in the copy. */
static int is_refused(void) {
    if (is_copy || is_over || replies < from || replies >= until || ++calls % step != 0)
        return 0;
    long slot = free_slot();
    for (int at = 0; at < FILES; at++)
        state += was_written(NAMES[at]);
    if (slots[slot].state != state)
        for (int at = 0; at < FILES; at++) {
            copy(NAMES[at], path_in("slot", slot, NAMES[at]));
            was_written(path_in("slot", slot, NAMES[at]));
        }
    slots[slot].state = state;
    slots[slot].call = calls;
    slots[slot].replies = replies;
    slots[slot].process = fork();
    if (slots[slot].process < 0)
        fail("fork");
    is_copy = slots[slot].process == 0;
    if (!is_copy)
        return 0;
    go_apart(slot);
    errno = ENOMEM;
    return 1;
}

__attribute__((destructor)) static void end(void) {
    char path[512];
    if (is_copy)
        return;
    is_over = 1;
    for (long slot = 0; slot < slot_count; slot++)
        while (slots[slot].process)
            wait_for_one();
    snprintf(path, sizeof path, "%s/ends", folder);
    int out = open(path, O_WRONLY | O_CREAT | O_TRUNC, 0644);
    for (long at = 0; at < end_count; at++)
        dprintf(out, "%ld %ld %ld %ld\n", ends[at].status, ends[at].replies, ends[at].call, ends[at].count);
    close(out);
}

ssize_t write(int file, const void *bytes, size_t size) {
    ssize_t done = syscall(SYS_write, file, bytes, size);
    replies += file == 1 && done > 0;
    return done;
}

void *malloc(size_t size) {
    return is_refused() ? NULL : __libc_malloc(size);
}

void *realloc(void *old, size_t size) {
    return is_refused() ? NULL : __libc_realloc(old, size);
}

/* A copy gives nothing back: it ends soon, and what isn't written to isn't copied. */
void free(void *old) {
    if (!is_copy)
        __libc_free(old);
}
"""
