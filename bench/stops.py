#!/usr/bin/env python3
"""stops.py PROGRAM [COMMANDS [SEED [JOBS]]]

Has the calls of a database file and of its log fail, one after the other, under the built beliefdb (proved, or by bench/unproved.py) while
it carries out a script of inserts, deletes and updates over a new file: so many commands (120 where no number is named) drawn by the
seed behind the first ones. So many runs go side by side. It wants cc, which builds a small library that stands before the C library's
calls on files.

Of each of the two files the nth call fails, for n from 1 until a run meets no stop, in three ways: with all calls of that file behind
it; alone; and, with all behind it, a write in its middle. An open, a look, a read, a write, a change of the length, a sync and a lock
are calls; so is each that closing makes. Each time the two files are looked at as the program left them, and as a machine leaves them
that stops: what wasn't synced since is gone. A run is right where its status is 5, its replies are those to the first k commands, and
either look finds a sound base, the very rows of an undisturbed run after k commands, or after one more; or where it ended as an
undisturbed one. Over either the other commands are then carried out, with the replies and rows of an undisturbed run. In the end the file
is closed, copied and opened again. Prints how many runs were stopped and what was found; the exit status is 1 where any wasn't right.
"""
import concurrent.futures
import glob
import os
import random
import shutil
import sqlite3
import subprocess
import sys
import tempfile

from kills import BOB, HEAD, cut, script

STOPPING = r"""
#define _GNU_SOURCE
#include <errno.h>
#include <fcntl.h>
#include <stdarg.h>
#include <stdio.h>
#include <stdlib.h>
#include <string.h>
#include <sys/stat.h>
#include <sys/syscall.h>
#include <unistd.h>

/* What a write, or a change of the length, lost since the last sync, and how long the file was. */
struct step {
    long at, count, length;
    char *old;
    struct step *before;
};

/* The database file, and its log. */
static struct kept {
    char path[4096];
    struct step *last;
} kept[2], *failing;

static long left;
static int alone, half, stops, kind_of[1024];

__attribute__((constructor)) static void begin(void) {
    const char *path = getenv("STOP_FILE"), *how = getenv("STOP_HOW");
    if (!path)
        return;
    snprintf(kept[0].path, sizeof kept[0].path, "%s", path);
    snprintf(kept[1].path, sizeof kept[1].path, "%s-wal", path);
    failing = &kept[atoi(getenv("STOP_KIND"))];
    left = atol(getenv("STOP_AT"));
    alone = !strcmp(how, "alone");
    half = !strcmp(how, "half");
}

static struct kept *at_path(const char *path) {
    for (struct kept *it = kept; failing && it < kept + 2; it++)
        if (!strcmp(it->path, path))
            return it;
    return NULL;
}

static struct kept *at_number(int fd) {
    return fd >= 0 && fd < 1024 && kind_of[fd] ? &kept[kind_of[fd] - 1] : NULL;
}

/* Whether a call fails. The first is told through the pipe in place of the standard error stream: `w` for a write, else `s`. */
static int fails(struct kept *it, const char *kind) {
    if (!it || it != failing || left == 0 || (left > 1 && left--))
        return 0;
    if (alone)
        left = 0;
    if (!stops++)
        (void)!syscall(SYS_write, 2, kind, 1);
    errno = EIO;
    return 1;
}

static long length_of(int fd) {
    struct stat it;
    return syscall(SYS_fstat, fd, &it) ? 0 : it.st_size;
}

static void note(struct kept *it, int fd, long at, long count) {
    struct step *step = malloc(sizeof *step);
    step->at = at, step->length = length_of(fd), step->before = it->last;
    step->count = at >= step->length ? 0 : count > step->length - at ? step->length - at : count;
    step->old = malloc(step->count + 1);
    (void)!syscall(SYS_pread64, fd, step->old, step->count, at);
    it->last = step;
}

/* Leaves beside each of the two files what a machine leaves of it that stops now. */
__attribute__((destructor)) static void end(void) {
    char name[5000], block[65536];
    for (struct kept *it = kept; failing && it < kept + 2; it++) {
        long from = syscall(SYS_openat, AT_FDCWD, it->path, O_RDONLY), count, at = 0;
        if (from < 0)
            continue;
        snprintf(name, sizeof name, "%s.stopped", it->path);
        long to = syscall(SYS_openat, AT_FDCWD, name, O_RDWR | O_CREAT | O_TRUNC, 0600);
        for (; (count = syscall(SYS_pread64, from, block, sizeof block, at)) > 0; at += count)
            (void)!syscall(SYS_pwrite64, to, block, count, at);
        for (struct step *step = it->last; step; step = step->before) {
            (void)!syscall(SYS_pwrite64, to, step->old, step->count, step->at);
            (void)!syscall(SYS_ftruncate, to, step->length);
        }
    }
}

int open(const char *path, int flags, ...) {
    va_list more;
    va_start(more, flags);
    mode_t mode = flags & O_CREAT ? va_arg(more, mode_t) : 0;
    va_end(more);
    if (fails(at_path(path), "s"))
        return -1;
    int fd = syscall(SYS_openat, AT_FDCWD, path, flags, mode);
    if (at_path(path) && fd >= 0 && fd < 1024)
        kind_of[fd] = at_path(path) - kept + 1;
    return fd;
}

int close(int fd) {
    if (fd >= 0 && fd < 1024)
        kind_of[fd] = 0;
    return syscall(SYS_close, fd);
}

int statx(int fd, const char *restrict path, int flags, unsigned int mask, struct statx *restrict it) {
    if (fails(*path ? at_path(path) : at_number(fd), "s"))
        return -1;
    return syscall(SYS_statx, fd, path, flags, mask, it);
}

off_t lseek(int fd, off_t at, int from) {
    return fails(at_number(fd), "s") ? -1 : syscall(SYS_lseek, fd, at, from);
}

int flock(int fd, int how) {
    return fails(at_number(fd), "s") ? -1 : syscall(SYS_flock, fd, how);
}

ssize_t read(int fd, void *room, size_t count) {
    return fails(at_number(fd), "s") ? -1 : syscall(SYS_read, fd, room, count);
}

ssize_t pread(int fd, void *room, size_t count, off_t at) {
    return fails(at_number(fd), "s") ? -1 : syscall(SYS_pread64, fd, room, count, at);
}

ssize_t pwrite(int fd, const void *bytes, size_t count, off_t at) {
    struct kept *it = at_number(fd);
    int stopped = fails(it, "w");
    if (stopped && half && stops == 1)
        count /= 2;
    else if (stopped)
        return -1;
    if (it)
        note(it, fd, at, count);
    long written = syscall(SYS_pwrite64, fd, bytes, count, at);
    errno = stopped ? EIO : errno;
    return stopped ? -1 : written;
}

int ftruncate(int fd, off_t length) {
    struct kept *it = at_number(fd);
    if (fails(it, "s"))
        return -1;
    if (it)
        note(it, fd, length, 1L << 40);
    return syscall(SYS_ftruncate, fd, length);
}

static int synced(int fd, long call) {
    struct kept *it = at_number(fd);
    int result = fails(it, "s") ? -1 : syscall(call, fd);
    if (it && result == 0)
        it->last = NULL;
    return result;
}

int fsync(int fd) { return synced(fd, SYS_fsync); }

int fdatasync(int fd) { return synced(fd, SYS_fdatasync); }
"""


class Run:
    """How a run of the program ended, and whether it met a stop: `s`, or `w` where that was a write."""

    def __init__(self, program, words, commands=(), env=None):
        done = subprocess.run([program, *words], input="\n".join(commands).encode(), capture_output=True, timeout=120, env=env)
        self.status, self.replies, self.met = done.returncode, cut(done.stdout), done.stderr.decode()
        self.whole = b"".join(self.replies) == done.stdout


def rows_of(path):
    """The rows of a file, and none where it has no table."""
    base = sqlite3.connect(path)
    there = base.execute("select 1 from sqlite_schema").fetchall()
    rows = base.execute("select tab, k, v from kept order by tab, k").fetchall() if there else []
    base.close()
    return rows


def is_made(path):
    """Whether a file begins as a database; else a run was cut off while it made it."""
    if not os.path.exists(path):
        return False
    with open(path, "rb") as it:
        return it.read(1) == b"S"


class Trials:
    """A script, and what it replies and has after each of its commands; and what is found where calls fail."""

    def __init__(self, program, folder, shim, commands):
        self.program, self.folder, self.shim, self.commands = program, folder, shim, commands
        self.rows = []
        for count in range(len(commands) + 1):
            path = f"{folder}/after{count}.db"
            run = Run(program, ["run", "--db", path], commands[:count])
            assert run.status in (0, 1) and run.whole and len(run.replies) == count
            self.rows.append(rows_of(path))
            removed(path)
        self.status, self.replies = run.status, run.replies

    def stopped(self, kind, number, how):
        """A run in which a call fails. It tells what the stop was, if it met one, and what came of it."""
        path = f"{self.folder}/{kind}.{number}.{how}.db"
        env = dict(os.environ, LD_PRELOAD=self.shim, STOP_FILE=path, STOP_KIND=str(kind), STOP_AT=str(number), STOP_HOW=how)
        run = Run(self.program, ["run", "--db", path], self.commands, env)
        told = self.judged(path, run)
        removed(path)
        return run.met, told

    def judged(self, path, run):
        """What came of a run: `whole` where it ended as an undisturbed one; else `told` where both looks at the file find the commands that
        were replied to, and `more` where one of them finds one more."""
        told = len(run.replies)
        if run.replies != self.replies[:told] or not run.whole:
            return "WRONG: other replies"
        ended = told == len(self.replies) and run.status == self.status
        if not ended and run.status != 5:
            return f"WRONG: status {run.status} behind {told} replies"
        # A look makes the next log, so each takes files of its own.
        machine = f"{path}.machine.db"
        for end in "", "-wal":
            if os.path.exists(f"{path}{end}.stopped"):
                os.rename(f"{path}{end}.stopped", machine + end)
        left, machine = self.found(path, told), self.found(machine, told)
        if left is None or machine is None or ended and (left, machine) != (told, told):
            return f"WRONG: {left} and {machine} commands behind {told} replies"
        return "whole" if ended else "more" if left > told or machine > told else "told"

    def found(self, path, told):
        """The base after how many commands a file has, of `told` and one more, if it is sound and the other commands can be done over it."""
        made, copy = is_made(path), f"{path}.copy.db"
        if not made and told:
            return None
        # The system's SQLite reads a copy, as it would change the log.
        for end in ("", "-wal") if made else ():
            if os.path.exists(path + end):
                shutil.copy(path + end, copy + end)
        rows = rows_of(copy) if made else []
        check = Run(self.program, ["check", "--db", path])
        if (check.status, check.replies) != ((0, [b"ok\n"]) if made else (5, [])):
            return None
        many = [it for it in (told, told + 1) if self.rows[it:it + 1] == [rows]] + [0] * (told == 0 and rows == [])
        if not many:
            return None
        rest = Run(self.program, ["run", "--db", path], self.commands[many[0]:])
        right = rest.status in (0, 1) and rest.replies == self.replies[many[0]:] and rows_of(path) == self.rows[-1]
        return many[0] if right else None


def removed(path):
    for name in glob.glob(f"{path}*"):
        os.remove(name)


def each(pool, trials, kind, how, numbers):
    """What came of the stop of each of these calls, until none is met; with the calls that are writes."""
    counts, writes = dict(whole=0, told=0, more=0, wrong=0), []
    while numbers:
        for number, (met, told) in zip(numbers[:64], pool.map(lambda it: trials.stopped(kind, it, how), numbers[:64])):
            if not met:
                assert told == "whole", told
                return counts, writes
            if told not in counts:
                print(f"call {number}, {how}: {told}")
                told = "wrong"
            counts[told] += 1
            writes += [number] if met == "w" else []
        numbers = numbers[64:]
    return counts, writes


def opened_again(program, folder):
    """A file that is closed, copied and opened again shows what was told."""
    file = f"{folder}/head.db"
    assert Run(program, ["run", "--db", file], HEAD).status == 0
    shutil.copy(file, f"{folder}/again.db")
    return all(Run(program, ["run", "--db", it], BOB[0]).replies == cut(BOB[1][0]) for it in (file, f"{folder}/again.db"))


def main(program, count="120", seed="1", jobs="1"):
    program, sums = os.path.abspath(program), dict(whole=0, told=0, more=0, wrong=0)

    def tell(name, counts):
        print(f"{name}: {sum(counts.values())} stops; {counts['told'] + counts['more']} ended with 5, {counts['more']} of them with one command "
              f"more than was replied to, {counts['whole']} as an undisturbed run; {counts['wrong']} wrong", flush=True)

    with tempfile.TemporaryDirectory(dir="/dev/shm" if os.path.isdir("/dev/shm") else None) as folder:
        with open(f"{folder}/stopping.c", "w") as it:
            it.write(STOPPING)
        shim = f"{folder}/stopping.so"
        subprocess.check_call(["cc", "-O1", "-shared", "-fPIC", "-o", shim, f"{folder}/stopping.c"])
        trials = Trials(program, folder, shim, script(random.Random(int(seed)), int(count)))
        changes = sum(a != b for a, b in zip(trials.rows, trials.rows[1:]))
        print(f"{len(trials.commands)} commands, of which {changes} change rows", flush=True)
        with concurrent.futures.ThreadPoolExecutor(int(jobs)) as pool:
            for kind, name in (1, "the log"), (0, "the database file"):
                behind, writes = each(pool, trials, kind, "behind", range(1, 1_000_000))
                # The log is written at each commit, so that a driver that misses its calls is no driver.
                assert kind == 0 or sum(behind.values()) > changes
                alone, _ = each(pool, trials, kind, "alone", range(1, 1_000_000))
                half, _ = each(pool, trials, kind, "half", writes)
                for how, counts in ("all behind it", behind), ("alone", alone), ("in the middle of a write", half):
                    tell(f"{name}, {how}", counts)
                    sums = {told: many + counts[told] for told, many in sums.items()}
        tell("in all", sums)
        assert opened_again(program, folder)
    return 1 if sums["wrong"] else 0


if __name__ == "__main__":
    sys.exit(main(*sys.argv[1:]) if 2 <= len(sys.argv) <= 5 else __doc__)
