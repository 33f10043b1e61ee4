#!/usr/bin/env python3
"""Refuses memory to the program, one allocation after the other, and looks at what it answers and leaves.
   bench/refusals.py PROGRAM [JOBS [NAME]]
PROGRAM is the built beliefdb, proved or by bench/unproved.py; so many runs go side by side (one where none are named); and only scripts
are tried whose names have NAME in them, where it stands, as `large`. It wants cc, which builds a small library that stands before the C
library's malloc and realloc and refuses one call, the nth.

Each script is run with the nth call refused, for n from 1 until a run meets no refusal: in memory, with a new file, and its second half
over the file that its first half left; and that file is checked. A run is right where its status is 6, its replies are those to the first k
commands, and the file has the base after k commands, with the very rows; or where it ends as it does with ample memory, since it can do
without what was refused. A check is right where it writes nothing with status 6, or says what it says with ample memory, and the
database file stays.

Last come changes of two thousand statements each over a file: one that is taken back, of which each call is refused, and others, taken back and
made again, of which every so many-th is. There a run is forked at the call, so that what comes before isn't done again: the copy is refused
this one call and runs to its end over files of its own, and is right as above. The exit status is 1 where any is not."""
import concurrent.futures
import os
import shutil
import sqlite3
import subprocess
import sys
import tempfile

import forking

HERE = os.path.dirname(os.path.abspath(__file__))

REFUSING = r"""
#include <errno.h>
#include <stdlib.h>
#include <unistd.h>

extern void *__libc_malloc(size_t);
extern void *__libc_realloc(void *, size_t);

static long left;

__attribute__((constructor)) static void begin(void) {
    const char *number = getenv("REFUSED");
    left = number ? atol(number) : 0;
}

/* Whether this is the call to refuse; it is told through the pipe in place of the standard error stream. */
static int is_refused(void) {
    if (left == 0 || --left > 0)
        return 0;
    (void)!write(2, "r", 1);
    errno = ENOMEM;
    return 1;
}

void *malloc(size_t size) {
    return is_refused() ? NULL : __libc_malloc(size);
}

void *realloc(void *old, size_t size) {
    return is_refused() ? NULL : __libc_realloc(old, size);
}
"""

STATED_AND_DENIED = """
create user 'Alice'; create user 'Bob'; create relation S(k text, v text);
insert into S values('s1','eagle'); insert into BELIEF 'Bob' not S values('s1','eagle');
insert into BELIEF 'Alice' S values('s1','crow');
insert into BELIEF 'Alice' S values('s1','raven');
insert into BELIEF 'Alice' not S values('s1','raven');
insert into BELIEF 'Alice' S values('s1','crow');
delete from BELIEF 'Alice' S where v = 'crow';
show world BELIEF 'Alice';
"""

NEW_WORLDS = """
create user 'Alice'; create user 'Bob'; create relation S(k text, v text);
create user 'Carol'; insert into BELIEF 'Carol' BELIEF 'Alice' S values('s1','eagle'); insert into BELIEF 'Alice' S values('s2','crow'); show tables;
"""

# Worlds of depth up to 3 come and go, and statements are updated together.
DEEP = """
create user 'Alice'; create user 'Bob'; create user 'Carol'; create relation S(k text, v int); create relation T(k int, note text);
insert into S values('s1', 1);
insert into BELIEF 'Alice' BELIEF 'Bob' BELIEF 'Carol' S values('s1', 2);
insert into BELIEF 'Alice' BELIEF 'Bob' BELIEF 'Carol' S values('s2', 3);
update BELIEF 'Alice' BELIEF 'Bob' BELIEF 'Carol' S set k = 's1';
insert into BELIEF 'Bob' BELIEF 'Carol' S values('s2', 3);
insert into BELIEF 'Bob' BELIEF 'Carol' not S values('s3', 3);
insert into BELIEF 'Carol' T values(1, 'a note of more than twenty-four bytes');
update BELIEF 'Alice' BELIEF 'Bob' BELIEF 'Carol' S set v = 5;
update BELIEF 'Alice' BELIEF 'Bob' BELIEF 'Carol' S set k = 's4' where v > 4;
update BELIEF 'Alice' BELIEF 'Bob' BELIEF 'Carol' S set k = 's5', v = 4 where k = 's4';
insert into BELIEF 'Alice' BELIEF 'Bob' BELIEF 'Carol' S values('s6', 6);
insert into BELIEF 'Carol' S values('s6', 6);
insert into BELIEF 'Carol' S values('s6', 7);
update BELIEF 'Carol' S set v = 8;
delete from BELIEF 'Bob' BELIEF 'Carol' S where v >= 3;
show world BELIEF 'Alice' BELIEF 'Bob' BELIEF 'Carol';
delete from BELIEF 'Alice' BELIEF 'Bob' BELIEF 'Carol' S;
delete from BELIEF 'Bob' BELIEF 'Carol' not S;
create user 'Dora';
insert into BELIEF 'Dora' BELIEF 'Carol' not S values('s1', 1);
delete from BELIEF 'Carol' T;
select U.name, X.v from Users U, BELIEF U.uid S X where X.k = 's6';
"""

# Changes of each kind are taken back and made again.
TAKEN_BACK = """
create user 'Alice'; create relation S(k text, v text); create user 'Bob'; undo; undo; redo; redo;
insert into BELIEF 'Alice' BELIEF 'Bob' S values('a', 'a note of more than twenty-four bytes');
insert into BELIEF 'Bob' not S values('a', 'x');
update BELIEF 'Alice' BELIEF 'Bob' S set v = 'y' where k = 'a'; undo; redo;
delete from BELIEF 'Bob' not S; undo; redo; undo;
drop user 'Bob'; undo; redo; undo;
show world BELIEF 'Alice' BELIEF 'Bob';
insert into S values('b', 'z'); redo; undo; undo; undo; redo; redo; redo; redo;
"""

# How many statements a large change takes away.
MANY = 2_000

# Large changes, and which calls for memory are refused behind the first reply, which tells that the file is open: each, or every so many-th.
LARGE = {
    "a large change and its undo": ("show world; delete from BELIEF 'Bob' S; undo;", 1),
    "other large changes": ("show world; update BELIEF 'Bob' S set v = 'y'; undo; redo; undo; drop user 'Bob'; undo; redo;", 199),
}


def many_statements():
    """Commands after which a user states many tuples, and another believes that he denies each third of them."""
    stated = [f"insert into BELIEF 'Bob' S values('k{number}', 'x');" for number in range(MANY)]
    denied = [f"insert into BELIEF 'Alice' BELIEF 'Bob' not S values('k{number}', 'x');" for number in range(0, MANY, 3)]
    return ["create user 'Alice';", "create user 'Bob';", "create relation S(k text, v text);", *stated, *denied]


def commands_of(text):
    return [it.strip() + ";" for it in text.split(";")[:-1]]


def scripts():
    """The name and the commands of each script."""
    with open(f"{HERE}/sightings.bsql") as it:
        sightings = it.read()
    texts = {"stated and denied": STATED_AND_DENIED, "new worlds": NEW_WORLDS, "sightings": sightings, "deep": DEEP, "taken back": TAKEN_BACK}
    return {name: commands_of(text) for name, text in texts.items()}


class Run:
    """How a run of the program ended."""

    def __init__(self, program, words, script="", shim=None, refused=0):
        env = dict(os.environ)
        if shim:
            env.update(LD_PRELOAD=shim, REFUSED=str(refused))
        done = subprocess.run([program, *words], input=script, capture_output=True, text=True, timeout=600, env=env)
        self.status, self.replies, self.met = done.returncode, done.stdout, done.stderr == "r"

    def same(self, other):
        return (self.status, self.replies) == (other.status, other.replies)


def rows_of(path):
    """The rows of the one table of a database."""
    base = sqlite3.connect(path)
    rows = base.execute("select tab, k, v from kept order by tab, k").fetchall()
    base.close()
    return rows


def left_in(program, path):
    """What a file is checked to be, shows and has, once a run over it has opened it."""
    check = Run(program, ["check", "--db", path])
    shown = Run(program, ["run", "--db", path], "show tables;")
    return (check.status, shown.status, shown.replies, rows_of(path))


def content(path):
    with open(path, "rb") as it:
        return it.read()


class Script:
    """A script, with what it replies and leaves after each of its commands, over the file that another left, or none."""

    def __init__(self, program, folder, commands, before=()):
        self.program, self.folder, self.text = program, folder, "\n".join(commands)
        self.start = f"{folder}/start.db" if before else None
        if before:
            Run(program, ["run", "--db", self.start], "\n".join(before))
        self.replies, self.left = [], []
        for count in range(len(commands) + 1):
            path = self.file(f"after{count}")
            self.last = Run(program, ["run", "--db", path], "\n".join(commands[:count]))
            self.replies.append(self.last.replies)
            self.left.append(left_in(program, path))

    def file(self, name):
        """A file to run over, which has what was there before."""
        path = f"{self.folder}/{name}.db"
        if self.start:
            shutil.copy(self.start, path)
        return path

    def in_memory(self, shim, refused):
        run = Run(self.program, ["run"], self.text, shim, refused)
        return told(run, run.same(self.last), run.status == 6 and run.replies in self.replies)

    def in_file(self, shim, refused):
        path = self.file(f"run{refused}")
        run = Run(self.program, ["run", "--db", path], self.text, shim, refused)
        same = run.same(self.last)
        count = len(self.replies) - 1 if same else self.replies.index(run.replies) if run.replies in self.replies else None
        # A check asks for a file that is there.
        there = os.path.exists(path) and os.path.getsize(path) > 0
        left = left_in(self.program, path)
        right = count is not None and left[1:] == self.left[count][1:] and left[0] == (0 if there else 5)
        removed(path)
        return told(run, same and right, run.status == 6 and right)

    def forked(self, shim, jobs, step):
        """Runs the commands once, and a copy of the run for each call for memory behind the first reply, or each so many-th, to which that call
        is refused; returns what came of the copies."""
        own = f"{self.folder}/own"
        for name in "own", *(f"slot{slot}" for slot in range(jobs)):
            os.mkdir(f"{self.folder}/{name}")
        shutil.copy(self.start, f"{own}/run.db")
        words = {"FOLDER": self.folder, "SLOTS": jobs, "FROM": 1, "UNTIL": len(self.replies), "STEP": step}
        env = dict(os.environ, LD_PRELOAD=shim, **{f"FORK_{name}": str(word) for name, word in words.items()})
        done = subprocess.run([self.program, "run", "--db", "run.db"], input=self.text, capture_output=True, text=True, cwd=own, env=env)
        counts = {"stopped": 0, "harmless": 0, "wrong": 0}
        if (done.returncode, done.stdout, done.stderr) != (self.last.status, self.last.replies, ""):
            print(f"WRONG with no refusal: {done.returncode} {done.stdout!r} {done.stderr!r}")
            counts["wrong"] += 1
        for number, line in enumerate(content(f"{self.folder}/ends").decode().splitlines()):
            status, told_before, first, count = map(int, line.split())
            what = self.ended(f"{self.folder}/end{number}", status, told_before)
            if what not in counts:
                print(f"{count} calls, call {first} the first of them, behind {told_before} replies: {what}")
                what = "wrong"
            counts[what] += count
        return counts

    def ended(self, folder, status, before):
        """What is to be said of a copy that ended so, and was forked behind so many replies."""
        replies, left = content(f"{folder}/out").decode(), left_in(self.program, f"{folder}/run.db")
        all_told = self.replies[before] + replies
        if left[0] == 0 and (status, all_told) == (self.last.status, self.last.replies) and left[1:] == self.left[-1][1:]:
            return "harmless"
        if left[0] == 0 and status == 6 and all_told in self.replies and left[1:] == self.left[self.replies.index(all_told)][1:]:
            return "stopped"
        return f"WRONG: {status} {replies!r}"

    def checked(self, shim, refused):
        path = f"{self.folder}/checked{refused}.db"
        shutil.copy(f"{self.folder}/after{len(self.replies) - 1}.db", path)
        old = content(path)
        run = Run(self.program, ["check", "--db", path], "", shim, refused)
        kept = content(path) == old
        removed(path)
        return told(run, kept and (run.status, run.replies) == (0, "ok\n"), kept and (run.status, run.replies) == (6, ""))


def removed(path):
    for end in "", "-wal", "-shm":
        if os.path.exists(path + end):
            os.remove(path + end)


def told(run, harmless, stopped):
    """What came of a run: no refusal, a harmless one, the status 6, or something else."""
    if not run.met:
        return "none" if harmless else f"WRONG with no refusal: {run.status} {run.replies!r}"
    return "harmless" if harmless else "stopped" if stopped else f"WRONG: {run.status} {run.replies!r}"


def refused_each(jobs, name, trial):
    """Tries each number of a call, until none is refused; returns what came of them."""
    counts = {"stopped": 0, "harmless": 0, "wrong": 0}
    with concurrent.futures.ThreadPoolExecutor(jobs) as pool:
        first, size, ended = 1, 64 * jobs, False
        while not ended:
            numbers = range(first, first + size)
            for number, what in zip(numbers, pool.map(trial, numbers)):
                if what == "none":
                    ended = True
                elif what in counts:
                    counts[what] += 1
                else:
                    counts["wrong"] += 1
                    print(f"{name}, call {number}: {what}")
            first += size
    tell(name, counts)
    return counts


def large_changes(program, top, shim, jobs, part):
    """Refuses memory to large changes, over files that have their statements; returns what came of it."""
    sums = {}
    for name, (text, step) in LARGE.items():
        if part not in name:
            continue
        folder = f"{top}/{name.replace(' ', '_')}"
        os.mkdir(folder)
        counts = Script(program, folder, commands_of(text), many_statements()).forked(shim, jobs, step)
        tell(f"{name}, over a file", counts)
        add(sums, counts)
    return sums


def tell(name, counts):
    refused = sum(counts.values())
    print(f"{name}: {refused} refusals, {counts['stopped']} status 6, {counts['harmless']} harmless, {counts['wrong']} wrong", flush=True)


def add(sums, counts):
    for what, count in counts.items():
        sums[what] = sums.get(what, 0) + count


def built(top, name, text):
    """A library that is made of this text, which stands before the C library."""
    with open(f"{top}/{name}.c", "w") as it:
        it.write(text)
    subprocess.check_call(["cc", "-O2", "-shared", "-fPIC", "-o", f"{top}/{name}.so", f"{top}/{name}.c"])
    return f"{top}/{name}.so"


def main(program, jobs=1, part=""):
    sums = {}
    with tempfile.TemporaryDirectory(dir="/dev/shm" if os.path.isdir("/dev/shm") else None) as top:
        shim = built(top, "refusing", REFUSING)
        for name, commands in scripts().items():
            if part not in name:
                continue
            for half in 0, len(commands) // 2:
                folder = f"{top}/{name.replace(' ', '_')}_{half}"
                os.mkdir(folder)
                script = Script(program, folder, commands[half:], commands[:half])
                trials = {"over its first half": script.in_file} if half else \
                    {"in memory": script.in_memory, "in a new file": script.in_file, "checked": script.checked}
                for how, trial in trials.items():
                    counts = refused_each(jobs, f"{name}, {how}", lambda n: trial(shim, n))
                    add(sums, counts)
        add(sums, large_changes(program, top, built(top, "forking", forking.TEXT), jobs, part))
    if not sums:
        sys.exit(f"no script has {part} in its name")
    tell("in all", sums)
    return 1 if sums["wrong"] else 0


if __name__ == "__main__":
    if not 2 <= len(sys.argv) <= 4:
        sys.exit(__doc__)
    sys.exit(main(os.path.abspath(sys.argv[1]), *map(int, sys.argv[2:3]), *sys.argv[3:]))
