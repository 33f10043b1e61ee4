#!/usr/bin/env python3
"""Makes files of all kinds, ours and strangers', and has the keeper over a file open and write each.
   bench/strangers.py SMALL [PROGRAM]
SMALL is the built bdb_bench. A line tells of each file what came of it, and which files of its folder are others than before. With
PROGRAM, the built beliefdb, each is then checked by it, and a script without a command is run over it. The exit status is 1 where a
file that isn't ours works or is changed, or one that is ours doesn't work; where a check makes or changes a file; and where a run
changes one that it refuses. As root, a file that can't be read is tried by the user 65534."""
import hashlib
import os
import shutil
import sqlite3
import subprocess
import sys
import tempfile

KEPT = "create table kept(tab integer not null, k blob not null, v blob not null, primary key (tab, k)) strict"
ROWS = "insert into kept values (1, x'00', x'c0ffee'), (2, x'', x'ff')"
MANY = "with recursive n(i) as (select 1 union all select i + 1 from n where i < 500) insert into kept select 3, cast(i as blob), randomblob(40) from n"
ENDLESS = "create view kept as with recursive n(tab, k, v) as (select 1, x'', x'' union all select tab + 1, k, v from n) select * from n"


def chain(many):
    """The rows of so many worlds, each one user deeper than the one before it: the number of each, its depth, and the edge to it."""
    rows = [(1, (0,), 3), (6, (0,), 0)]
    for world in range(1, many):
        user = 2 - world % 2
        rows += [(6, (world,), world), (9, (world - 1, user), world), (10, (world, world - 1, user), None)]
    told = (f"({tab}, x'{''.join(f'{n:08x}' for n in key)}', x'{'' if row is None else f'{row:08x}'}')" for tab, key, row in rows)
    return f"insert into kept values (2, x'00000001', x'024100'), (2, x'00000002', x'024200'), {', '.join(told)}"


# What databases are made of, and whether each is ours.
DATABASES = {
    "ours": ([KEPT, ROWS], True),
    "ours, 500 rows": ([KEPT, MANY], True),
    "ours, no rows": ([KEPT], True),
    "another database": (["create table bird(name text)", "insert into bird values ('crow')"], False),
    "a view for the table": (["create table a(b)", "create view kept as select 1 tab, x'' k, x'' v"], False),
    "a view without end": ([ENDLESS], False),
    "without its key": ([KEPT.replace(", primary key (tab, k)", ""), ROWS, ROWS], False),
    "not strict": ([KEPT.replace(" strict", ""), ROWS], False),
    "a column more": ([KEPT.replace("null, primary", "null, w text default 'w', primary")], False),
    "a check": ([KEPT.replace("(tab, k))", "(tab, k), check (tab < 99))"), ROWS], False),
    "a trigger": ([KEPT, ROWS, "create trigger t after insert on kept begin delete from kept; end"], False),
    "a table beside": ([KEPT, ROWS, "create table other(a)"], False),
    "an index beside": ([KEPT, ROWS, "create index other on kept(v)"], False),
    "a table dropped before": (["create table a(b)", "drop table a", KEPT, ROWS], True),
    "a table dropped behind": ([KEPT, ROWS, "create table a(b)", "drop table a"], True),
    "a gap before": (["create table a(b)", KEPT, ROWS, "drop table a"], False),
    "analyzed": ([KEPT, ROWS, "analyze"], False),
    "a row of table 16": ([KEPT, ROWS, "insert into kept values (16, x'', x'')"], False),
    "a chain of 20,000 worlds": ([KEPT, chain(20000)], True),
    "a content of 3 MB": ([KEPT, "insert into kept values (1, x'', zeroblob(3000000))"], False),
}


def make(folder, statements, mode):
    """Makes a database of these statements in this journal mode; as "log", all that they did is in the log beside it."""
    with tempfile.TemporaryDirectory() as room:
        db = sqlite3.connect(f"{room}/file.db", isolation_level=None)
        db.execute(f"pragma journal_mode = {'delete' if mode == 'delete' else 'wal'}")
        db.execute("pragma wal_autocheckpoint = 0")
        for statement in statements:
            db.execute(statement)
        if mode == "log":
            shutil.copy(f"{room}/file.db-wal", folder)
            shutil.copy(f"{room}/file.db", folder)
        db.close()
        if mode != "log":
            shutil.copy(f"{room}/file.db", folder)


def flipped(data, at):
    return data[:at] + bytes([data[at] ^ 1]) + data[at + 1:]


def plain_files(ours):
    """What files hold that no sqlite3 made, and whether each may work; ours is a database of the keeper's."""
    content = ours.index(bytes.fromhex("c0ffee"))
    return {
        "empty": (b"", True),
        "one byte": (b"S", False),
        "one zero, as where making it was cut off": (b"\0", True),
        "a page of a zero and text": (b"\0" + b"The crow is black.\n" * 100, False),
        "a page with a zero for its first byte, and no log": (b"\0" + ours[1:4096], False),
        "a text": (b"The crow is black.\n" * 100, False),
        "a head alone": (ours[:100], False),
        "cut in a page": (ours[:len(ours) - 1000], False),
        "a page short": (ours[:len(ours) - 4096], False),
        "a flipped bit in a page's head": (flipped(ours, 4096), False),
        "a flipped bit in a content": (flipped(ours, content), None),
        "a flipped bit in the schema": (flipped(ours, ours.index(b"primary key")), False),
    }


def sum_of(path):
    """The sum of a file, or what else can be told of it."""
    if not os.path.isfile(path):
        return "no file"
    try:
        with open(path, "rb") as it:
            return hashlib.sha256(it.read()).hexdigest()
    except PermissionError:
        it = os.stat(path)
        return f"{it.st_size} bytes of {it.st_mtime_ns}"


def sums(folder):
    """The sum of each file of a folder."""
    return {name: sum_of(f"{folder}/{name}") for name in os.listdir(folder)}


def told(small, *words, user=None):
    done = subprocess.run([small, *words], capture_output=True, text=True, timeout=60, user=user)
    return done.stdout.split(" closed")[0].strip() or f"status {done.returncode}"


def tries(small, folder, name, ours, user=None):
    """Opens the file and then writes to it; returns whether all was as it ought to be."""
    path, before = f"{folder}/file.db", sums(folder)
    opened = told(small, "open", path, user=user)
    looked = sums(folder)
    wrote = told(small, "filed", path, "1", "2", user=user)
    after = sums(folder)
    others = sorted(it for it in after if after[it] != before.get(it))
    changed = after.get("file.db") != before.get("file.db")
    fine = ours is None or (opened == "works true") == (wrote == "done true") == ours and changed == ours
    early = sorted(it for it in looked if looked[it] != before.get(it))
    print(f"{'' if fine else 'NOT RIGHT '}{name}: {opened}, {wrote}; opening makes or changes {early}, both {others}")
    return fine


def judged(program, folder, name, ours, makes=False, user=None):
    """Checks the file and then runs nothing over it, which may make a database of it; returns whether all was as it ought to be."""
    path, before = f"{folder}/file.db", sums(folder)
    check = subprocess.run([program, "check", "--db", path], capture_output=True, text=True, timeout=60, user=user)
    checked = sums(folder)
    run = subprocess.run([program, "run", "--db", path], input="", capture_output=True, text=True, timeout=60, user=user)
    after = sums(folder)
    changed = after.get("file.db") != before.get("file.db")
    if makes:
        fine = check.returncode == 5 and checked == before and run.returncode == 0 and changed
    else:
        right = ours is None or check.returncode in ((0, 7) if ours else (5,)) and run.returncode == check.returncode
        fine = right and checked.get("file.db") == before.get("file.db") and not (changed and run.returncode)
    print(f"{'' if fine else 'NOT RIGHT '}{name}: check {check.returncode} {check.stdout.strip()!r}, run {run.returncode}")
    return fine


def main(small, program=None):
    fine = True

    def tried(folder, name, ours):
        fine = tries(small, folder, name, ours)
        return fine and (not program or judged(program, folder, name, ours))

    with tempfile.TemporaryDirectory() as top:
        os.chmod(top, 0o755)

        def folder_for(name):
            folder = f"{top}/{name.replace(' ', '_')}"
            os.mkdir(folder)
            return folder

        for mode in "wal", "log", "delete":
            for name, (statements, ours) in DATABASES.items():
                folder = folder_for(f"{name}, {mode}")
                make(folder, statements, mode)
                fine &= tried(folder, f"{name}, {mode}", False if mode == "delete" else ours)
        make(top, [KEPT, ROWS], "wal")
        with open(f"{top}/file.db", "rb") as it:
            ours = it.read()
        for name, (data, works) in plain_files(ours).items():
            folder = folder_for(name)
            with open(f"{folder}/file.db", "wb") as it:
                it.write(data)
            fine &= tried(folder, name, works)
        fine &= tries(small, folder_for("missing"), "missing", True)
        if program:
            fine &= judged(program, folder_for("missing, judged"), "missing, judged", False, makes=True)
            folder = folder_for("empty, judged")
            with open(f"{folder}/file.db", "wb"):
                pass
            fine &= judged(program, folder, "empty, judged", False, makes=True)
        folder = folder_for("missing, with a log")
        with open(f"{folder}/file.db-wal", "wb") as it:
            it.write(b"a log of something else\n" * 100)
        fine &= tried(folder, "missing, with a log", None)
        folder = folder_for("a folder")
        os.mkdir(f"{folder}/file.db")
        fine &= tried(folder, "a folder", False)
        folder = folder_for("a pipe")
        os.mkfifo(f"{folder}/file.db")
        fine &= tried(folder, "a pipe", False)
        folder = folder_for("not to be read")
        shutil.copy(f"{top}/file.db", folder)
        os.chmod(f"{folder}/file.db", 0)
        os.chmod(folder, 0o777)
        # root may read it, so there nobody is asked to
        user = 65534 if os.getuid() == 0 else None
        fine &= tries(shutil.copy(small, f"{top}/small"), folder, "not to be read", False, user=user)
        if program:
            fine &= judged(shutil.copy(program, f"{top}/program"), folder, "not to be read", False, user=user)
    return 0 if fine else 1


if __name__ == "__main__":
    if not 2 <= len(sys.argv) <= 3:
        sys.exit(__doc__)
    sys.exit(main(*map(os.path.abspath, sys.argv[1:])))
