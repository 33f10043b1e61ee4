"""Commits rows through the system's SQLite as the keeper over a file does, and prints the microseconds."""
import sqlite3
import sys
import time

PUT = "insert into kept(tab, k, v) values (?1, ?2, ?3) on conflict (tab, k) do update set v = excluded.v"
TABLE = "create table if not exists kept(tab integer not null, k blob not null, v blob not null, primary key (tab, k)) strict"


def key_of(number):
    mixed = (number * 0x9E3779B97F4A7C15 % 2**64).to_bytes(8, "big")
    return mixed + number.to_bytes(8, "big") + mixed


def main(job, path, commits, rows):
    start = time.perf_counter()
    db = sqlite3.connect(path, isolation_level=None)
    for pragma in ("locking_mode = exclusive", "journal_mode = wal", "synchronous = full"):
        db.execute("pragma " + pragma).fetchall()
    db.execute(TABLE)
    opened = time.perf_counter()
    keys = [key_of(number) for number in range(int(rows))]
    started = time.perf_counter()
    for turn in range(int(commits)):
        content = turn.to_bytes(4, "big")
        db.execute("begin immediate")
        db.executemany(PUT, ((1, key, content) for key in keys))
        db.execute("commit")
    ended = time.perf_counter()
    print("open", round((opened - start) * 1e6), "commit", round((ended - started) * 1e6))


main(*sys.argv[1:])
