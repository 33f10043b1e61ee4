#!/usr/bin/env python3
"""queries.py PROGRAM [ROWS... [--seconds N] [--page]]

Runs queries through the built beliefdb and through Python's sqlite3 in memory over the same rows, and prints the table of queries of
docs/PERFORMANCE.md, or puts it there with --page: 300, 600 and 1,200 rows a relation where no ROWS are named. The answers have to be the
same; the exit status is 1 where they aren't. Of the program the time is that of a script with the query less that of the script without
it; where that is short, of many queries. Of both it is processor time, the least of three. A query that takes longer than N seconds (20)
is told as over that, and not asked over more rows. A time is in bold where it is above 3 ms and above 1.5 times SQLite's.

Three relations have so many rows, of a key k, a text v and a number n with as many values as rows, and a number m with 20. Of four
curators Ben denies a tenth of S, and Cleo has other texts in a tenth of T. In SQLite each world that is asked for is a table, with k as its
primary key and no other index.
"""
import os
import random
import resource
import sqlite3
import subprocess
import sys
import tempfile
import time
from itertools import zip_longest

# Of each shape: the items, what is asked for, the conditions; and how many rows a relation has, where that is fixed.
SHAPES = {
    'one row by its key': ('S A', 'A.v', "A.k = 'S7'"),
    'two, by =': ('S A, T B', 'A.k, B.k', 'A.v = B.v'),
    'chain of three': ('S A, T B, R C', 'A.k, B.k, C.k', 'A.v = B.v and B.n = C.n'),
    'its ends first': ('S A, R C, T B', 'A.k, B.k, C.k', 'A.v = B.v and B.n = C.n'),
    'star, its middle last': ('S A, R C, T D, T B', 'A.k, B.k, C.k', 'A.v = B.v and B.n = C.n and D.k = B.k'),
    'triangle': ('S A, T B, R C', 'A.k, B.k, C.k', 'A.v = B.v and B.n = C.n and C.m = A.m'),
    'chain of four, mixed': ('S A, R C, T B, S D', 'A.k, D.k', 'A.v = B.v and B.n = C.n and C.v = D.v'),
    'chain of six, mixed': ('S A, R C, T E, S F, T B, R D', 'A.k, F.k', 'A.v = B.v and B.n = C.n and C.v = D.v and D.n = E.n and E.v = F.v'),
    'one that exists': ('S A, T B', 'A.k', 'B.n < 3'),
    'two that exist': ('S A, T B, R C', 'A.k', 'B.n < 3 and C.n < 3'),
    'none': ('S A, T B, R C', 'A.k', 'A.n < 0'),
    'none, told by the last': ('S A, T B, R C', 'A.k', 'C.n < 0'),
    'less': ('S A, T B', 'A.k, B.k', 'A.n < B.n and B.n < 4'),
    'less, and =': ('S A, T B', 'A.k, B.k', 'A.n < B.n and B.v = A.v'),
    'one relation twice': ('S A, S B', 'A.k, B.k', 'A.v = B.v and A.k < B.k'),
    'eight, the last with no row': ('S A, S B, S C, S D, S E, S F, S G, S H', 'A.k', "H.k = 'zz'"),
    'two worlds': ("BELIEF 'Ann' S A, BELIEF 'Ben' S B", 'A.k, B.k', 'A.v = B.v'),
    'three worlds, ends first': ("BELIEF 'Ann' S A, BELIEF 'Cleo' R C, BELIEF 'Ben' T B", 'A.k, C.k', 'A.v = B.v and B.n = C.n'),
    'through m: one asked for': ('S A, T B, R C', 'A.m', 'A.m = B.m and B.m = C.m'),
    'through m, then n': ('S A, T B, R C', 'A.m, C.m', 'A.m = B.m and B.n = C.n'),
    'through m three times': ('S A, T B, R C, S D', 'A.m, D.m', 'A.m = B.m and B.m = C.m and C.m = D.m'),
    'eight of 40 rows': ('S A, S B, S C, S D, S E, S F, S G, S H', 'A.k', "A.v = B.v and H.k = 'zz'", 40),
}
MOST_ANSWERS = 100_000


def rows_of(count):
    draw = random.Random(count)
    one = lambda name, at: (f'{name}{at}', f'v{draw.randrange(count)}', draw.randrange(count), draw.randrange(20))
    return {name: [one(name, at) for at in range(count)] for name in 'STR'}


def world(rows, user, relation):
    """The rows of a relation in a curator's world, by the default rule."""
    if (user, relation) == ('Ben', 'S'):
        return [row for at, row in enumerate(rows['S']) if at % 10]
    if (user, relation) == ('Cleo', 'T'):
        return [(row[0], 'c', *row[2:]) if at % 10 == 0 else row for at, row in enumerate(rows['T'])]
    return rows[relation]


def script_of(rows):
    script = [f"create user '{name}';" for name in ('Ann', 'Ben', 'Cleo', 'Dan')]
    values = "{} values('{}', '{}', {}, {});".format
    for name, tuples in rows.items():
        script.append(f'create relation {name}(k text, v text, n int, m int);')
        script += ['insert into ' + values(name, *row) for row in tuples]
    script += ["insert into BELIEF 'Ben' not " + values('S', *row) for row in rows['S'][::10]]
    return script + ["insert into BELIEF 'Cleo' " + values('T', row[0], 'c', *row[2:]) for row in rows['T'][::10]]


def items_of(text):
    """Of each item its curator, if any, its relation and its alias."""
    words = [item.split() for item in text.split(', ')]
    return [(it[1].strip("'") if it[0] == 'BELIEF' else '', it[-2], it[-1]) for it in words]


def used(who):
    usage = resource.getrusage(who)
    return usage.ru_utime + usage.ru_stime


class Program:
    def __init__(self, path, rows, seconds, folder):
        self.path, self.script, self.seconds, self.file = path, '\n'.join(script_of(rows)) + '\n', seconds, f'{folder}/script'
        self.without = min(self.run('')[0] for _ in range(5))

    def run(self, commands, timeout=None):
        with open(self.file, 'w') as it:
            it.write(self.script + commands)
        before = used(resource.RUSAGE_CHILDREN)
        told = subprocess.run([self.path, 'run', '--script', self.file], stdout=subprocess.PIPE, timeout=timeout)
        return used(resource.RUSAGE_CHILDREN) - before, told.stdout.decode().splitlines()

    def ask(self, query):
        """The time of the query, and its reply; None where it takes too long."""
        try:
            first, lines = self.run(query, self.seconds)
        except subprocess.TimeoutExpired:
            return None, None
        times = 1 if first - self.without > 0.1 else 20 if first - self.without > 0.02 else 200
        long = first > 3
        least = first if long else min(self.run(query * times)[0] for _ in range(3))
        count = int(lines[-1].split()[1]) if lines[-1].startswith('ok ') else 0
        return max(least - self.without, 1e-6) / (1 if long else times), lines[len(lines) - 1 - count:]


def ask_sqlite(rows, items, take, where):
    """The time of the same query in SQLite, and its rows."""
    base, tables = sqlite3.connect(':memory:'), {relation + user: (user, relation) for user, relation, _ in items}
    for name, (user, relation) in tables.items():
        base.execute(f'create table {name}(k text primary key, v text, n int, m int)')
        base.executemany(f'insert into {name} values(?, ?, ?, ?)', world(rows, user, relation))
    query, least = f"select distinct {take} from {', '.join(f'{it[1]}{it[0]} {it[2]}' for it in items)} where {where}", 1e9
    for _ in range(3):
        before = time.process_time()
        answers = base.execute(query).fetchall()
        least = min(least, time.process_time() - before)
    return least, answers


def reply_of(answers):
    if len(answers) > MOST_ANSWERS:
        return ['error many']
    text = lambda value: f"'{value}'" if isinstance(value, str) else str(value)
    return [', '.join(map(text, row)) for row in sorted(answers)] + [f'ok {len(answers)}']


def cell_of(program, rows, shape):
    """The cell of the table for a shape over so many rows, whether the answers are the same, and whether it came to an end."""
    items, take, where = shape
    took, lines = program.ask(f'select {take} from {items} where {where};\n')
    least, answers = ask_sqlite(rows, items_of(items), take, where)
    mine = f'over {program.seconds} s' if took is None else f'{took * 1e3:.2f}'
    mine = f'**{mine}**' if took is None or took > max(3e-3, 1.5 * least) else mine
    if lines is not None and lines != reply_of(answers):
        return f'answers differ, {mine}', False, True
    return f'{mine}, {least * 1e3:.2f}', True, took is not None


def table_of(path, counts, seconds):
    """The lines of the table, and whether all answers are the same."""
    all_same, cells, over = True, {name: [] for name in SHAPES}, set()
    with tempfile.TemporaryDirectory() as folder:
        for count in counts + sorted({count for shape in SHAPES.values() for count in shape[3:]}):
            rows = rows_of(count)
            program = Program(path, rows, seconds, folder)
            for name in SHAPES:
                if SHAPES[name][3:] not in ((count,), () if count in counts else (count,)):
                    continue
                cell, same, ended = ('', True, False) if name in over else cell_of(program, rows, SHAPES[name][:3])
                all_same = all_same and same
                over |= set() if ended else {name}
                cells[name].append(cell)
                print(f'{name}, {count:,} rows: {cell}', file=sys.stderr, flush=True)
    shown = [f"{name} | {' | '.join(row + [''] * (len(counts) - len(row)))}" for name, row in cells.items()]
    half = (len(shown) + 1) // 2
    head = f"query | {' | '.join(f'{count:,} rows' for count in counts)}"
    lines = [f'| {head} | {head} |', '|---' * (2 + 2 * len(counts)) + '|']
    return lines + [f'| {left} | {right} |' for left, right in zip_longest(shown[:half], shown[half:], fillvalue='| ' * len(counts))], all_same


def put_in_page(lines):
    """Puts the table where the page has one."""
    page = f'{os.path.dirname(os.path.abspath(__file__))}/../docs/PERFORMANCE.md'
    with open(page) as it:
        old = it.read().split('\n')
    start = next(at for at, line in enumerate(old) if line.startswith('| query |'))
    end = next(at for at in range(start, len(old)) if not old[at].startswith('|'))
    with open(page, 'w') as it:
        it.write('\n'.join(old[:start] + lines + old[end:]))


def main():
    words, seconds, page = sys.argv[1:], 20, '--page' in sys.argv
    words = [word for word in words if word != '--page']
    if '--seconds' in words:
        at = words.index('--seconds')
        seconds = int(words[at + 1])
        del words[at:at + 2]
    if not words:
        sys.exit(__doc__)
    lines, all_same = table_of(words[0], [int(word) for word in words[1:]] or [300, 600, 1_200], seconds)
    if page:
        put_in_page(lines)
    else:
        print('\n'.join(lines))
    sys.exit(not all_same)


if __name__ == '__main__':
    main()
