#!/usr/bin/env python3
"""Makes a script of a CSV: an insert for each row, and the relation before them where that is asked for.

The first row of the CSV names its columns. Everything is checked before a line is written: quotes, kinds, keys
and limits. What is wrong is told on standard error, with row and column as a spreadsheet numbers them, and then
nothing is written and the status is 1."""
import argparse
import csv
import io
import re
import sys

from bsql import end_quietly_when_cut, quoted

RESERVED = set('and as belief delete from insert into not or select set update values where'.split())
MOST_COLUMNS, LONGEST_TEXT, MOST_USERS, MOST_TUPLES, MOST_STATEMENTS = 16, 255, 1024, 4000, 20000
MOST_WAITING, DEEPEST = 64, 64
EXAMPLES = """examples:
  to_bsql.py sheets.csv --relation Plants --columns sheet,plant --create > plants.bsql
      the relation Plants, and the list's plants
  to_bsql.py anna.csv --relation Plants --columns sheet,plant --belief Anna > anna.bsql
      what Anna believes; with --not what she denies; with --except sheets.csv only where she differs from the list
  to_bsql.py finds.csv --relation Finds --columns "sheet=Sheet No,year=Year" --int year --by Curator --many
      two columns under other names; whose belief a row is stands in the column Curator (empty: the list's);
      lines for `beliefdb many`, which is faster over a file"""


def words():
    parser = argparse.ArgumentParser(description=__doc__, epilog=EXAMPLES, formatter_class=argparse.RawDescriptionHelpFormatter)
    parser.add_argument('csv', help='the CSV, in UTF-8; - is standard input')
    parser.add_argument('--relation', required=True, metavar='NAME', help='the relation that the rows belong to')
    parser.add_argument('--columns', metavar='A,B=HEADER,..',
                        help='its columns, in order, each under its header or as NAME=HEADER; else all but that of --by')
    parser.add_argument('--int', default='', metavar='A,B', help='the columns that are whole numbers; all others are text')
    parser.add_argument('--create', action='store_true', help='write `create relation` first')
    parser.add_argument('--key', type=int, default=1, metavar='N', help='how many first columns are the key (1)')
    parser.add_argument('--belief', action='append', default=[], metavar='NAME',
                        help='a curator of the path, outermost first; may be repeated')
    parser.add_argument('--by', metavar='HEADER', help='the column that names whose belief a row is; an empty cell is the list')
    parser.add_argument('--users', action='store_true', help='write `create user` for each curator named, first of all')
    parser.add_argument('--not', dest='denied', action='store_true', help='the rows are denied')
    parser.add_argument('--skip-empty', action='store_true', help='leave out each row that has nothing in one of the columns; else it is an empty text')
    parser.add_argument('--except', dest='known', metavar='CSV',
                        help='leave out each row that this CSV has too, under the same headers: where it is the list, '
                             'a curator goes by it there')
    parser.add_argument('--delimiter', default=',', metavar='SIGN', help='what stands between two cells (a comma)')
    parser.add_argument('--many', nargs='?', const=0, type=int, choices=range(16), metavar='SESSION',
                        help='write lines for `beliefdb many` in batches of 64, of this session (0)')
    return parser.parse_args()


def name_problem(name):
    """Why a name can't be that of a relation or a column; None where it can."""
    if not re.fullmatch('[A-Za-z_][A-Za-z_0-9]{0,254}', name):
        return f'{name!r} is no name: a letter first, then letters, digits and _'
    return f'{name!r} is a word of the language; take another name' if name.lower() in RESERVED else None


def columns_of(asked, by, header):
    """The chosen columns, each with its place in a row and its header; where none are asked for, all but that of --by."""
    chosen = [it.partition('=') for it in asked.split(',')] if asked else [(it, '', it) for it in header if it != by]
    pairs = [(name.strip(), (title if sign else name).strip()) for name, sign, title in chosen]
    return [(name, header.index(title) if title in header else None, title) for name, title in pairs]


def text_problem(cell):
    if len(cell.encode()) > LONGEST_TEXT:
        return f'{len(cell.encode())} bytes, and a text has {LONGEST_TEXT} at most'
    return 'a line break, a tab or another such sign' if re.search('[\0-\x1f]', cell) else None


def value_of(cell, whole):
    """The value of a cell as it is written, and what is wrong with it."""
    if not whole:
        return quoted(cell), text_problem(cell)
    number = cell.strip()
    if not number:
        return None, 'an empty cell is no whole number; see --skip-empty'
    if not re.fullmatch('-?[0-9]+', number):
        return None, f'{cell!r} is no whole number'
    return str(int(number)), None if -2**63 <= int(number) < 2**63 else f'{number} leaves 64 bits'


class Reader:
    """Rows of a CSV on their way to statements, and what is wrong with them."""

    def __init__(self, options, header):
        self.options, self.problems, self.statements = options, [], []
        self.skipped, self.empty, self.known, self.repeated, self.curators = 0, 0, set(), 0, {}
        self.columns = columns_of(options.columns, options.by, header)
        self.whole = set(filter(None, options.int.split(',')))
        self.by = header.index(options.by) if options.by in header else None
        self.seen = {}
        self.look_at_names(header)

    def look_at_names(self, header):
        names = [name for name, _, _ in self.columns]
        self.problems += filter(None, map(name_problem, [self.options.relation] + names))
        missing = [title for _, place, title in self.columns if place is None]
        self.problems += [f'no column is headed {title!r}; there are {", ".join(header)}' for title in missing]
        self.problems += [f'--int names {name!r}, which is none of the columns' for name in sorted(self.whole - set(names))]
        self.problems += [f'two columns are named {name!r}' for name in sorted({it for it in names if names.count(it) > 1})]
        if self.options.known and self.options.denied:
            self.problems.append('--except leaves out the rows that a list has, and with --not these are the ones to deny')
        if self.options.relation == 'Users':
            self.problems.append('a relation can\'t be called Users')
        if self.options.by and self.by is None:
            self.problems.append(f'no column is headed {self.options.by!r}, as --by says')
        if len(names) > MOST_COLUMNS:
            self.problems.append(f'{len(names)} columns, and a relation has {MOST_COLUMNS} at most: make several relations')
        if not 1 <= self.options.key <= len(names):
            self.problems.append(f'a key of {self.options.key} columns, of {len(names)}')

    def look_at_known(self, header, rows):
        """Takes up the rows of the CSV of --except."""
        missing = [title for _, _, title in self.columns if title not in header]
        self.problems += [f'{self.options.known} has no column headed {title!r}' for title in missing]
        if not missing:
            cells = [(header.index(title), name in self.whole) for name, _, title in self.columns]
            self.known = {tuple(value_of(row[place], whole)[0] for place, whole in cells)
                          for row in rows if len(row) > max(cells)[0]}

    def path_of(self, row, number):
        path = tuple(self.options.belief + ([row[self.by]] if self.by is not None and row[self.by] else []))
        self.problems += [f'row {number}, curator {name!r}: {text_problem(name)}' for name in path if text_problem(name)]
        if any(left == right for left, right in zip(path, path[1:])):
            self.problems.append(f'row {number}: the path names {path[-1]!r} twice in a row')
        return path

    def take(self, row, number):
        needed = [place for _, place, _ in self.columns] + ([self.by] if self.by is not None else [])
        if len(row) <= max(needed):
            self.problems.append(f'row {number}: {len(row)} cells are too few')
            return
        if self.options.skip_empty and any(row[place].strip() == '' for _, place, _ in self.columns):
            self.skipped += 1
            return
        values = []
        for name, place, _ in self.columns:
            value, problem = value_of(row[place], name in self.whole)
            values.append(value)
            self.empty += name not in self.whole and not row[place].strip()
            if problem:
                self.problems.append(f'row {number}, column {name}: {problem}')
        self.state(self.path_of(row, number), tuple(values), number)

    def state(self, path, values, number):
        """Notes a statement, unless the very same or one that clashes with it came before."""
        self.curators.update(dict.fromkeys(path))
        key = values if self.options.denied else values[:self.options.key]
        before, first = self.seen.setdefault((path, key), (values, number))
        if before != values:
            self.problems.append(f'row {number}: another row with the key {", ".join(map(str, key))} is row {first}; see --key')
        elif first == number and values in self.known:
            self.repeated += 1
        elif first == number:
            self.statements.append((path, values))

    def look_at_sizes(self):
        different = len({values for _, values in self.statements})
        if different > MOST_TUPLES:
            self.problems.append(f'{different} different rows, and a database holds {MOST_TUPLES}')
        if len(self.statements) > MOST_STATEMENTS:
            self.problems.append(f'{len(self.statements)} statements, and a database holds {MOST_STATEMENTS}')
        if len(self.curators) > MOST_USERS:
            self.problems.append(f'{len(self.curators)} curators, and a database holds {MOST_USERS}')
        if len(self.options.belief) + bool(self.options.by) > DEEPEST:
            self.problems.append(f'a path has at most {DEEPEST} curators')


def header_and_rows(path, delimiter):
    source = sys.stdin.buffer if path == '-' else open(path, 'rb')
    try:
        text = io.StringIO(source.read().decode('utf-8-sig'), newline='')
    except UnicodeDecodeError:
        sys.exit(f'to_bsql.py: {path} isn\'t in UTF-8: save it in that encoding')
    rows = csv.reader(text, delimiter=delimiter)
    return next(rows, []), rows


def read(options):
    """A reader that has seen the whole CSV."""
    header, rows = header_and_rows(options.csv, options.delimiter)
    reader = Reader(options, header)
    if options.known and not reader.problems:
        reader.look_at_known(*header_and_rows(options.known, options.delimiter))
    if not reader.problems:
        for number, row in enumerate(rows, 2):
            if row:
                reader.take(row, number)
        reader.look_at_sizes()
    return reader


def first_commands(options, reader):
    """The users and the relation, as far as they are asked for."""
    commands = []
    if options.users:
        commands += [f'create user {quoted(name)};' for name in reader.curators]
    if options.create:
        columns = ', '.join(f'{name} {"int" if name in reader.whole else "text"}' for name, _, _ in reader.columns)
        key = f' key {options.key}' if options.key != 1 else ''
        commands.append(f'create relation {options.relation}({columns}){key};')
    return commands


def inserts(options, reader):
    for path, values in reader.statements:
        beliefs = ''.join(f'BELIEF {quoted(name)} ' for name in path)
        yield f'insert into {beliefs}{"not " if options.denied else ""}{options.relation} values({", ".join(values)});'


def batched(commands, session):
    """The commands as lines of a session, 64 in a batch."""
    for start in range(0, len(commands), MOST_WAITING):
        yield f'{session} begin;'
        yield from (f'{session} {it}' for it in commands[start:start + MOST_WAITING])
        yield f'{session} commit;'


def main():
    end_quietly_when_cut()
    options = words()
    try:
        reader = read(options)
    except (OSError, TypeError, csv.Error) as error:
        sys.exit(f'to_bsql.py: {options.csv}: {error}')
    if reader.problems:
        more = [f'.. and {len(reader.problems) - 20} more'] if len(reader.problems) > 20 else []
        sys.exit('\n'.join(['to_bsql.py: nothing was written'] + reader.problems[:20] + more))
    first, rest = first_commands(options, reader), list(inserts(options, reader))
    if options.many is not None:
        first, rest = [f'{options.many} {it}' for it in first], batched(rest, options.many)
    print(*first, *rest, sep='\n')
    if reader.skipped:
        print(f'to_bsql.py: {reader.skipped} rows have an empty cell and were left out', file=sys.stderr)
    if reader.empty:
        print(f'to_bsql.py: {reader.empty} empty cells became empty texts; --skip-empty leaves such rows out', file=sys.stderr)
    if reader.repeated:
        print(f'to_bsql.py: {reader.repeated} rows are in {options.known} too and were left out', file=sys.stderr)


if __name__ == '__main__':
    main()
