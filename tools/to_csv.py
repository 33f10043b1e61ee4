#!/usr/bin/env python3
"""Makes a CSV of the rows that a `select` or a `show world` was answered with.

Reads replies. Those without rows, as the `ok 1` of an insert, are passed over. Where a reply is an error, breaks
off, or has other columns than the rows before it, that is told on standard error and the status is 1."""
import argparse
import csv
import re
import sys

from bsql import END_OF_REPLY, end_quietly_when_cut, replies_of, values_of

SIGNED = re.compile(r'([+-]) (\w+)\((.*)\) (explicit|inherited)$')
EXAMPLES = """examples:
  echo "select P.sheet, P.plant from BELIEF 'Anna' Plants P;" | beliefdb run --db sheets.db | to_csv.py --columns sheet,plant > anna.csv
  echo "show world BELIEF 'Anna';" | beliefdb run --db sheets.db | to_csv.py --relation Plants --columns sheet,plant > world.csv
      the columns sign (+ or -), mark (explicit or inherited), sheet and plant; without --relation all relations,
      and the relation's name as a third column"""


def words():
    parser = argparse.ArgumentParser(description=__doc__, epilog=EXAMPLES, formatter_class=argparse.RawDescriptionHelpFormatter)
    parser.add_argument('replies', nargs='?', default='-', help='the replies; standard input where none is named')
    parser.add_argument('--columns', metavar='A,B', help='names for the columns of values: a first row is written')
    parser.add_argument('--relation', metavar='NAME', help='of a world, the rows of this relation alone')
    return parser.parse_args()


def row_of(line, relation):
    """The row of a line, and how many of its cells come before the values; no row where it is of another relation."""
    signed = SIGNED.match(line)
    if not signed:
        return values_of(line), 0
    sign, name, values, mark = signed.groups()
    if relation is None:
        return [sign, mark, name] + (values_of(values) or []), 3
    return ([sign, mark] + (values_of(values) or []) if name == relation else None), 2


def rows_of(reply, relation):
    """The rows of one reply, and how many cells come before the values; a text where it can't be had."""
    if not END_OF_REPLY.match(reply[-1]):
        return 'the last reply breaks off'
    if reply[-1].startswith('error '):
        return f'a reply is `{reply[-1]}`'
    rows = [row_of(line, relation) for line in reply[:-1]]
    wrong = [line for line, (row, _) in zip(reply, rows) if row is None and not SIGNED.match(line)]
    if wrong:
        return f'this is no row of a select or a world: {wrong[0]}'
    return [row for row, _ in rows if row is not None], max([before for _, before in rows], default=0)


def collect(lines, relation):
    """All rows, the cells before the values, and what is wrong."""
    rows, before, problems = [], 0, []
    for reply in replies_of(lines):
        found = rows_of(reply, relation)
        if isinstance(found, str):
            problems.append(found)
        elif found[0]:
            if relation or found[1] == 0:
                if rows and len(rows[0]) != len(found[0][0]):
                    problems.append('two replies have different numbers of columns: ask one question at a time')
                    continue
            rows, before = rows + found[0], found[1]
    return rows, before, problems


def main():
    end_quietly_when_cut()
    options = words()
    source = sys.stdin if options.replies == '-' else open(options.replies, encoding='utf-8')
    rows, before, problems = collect(source.read().split('\n')[:-1], options.relation)
    writer = csv.writer(sys.stdout, lineterminator='\n')
    if options.columns:
        names = options.columns.split(',')
        if rows and before < 3 and before + len(names) != len(rows[0]):
            sys.exit(f'to_csv.py: {len(names)} names for {len(rows[0]) - before} columns')
        writer.writerow(['sign', 'mark', 'relation'][:before] + names)
    writer.writerows(rows)
    if problems:
        sys.exit('\n'.join(f'to_csv.py: {it}' for it in problems))


if __name__ == '__main__':
    main()
