#!/usr/bin/env python3
"""by_script.py PROGRAM [RUNS [NAME...]]

Runs the built beliefdb and the plain program of bench/reference.rs, in turns, over scripts drawn by a fixed seed, so many times each (5
where none is named), and prints the table "By script" of docs/PERFORMANCE.md: the least processor times and their ratio. Their replies
and statuses have to be the same, byte for byte; the exit status is 1 where they aren't. It wants rustc. NAME... are the scripts to run.
"""
import os
import random
import resource
import subprocess
import sys
import tempfile

HERE = os.path.dirname(os.path.abspath(__file__))
SCHEMA = ['create relation Sightings(sid text, observer text, species text, day text, place text);',
          'create relation Comments(cid text, note text, sid text);']
SPECIES = ["bald eagle", "fish eagle", "crow", "raven", "osprey", "Steller''s jay", "barred owl", "northern flicker", "varied thrush",
           "mallard", "killdeer", "cedar waxwing", "western tanager", "house finch", "rock wren"]
PLACES = ['Lake Forest', 'Lake Placid', 'Green Lake', 'Union Bay', 'Mount Si', "Foster''s Slough"]
SAME = ' and '.join(f'Y.{column} = X.{column}' for column in ('sid', 'observer', 'species', 'day', 'place'))


def head(users):
    return [f"create user 'user {at}';" for at in range(users)] + SCHEMA


def beliefs(path):
    return ''.join(f"BELIEF 'user {user}' " for user in path)


def low(draw, below):
    """A number below another, small ones more often."""
    return int(draw.random() ** 2 * below)


def a_path(draw, users, depth):
    path = []
    while len(path) < depth:
        user = low(draw, users)
        if path[-1:] != [user]:
            path.append(user)
    return tuple(path)


def depth_of(draw, *weights):
    return draw.choices(range(len(weights)), weights)[0]


def sighting(number, variant):
    species, place = SPECIES[(number * 11 + variant * 4) % len(SPECIES)], PLACES[number % len(PLACES)]
    day = f'2008-{number % 12 + 1:02}-{number % 28 + 1:02}'
    return f"Sightings values('s{number}', 'observer {number % 26}', '{species}', '{day}', '{place}');"


def comment(number, variant):
    return f"Comments values('c{number}', 'note {variant}', 's{number * 7 % 400}');"


def insert(draw, path, values, denied=10):
    return f"insert into {beliefs(path)}{'not ' if draw.randrange(denied) == 0 else ''}{values}"


def deep(draw):
    """Many deep paths: 5,000 inserts at some 1,000 paths of up to 6 of 100 users."""
    pools = [[a_path(draw, 100, depth) for _ in range(count)] for depth, count in enumerate((1, 100, 390, 250, 160, 100, 60))]
    script = head(100)
    for _ in range(5_000):
        path = draw.choice(pools[depth_of(draw, 20, 30, 20, 14, 8, 5, 3)])
        values = comment(low(draw, 400), draw.randrange(2)) if draw.randrange(5) == 0 else sighting(low(draw, 900), draw.randrange(3))
        script.append(insert(draw, path, values))
    return script + [f'show world {beliefs(a_path(draw, 100, 3 + draw.randrange(6)))};' for _ in range(10)]


def mixed(draw):
    """4,000 mixed inserts at paths of up to 4 of 30 users."""
    return head(30) + [insert(draw, a_path(draw, 30, depth_of(draw, 30, 30, 20, 12, 8)), sighting(draw.randrange(1_000), draw.randrange(3)))
                       for _ in range(4_000)]


def shown(draw):
    """Worlds shown while rows change: 3,000 rows of the list, inherited by 300 paths, with both shown in between."""
    script = head(60)
    for number in range(3_000):
        script.append(insert(draw, (), sighting(number, 0), 1_000_000))
        if number % 10 == 0:
            script.append(insert(draw, a_path(draw, 60, 1 + draw.randrange(8)), sighting(draw.randrange(3_000), draw.randrange(2)), 4))
        if number % 30 == 0:
            script.append(f'show world {beliefs(a_path(draw, 60, 3 + draw.randrange(38)))};')
        if number == 300:
            script.append('show tables;')
    return script


def coming(draw):
    """Worlds that come and go: 4,600 inserts, deletes and updates at paths of 2 to 8 of 25 users, of which some 70 stand."""
    script, standing = head(25), []
    for _ in range(400):
        script.append(insert(draw, a_path(draw, 25, depth_of(draw, 60, 30, 10)), sighting(draw.randrange(300), draw.randrange(3))))
    for _ in range(4_600):
        kind = draw.randrange(100)
        if len(standing) < 40 or kind < 50 and len(standing) < 90:
            path, number = a_path(draw, 25, 2 + draw.randrange(7)), draw.randrange(300)
            script.append(insert(draw, path, sighting(number, draw.randrange(3)), 6))
            standing.append((path, number))
        elif kind < 93:
            path, number = standing.pop(draw.randrange(len(standing)))
            script += [f"delete from {beliefs(path)}Sightings where sid = 's{number}';", f'delete from {beliefs(path)}not Sightings;']
        elif kind < 98:
            path, number = draw.choice(standing)
            script.append(f"update {beliefs(path)}Sightings set species = '{draw.choice(SPECIES)}' where sid = 's{number}';")
        else:
            script.append(f'show world {beliefs(a_path(draw, 25, 2 + draw.randrange(4)))};')
    return script + ['show tables;']


def queries(draw):
    """500 questions about what curators believe, over 2,000 statements of 40 of them."""
    script = head(40)
    for _ in range(2_000):
        values = comment(draw.randrange(200), draw.randrange(2)) if draw.randrange(5) == 0 else sighting(draw.randrange(400), draw.randrange(3))
        script.append(insert(draw, a_path(draw, 40, depth_of(draw, 30, 40, 25, 5)), values, 8))
    for _ in range(500):
        key, (one, other), species = f"X.sid = 's{draw.randrange(400)}'", a_path(draw, 40, 2), draw.choice(SPECIES)
        script.append(draw.choice([
            f'select U.name from Users U, Sightings X, BELIEF U.uid not Sightings Y where {SAME} and {key};',
            f'select U.name, W.name from Users U, Users W, BELIEF U.uid BELIEF W.uid Sightings X where {key};',
            f"select U.name, X.sid from Users U, BELIEF 'user {one}' Sightings X, BELIEF U.uid not Sightings Y where {SAME};",
            f"select W.name, X.sid from Users W, BELIEF 'user {one}' BELIEF W.uid Sightings X where X.species = '{species}';",
            f"select C.cid, C.note from BELIEF 'user {one}' BELIEF 'user {other}' Comments C where C.sid = 's{draw.randrange(400)}';",
            'select U.name, W.name, X.species, Y.species from Users U, Users W, BELIEF U.uid Sightings X, BELIEF W.uid Sightings Y '
            f'where {key} and Y.sid = X.sid and X.species < Y.species;',
            'select U.name, W.name, X.species from Users U, Users W, BELIEF U.uid Sightings X, BELIEF U.uid BELIEF W.uid not Sightings Y '
            f'where {SAME} and {key};']))
    return script


def generated(draw):
    """10,000 commands of the kinds that `gen` makes: inserts, deletes and queries over 50 keys and 8 users."""
    script = [f"create user 'user {at}';" for at in range(8)] + ['create relation R(k int, v int);']
    for _ in range(10_000):
        kind, key, path = draw.randrange(10), draw.randrange(50), a_path(draw, 8, draw.randrange(4))
        if kind < 6:
            script.append(insert(draw, path, f'R values({key}, {draw.randrange(3)});', 4))
        elif kind < 8:
            script.append(f'delete from {beliefs(path)}R where k = {key};')
        elif kind == 8:
            script.append(f'select U.name, X.v from Users U, BELIEF U.uid R X where X.k = {key};')
        else:
            script.append(f'select U.name, X.v from Users U, R X, BELIEF U.uid not R Y where Y.k = X.k and Y.v = X.v and X.k = {key};')
    return script


SCRIPTS = {'many deep paths': deep, '4,000 mixed inserts': mixed, 'worlds shown while rows change': shown, 'worlds that come and go': coming,
           'queries': queries, 'inserts, deletes and queries': generated}


def run(words, output):
    """The processor time and the status of a program."""
    before = resource.getrusage(resource.RUSAGE_CHILDREN)
    with open(output, 'wb') as it:
        status = subprocess.call(words, stdout=it)
    after = resource.getrusage(resource.RUSAGE_CHILDREN)
    return after.ru_utime + after.ru_stime - before.ru_utime - before.ru_stime, status


def read(path):
    with open(path, 'rb') as it:
        return it.read()


def main():
    if len(sys.argv) < 2:
        sys.exit(__doc__)
    runs, names, differ = int((sys.argv[2:] + ['5'])[0]), sys.argv[3:] or SCRIPTS, False
    with tempfile.TemporaryDirectory() as folder:
        plain, script = f'{folder}/reference', f'{folder}/script'
        subprocess.check_call(['rustc', '-O', '--edition', '2021', '-o', plain, f'{HERE}/reference.rs'])
        print('| script | commands | program | plain | ratio |\n|---|---|---|---|---|')
        for name in names:
            commands = SCRIPTS[name](random.Random(1))
            with open(script, 'w') as it:
                it.write('\n'.join(commands) + '\n')
            both = [([sys.argv[1], 'run', '--script', script], f'{folder}/program'), ([plain, script], f'{folder}/plain')]
            told = [[run(*it) for it in both] for _ in range(runs)]
            program, reference = (min(it[at][0] for it in told) for at in (0, 1))
            same = told[0][0][1] == told[0][1][1] and read(both[0][1]) == read(both[1][1])
            differ = differ or not same
            note = '' if same else ', replies differ'
            print(f'| {name} | {len(commands):,} | {program * 1e3:.0f} ms | {reference * 1e3:.0f} ms | {program / reference:.1f}{note} |', flush=True)
    sys.exit(differ)


if __name__ == '__main__':
    main()
