#!/usr/bin/env python3
"""kills.py PROGRAM [KILLS [SEED]]

Kills the built beliefdb at moments drawn at random, again and again, while it carries out a script of inserts, deletes and updates
over a file. Each time the file is checked, and `show tables` has to be that of the base after the commands replied to, or after one
more. The rest of the script then goes on over the same file; the next script takes a new one. At the end of each script the file is
copied, and the copy opened. Prints how often the program was killed (KILLS times, 200 where none is named) and what was found.
"""
import os
import random
import shutil
import subprocess
import sys
import tempfile
import time

# The beginning of each script, and what is to be seen of it once the file was closed and opened again.
HEAD = ["create user 'Alice';", "create user 'Bob';", "create relation S(k text, v text);", "insert into S values('s1','eagle');",
        "insert into BELIEF 'Bob' not S values('s1','eagle');"]
BOB = (["show world BELIEF 'Bob';"], [b"- S('s1', 'eagle') explicit\nok 1\n"])


def script(draw, count):
    """So many commands after the first ones, of which some are refused and some change nothing."""
    commands = HEAD + ["create user 'Carol';"]
    paths = ['', "BELIEF 'Alice' ", "BELIEF 'Bob' ", "BELIEF 'Carol' ", "BELIEF 'Alice' BELIEF 'Bob' ", "BELIEF 'Bob' BELIEF 'Alice' "]
    for _ in range(count):
        at = draw.choice(paths) + draw.choice(['', '', 'not '])
        key, value = f'k{draw.randrange(12)}', f'v{draw.randrange(4)}'
        commands.append(draw.choice([f"insert into {at}S values('{key}','{value}');"] * 4 + [f"delete from {at}S where k = '{key}';",
                        f"delete from {at}S where v = '{value}' and k <> '{key}';", f"update {at}S set v = '{value}' where k = '{key}';",
                        f"update {at}S set k = '{key}' where v = '{value}';"]))
    return commands


def cut(output):
    """The whole replies in an output. Each ends with a line that begins with `ok` or `error`."""
    replies, reply = [], b''
    for line in output.splitlines(keepends=True):
        reply += line
        if line.endswith(b'\n') and line.split()[0] in (b'ok', b'error'):
            replies, reply = replies + [reply], b''
    return replies


def done(program, words, commands):
    run = subprocess.run([program] + words, input='\n'.join(commands).encode(), stdout=subprocess.PIPE)
    return run.returncode, cut(run.stdout)


def killed(draw, program, file, commands):
    """Has the commands carried out over the file until the program is killed, and tells the replies, and whether it ended before."""
    with tempfile.TemporaryFile() as source:
        source.write('\n'.join(commands).encode())
        source.seek(0)
        run = subprocess.Popen([program, 'run', '--db', file], stdin=source, stdout=subprocess.PIPE)
    output = b''
    # Mostly a moment after some replies, else any moment, also while the file is being opened.
    if draw.random() < 0.8:
        for _ in range(draw.randrange(1, 40)):
            output += os.read(run.stdout.fileno(), 4096)
    time.sleep(draw.random() * 0.02)
    run.kill()
    output += run.stdout.read()
    return cut(output), run.wait() in (0, 1)


def left(program, file, tables, least):
    """After how many commands the base of the file is, of `least` and one more; None where it is neither. One that was killed before
    any commit may have left no database."""
    status, _ = done(program, ['check', '--db', file], [])
    if status != 0 and (least > 0 or status != 5):
        return None
    _, shown = done(program, ['run', '--db', file], ['show tables;'])
    return next((many for many in range(least, min(least + 2, len(tables))) if shown == [tables[many]]), None)


def play(draw, program, folder, kills):
    """One script over a new file. It tells how often the program was killed, and how often it left one command more than it replied to."""
    commands = script(draw, 300)
    shown = [it for command in commands for it in (command, 'show tables;')]
    tables = done(program, ['run'], ['show tables;'] + shown)[1][::2]
    assert len(tables) == len(commands) + 1
    file, copy = f'{folder}/file.db', f'{folder}/copy.db'
    at, stops, more = 0, 0, 0
    while stops < kills:
        replies, ended = killed(draw, program, file, commands[at:])
        found = left(program, file, tables, at + len(replies))
        assert found is not None, f'{at} and {len(replies)} commands, killed {stops} times before'
        more += found > at + len(replies)
        at = found
        if ended:
            break
        stops += 1
    assert done(program, ['run', '--db', file], commands[at:])[0] in (0, 1)
    shutil.copy(file, copy)
    assert left(program, copy, tables, len(commands)) == len(commands)
    for name in (file, copy):
        os.remove(name)
        os.remove(name + '-wal')
    return stops, more


def main(program, kills='200', seed='1'):
    draw, program, stops, more, scripts = random.Random(int(seed)), os.path.abspath(program), 0, 0, 0
    with tempfile.TemporaryDirectory() as folder:
        file = f'{folder}/head.db'
        assert done(program, ['run', '--db', file], HEAD) == (0, [b'ok\n'] * 3 + [b'ok 1\n'] * 2)
        shutil.copy(file, f'{folder}/again.db')
        for name in (file, f'{folder}/again.db'):
            assert done(program, ['run', '--db', name], BOB[0]) == (0, BOB[1]), name
        while stops < int(kills):
            one, over = play(draw, program, folder, int(kills) - stops)
            stops, more, scripts = stops + one, more + over, scripts + 1
    print(f'killed {stops} times in {scripts} scripts; {more} times the file had one command more than was replied to')


if __name__ == '__main__':
    main(*sys.argv[1:]) if 2 <= len(sys.argv) <= 4 else sys.exit(__doc__)
