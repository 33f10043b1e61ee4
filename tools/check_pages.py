#!/usr/bin/env python3
"""Tries what the pages README, TOUR, LANGUAGE and FILES print: each reply there has to be the program's.

All pages are tried in one empty folder, one behind the other, so that none gets in another's way. In a block marked
`console` a line that begins with `$ ` is given to a shell; what follows, up to the next such line, is what it prints.
Where commands of the language stand among that, they are typed into it, and so are those of further blocks. A comment
<!-- try ... --> holds lines of the same kind that a reader needn't see; <!-- file NAME --> before a block makes its text
that file. Blocks marked `sh` and `text` have no replies, and aren't tried. No other block may stand in a page.

The program is out/beliefdb at the top of the repository, or what the environment variable BELIEFDB names. The status is 1
where something else was printed."""
import argparse
import difflib
import os
import re
import subprocess
import sys
import tempfile

from bsql import pieces_of

ROOT = os.path.dirname(os.path.dirname(os.path.abspath(__file__)))
PAGES = ['README.md', 'docs/TOUR.md', 'docs/LANGUAGE.md', 'docs/FILES.md']
BLOCK = re.compile(r'^(?:<!-- file (?P<file>\S+) -->\n)?```(?P<mark>\w*)\n(?P<text>.*?)^```$|^<!-- try\n(?P<hidden>.*?)^-->$',
                   re.DOTALL | re.MULTILINE)
PROMPT = re.compile(r'beliefdb (run|many)( --db \S+)?')
COMMAND = re.compile(r'(create|drop|insert|delete|update|select|explain|show (world|tables)|why|undo|redo)\b|--|[0-9]+ \w')


class Step:
    """One command of the shell, what is typed into it and what it has to print."""

    def __init__(self, place, command):
        self.place, self.command, self.typed, self.printed = place, command, [], []


def is_typed(line, step):
    """Whether a line of a block is typed: it begins a command, or goes on with one, and a run waits for commands."""
    before = pieces_of('\n'.join(step.typed))
    within = bool(before) and not before[-1].ended
    return bool(PROMPT.fullmatch(step.command)) and (within or bool(COMMAND.match(line)))


def read_block(text, place, steps):
    """Takes the lines of a block apart."""
    for number, line in enumerate(text.split('\n')[:-1]):
        if line.startswith('$ '):
            steps.append(Step(f'{place[0]}, line {place[1] + number}', line[2:]))
        elif not steps:
            raise ValueError(f'{place[0]}, line {place[1] + number}: no command of the shell stands before this')
        elif is_typed(line, steps[-1]):
            steps[-1].typed.append(line)
        else:
            steps[-1].printed.append(line)


def steps_of(page, folder):
    """The steps of a page. Files that it shows are made in the folder."""
    with open(f'{ROOT}/{page}', encoding='utf-8') as it:
        text = it.read()
    steps = []
    for found in BLOCK.finditer(text):
        place = page, text[:found.start()].count('\n') + 2
        if found['file']:
            with open(f'{folder}/{found["file"]}', 'w', encoding='utf-8') as it:
                it.write(found['text'])
        elif found['hidden'] or found['mark'] == 'console':
            read_block(found['hidden'] or found['text'], place, steps)
        elif found['mark'] not in ('sh', 'text'):
            raise ValueError(f'{place[0]}, line {place[1]}: this block is marked neither console nor sh nor text')
    return steps


def run_step(step, status, folder, environment):
    """Does a step. Answers its status, and how it differs from the page."""
    words = ['bash', '-c', f'(exit {status})\n{step.command}']
    typed = ''.join(line + '\n' for line in step.typed)
    done = subprocess.run(words, input=typed.encode(), cwd=folder, env=environment, stdout=subprocess.PIPE, stderr=subprocess.STDOUT)
    printed = done.stdout.decode(errors='replace').split('\n')[:-1]
    return done.returncode, list(difflib.unified_diff(step.printed, printed, 'page', 'program', lineterm=''))


def check(pages, program):
    """Tries the pages, and answers what differs, as lines, and how many steps were done."""
    wrong, count, status = [], 0, 0
    with tempfile.TemporaryDirectory() as folder:
        os.mkdir(f'{folder}/out')
        os.symlink(program, f'{folder}/out/beliefdb')
        for name in ('bench', 'crates', 'docs', 'examples', 'tools'):
            os.symlink(f'{ROOT}/{name}', f'{folder}/{name}')
        environment = {**os.environ, 'PATH': f'{folder}/out:{os.environ["PATH"]}', 'PYTHONDONTWRITEBYTECODE': '1'}
        for page in pages:
            for step in steps_of(page, folder):
                status, differences = run_step(step, status, folder, environment)
                count += 1
                if differences:
                    wrong += [f'{step.place}: {step.command}'] + differences
    return wrong, count


def program_path():
    return os.path.abspath(os.environ.get('BELIEFDB', f'{ROOT}/out/beliefdb'))


def main():
    parser = argparse.ArgumentParser(description=__doc__, formatter_class=argparse.RawDescriptionHelpFormatter)
    parser.add_argument('pages', nargs='*', default=PAGES, help='pages, from the top of the repository; all four where none is named')
    pages = parser.parse_args().pages
    if not os.path.exists(program_path()):
        sys.exit('check_pages.py: no program is at out/beliefdb: make it by bench/unproved.py out/beliefdb')
    wrong, count = check(pages, program_path())
    print(*wrong, f'{count} commands of the shell tried', sep='\n')
    sys.exit(1 if wrong else 0)


if __name__ == '__main__':
    main()
