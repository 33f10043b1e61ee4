#!/usr/bin/env python3
"""Shows a script and its replies side by side: the line and the command behind each `error`.

Where a text is left open, the line is named in which it begins: such a text swallows all commands up to the next
quote. The status is 1 where a reply is an error, else 0."""
import argparse
import re
import sys

from bsql import BLANKS, END_OF_REPLY, end_quietly_when_cut, pieces_of

HINTS = {
    'syntax': 'look for an open quote, then a missing comma, then a column without its alias',
    'long': 'more than 65,536 bytes up to a semicolon: mostly a quote that was left open, or a missing semicolon',
    'unfinished': 'the script ends without a semicolon, or within a text',
    'clash': 'the path states this already, which is against it: delete or update that first',
    'full': 'a limit is reached; see the limits in docs/LANGUAGE.md',
    'taken': 'it is there already, perhaps from an earlier run over the same file',
    'user': 'create the user first; names keep their case',
    'relation': 'create the relation first; names keep their case',
    'column': 'the relation has no such column; names keep their case',
    'kind': 'a number where a text is due, or a text where a number is due: texts stand in quotes',
    'arity': 'too many or too few values',
    'unsafe': 'tie this column by = to a literal or to a column of an item without `not`',
    'batch': '64 commands wait already: commit them first',
}


def words():
    parser = argparse.ArgumentParser(description=__doc__, formatter_class=argparse.RawDescriptionHelpFormatter, epilog="""example:
  beliefdb run --db sheets.db --script load.bsql > load.replies
  explain_errors.py load.bsql load.replies""")
    parser.add_argument('script', help='the script that was run')
    parser.add_argument('replies', help='what was printed')
    parser.add_argument('--many', action='store_true', help='it was run by `beliefdb many`')
    parser.add_argument('--all', action='store_true', help='show each command with its reply, not the refused ones alone')
    return parser.parse_args()


class Replies:
    """The lines of replies, taken one reply after the other."""

    def __init__(self, text):
        self.lines, self.place = text.split('\n')[:-1], 0

    def take(self, label=''):
        """The lines up to and with the end of a reply, without their label."""
        start = self.place
        while self.place < len(self.lines):
            line = self.lines[self.place].removeprefix(label)
            self.place += 1
            if END_OF_REPLY.match(line):
                break
        return [it.removeprefix(label) for it in self.lines[start:self.place]]

    def take_line(self, label=''):
        self.place += 1
        return self.lines[self.place - 1].removeprefix(label) if self.place <= len(self.lines) else None

    def next_line(self, label=''):
        return self.lines[self.place].removeprefix(label) if self.place < len(self.lines) else None


def answered(pieces, replies):
    """Each piece with its reply."""
    return [(piece, replies.take()) for piece in pieces]


def commit(waiting, replies, label):
    """The commands of a batch with their replies, and the line that tells how it ended."""
    pairs = []
    while not re.match('(committed|aborted) ', replies.next_line(label) or 'aborted '):
        pairs.append((waiting[len(pairs)], replies.take(label)))
    return pairs, replies.take_line(label)


def answered_in_stream(pieces, replies):
    """Each piece of a stream of sessions with its reply; a command that waited, with that of its commit."""
    pairs, waiting = [], {}
    for piece in pieces:
        session = re.match(r'\s*0?([0-9]+)\s+(.*)', piece.code, re.DOTALL)
        number, line = (session[1], session[2].strip().lower()) if session else ('', '')
        label = f'{number}: '
        told = replies.next_line(label)
        if told == 'queued':
            waiting.setdefault(number, []).append(piece)
            replies.take_line()
        elif line == 'commit' and told != 'error not begun':
            done, end = commit(waiting.pop(number, []), replies, label)
            pairs += done + [(piece, [end or ''])]
        elif told in ('begun', 'aborted'):
            waiting[number] = []
            pairs.append((piece, [replies.take_line(label)]))
        else:
            pairs.append((piece, replies.take(label)))
    return pairs


def hint(piece, reply, many):
    """What to look at."""
    word = reply.split()[1]
    if piece.open_texts and word in ('syntax', 'long', 'unfinished', 'session'):
        first, others = piece.open_texts[0], ', '.join(map(str, piece.open_texts[1:3]))
        return (f'a text that begins in line {first} goes on past its line: a quote is missing or isn\'t doubled there'
                + (f', or else in line {others}' if others else ''))
    if word == 'session' and many:
        return 'begin each line with the number of its session, 0 to 15, and a blank'
    if word == 'syntax' and not many and re.match(r'\s*[0-9]+\s', piece.code):
        return 'it begins with the number of a session: run such a script by `beliefdb many`'
    return HINTS.get(word, 'see the table of refusals in docs/LANGUAGE.md')


def shown(piece):
    text = ' '.join(piece.code.split())
    return (text if len(text) <= 100 else text[:97] + '...') + (';' if piece.ended else '')


def tell(piece, reply, many):
    """The lines on one command."""
    end = reply[-1] if reply else 'no reply'
    print(f'line {piece.line}' + (f' to {piece.last}' if piece.open_texts else '') + f': {shown(piece)}')
    print(f'    {end}')
    if not reply:
        print('    the run ended before it (`echo $?` behind a run tells why), or these replies are of another script')
    if end.startswith('error '):
        print(f'    {hint(piece, end, many)}')
    if end.startswith('aborted ') and piece.code.strip(BLANKS).lower().endswith('commit'):
        print(f'    command {end.split()[1]} of this batch was refused, so nothing of the batch was done')


def main():
    end_quietly_when_cut()
    options = words()
    try:
        with open(options.script, encoding='utf-8', errors='replace', newline='') as script, \
                open(options.replies, encoding='utf-8', errors='replace') as text:
            pieces, replies = pieces_of(script.read()), Replies(text.read())
    except OSError as error:
        sys.exit(f'explain_errors.py: {error}')
    if not options.many and re.match('[0-9]+: ', replies.next_line() or ''):
        sys.exit('explain_errors.py: these are replies of `beliefdb many`; add --many')
    pairs = answered_in_stream(pieces, replies) if options.many else answered(pieces, replies)
    bad = [pair for pair in pairs if not pair[1] or pair[1][-1].startswith(('error ', 'aborted '))]
    for piece, reply in pairs if options.all else bad:
        tell(piece, reply, options.many)
    if replies.place < len(replies.lines):
        print('there are more replies than commands: are these the replies to this script?')
    refused = sum(1 for _, reply in bad if reply and reply[-1].startswith('error '))
    print(f'{len(pairs)} commands, {refused} refused, {len(bad) - refused} without effect')
    sys.exit(1 if bad else 0)


if __name__ == '__main__':
    main()
