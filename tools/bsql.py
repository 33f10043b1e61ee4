"""What the tools share: how a script is cut into commands, how values are written, and where a reply ends."""
import re
import signal
from dataclasses import dataclass, field

BLANKS = ' \t\n\r'
END_OF_REPLY = re.compile(r'ok( [0-9]+)?$|error ')
VALUE = re.compile(r"(?:'((?:[^']|'')*)'|(-?[0-9]+))(?:, |$)")


@dataclass
class Piece:
    """What stands before one semicolon, or behind the last one where `ended` is false."""
    code: str = ''                  # its text without comments
    line: int = 1                   # the line of its first token
    last: int = 1                   # the line of its last one
    ended: bool = True
    open_texts: list = field(default_factory=list)      # lines where a text begins that goes on past its line


def spans(script):
    """The script's texts, comments, semicolons and other bytes, one behind the other."""
    return re.findall(r"'[^']*(?:'|$)|--[^\n]*(?:\n|$)|;|[^;'-]+|-", script)


def pieces_of(script):
    """The pieces of a script, and what stands behind the last semicolon; those without a token are left out."""
    pieces, piece, line = [], Piece(ended=False), 1
    for span in spans(script):
        if span == ';':
            piece.ended = True
            pieces.append(piece)
            piece = Piece(ended=False)
            continue
        comment = span.startswith('--')
        if not comment and span.strip(BLANKS):
            if not piece.code.strip(BLANKS):
                piece.line = line + span[:len(span) - len(span.lstrip(BLANKS))].count('\n')
            piece.last = line + span.rstrip(BLANKS).count('\n')
        piece.code += '\n' if comment else span
        if span.startswith("'") and '\n' in span:
            piece.open_texts.append(line)
        line += span.count('\n')
    return [it for it in pieces + [piece] if it.code.strip(BLANKS)]


def end_quietly_when_cut():
    """Has a tool end without words once nobody reads its output any more, as behind `| head`."""
    signal.signal(signal.SIGPIPE, signal.SIG_DFL)


def quoted(text):
    return "'" + text.replace("'", "''") + "'"


def values_of(text):
    """The values of an answer, as `'Anna', 1931`; None where it is something else."""
    values, place = [], 0
    while place < len(text):
        found = VALUE.match(text, place)
        if not found:
            return None
        values.append(int(found[2]) if found[1] is None else found[1].replace("''", "'"))
        place = found.end()
    return values


def replies_of(lines):
    """The replies, each a list of lines; the last one may break off."""
    replies, reply = [], []
    for line in lines:
        reply.append(line)
        if END_OF_REPLY.match(line):
            replies.append(reply)
            reply = []
    return replies + [reply] if reply else replies
