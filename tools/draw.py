#!/usr/bin/env python3
"""Draws the structure that `show tables` prints: a box for each world, with what is stated there in bold and what is
inherited in grey; a dashed line to the world that it inherits from; an arrow for each curator, to the world that one
comes to by that name.

Writes text for Graphviz (`dot -Tsvg`), or with --svg a picture, for up to 12 worlds. Where statements stand at paths of two
curators and more, arrows cross there, and Graphviz draws better."""
import argparse
import html
import re
import sys

from bsql import end_quietly_when_cut

PATH = r"(/|(?:/'(?:[^']|'')*')+)"
WORLD = re.compile(rf"world {PATH} depth ([0-9]+)(?: suffix {PATH})?$")
EDGE = re.compile(rf"edge {PATH} '((?:[^']|'')*)' {PATH}$")
ROW = re.compile(rf"row {PATH} ([+-] .*) (explicit|inherited)$")
MOST_DRAWN, LINE, SIGN, GAP = 12, 18, 7.3, 150


class World:
    """A box of the drawing."""

    def __init__(self, path, depth, suffix):
        self.path, self.depth, self.suffix = path, int(depth), suffix
        self.rows, self.x, self.y = [], 0, 0

    def lines(self):
        return [(self.path, 'name')] + self.rows

    def width(self):
        return 16 + SIGN * max(len(text) for text, _ in self.lines())

    def height(self):
        return 14 + LINE * len(self.lines())


def words():
    parser = argparse.ArgumentParser(description=__doc__, formatter_class=argparse.RawDescriptionHelpFormatter, epilog="""example:
  echo "show tables;" | beliefdb run --db sheets.db | draw.py --svg > sheets.svg""")
    parser.add_argument('replies', nargs='?', default='-', help='the reply to `show tables`; standard input where none is named')
    parser.add_argument('--svg', action='store_true', help='write a picture instead of text for Graphviz')
    return parser.parse_args()


def read(lines):
    """The worlds by path, and for each two of them the curators by whose names one comes from one to the other."""
    worlds, edges = {}, {}
    for line in lines:
        world, edge, row = WORLD.match(line), EDGE.match(line), ROW.match(line)
        if world:
            worlds[world[1]] = World(*world.groups())
        elif edge:
            edges.setdefault((edge[1], edge[3]), []).append(edge[2].replace("''", "'"))
        elif row:
            worlds[row[1]].rows.append((row[2], row[3]))
    return worlds, edges


def dot(worlds, edges):
    """Text for Graphviz."""
    def name(text):
        return '"' + text.replace('\\', '\\\\').replace('"', '\\"') + '"'

    yield 'digraph worlds {\n  rankdir=LR; node [shape=box fontname=monospace]; edge [fontname=monospace];'
    for path, world in worlds.items():
        rows = [html.escape(text) if mark == 'inherited' else f'<b>{html.escape(text)}</b>' for text, mark in world.lines()]
        label_text = ''.join(f'{it}<br align="left"/>' for it in rows)
        yield f'  {name(path)} [label=<{label_text}>];'
        if world.suffix:
            yield f'  {name(path)} -> {name(world.suffix)} [style=dashed color=gray];'
    for (start, end), names in edges.items():
        yield f'  {name(start)} -> {name(end)} [label={name(", ".join(names))}];'
    yield '}'


def place(worlds, edges):
    """Gives each world its place: a column for each depth. Answers the size of the picture, and how far curves bow out."""
    x, heights = 60, []
    for depth in range(max(it.depth for it in worlds.values()) + 1):
        column = [it for it in worlds.values() if it.depth == depth]
        y = 50
        for world in column:
            world.x, world.y = x, y
            y += world.height() + 50
        heights.append(y)
        x += max((it.width() for it in column), default=0) + GAP
    far = bows(worlds, edges)
    return x - GAP + max([GAP, *far.values()]), max(heights), far


def is_beside(start, end):
    """Whether two worlds stand in one column, one below the other."""
    return start is not end and start.depth == end.depth


def bows(worlds, edges):
    """How far each curve within a column bows out: no two as far, and the short ones within the long ones."""
    within = [it for it in edges if is_beside(worlds[it[0]], worlds[it[1]])]
    within.sort(key=lambda it: abs(worlds[it[0]].y - worlds[it[1]].y))
    step = min(35, 600 / max(1, len(within)))
    return {edge: 40 + step * number for number, edge in enumerate(within)}


def curve(start, end, bow, number):
    """The four points of the curve from one world to another; the number keeps those apart that lead back from one world."""
    def side(world, right, part):
        return world.x + (world.width() if right else 0), world.y + world.height() * part

    if start is end:
        x, y = start.x + start.width() / 2, start.y
        return (x - 20, y), (x - 30, y - 40), (x + 30, y - 40), (x + 20, y)
    if is_beside(start, end):
        down = start.y < end.y
        first, last = side(start, True, 0.7 if down else 0.5), side(end, True, 0.3 if down else 0.9)
        far = max(first[0], last[0]) + bow
        return first, (far, first[1]), (far, last[1]), last
    ahead = start.depth < end.depth
    first, last = side(start, ahead, 0.3 if ahead else 0.2 + 0.2 * (number % 4)), side(end, not ahead, 0.3 if ahead else 0.6)
    middle = (first[0] + last[0]) / 2
    return first, (middle, first[1]), (middle, last[1]), last


def drawn(points, style):
    (a, b), (c, d), (e, f), (g, h) = points
    return f'<path d="M{a:.0f},{b:.0f} C{c:.0f},{d:.0f} {e:.0f},{f:.0f} {g:.0f},{h:.0f}" class="{style}"/>'


def point_of(points, part):
    """The point of a curve at a part of its way."""
    weights = (1 - part) ** 3, 3 * part * (1 - part) ** 2, 3 * part ** 2 * (1 - part), part ** 3
    return tuple(sum(w * it[axis] for w, it in zip(weights, points)) for axis in (0, 1))


def label(points, text, start, end):
    """A text on a curve: behind its middle where it leads one column on, by its tail where it leads back, else in the middle."""
    part = 0.7 if start.depth < end.depth else 0.5
    if start.depth > end.depth:
        parts_outside = (at / 50 for at in range(1, 50) if points[0][0] - point_of(points, at / 50)[0] >= 25)
        part = next(parts_outside, 0.5)
    x, y = point_of(points, part)
    return f'<text x="{x:.0f}" y="{y:.0f}" class="edge">{html.escape(text)}</text>'


HEAD = """<svg xmlns="http://www.w3.org/2000/svg" width="{0:.0f}" height="{1:.0f}" font-family="monospace" font-size="12">
<style>rect {{ fill: white; stroke: black }} path {{ fill: none; stroke: black; marker-end: url(#tip) }}
.suffix {{ stroke: gray; stroke-dasharray: 5 4 }} .inherited {{ fill: gray }} .explicit, .name {{ font-weight: bold }}
.edge {{ text-anchor: middle; stroke: white; stroke-width: 4; paint-order: stroke }}</style>
<defs><marker id="tip" markerWidth="8" markerHeight="8" refX="7" refY="4" orient="auto"><path d="M0,0 L8,4 L0,8 z"
style="fill: black; stroke: none; marker-end: none"/></marker></defs>
<rect width="100%" height="100%" style="stroke: none"/>"""


def svg(worlds, edges):
    """A picture."""
    width, height, far = place(worlds, edges)
    yield HEAD.format(width, height)
    labels, back = [], {}
    for (start, end), names in edges.items():
        back[start] = back.get(start, -1) + (worlds[start].depth > worlds[end].depth)
        points = curve(worlds[start], worlds[end], far.get((start, end)), back[start])
        yield drawn(points, 'leads')
        labels.append(label(points, ', '.join(names), worlds[start], worlds[end]))
    for world in worlds.values():
        if world.suffix:
            end, bottom = worlds[world.suffix], world.y + world.height() * 0.9
            first, last = (world.x, bottom), (end.x + end.width(), end.y + end.height() * 0.9)
            middle = (first[0] + last[0]) / 2 - (60 if end.depth == world.depth else 0)
            yield drawn((first, (middle, first[1]), (middle, last[1]), last), 'suffix')
    for world in worlds.values():
        yield f'<rect x="{world.x:.0f}" y="{world.y:.0f}" width="{world.width():.0f}" height="{world.height():.0f}"/>'
        for number, (text, mark) in enumerate(world.lines(), 1):
            yield f'<text x="{world.x + 8:.0f}" y="{world.y + LINE * number:.0f}" class="{mark}">{html.escape(text)}</text>'
    yield from labels
    yield '</svg>'


def main():
    end_quietly_when_cut()
    options = words()
    source = sys.stdin if options.replies == '-' else open(options.replies, encoding='utf-8')
    worlds, edges = read(source.read().split('\n'))
    if not worlds:
        sys.exit('draw.py: this is no reply to `show tables`')
    if options.svg and len(worlds) > MOST_DRAWN:
        sys.exit(f'draw.py: {len(worlds)} worlds are too many for --svg; without it, `dot -Tsvg` of Graphviz draws them')
    print(*(svg if options.svg else dot)(worlds, edges), sep='\n')


if __name__ == '__main__':
    main()
