#!/usr/bin/env python3
"""Draws docs/layers.svg, the picture of the crates by family, from crates.txt.

    tests/layers.py [--check]

A family is a box, drawn above those that it uses; in it a crate is drawn above those of its family that it uses. An arrow leads from a family to one that it uses, unless another that it uses leads there too. Crates without code are drawn with a dashed edge. --check
writes nothing; the status is then 1 if docs/layers.svg is not up to date.
"""
import argparse
import html
import os
import re
import sys

ROOT = os.path.dirname(os.path.dirname(os.path.abspath(__file__)))
PICTURE = os.path.join(ROOT, 'docs', 'layers.svg')

CHARACTER, CHIP, GAP, PADDING, TITLE, MARGIN, BETWEEN = 7.3, 22, 7, 14, 26, 20, 58
WIDEST = 1500
COLOURS = ['#e8f1fb', '#fdf1dd', '#e9f6ea', '#f7e9f3', '#efeafa', '#fbeaea', '#e6f5f5', '#f4f2e4', '#eef0f3', '#f0f6e2', '#f9efe6', '#eaeef8']


def families():
    """The families of crates.txt in its order: title, and crates as (name, uses, has code)."""
    found = []
    with open(os.path.join(ROOT, 'crates.txt'), encoding='utf-8') as f:
        for line in f:
            heading = re.match(r'^# ---- ([^:]*?)(?::.*)?$', line.rstrip('\n'))
            crate = re.match(r'^([a-z_]+)(?: staticlib)?:([^#]*)(.*)$', line)
            if heading:
                found.append((heading.group(1).strip(), []))
            elif crate:
                found[-1][1].append((crate.group(1), crate.group(2).split(), '(d)' not in crate.group(3)))
    return found


def heights(nodes, below):
    """For each node how many others are below it, one under the other."""
    height = {}

    def of(node):
        if node not in height:
            height[node] = 0
            height[node] = 1 + max((of(other) for other in below[node]), default=-1)
        return height[node]
    for node in nodes:
        of(node)
    return height


def raised(level, below):
    """Each node just under the lowest of those that use it."""
    for node in sorted(level, key=level.get, reverse=True):
        level[node] = min((level[user] - 1 for user in level if node in below[user]), default=level[node])
    return level


def reduced(nodes, below):
    """The edges that no other way leads along."""
    reach = {}

    def of(node):
        if node not in reach:
            reach[node] = set(below[node]).union(*(of(other) for other in below[node]))
        return reach[node]
    for node in nodes:
        of(node)
    return {node: {b for b in below[node] if not any(b in reach[other] for other in below[node] if other != b)} for node in nodes}


class Box:
    """A family: its crates in rows, the lowest last."""

    def __init__(self, title, crates, colour):
        self.title, self.colour = title, colour
        own = {name for name, _, _ in crates}
        uses = {name: [u for u in used if u in own] for name, used, _ in crates}
        level = heights(own, uses)
        self.rows = [[(name, code) for name, _, code in crates if level[name] == k] for k in sorted(set(level.values()), reverse=True)]
        self.width = max(max(map(self.length, self.rows)), len(title) * CHARACTER * 1.2) + 2 * PADDING
        self.height = TITLE + len(self.rows) * (CHIP + GAP) + PADDING - GAP + 4

    @staticmethod
    def chip(name):
        return len(name) * CHARACTER + 14

    def length(self, row):
        return sum(self.chip(name) for name, _ in row) + GAP * (len(row) - 1)

    def drawn(self):
        x, y = self.x, self.y
        yield '<rect x="%.0f" y="%.0f" width="%.0f" height="%.0f" rx="8" fill="%s" stroke="#8894a3"/>' % (x, y, self.width, self.height, self.colour)
        yield '<text x="%.0f" y="%.0f" class="title">%s</text>' % (x + PADDING, y + 19, html.escape(self.title))
        for i, row in enumerate(self.rows):
            left, top = x + (self.width - self.length(row)) / 2, y + TITLE + 4 + i * (CHIP + GAP)
            for name, code in row:
                yield '<rect x="%.0f" y="%.0f" width="%.0f" height="%d" rx="4" fill="#ffffff" stroke="#5b6875"%s/>' % (
                    left, top, self.chip(name), CHIP, '' if code else ' stroke-dasharray="4 3"')
                yield '<text x="%.0f" y="%.0f" class="crate">%s</text>' % (left + self.chip(name) / 2, top + 16, name)
                left += self.chip(name) + GAP


class Lane:
    """A way for an arrow past a row of families."""
    width, height = 12, 0


def rows_of(boxes, level):
    """The families in rows, the highest first; a row that would be too wide is cut."""
    rows = []
    for k in sorted(set(level.values()), reverse=True):
        row = []
        for box in (b for b in boxes if level[b.title] == k):
            if row and sum(b.width + BETWEEN for b in row) + box.width > WIDEST:
                rows.append(row)
                row = []
            row.append(box)
        rows.append(row)
    return rows


def arrow(a, b, start, end, lanes):
    """An arrow from one family to another, by way of the lanes: it turns in the gaps between rows alone."""
    path, x = 'M %.0f %.0f' % (a.x + a.width * start, a.y + a.height), a.x + a.width * start
    for to, y in [(lane.x + lane.width / 2, lane.y) for lane in lanes] + [(b.x + b.width * end, b.y - 3)]:
        turn, bend = y - BETWEEN + 6, BETWEEN * 0.6
        path += ' V %.0f C %.0f %.0f %.0f %.0f %.0f %.0f' % (turn, x, turn + bend, to, y - bend, to, y)
        x = to
    return '<path d="%s" class="arrow" marker-end="url(#head)"/>' % path


def placed(rows):
    """Gives each box its place; returns the size of the picture."""
    width = max(sum(b.width for b in row) + BETWEEN * (len(row) - 1) for row in rows) + 2 * MARGIN
    y = MARGIN
    for row in rows:
        x = (width - sum(b.width for b in row) - BETWEEN * (len(row) - 1)) / 2
        for box in row:
            box.x, box.y = x, y
            x += box.width + BETWEEN
        y += max(b.height for b in row) + BETWEEN
    return width, y - BETWEEN + MARGIN


def laid_out(found):
    """The families with their places, the arrows between them, and the size of the picture."""
    home = {name: title for title, crates in found for name, _, _ in crates}
    below = {title: {home[u] for _, used, _ in crates for u in used if u in home} - {title} for title, crates in found}
    boxes = [Box(title, crates, COLOURS[i % len(COLOURS)]) for i, (title, crates) in enumerate(found)]
    by_title = {box.title: box for box in boxes}
    rows = rows_of(boxes, raised(heights(below, below), below))
    row_of = {box.title: i for i, row in enumerate(rows) for box in row}
    edges = [(a, b) for a, uses in sorted(reduced(below, below).items()) for b in sorted(uses)]
    placed(rows)
    lanes = {}
    for a, b in edges:
        lanes[a, b] = []
        for i in range(row_of[a] + 1, row_of[b]):
            lane, row = Lane(), rows[i]
            left = by_title[a].x + by_title[a].width / 2 < row[0].x + row[0].width or a == rows[row_of[a]][0].title
            row.insert(0 if left else len(row), lane)
            lanes[a, b].append(lane)
    return by_title, edges, lanes, placed(rows)


def picture():
    by_title, edges, lanes, (width, height) = laid_out(families())

    def middle(title):
        return by_title[title].x + by_title[title].width / 2
    lines = []
    for a, b in edges:
        out = sorted((t for s, t in edges if s == a), key=lambda t: lanes[a, t][0].x if lanes[a, t] else middle(t))
        into = sorted((s for s, t in edges if t == b), key=lambda s: lanes[s, b][-1].x if lanes[s, b] else middle(s))
        lines.append(arrow(by_title[a], by_title[b], (out.index(b) + 1) / (len(out) + 1), (into.index(a) + 1) / (len(into) + 1), lanes[a, b]))
    head = ['<svg xmlns="http://www.w3.org/2000/svg" viewBox="0 0 %.0f %.0f" width="%.0f" height="%.0f">' % (width, height, width, height),
            '<title>The crates by family; an arrow leads to what is used</title>',
            '<defs><marker id="head" viewBox="0 0 8 8" refX="7" refY="4" markerWidth="7" markerHeight="7" orient="auto">'
            '<path d="M 0 0 L 8 4 L 0 8 z" fill="#5b6875"/></marker>',
            '<style>text{font-family:"DejaVu Sans",Verdana,sans-serif;fill:#1d2733}.title{font-size:14px;font-weight:bold}'
            '.crate{font-size:12px;text-anchor:middle}.arrow{fill:none;stroke:#5b6875;stroke-width:1.4}</style></defs>',
            '<rect width="100%" height="100%" fill="#ffffff"/>']
    return '\n'.join(head + lines + [line for box in by_title.values() for line in box.drawn()] + ['</svg>']) + '\n'


def main():
    parser = argparse.ArgumentParser()
    parser.add_argument('--check', action='store_true')
    options = parser.parse_args()
    drawn = picture()
    if options.check:
        with open(PICTURE, encoding='utf-8') as f:
            same = f.read() == drawn
        print('docs/layers.svg is %s' % ('up to date' if same else 'not what tests/layers.py draws'))
        sys.exit(0 if same else 1)
    with open(PICTURE, 'w', encoding='utf-8') as f:
        f.write(drawn)


if __name__ == '__main__':
    main()
