#!/usr/bin/env python3
"""Prints the table of docs/TIMES.md: a row for each crate of crates.txt.

    tests/lines.py [LOG]

LOG is what `rt ci` wrote; it fills the columns of seconds: a crate's check, and its must-fail edits together. Blank lines and comments are not counted. Of src/
neither are contracts (`requires`, `ensures`) and `ghost use` lines, which only serve them. "Believe" is what tests/believe.py counts.
"""
import collections
import glob
import os
import re
import sys

import believe

ROOT = os.path.dirname(os.path.dirname(os.path.abspath(__file__)))
HEADS = ['Crate', 'Check, s', 'Edits, s', 'Code', 'Definitions', 'Believe', 'Laws', 'Proofs', 'Functions', 'Must-fail edits']
GHOST = re.compile(r'(ghost|requires|ensures)\b')


def crates():
    with open(os.path.join(ROOT, 'crates.txt')) as f:
        return [line.split(':')[0].split()[0] for line in f if ':' in line.split('#')[0]]


def lines(files, comment):
    """The lines of some files that are neither blank nor a comment."""
    for name in files:
        with open(name, encoding='utf-8') as f:
            yield from (line for line in map(str.strip, f) if line and not line.startswith(comment))


def code(source):
    """The lines that are left without contracts and ghost lines, each of which may go on until its braces are closed."""
    depth = 0
    for line in source:
        ghost = depth > 0 or GHOST.match(line)
        if ghost:
            depth += line.count('{') - line.count('}')
        else:
            yield line


def believed():
    """How many lines of each crate's definitions a reader has to believe."""
    book = believe.Book()
    believe.contracts(book)
    believe.theorems(book)
    lines_of = collections.Counter()
    for place in book.reached:
        lines_of[place[0]] += believe.counted(book, [place])
    return lines_of


def seconds_of(log):
    """The seconds of each crate's check, and of its edits together, as `rt ci` wrote them."""
    checks, edits = {}, collections.Counter()
    for line in log:
        check = re.match(r'^rt: ([a-z_]+) proved \((\d+) s\)', line)
        edit = re.match(r'^rt: must-fail ([a-z_]+)/\S+: refused.*?(\d+) s\)', line)
        if check:
            checks[check.group(1)] = int(check.group(2))
        if edit:
            edits[edit.group(1)] += int(edit.group(2))
    return checks, edits


def counts(crate, believes):
    def files(*pattern):
        return glob.glob(os.path.join(ROOT, 'crates', crate, *pattern), recursive=True)

    def antt(names):
        return len(list(lines(names, '--')))

    source = list(code(lines(files('src', '**', '*.rt'), '//')))
    functions = [line for line in source if re.match(r'(pub )?(extern "C" )?fn ', line)]
    return [len(source), antt(files('specs', '**', '*.antt')), believes[crate], antt(files('proofs', '*.antt')), antt(files('proofs', '*', '**', 'Invariants.antt') + files('proofs', '*', '**', 'Answers.antt') + files('proofs', '*', '**', 'Proof.antt')),
            len(functions), len(files('must-fail', '*.edit'))]


def row(cells):
    print('| ' + ' | '.join(map(str, cells)) + ' |')


def main():
    checks, edits = seconds_of(open(sys.argv[1], encoding='utf-8', errors='replace') if sys.argv[1:] else [])
    believes = believed()
    row(HEADS)
    print('|---' + '|--:' * (len(HEADS) - 1) + '|')
    table = []
    for crate in crates():
        table.append(counts(crate, believes))
        row(['`%s`' % crate, checks.get(crate, ''), edits.get(crate, '')] + table[-1])
    row(['all', sum(checks.values()) or '', sum(edits.values()) or ''] + [sum(column) for column in zip(*table)])


if __name__ == '__main__':
    main()
