#!/usr/bin/env python3
"""Looks whether each must-fail edit can be made: its first line is a comment with the wrong answer that it names, and each of its `old:` lines is in its
file exactly once. What the prover says of an edit is `rt must-fail`'s; this takes a second.

    tests/edits.py

The status is 1 if an edit can't be made.
"""
import glob
import os
import sys

ROOT = os.path.dirname(os.path.dirname(os.path.abspath(__file__)))


def faults(path):
    """What is wrong with an edit."""
    with open(path, encoding='utf-8') as f:
        lines = f.read().split('\n')
    if not lines[0].startswith('# '):
        yield 'says nothing in its first line'
    text, changes = None, 0
    for line in lines:
        if line.startswith('file: '):
            name = os.path.join(os.path.dirname(os.path.dirname(path)), line[6:].strip())
            if not os.path.isfile(name):
                yield 'has no file %s' % line[6:]
                return
            with open(name, encoding='utf-8') as f:
                text = f.read()
        elif line.startswith('old: '):
            changes += 1
            found = text.count(line[5:]) if text is not None else 0
            if found != 1:
                yield '%d times in its file: %s' % (found, line[5:].strip())
    if not changes:
        yield 'changes nothing'


def main():
    edits = sorted(glob.glob(os.path.join(ROOT, 'crates', '*', 'must-fail', '*.edit')))
    wrong = ['%s: %s' % (os.path.relpath(path, ROOT), fault) for path in edits for fault in faults(path)]
    for line in wrong:
        print(line)
    print('%d edits, %d faults' % (len(edits), len(wrong)))
    sys.exit(1 if wrong else 0)


if __name__ == '__main__':
    main()
