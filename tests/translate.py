#!/usr/bin/env python3
"""Compares flowawk_translate with a reference, on random texts. tests/archive.py says how it is called.

A case is a text and the size of the image room, which holds something else before. Compared are the outcome, the place and the whole room, by a
hash. With --programs FOLDER.. each file of the folders is a text too: the test programs of other awks, of which document 01 accepts some.
"""
import os
import struct
import sys

import archive
import filter_texts

ROOM = 1 << 16


def programs():
    """The files of the folders after --programs, which are taken from the command line."""
    if '--programs' not in sys.argv:
        return []
    at = sys.argv.index('--programs')
    folders, sys.argv[at:] = sys.argv[at + 1:], []
    names = [os.path.join(where, name) for folder in folders for where, _, names in os.walk(folder) for name in names]
    return [open(name, 'rb').read() for name in sorted(names)]


GIVEN = programs()


def room_for(r, outcome, length):
    if outcome:
        return r.choice([0, 50, 300])
    return r.choice([1 << 12, length, length, length + 1, max(0, length - 1), 0, r.randrange(300)])


def draw(r, gen, reference):
    text = GIVEN.pop() if GIVEN else filter_texts.draw(r, gen)
    outcome, place, image = reference.translate(text)
    room = room_for(r, outcome, place)
    if outcome == 0 and room < place:
        outcome, place, image = 7, len(text), b''
    return (text, room), (outcome, place, archive.hashed(image + b'\xa5' * (room - len(image))))


def packed(case):
    text, room = case
    return struct.pack('<II', len(text), room) + text


def kinds_of(case, expected):
    yield 'outcome %d' % expected[0]
    if expected[0] == 0 and case[1] == expected[1]:
        yield 'room just enough'


def shown(case):
    return 'text %r, image room %d' % case


archive.compare('translate', draw, packed, kinds_of, shown)
