#!/usr/bin/env python3
"""Compares whole ways with a reference: a text is translated by flowawk_translate, and what it wrote is run by flowawk_run. tests/archive.py says how
it is called.

A case is a text, lines, the size of the output room and a budget. Compared are the outcome of the translation and its place, and of a run its
outcome, its three counts and the whole output room, by a hash.
"""
import struct

import archive
import filter_texts
import whole_runs


def draw(r, gen, reference):
    text = r.choice(whole_runs.FILTERS) if r.random() < .3 else filter_texts.draw(r, gen)
    lines, room, budget = whole_runs.lines(r, gen), r.choice([0, 40, 400, 4000]), r.choice([0, 5, 60, 2000, 20000])
    outcome, place, image = reference.translate(text)
    if outcome:
        return (text, lines, room, budget), (outcome, place, 0, 0, 0, 0, 0)
    ended, steps, records, out = reference.run(image, lines, room, budget)
    return (text, lines, room, budget), (0, place, ended, steps, records, len(out), archive.hashed(out + b'\xa5' * (room - len(out))))


def packed(case):
    text, lines, room, budget = case
    return struct.pack('<IIIQ', len(text), len(lines), room, budget) + text + lines


def kinds_of(case, expected):
    yield 'translation %d' % expected[0]
    if expected[0] == 0:
        yield 'run %d' % expected[2]


def shown(case):
    return 'text %r, lines %r, output %d, budget %d' % case


archive.compare('ways', draw, packed, kinds_of, shown)
