#!/usr/bin/env python3
"""Compares flowawk_run with a reference, on random runs. tests/archive.py says how it is called.

A case is an image, lines, the sizes of the output room and of the working room, and a budget. Both rooms hold something else before the
run. Compared are the outcome, the three counts and the whole output room, by a hash; of a refusal that the working room is as it was.
"""
import struct

import archive
import whole_runs


def draw(r, gen, reference):
    case = whole_runs.draw_eres(r, reference) if r.random() < .1 else whole_runs.draw(r, gen, reference)
    image, lines, room, work, budget = case
    outcome, steps, records, out = reference.run(image, lines, room, min(budget, 10 ** 6), work)
    return case, (outcome, steps, records, len(out), archive.hashed(out + b'\xa5' * (room - len(out))), 1)


def packed(case):
    image, lines, room, work, budget = case
    return struct.pack('<IIIIQ', len(image), len(lines), room, work, budget) + image + lines


def kinds_of(case, expected):
    yield 'outcome %d' % expected[0]
    if expected[0] == 0 and case[4] == expected[1]:
        yield 'budget just enough'
    if expected[0] == 0 and case[2] == expected[3] and expected[3]:
        yield 'output just enough'


def shown(case):
    return 'image %r, lines %r, output %d, working room %d, budget %d' % case


archive.compare('run', draw, packed, kinds_of, shown)
