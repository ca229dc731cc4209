#!/usr/bin/env python3
"""Compares flowawk_match with a reference, on random cases. tests/archive.py says how it is called."""
import struct

import archive


def draw(r, gen, reference):
    ere, text = gen.ere(r), gen.text(r)
    return (ere, text), reference.match(ere, text)


def packed(case):
    ere, text = case
    return struct.pack('<II', len(ere), len(text)) + ere + text


def kinds_of(case, expected):
    outcome, start, _ = expected
    yield 'outcome %d' % outcome if outcome else 'a match' if start else 'no match'


archive.compare('match', draw, packed, kinds_of, lambda case: 'ERE %r, text %r' % case)
