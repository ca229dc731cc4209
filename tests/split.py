#!/usr/bin/env python3
"""Compares flowawk_split and flowawk_field with a reference, on random cases. tests/archive.py says how it is called.

A case is a record, a separator and a field's number.
"""
import struct

import archive


def joined(r, fs):
    """A record of parts with bytes of the separator between them, now and then of about as many as there may be."""
    count = r.choice([126, 127, 128, 129, 130]) if r.random() < .2 else r.randrange(12)
    between = fs if 0 < len(fs) < 4 and r.random() < .7 else r.choice([b' ', b'\t', b', ', b',', b'a', b'x'])
    part = (lambda: r.choice([b'', b'a'])) if count > 12 else (lambda: bytes(r.choice(b'abc01 ,\t\n') for _ in range(r.randrange(4))))
    return between.join(part() for _ in range(count))


def record(r, gen, fs):
    k = r.randrange(5)
    return gen.record(r) if k < 2 else gen.text(r) if k == 2 else joined(r, fs)


def number(r, count):
    """A field's number: about the count, about the most that there are, inside, or large."""
    k = r.choice([0, 1, count - 1, count, count + 1, 128, 129, r.randrange(count + 1), r.randrange(count + 1), 1 << r.randrange(64), 2 ** 64 - 1])
    return max(k, 0)


def draw(r, gen, reference):
    fs = gen.separator(r)
    text = record(r, gen, fs)
    outcome, spans = reference.split_spans(text, fs)
    k = number(r, len(spans))
    return (text, fs, k), (outcome, len(spans), outcome, *reference.field(text, fs, k))


def packed(case):
    text, fs, k = case
    return struct.pack('<IIQ', len(text), len(fs), k) + text + fs


def kinds_of(case, expected):
    """What a case shows: its separator with its outcome, and where its number stands to the count."""
    _, fs, k = case
    separator = 'empty' if not fs else 'blank' if fs == b' ' else 'byte' if len(fs) == 1 else 'ERE'
    outcome, count = expected[:2]
    yield '%s, outcome %d' % (separator, outcome)
    if outcome == 0:
        yield 'field 0' if k == 0 else 'a field' if k < count else 'the last field' if k == count else 'one above' if k == count + 1 else 'far above'
        if count == 128:
            yield '128 fields'


archive.compare('split', draw, packed, kinds_of, lambda case: 'record %r, separator %r, field %d' % case)
