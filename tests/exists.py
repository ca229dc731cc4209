#!/usr/bin/env python3
"""Compares prepared_exists, of the archive of `bench_ere`, with a reference, on random cases. tests/archive.py says how it is called.

Before that it times 512 bytes of `a` against `(a|aa)*b`, which must take at most 20 microseconds.
"""
import struct
import subprocess
import sys

import archive

MOST = 20000


def draw(r, gen, reference):
    ere, text = gen.ere(r), gen.text(r)[:512]
    outcome, start, _ = reference.match(ere, text)
    return (ere, text), (2 if outcome else int(start > 0),)


def packed(case):
    ere, text = case
    return struct.pack('<II', len(ere), len(text)) + ere + text


def kinds_of(_, expected):
    yield ('no match', 'a match', 'no ERE')[expected[0]]


def timed(program):
    took = int(subprocess.run([program, 'hostile'], check=True, stdout=subprocess.PIPE).stdout)
    print('(a|aa)*b on 512 bytes of `a`: %.1f microseconds' % (took / 1000))
    if took > MOST:
        sys.exit('that is over %d' % (MOST // 1000))


archive.compare('exists', draw, packed, kinds_of, lambda case: 'ERE %r, text %r' % case, crate='bench_ere', first=timed)
