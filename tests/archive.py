"""Compares C functions of an archive with a reference, on random cases: what the scripts that call the archive share.

    tests/NAME.py [--reference DIR] [--cases N] [--seed S] [--archive FILE] [--sanitize]

builds the archive by `tools/archive.sh capi` (tests/exists.py: `bench_ere`; or takes FILE) and, in a temporary directory, the program of tests/NAME.c over it; draws N cases (default
100,000) with DIR/gen.py, from the seed S (default 1); compares each answer with that of DIR/reference.py (default
tests/reference). Writes how many cases there were of each kind, and each disagreement (at most ten). The status is 1 if there is one. With
--sanitize the C program, not the archive, is built with the compiler's address checks.
"""
import argparse
import collections
import os
import random
import subprocess
import sys
import tempfile

import building

BATCH = 5000


def arguments():
    parser = argparse.ArgumentParser()
    parser.add_argument('--reference', default=building.REFERENCE)
    parser.add_argument('--cases', type=int, default=100000)
    parser.add_argument('--seed', type=int, default=1)
    parser.add_argument('--archive')
    parser.add_argument('--sanitize', action='store_true')
    return parser.parse_args()


def answers(program, cases, packed):
    """The program's answer to each case."""
    run = subprocess.run([program], input=b''.join(map(packed, cases)), stdout=subprocess.PIPE, check=True)
    lines = run.stdout.decode().splitlines()
    if len(lines) != len(cases):
        sys.exit('%s: %d answers to %d cases' % (os.path.basename(program), len(lines), len(cases)))
    return [tuple(map(int, line.split())) for line in lines]


def hashed(data):
    """FNV-1a, 64 bits."""
    h = 0xcbf29ce484222325
    for b in data:
        h = (h ^ b) * 0x100000001b3 % 2 ** 64
    return h


def compare(name, draw, packed, kinds_of, shown, crate='capi', first=None):
    """draw(r, gen, reference) gives a case and the answer that is expected, packed(case) the program's input, kinds_of(case, expected) what the case
    shows, shown(case) its text. The archive is that of the crate; first(program) is done before the cases."""
    options = arguments()
    sys.path.insert(0, options.reference)
    sys.dont_write_bytecode = True
    import gen
    import reference
    r = random.Random(options.seed)
    kinds, wrong = collections.Counter(), []
    with tempfile.TemporaryDirectory() as directory:
        checks = ['-fsanitize=address'] if options.sanitize else []
        program = building.program('tests', name, directory, options.archive or building.archive(crate), *checks)
        if first:
            first(program)
        for done in range(0, options.cases, BATCH):
            drawn = [draw(r, gen, reference) for _ in range(min(BATCH, options.cases - done))]
            for (case, expected), got in zip(drawn, answers(program, [case for case, _ in drawn], packed)):
                kinds.update(kinds_of(case, expected))
                if got != expected:
                    wrong.append('%s: expected %r, got %r' % (shown(case), expected, got))
    print('%d cases, seed %d: %s' % (options.cases, options.seed, ', '.join('%s %d' % pair for pair in sorted(kinds.items()))))
    print(''.join(line + '\n' for line in wrong[:10]) + '%d disagreements' % len(wrong))
    sys.exit(1 if wrong else 0)
