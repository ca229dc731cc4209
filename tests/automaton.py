#!/usr/bin/env python3
"""Compares searches by the automata of an ERE, by its table and by a reference, on random cases. tests/archive.py says how it is called.

A case asks whether a text has a match, and for the leftmost longest match in the text from a place on, of at least 0 or 1 bytes. Half of the EREs are those
of gen.py; the others are words, and words with an anchor, a class or an alternative, and their texts are made of the words' bytes: these have ways of their
own. The tables are cleared before an ERE is read, and an automaton that doesn't fit counts as one kind.
"""
import collections
import random
import struct
import subprocess
import sys
import tempfile

import archive
import building

BATCH = 5000
LETTERS = b'abct.'


def word(r):
    return bytes(r.choice(LETTERS[:r.choice((2, 4))]) for _ in range(r.randrange(1, 11)))


def near_word(r):
    w = b''.join(b'\\.' if b == 46 else bytes([b]) for b in word(r))
    form = r.randrange(8)
    return {0: w, 1: w + b'$', 2: b'^' + w, 3: b'(%s|%s)$' % (w, word(r).replace(b'.', b'c')), 4: w + b'[a-c]', 5: b'^' + w + b'$', 6: w + b'?' + b'b$',
            7: w + b'(a|bb)'}[form]


def near_text(r):
    size = r.choice((r.randrange(20), r.randrange(40), r.randrange(200)))
    return bytes(r.choice(LETTERS[:r.choice((2, 4))]) for _ in range(size))


def draw(r, gen, reference):
    ere, text = (gen.ere(r), gen.text(r)[:512]) if r.random() < 0.5 else (near_word(r), near_text(r))
    at, least = (r.randrange(len(text) + 1) if r.random() < 0.5 else 0), r.randrange(2)
    node = reference._ere_node(bytes(ere))
    if node is None:
        return (ere, text, at, least), None
    matcher = reference._Matcher(node, text)
    span = matcher.first(at, least == 1)
    return (ere, text, at, least), (int(matcher.first() is not None), 0 if span is None else span[0] * 1024 + span[1] - span[0] + 1)


def packed(case):
    ere, text, at, least = case
    return struct.pack('<IIII', len(ere), len(text), at, least) + ere + text


def told(case, expected, line):
    """The kinds of a case, and whether its answers are right."""
    words = line.split()
    if expected is None or not words:
        return ['no ERE'], expected is None and not words
    wanted = [expected[0], expected[0], expected[1], expected[1]]
    kinds = ['a match' if expected[0] else 'no match', 'at 0' if case[2] == 0 else 'from a place on', 'least %d' % case[3]]
    kinds += ['no automaton'] * (words[1] == '-') + ['no automata of a search'] * (words[3] == '-')
    return kinds, all(got == '-' and k % 2 or got == str(want) for k, (got, want) in enumerate(zip(words, wanted)))


def main():
    options = archive.arguments()
    sys.path.insert(0, options.reference)
    sys.dont_write_bytecode = True
    import gen
    import reference
    r, kinds, wrong = random.Random(options.seed), collections.Counter(), []
    with tempfile.TemporaryDirectory() as directory:
        checks = ['-fsanitize=address'] if options.sanitize else []
        program = building.program('tests', 'automaton', directory, options.archive or building.archive('bench_ere'), *checks)
        for done in range(0, options.cases, BATCH):
            drawn = [draw(r, gen, reference) for _ in range(min(BATCH, options.cases - done))]
            out = subprocess.run([program], input=b''.join(packed(case) for case, _ in drawn), stdout=subprocess.PIPE, check=True).stdout.decode()
            lines = out.split('\n')[:-1]
            if len(lines) != len(drawn):
                sys.exit('automaton: %d answers to %d cases' % (len(lines), len(drawn)))
            for (case, expected), line in zip(drawn, lines):
                kind, right = told(case, expected, line)
                kinds.update(kind)
                if not right:
                    wrong.append('ERE %r, text %r, at %d, least %d: expected %r, got %r' % (*case, expected, line))
            reference._ere_cache.clear()
    print('%d cases, seed %d: %s' % (options.cases, options.seed, ', '.join('%s %d' % pair for pair in sorted(kinds.items()))))
    print(''.join(line + '\n' for line in wrong[:10]) + '%d disagreements' % len(wrong))
    sys.exit(1 if wrong else 0)


main()
