#!/usr/bin/env python3
"""Counts how often a run compiles an ERE, and fails where that isn't what the order of preference says (docs/DECISIONS.md, "Runs").

    tests/pool.py [--reference DIR] [--archive FILE]

Builds the archive by `tools/archive.sh capi` (or takes FILE) and the program of bench/run.c over it; runs each filter below over 10 lines and over 30, under callgrind, and
counts the calls of the archive's function that compiles an ERE. What 20 lines more add is what the run compiles a line: nothing for EREs that have automata, and for one
that is alone without. Debian packages: gcc, libc6-dev, valgrind.
"""
import argparse
import os
import re
import subprocess
import sys
import tempfile

import building

COMPILE = 'ere::matching::compile'
LINE = b'member1 192.0.2.7 port03 tcp 443 raw 1234567 abcab\n'
USUAL = ['tcp', 'udp', '443$', '^member1', 'raw', 'scaled', 'port0[1-4]', r'192\.0\.2\.', 'port[0-9]+', '(tcp|udp) (443|80)', r'[0-9]+\.[0-9]+', 'a.*b.*c',
         '^[a-z]+[0-9]*', '(raw|scaled) [a-z]+', '[0-9][0-9][0-9]+', '(0[1-9]|1[0-9])$']
LARGE = ['(a|b)*a' + '(a|b)' * 7, '.*b' + '.' * 8 + '$', '[ab]*b' + '[ab]' * 9]


def has(eres):
    return ' '.join('/%s/ { n = n + 1 }' % e for e in eres)


def finds(eres):
    return ' '.join('match($0, /%s/) { n = n + RSTART }' % e for e in eres)


def both(eres):
    """Asks for each ERE both ways, where no record comes to."""
    return 'NR == 0 { ' + '; '.join('n = ($0 ~ /%s/); n = match($0, /%s/)' % (e, e) for e in eres) + ' } '


# What is asked, the filter, and how many EREs a line compiles
CASES = [
    ('16 EREs of ~', has(USUAL), 0),
    ('4 EREs of match()', finds(USUAL[:4]), 0),
    ('16 EREs of match()', finds(USUAL), 0),
    ('8 EREs of ~, the others of match()', has(USUAL[:8]) + ' ' + finds(USUAL[8:]), 0),
    ('8 EREs both ways', has(USUAL[:8]) + ' ' + finds(USUAL[:8]), 0),
    ('16 EREs both ways: those of ~', both(USUAL) + has(USUAL), 0),
    ('16 EREs both ways: the first 4 of match()', both(USUAL) + finds(USUAL[:4]), 0),
    ('16 EREs both ways: the last 2 of match()', both(USUAL) + finds(USUAL[14:]), 2),
    ('a large ERE alone', has(LARGE[:1]) + ' ' + finds(LARGE[:1]), 0),
    ('a large ERE and 15 usual ones', has(LARGE[:1]) + ' ' + has(USUAL[:8]) + ' ' + finds(USUAL[8:15]), 0),
    ('2 large EREs', has(LARGE[:2]), 2),
    ('3 large EREs and 13 usual ones', finds(LARGE) + ' ' + finds(USUAL[:13]), 3),
    ('EREs of all sections', 'BEGIN { match("abc", /b/) } ' + finds(USUAL[:8]) + ' END { match($0, /b+/); n = n + ($0 ~ /c/) }', 0),
]


def arguments():
    parser = argparse.ArgumentParser()
    parser.add_argument('--reference', default=building.REFERENCE)
    parser.add_argument('--archive')
    return parser.parse_args()


def calls(path):
    """How often callgrind saw the function that compiles an ERE called."""
    names, callee, count = {}, None, 0
    with open(path) as f:
        for line in f:
            named = re.match(r'c?fn=(\(\d+\))(?: (.*))?$', line)
            if named:
                names.setdefault(named.group(1), named.group(2))
            if line.startswith('cfn='):
                callee = names[named.group(1)]
            elif line.startswith('calls=') and callee == COMPILE:
                count += int(line[6:].split()[0])
    return count


def compiled(program, image, directory, lines):
    paths = [os.path.join(directory, name) for name in ('image', 'lines', 'output', 'calls')]
    for path, content in zip(paths, (image, LINE * lines)):
        with open(path, 'wb') as f:
            f.write(content)
    subprocess.run(['valgrind', '--tool=callgrind', '--callgrind-out-file=' + paths[3], program, *paths[:3]], check=True, stderr=subprocess.DEVNULL)
    return calls(paths[3])


def main():
    options = arguments()
    sys.path.insert(0, options.reference)
    sys.dont_write_bytecode = True
    import reference
    wrong = 0
    with tempfile.TemporaryDirectory() as directory:
        program = building.program('bench', 'run', directory, options.archive or building.archive('capi'))
        for title, text, expected in CASES:
            outcome, place, image = reference.translate(text.encode())
            if outcome:
                sys.exit('pool.py: %r is refused with %d at %d' % (text, outcome, place))
            few, more = (compiled(program, image, directory, n) for n in (10, 30))
            if few == 0:
                sys.exit('pool.py: no call of %s is seen' % COMPILE)
            wrong += more - few != 20 * expected
            print('%s: %d compiled in 10 lines, %.2f a line after that%s' % (title, few, (more - few) / 20, '' if more - few == 20 * expected else ', expected %d' % expected))
    sys.exit(1 if wrong else 0)


main()
