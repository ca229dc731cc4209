#!/usr/bin/env python3
"""Times the reading and the writing of images.

    bench/images.py [--reference DIR] [--seconds S] [--rounds R] [--archive FILE]..

Builds the archive by `tools/archive.sh capi` (or takes FILE, which may be given several times, to compare archives in one
run) and the program of bench/images.c over it, and reads and writes three images: a program of some 400 bytes and one
of some 10,000, by the translator of DIR/reference.py (default tests/reference), and an image of text constants. Each
goes on for S seconds (default 1) in each of R rounds (default 3), in which the archives take turns, and the least time
counts. Writes a table: the image's bytes and words, and the nanoseconds of a reading and of a writing for a byte.
Debian packages: gcc, libc6-dev.
"""
import argparse
import os
import random
import subprocess
import sys
import tempfile

sys.path.insert(0, os.path.join(os.path.dirname(os.path.dirname(os.path.abspath(__file__))), 'tests'))
import building  # noqa: E402
import image_cases  # noqa: E402

RULES = '$4 != "scaled" { $2 = $2 * $3; $4 = "scaled" } { n = n + $2; if (n > 1000) { print $1, $2; n = 0 } }\n'
MATCHED = '$1 ~ /^port(0[1-9]|1[0-9])$/ { print $1, $2 }\n'
STATEMENTS = ['n=n+$3*8;', 'if($2>9)n=0;', '$4=$2-n;', 'print $1,n;', 'm=substr($1,2,3);', 'if($1~/^port/)m=m+1;',
              'while(n>9)n=n-1;']
SENTENCE = 'the flow at this port was scaled up by its rate'


def arguments():
    parser = argparse.ArgumentParser()
    parser.add_argument('--reference', default=building.REFERENCE)
    parser.add_argument('--seconds', type=float, default=1)
    parser.add_argument('--rounds', type=int, default=3)
    parser.add_argument('--archive', action='append')
    return parser.parse_args()


def section(r, k):
    """The statements of a section: calculations, and every eighth a text."""
    def statement(i):
        return r.choice(STATEMENTS) if i % 8 else 'print "%s %d";' % (SENTENCE, 16 * k + i // 8)
    return '{' + ''.join(map(statement, range(128))) + '}'


def translated(text):
    import reference
    outcome, _, image = reference.translate(text.encode())
    if outcome:
        sys.exit('images.py: the translator refuses the program with %d' % outcome)
    return image


def images():
    """A name and an image's bytes."""
    r = random.Random(1)
    yield 'a program', translated(RULES * 3 + MATCHED * 3)
    yield 'a large program', translated('BEGIN %s\n%s\nEND %s\n' % tuple(section(r, k) for k in range(3)))
    yield 'text constants', image_cases.assembled(0, [b'x' * 512] * 20, [], [[image_cases.END]] * 3)


def measured(program, seconds, names):
    """For each image its bytes and words, and nanoseconds for a byte of a reading and of a writing."""
    out = subprocess.run([program, str(seconds), *names], check=True, capture_output=True, text=True).stdout
    for line in out.splitlines():
        size, words, reading, writing = map(int, line.split())
        yield size, words, reading / 1000, writing / 1000


def least(runs):
    """Of several runs the least times."""
    return [(of[0][0], of[0][1], min(t[2] for t in of), min(t[3] for t in of)) for of in zip(*runs)]


def main():
    options = arguments()
    sys.path.insert(0, options.reference)
    sys.dont_write_bytecode = True
    with tempfile.TemporaryDirectory() as directory:
        made = list(images())
        names = [os.path.join(directory, str(i)) for i in range(len(made))]
        for name, (_, image) in zip(names, made):
            with open(name, 'wb') as f:
                f.write(image)
        programs = []
        for i, archive in enumerate(options.archive or [building.archive('capi')]):
            folder = os.path.join(directory, 'of%d' % i)
            os.mkdir(folder)
            programs.append((archive, building.program('bench', 'images', folder, archive)))
        runs = [[list(measured(program, options.seconds, names)) for _, program in programs]
                for _ in range(options.rounds)]
    print('| archive | image of | bytes | words | read, ns a byte | write, ns a byte |')
    print('|---|---|--:|--:|--:|--:|')
    for i, (archive, _) in enumerate(programs):
        for (kind, _), row in zip(made, least([run[i] for run in runs])):
            print('| %s | %s | %d | %d | %.2f | %.2f |' % (os.path.basename(archive), kind, *row))


main()
