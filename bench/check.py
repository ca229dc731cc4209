#!/usr/bin/env python3
"""Times the check of images by their length.

    bench/check.py [--reference DIR] [--seconds S] [--archive FILE]

Builds the archive by `tools/archive.sh capi` (or takes FILE) and the program of bench/check.c over it, and checks images at 1, 2 and 4 times a length: of constants, of jumps, of
other instructions, and a program of DIR/reference.py's translator (default tests/reference) whose rules stand there once, twice and four times, with no
ERE and with one. Each is checked over and over for S seconds (default 1), and the least time counts. Writes a table: bytes, nanoseconds for a check and for a byte,
how many times as long as the first of its row, images and million bytes for a second.
Debian packages: gcc, libc6-dev.
"""
import argparse
import os
import subprocess
import sys
import tempfile

sys.path.insert(0, os.path.join(os.path.dirname(os.path.dirname(os.path.abspath(__file__))), 'tests'))
import building  # noqa: E402
import image_cases  # noqa: E402

TIMES = (1, 2, 4)
COUNT = 100
RULES = '$4 != "scaled" { $2 = $2 * $3; $4 = "scaled" } { n = n + $2; if (n > 1000) { print $1, $2; n = 0 } }\n'
MATCHED = '$1 ~ /^port(0[1-9]|1[0-9])$/ { print $1, $2 }\n'


def arguments():
    parser = argparse.ArgumentParser()
    parser.add_argument('--reference', default=building.REFERENCE)
    parser.add_argument('--seconds', type=float, default=1)
    parser.add_argument('--archive')
    return parser.parse_args()


def constants(k):
    return image_cases.assembled(0, [b'x' * 512] * (16 * k), [], [[image_cases.END]] * 3)


def jumps(k):
    n = 255 * k
    return image_cases.assembled(0, [], [], [[(27, 0, i + 1) for i in range(n)] + [image_cases.END]] * 3)


def pushes(k):
    return image_cases.assembled(0, [7], [], [[(1, 0, 0), (6, 1)] * (127 * k) + [image_cases.END]] * 3)


def translated(text):
    def image(k):
        import reference
        outcome, _, made = reference.translate(text(k).encode())
        if outcome:
            sys.exit('check.py: the translator refuses the program')
        return made
    return image


ROWS = [('text constants', constants), ('jumps', jumps), ('constants and drops', pushes), ('a program', translated(lambda k: RULES * (4 * k))),
        ('a program with an ERE', translated(lambda k: RULES * (4 * k) + MATCHED))]


def measured(program, directory, seconds, images):
    """Nanoseconds for a check of each image."""
    names = []
    for i, image in enumerate(images):
        names.append(os.path.join(directory, str(i)))
        with open(names[-1], 'wb') as f:
            f.write(image)
    out = subprocess.run([program, str(COUNT), str(seconds), *names], check=True, capture_output=True, text=True).stdout
    lines = [tuple(map(int, line.split())) for line in out.splitlines()]
    if any(outcome for outcome, _ in lines):
        sys.exit('check.py: an image fails the check')
    return [least / COUNT for _, least in lines]


def main():
    options = arguments()
    sys.path.insert(0, options.reference)
    sys.dont_write_bytecode = True
    print('| images of | bytes | ns a check | ns a byte | times the first | thousand images a second | million bytes a second |')
    print('|---|--:|--:|--:|--:|--:|--:|')
    with tempfile.TemporaryDirectory() as directory:
        program = building.program('bench', 'check', directory, options.archive or building.archive('capi'))
        for name, made in ROWS:
            images = [made(k) for k in TIMES]
            times = measured(program, directory, options.seconds, images)
            for image, ns in zip(images, times):
                print('| %s | %d | %.0f | %.2f | %.2f | %.1f | %.1f |' % (name, len(image), ns, ns / len(image), ns / times[0], 1e6 / ns, len(image) * 1e3 / ns))


main()
