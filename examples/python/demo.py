#!/usr/bin/env python3
"""Translates a filter once, checks its image, runs it with a budget, and reads a refusal.

    demo.py LIBRARY FILTERFILE LINES
"""
import sys

sys.dont_write_bytecode = True
import flowawk


def content(name):
    with open(name, 'rb') as f:
        return f.read()


def say(what, a):
    print('%s: outcome %d, %d records, %d steps, %d bytes' % (what, a.outcome, a.records, a.steps, len(a.output)))


def main():
    if len(sys.argv) != 4:
        sys.exit(__doc__)
    library = flowawk.Library(sys.argv[1])
    lines = content(sys.argv[3])
    image = library.translate(content(sys.argv[2]))
    print('image: %d bytes, check %d' % (len(image), library.check(image)))
    first = library.run(image, lines, 1000000)
    say('run', first)
    print(first.output.decode('ascii'), end='')
    second = library.run(image, first.output, 1000000)
    say('again', second)
    print('the same lines' if second.output == first.output else 'other lines')
    say('budget 50', library.run(image, lines, 50))
    try:
        library.translate(b'$2 > 1000 {\n    print $1,\n}\n')
    except flowawk.Refused as refused:
        print('refused: %s' % refused)


if __name__ == '__main__':
    main()
