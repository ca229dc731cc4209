#!/usr/bin/env python3
"""Installs to an empty directory by `make install`, uses what is there, and uninstalls it.

    tests/install.py [--program FILE]

The installed program runs a filter; the C demonstration of examples/ is built with the flags of the installed pkg-config file, once against the shared library and once against the
archive; the man page is where man looks for it. After `make uninstall` no file is left. With --program, FILE takes the place of the program, which then isn't built. The
status is 1 if something fails.
"""
import argparse
import os
import shutil
import subprocess
import sys
import tempfile

import building

FILTERS = os.path.join(building.ROOT, 'examples', 'filters')
GIVEN = [os.path.join(FILTERS, 'ratio.awk'), os.path.join(FILTERS, 'flows.txt')]


def content(name):
    with open(name, 'rb') as f:
        return f.read()


def make(*words):
    subprocess.run(['make', '-s', '-C', building.ROOT, *words], check=True, stdout=subprocess.DEVNULL)


def written(words, **environment):
    return subprocess.run(words, check=True, stdout=subprocess.PIPE, env=dict(os.environ, **environment)).stdout


def files(directory):
    return sorted(os.path.relpath(os.path.join(where, name), directory) for where, _, names in os.walk(directory) for name in names)


def demonstrations(prefix, directory):
    """What the C demonstration writes, over the shared library and over the archive."""
    expected = content(os.path.join(building.ROOT, 'examples', 'demo.expected'))
    source = os.path.join(building.ROOT, 'examples', 'c', 'demo.c')
    library = os.path.join(prefix, 'lib')
    flags = ['-I' + os.path.join(prefix, 'include'), '-L' + library, '-lflowawk']
    if shutil.which('pkg-config'):
        flags = written(['pkg-config', '--cflags', '--libs', 'flowawk'], PKG_CONFIG_PATH=os.path.join(library, 'pkgconfig')).decode().split()
    made = os.path.join(directory, 'demo')
    cc = os.environ.get('CC', 'cc')
    subprocess.run([cc, '-std=c99', source, *flags, '-o', made], check=True)
    yield 'shared library', written([made] + GIVEN, LD_LIBRARY_PATH=library), expected
    subprocess.run([cc, '-std=c99', source, '-I' + os.path.join(prefix, 'include'), os.path.join(library, 'libflowawk.a'), '-o', made],
                   check=True)
    yield 'archive', written([made] + GIVEN), expected


def main():
    parser = argparse.ArgumentParser()
    parser.add_argument('--program')
    options = parser.parse_args()
    more = ['PROGRAM=' + os.path.abspath(options.program), 'BUILD='] if options.program else []
    failed = []
    with tempfile.TemporaryDirectory() as directory:
        prefix = os.path.join(directory, 'usr')
        make('install', 'PREFIX=' + prefix, *more)
        there = files(prefix)
        for name, got, expected in demonstrations(prefix, directory):
            if got != expected:
                failed.append(name)
        program = os.path.join(prefix, 'bin', 'flowawk')
        if written([program, '-f'] + GIVEN) != content(os.path.join(FILTERS, 'ratio.expected')):
            failed.append('program')
        if shutil.which('man') and b'FLOWAWK' not in written(['man', '-M', os.path.join(prefix, 'share', 'man'), 'flowawk'], MANPAGER='cat', PAGER='cat'):
            failed.append('man page')
        make('uninstall', 'PREFIX=' + prefix, *more)
        if files(prefix):
            failed.append('left behind: ' + ' '.join(files(prefix)))
        staged = os.path.join(directory, 'stage')
        make('install', 'PREFIX=/usr', 'DESTDIR=' + staged, *more)
        if files(os.path.join(staged, 'usr')) != there:
            failed.append('DESTDIR')
        if b'prefix=/usr\n' not in content(os.path.join(staged, 'usr', 'lib', 'pkgconfig', 'flowawk.pc')):
            failed.append('prefix of the pkg-config file')
    print('install: %d files, %d failed%s' % (len(there), len(failed), ''.join('\n  ' + name for name in failed)))
    sys.exit(1 if failed else 0)


if __name__ == '__main__':
    main()
