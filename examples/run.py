#!/usr/bin/env python3
"""Builds and runs every example of this folder, and compares what it writes with what is expected.

    examples/run.py [--program FILE] [--archive FILE]

The filters run by the program ./flowawk, or FILE. The archive for C, Python and Rust is built by `tools/archive.sh capi`, or is FILE; the programs are built in a temporary directory.
Rust's example is left out where there is no rustc. The status is 1 if an example fails.
"""
import argparse
import os
import shutil
import subprocess
import sys
import tempfile

HERE = os.path.dirname(os.path.abspath(__file__))
ROOT = os.path.dirname(HERE)
FILTERS = os.path.join(HERE, 'filters')
CC = os.environ.get('CC', 'cc')
# arguments of the demonstrations: a filter and lines
GIVEN = [os.path.join(FILTERS, 'ratio.awk'), os.path.join(FILTERS, 'flows.txt')]


def content(name):
    with open(name, 'rb') as f:
        return f.read()


def written(words, **more):
    """What a command writes to standard output."""
    return subprocess.run(words, stdout=subprocess.PIPE, check=True, **more).stdout


def archive():
    subprocess.run([os.path.join(ROOT, 'tools', 'archive.sh'), 'capi'], check=True, stdout=subprocess.DEVNULL)
    return os.path.join(ROOT, 'target', 'staticlib', 'libcapi.a')


def filter_output(program, name, lines):
    return written([program, '-f', os.path.join(FILTERS, name + '.awk'), lines])


def filters(program, directory):
    """The filters over the flow lines; the ratio filter also over its own output, as text and as an image."""
    lines = os.path.join(FILTERS, 'flows.txt')
    for name in ('ratio', 'member', 'ports', 'totals'):
        yield name + '.awk', filter_output(program, name, lines), content(os.path.join(FILTERS, name + '.expected'))
    scaled = os.path.join(FILTERS, 'ratio.expected')
    yield 'ratio.awk on its own output', filter_output(program, 'ratio', scaled), content(scaled)
    image = os.path.join(directory, 'ratio.img')
    subprocess.run([program, '-o', image, '-f', os.path.join(FILTERS, 'ratio.awk')], check=True)
    subprocess.run([program, '--check', image], check=True)
    yield 'ratio.awk as an image', written([program, '-i', image, lines]), content(scaled)
    yield 'ratio.awk as an image, on its own output', written([program, '-i', image, scaled]), content(scaled)


def c_program(name, library, directory):
    made = os.path.join(directory, name)
    subprocess.run([CC, '-std=c99', '-O2', '-Wall', '-Wextra', '-Werror', '-I', os.path.join(ROOT, 'include'), os.path.join(HERE, 'c', name + '.c'),
                    library, '-o', made], check=True)
    return made


def languages(library, directory):
    """The same demonstration in C, Python and Rust; small rooms in C."""
    expected = content(os.path.join(HERE, 'demo.expected'))
    yield 'c/demo.c', written([c_program('demo', library, directory)] + GIVEN), expected
    yield 'c/rooms.c', written([c_program('rooms', library, directory)]), content(os.path.join(HERE, 'c', 'rooms.expected'))
    shared = os.path.join(directory, 'libflowawk.so')
    subprocess.run([CC, '-shared', '-o', shared, '-Wl,--whole-archive', library, '-Wl,--no-whole-archive'], check=True)
    yield 'python/demo.py', written([sys.executable, os.path.join(HERE, 'python', 'demo.py'), shared] + GIVEN), expected
    if shutil.which('rustc'):
        made = os.path.join(directory, 'rust_demo')
        subprocess.run(['rustc', '-O', '-D', 'warnings', os.path.join(HERE, 'rust', 'demo.rs'), '-C', 'link-arg=' + library, '-o', made], check=True)
        yield 'rust/demo.rs', written([made] + GIVEN), expected
    else:
        print('examples/rust/demo.rs: left out, there is no rustc')


def main():
    parser = argparse.ArgumentParser()
    parser.add_argument('--program', default=os.path.join(ROOT, 'flowawk'))
    parser.add_argument('--archive')
    options = parser.parse_args()
    library = os.path.abspath(options.archive) if options.archive else archive()
    failed = count = 0
    with tempfile.TemporaryDirectory() as directory:
        for cases in (filters(os.path.abspath(options.program), directory), languages(library, directory)):
            for name, got, expected in cases:
                count += 1
                if got != expected:
                    failed += 1
                    print('examples/%s: expected %r, got %r' % (name, expected, got))
    print('examples: %d run, %d failed' % (count, failed))
    sys.exit(1 if failed else 0)


if __name__ == '__main__':
    main()
