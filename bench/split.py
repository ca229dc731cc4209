#!/usr/bin/env python3
"""Times the counting of fields against mawk and gawk, in one run.

    bench/split.py [--reference DIR] [--lines N] [--runs R] [--archive FILE]

Builds the archive by `tools/archive.sh capi` (or takes FILE) and the program of bench/split.c over it; writes N flow lines (default 2,000,000) of
DIR/flows.py (default tests/reference) to a file, once with blanks and once with commas between their fields; and counts
the fields of all lines by the program and by each awk (`{ n = n + NF } END { print n }`), R times (default 15) in turn. Writes a table of the least times:
of the whole process, and with the least time of the same program that only counts lines (awk: `END { print NR }`) taken off; as million fields for a second,
and in brackets how many times as long as ours the others take. All counts must be the same.
Debian packages: gcc, libc6-dev, mawk, gawk. An awk that isn't there is left out.
"""
import argparse
import os
import shutil
import subprocess
import sys
import tempfile
import time

sys.path.insert(0, os.path.join(os.path.dirname(os.path.dirname(os.path.abspath(__file__))), 'tests'))
import building  # noqa: E402

AWKS = ['mawk', 'gawk']
SEPARATORS = [('blanks', ' '), ('`,`', ',')]


def arguments():
    parser = argparse.ArgumentParser()
    parser.add_argument('--reference', default=building.REFERENCE)
    parser.add_argument('--lines', type=int, default=2000000)
    parser.add_argument('--runs', type=int, default=15)
    parser.add_argument('--archive')
    return parser.parse_args()


def write_lines(path, lines, separator):
    with open(path, 'w') as f:
        f.writelines(line.replace(' ', separator) for line in lines)


def commands(program, awks, separator):
    """For each program, by its name: the words that count fields, and those that count lines alone."""
    found = {'ours': ([program, separator], [program])}
    for awk in awks:
        found[awk] = ([awk, '-F', separator, '{ n = n + NF } END { print n }'], [awk, '-F', separator, 'END { print NR }'])
    return found


def seconds(words, path):
    with open(path) as f:
        start = time.monotonic()
        out = subprocess.run(words, stdin=f, check=True, capture_output=True, env=dict(os.environ, LC_ALL='C')).stdout
    return time.monotonic() - start, int(out)


def measured(found, path, lines, runs):
    """For each program: the number of fields, and the least seconds of counting them, and of counting lines. The programs take turns."""
    counts, times = {}, {name: ([], []) for name in found}
    for _ in range(runs):
        for name, (split, read) in found.items():
            whole, counts[name] = seconds(split, path)
            reading, seen = seconds(read, path)
            if seen != lines:
                sys.exit('split.py: %s counts %d lines, not %d' % (name, seen, lines))
            times[name][0].append(whole)
            times[name][1].append(reading)
    if len(set(counts.values())) > 1:
        sys.exit('split.py: the counts differ: %s' % counts)
    return counts['ours'], {name: (min(whole), min(reading)) for name, (whole, reading) in times.items()}


def row(title, fields, times):
    ours = times['ours']
    cells = ['%.1f' % (fields / t / 1e6) + ('' if name == 'ours' else ' (x %.1f)' % (t / ours)) for name, t in times.items()]
    print('| %s | ' % title + ' | '.join(cells) + ' |')


def main():
    options = arguments()
    sys.path.insert(0, options.reference)
    sys.dont_write_bytecode = True
    import flows
    awks = [awk for awk in AWKS if shutil.which(awk)]
    lines = list(flows.flows(options.lines))
    library = options.archive or building.archive('capi')
    print('%d lines, %.1f bytes each without the newline' % (len(lines), sum(map(len, lines)) / len(lines) - 1))
    print('| million fields for a second | ours | ' + ' | '.join(awks) + ' |\n|---|--:|' + '--:|' * len(awks))
    with tempfile.TemporaryDirectory() as directory:
        path = os.path.join(directory, 'lines')
        program = building.program('bench', 'split', directory, library)
        for title, separator in SEPARATORS:
            write_lines(path, lines, separator)
            fields, times = measured(commands(program, awks, separator), path, len(lines), options.runs)
            row(title + ', whole process', fields, {name: whole for name, (whole, _) in times.items()})
            row(title + ', reading taken off', fields, {name: whole - reading for name, (whole, reading) in times.items()})


main()
