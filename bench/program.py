#!/usr/bin/env python3
"""Times the program against the awks on whole command lines, in one run.

    bench/program.py [--program FILE] [--lines N] [--runs R]

Writes N flow lines (default 500,000) of tests/reference/flows.py to a file, and runs the filters p1 to p4 of bench/run.py over it, by ./flowawk (or FILE) and by each awk, R times (default 9) in turn,
standard output to a file. Writes a table of the least processor times of the whole process, which translates, reads and writes too, and in brackets how much of the awk's time ours takes. Where gawk
is installed, p1 to p3 must write what it writes; p4 asks for the part of a text from place 0 on, of which gawk gives a byte more than the rules do.
"""
import argparse
import filecmp
import os
import shutil
import subprocess
import sys
import tempfile

import run

sys.path.insert(0, os.path.join(os.path.dirname(os.path.dirname(os.path.abspath(__file__))), 'tests'))
import building  # noqa: E402

NAMES = ['p1', 'p2', 'p3', 'p4']
SAME_AS_GAWK = ['p1', 'p2', 'p3']


def main():
    parser = argparse.ArgumentParser()
    parser.add_argument('--program', default=os.path.join(building.ROOT, 'flowawk'))
    parser.add_argument('--lines', type=int, default=500000)
    parser.add_argument('--runs', type=int, default=9)
    options = parser.parse_args()
    programs = {'ours': [os.path.abspath(options.program)]}
    programs.update({name: words for name, words in run.AWKS.items() if shutil.which(words[0])})
    subprocess.run(programs['ours'] + ['-V'], stdout=subprocess.DEVNULL, check=True)
    print('| filter, s | ' + ' | '.join(programs) + ' |\n' + '|---' * (len(programs) + 1) + '|')
    with tempfile.TemporaryDirectory() as directory:
        lines = os.path.join(directory, 'lines')
        with open(lines, 'w') as f:
            subprocess.run([sys.executable, os.path.join(building.REFERENCE, 'flows.py'), str(options.lines)], stdout=f, check=True)
        for filter_name in NAMES:
            least = {}
            for _ in range(options.runs):
                for name, words in programs.items():
                    spent, _ = run.timed(words + [run.FILTERS[filter_name], lines], os.path.join(directory, name))
                    least[name] = min(spent, least.get(name, spent))
            if filter_name in SAME_AS_GAWK and 'gawk' in programs and \
                    not filecmp.cmp(os.path.join(directory, 'ours'), os.path.join(directory, 'gawk'), shallow=False):
                sys.exit('program.py: %s: not what gawk writes' % filter_name)
            cells = ['%.3f' % least['ours']] + ['%.3f (%.2f)' % (least[name], least['ours'] / least[name]) for name in programs if name != 'ours']
            print('| %s | ' % filter_name + ' | '.join(cells) + ' |', flush=True)


if __name__ == '__main__':
    main()
