#!/usr/bin/env python3
"""Times runs of filters against the awks, in one run.

    bench/run.py [--reference DIR] [--lines N] [--runs R] [--archive FILE]

Builds the archive by `tools/archive.sh capi` (or takes FILE) and the program of bench/run.c over it; writes N flow lines (default 500,000) of
DIR/flows.py (default tests/reference) to a file, and lines of other shapes; translates each filter by DIR/reference.py; and runs the image and
each awk R times (default 9) in turn. Writes a table of the least processor times: of the whole process, and of the run alone; and in brackets
how much of the awk's time ours takes. Then how the time of a run grows with the lines (1, 2 and 4 times), and with the steps.
Debian packages: gcc, libc6-dev, mawk, gawk, original-awk, busybox. An awk that isn't there is left out.
"""
import argparse
import os
import resource
import shutil
import subprocess
import sys
import tempfile

sys.path.insert(0, os.path.join(os.path.dirname(os.path.dirname(os.path.abspath(__file__))), 'tests'))
import building  # noqa: E402

AWKS = {'mawk': ['mawk'], 'gawk': ['gawk'], 'original-awk': ['original-awk'], 'busybox': ['busybox', 'awk']}
FILTERS = {
    'p1': '$4 != "scaled" { $2 = $2 * $3; $4 = "scaled" } { print }',
    'p2': '/(tcp|udp) (443|80)$/ && $2 > 1000000 { n = n + 1; s = s + $2 } END { print n, s }',
    'p3': '{ print $1, $2 }',
    'p4': 'BEGIN { FS = "[ .-]+" } $2 ~ /^port(0[1-9]|1[0-9])$/ { print $1, NF, substr($0, index($0, "tcp"), 3) }',
    '8 EREs': '/tcp/ { a = a + 1 } /udp/ { b = b + 1 } /443$/ { c = c + 1 } /^member1/ { d = d + 1 } /raw/ { e = e + 1 } /scaled/ { f = f + 1 } '
              '/port0[1-4]/ { g = g + 1 } /192\\.0\\.2\\./ { h = h + 1 } END { print a, b, c, d, e, f, g, h }',
    'match()': 'match($0, /port[0-9]+/) { n = n + RSTART + RLENGTH } END { print n }',
}


def arguments():
    parser = argparse.ArgumentParser()
    parser.add_argument('--reference', default=building.REFERENCE)
    parser.add_argument('--lines', type=int, default=500000)
    parser.add_argument('--runs', type=int, default=9)
    parser.add_argument('--archive')
    return parser.parse_args()


def used():
    spent = resource.getrusage(resource.RUSAGE_CHILDREN)
    return spent.ru_utime + spent.ru_stime


def timed(words, output=None):
    """The processor time of a process, and what it wrote to standard error."""
    start = used()
    with open(output or os.devnull, 'wb') as out:
        said = subprocess.run(words, stdout=out, stderr=subprocess.PIPE, check=True, env=dict(os.environ, LC_ALL='C')).stderr.decode()
    return used() - start, said


class Bench:
    def __init__(self, options, directory):
        sys.path.insert(0, options.reference)
        sys.dont_write_bytecode = True
        import reference
        self.reference, self.runs, self.directory = reference, options.runs, directory
        self.program = building.program('bench', 'run', directory, options.archive or building.archive('capi'))
        self.awks = {name: words for name, words in AWKS.items() if shutil.which(words[0])}

    def path(self, name):
        return os.path.join(self.directory, name)

    def image(self, text):
        outcome, place, made = self.reference.translate(text.encode())
        if outcome:
            sys.exit('run.py: %r is refused with %d at %d' % (text, outcome, place))
        with open(self.path('image'), 'wb') as f:
            f.write(made)
        return self.path('image')

    def ours(self, image, lines):
        whole, said = timed([self.program, image, lines, self.path('ours')])
        outcome, steps, alone = said.split()
        if outcome != '0':
            sys.exit('run.py: a run ends with outcome %s' % outcome)
        return whole, float(alone), int(steps)

    def row(self, title, text, lines):
        """The least times of all, in turn."""
        image, least = self.image(text), {}
        for _ in range(self.runs):
            whole, alone, _ = self.ours(image, lines)
            times = {'ours': whole, 'the run alone': alone}
            for name, words in self.awks.items():
                times[name], _ = timed(words + [text, lines], self.path(name))
            least = {name: min(t, least.get(name, t)) for name, t in times.items()}
        cells = ['%.3f' % least['ours'], '%.3f' % least['the run alone']]
        cells += ['%.3f (%.2f, alone %.2f)' % (least[a], least['ours'] / least[a], least['the run alone'] / least[a]) for a in self.awks]
        print('| %s | ' % title + ' | '.join(cells) + ' |', flush=True)

    def growth(self, lines, count):
        for times in (1, 2, 4):
            with open(lines) as f, open(self.path('more'), 'w') as out:
                text = f.read()
                for _ in range(times):
                    out.write(text)
            image = self.image(FILTERS['p3'])
            alone = min(self.ours(image, self.path('more'))[1] for _ in range(self.runs))
            print('%d lines: %.3f s, %.1f ns a line' % (times * count, alone, alone / times / count * 1e9))
        for n in (10, 20, 40):
            image = self.image('{ ' + 'n = n + 1; ' * n + '}')
            _, alone, steps = min(self.ours(image, lines) for _ in range(self.runs))
            print('%d steps a line: %.3f s, %.2f ns a step' % (steps // count, alone, alone / steps * 1e9))


def main():
    options = arguments()
    with tempfile.TemporaryDirectory() as directory:
        bench = Bench(options, directory)
        flows = bench.path('flows')
        with open(flows, 'w') as f:
            subprocess.run([sys.executable, os.path.join(options.reference, 'flows.py'), str(options.lines)], stdout=f, check=True)
        shapes = {'short fields': 'a b c d e f g h 1 2 3 4\n', '400 bytes': 'x' * 380 + ' 12 scaled raw 1 2\n', 'commas': None}
        print('| filter | ours, s | the run alone | ' + ' | '.join(bench.awks) + ' |\n|---' * 1 + '|---' * (len(bench.awks) + 2) + '|')
        for name, text in FILTERS.items():
            bench.row(name, text, flows)
        for name, line in shapes.items():
            lines = bench.path('lines')
            with open(flows) as f, open(lines, 'w') as out:
                out.writelines(x.replace(' ', ',') if line is None else line for x in f)
            bench.row('p3, ' + name, FILTERS['p3'] if line is not None else 'BEGIN { FS = "," } ' + FILTERS['p3'], lines)
        bench.growth(flows, options.lines)


if __name__ == '__main__':
    main()
