#!/usr/bin/env python3
"""Times the search of EREs against other libraries and the awks, in one run.

    bench/match.py [--archive FILE] [--include DIR] [--libraries DIR] [--crates DIR] [--rounds R]

Builds the archive by `tools/archive.sh bench_ere` (or takes FILE) and the program of bench/match.cc over it, with the libraries that it finds: the C
library's regexec, RE2, PCRE2 (both below DIR of --include and --libraries, or where the compiler looks), and Rust's regex (its sources below DIR of
--crates, by default Debian's /usr/share/cargo/registry). Ten EREs over texts made for them, 2,000 of 70 bytes or fields, or 20 of 512 bytes without a
match: whether there is a match, and the leftmost longest; and two separators, one after the other. In each of R rounds (default 3) all take their
turn, the libraries in one process; the least time counts. The awks do the same over the texts in an array, 4,000,000 texts at a time, by `~`, match() and
split(); the least time of the same loops with length() is taken off (processor times), so below some 5 ns their figures say nothing. The locale is C.
Writes tables: nanoseconds for a text, and in brackets how many times as long as ours. The answers of regexec, RE2 and the awks must be ours.
Debian packages: g++, libc6-dev, mawk, gawk, libre2-dev, libpcre2-dev, librust-regex-dev and cargo. What isn't there is left out.
"""
import argparse
import os
import random
import resource
import shutil
import subprocess
import sys
import tempfile

sys.path.insert(0, os.path.join(os.path.dirname(os.path.dirname(os.path.abspath(__file__))), 'tests'))
import building  # noqa: E402

AWKS = ['mawk', 'gawk']
LIMIT = 20
# texts that an awk is asked at a time
TEXTS = 4000000


def flow(r):
    """70 bytes: addresses, port, a rate with its mark, then protocol and service."""
    address = '.'.join(str(r.randrange(256)) for _ in range(4))
    mark = r.choice(['rate=scaled', 'rate=plain', 'ratio_1=scaled', 'load=raw'])
    head = '%s port%02d %s ' % (address, r.randrange(24), mark)
    tail = ' %s %s' % (r.choice(['tcp', 'udp', 'icmp']), r.choice(['443', '80', '8080', '53', '22']))
    words = 'abcdefgh ijklmnop qrstuvwx 0123456789 '
    middle = ''.join(r.choice(words) for _ in range(70 - len(head) - len(tail)))
    return head + middle + tail


def field(r):
    return r.choice(['port%02d' % r.randrange(24), 'tcp', 'rate=scaled', 'port', 'port123'])


def numeral(r):
    return r.choice(['%d' % r.randrange(10**9), '%d' % r.randrange(1000), 'tcp', '10.0.0.%d' % r.randrange(256), 'port80', '123x'])


def letters(r):
    return ''.join(r.choice('abab  c') for _ in range(70))


def commas(r):
    return '.'.join(str(r.randrange(256)) for _ in range(4)) + ',  ' + ', '.join(r.choice(['tcp', 'udp', '443', '8080', 'rate=scaled', 'alpha']) for _ in range(9))


def same(r):
    return 'a' * 512


def mixed(r):
    return ''.join(r.choice('abcdefgh ijklmnop 0123456789') for _ in range(512))


ERES = [('(tcp|udp) (443|80)$', flow), ('^port(0[1-9]|1[0-9])$', field), ('[A-Za-z0-9_]+=scaled', flow), ('a.*b.*c', flow), ('scaled', flow),
        ('^[0-9]+$', numeral), ('(a|b)*abb', letters), ('x*', flow), ('(a|aa)*b', same), ('(.*)(.*)x', mixed)]
SEPARATORS = [('[ .-]+', flow), ('[ .-]+', commas), (', *', flow), (', *', commas)]
TITLES = {'exists': 'whether there is a match', 'find': 'the leftmost longest match', 'split': 'separators'}


def compiles(directory, header, flags):
    path = os.path.join(directory, 'try.cc')
    with open(path, 'w') as f:
        f.write('#define PCRE2_CODE_UNIT_WIDTH 8\n#include <%s>\nint main() { return 0; }\n' % header)
    return subprocess.run(['c++', *flags, '-c', path, '-o', path + '.o'], capture_output=True).returncode == 0


def rust(directory, crates):
    """The archive of bench/match.rs, or none."""
    if not (shutil.which('cargo') and os.path.isdir(crates) and any(name.startswith('regex-1') for name in os.listdir(crates))):
        return None
    root = os.path.join(directory, 'rust')
    os.makedirs(os.path.join(root, '.cargo'))
    with open(os.path.join(root, 'Cargo.toml'), 'w') as f:
        f.write('[package]\nname = "others"\nversion = "0.0.0"\nedition = "2021"\n[lib]\npath = "%s"\ncrate-type = ["staticlib"]\n'
                '[dependencies]\nregex = "1"\n' % os.path.join(building.ROOT, 'bench', 'match.rs'))
    with open(os.path.join(root, '.cargo', 'config.toml'), 'w') as f:
        f.write('[source.crates-io]\nreplace-with = "local"\n[source.local]\ndirectory = "%s"\n' % crates)
    made = subprocess.run(['cargo', 'build', '--release', '--offline'], cwd=root, capture_output=True)
    return os.path.join(root, 'target', 'release', 'libothers.a') if made.returncode == 0 else None


def build(options, directory):
    archive = options.archive or building.archive('bench_ere')
    flags = ['-I' + options.include] if options.include else []
    words, made = list(flags), os.path.join(directory, 'match')
    links = ['-L' + options.libraries] if options.libraries else []
    if compiles(directory, 're2/re2.h', flags):
        words.append('-DWITH_RE2')
        links.append('-l:libre2.a')
    if compiles(directory, 'pcre2.h', flags):
        words.append('-DWITH_PCRE2')
        links.append('-l:libpcre2-8.a')
    others = options.rust or rust(directory, options.crates)
    if others:
        words.append('-DWITH_RUST')
        links += [others, '-ldl']
    subprocess.run(['c++', '-std=c++17', '-O2', '-Wall', *words, os.path.join(building.ROOT, 'bench', 'match.cc'), archive, *links, '-lpthread', '-o', made],
                   check=True)
    return made


def awk_seconds(awk, path, turns, what):
    """Processor time of so many turns over the texts, and the sum of what it adds."""
    text = '{ a[NR] = $0 } END { for (r = 0; r < %d; r++) for (i = 1; i <= NR; i++) n += %s; printf "%%d\\n", n }' % (turns, what)
    start = resource.getrusage(resource.RUSAGE_CHILDREN).ru_utime
    out = subprocess.run([awk, text, path], check=True, capture_output=True, text=True, timeout=LIMIT, env=dict(os.environ, LC_ALL='C')).stdout
    return resource.getrusage(resource.RUSAGE_CHILDREN).ru_utime - start, int(float(out))


def awk_sum(awk, path, mode, ere):
    """The sum of the answers, and how long a turn takes; nothing if it takes too long."""
    what = {'exists': 'a[i] ~ /%s/', 'find': 'match(a[i], /%s/) ? (RSTART - 1) * 1024 + RLENGTH + 1 : 0', 'split': 'split(a[i], b, /%s/) - 1'}[mode] % ere
    try:
        return awk_seconds(awk, path, 1, what)
    except subprocess.TimeoutExpired:
        return None


class Awk:
    """An awk over the texts of a row: the least times of a turn, and of the same loop with length()."""

    def __init__(self, awk, path, count, mode, ere):
        self.awk, self.path, self.count = awk, path, count
        self.what = {'exists': 'a[i] ~ /%s/', 'find': 'match(a[i], /%s/)', 'split': 'split(a[i], b, /%s/)'}[mode] % ere
        self.answered = awk_sum(awk, path, mode, ere)
        one = self.answered and self.answered[0]
        self.turns = max(1, min(TEXTS // count, int(1 / one) if one and one > 0.05 else TEXTS))
        self.work = self.loop = 1e18

    def turn(self):
        if self.answered:
            self.work = min(self.work, awk_seconds(self.awk, self.path, self.turns, self.what)[0])
            self.loop = min(self.loop, awk_seconds(self.awk, self.path, self.turns, 'length(a[i])')[0])

    def time(self):
        """Nanoseconds for a text, loop and reading taken off."""
        return (self.work - self.loop) / (self.count * self.turns) * 1e9 if self.answered else None


def row(program, awks, path, count, mode, ere, rounds):
    least, sums = {}, {}
    peers = [Awk(awk, path, count, mode, ere) for awk in awks]
    for _ in range(rounds):
        with open(path) as f:
            out = subprocess.run([program, ere, mode, '5'], stdin=f, check=True, capture_output=True, text=True, env=dict(os.environ, LC_ALL='C')).stdout
        for line in out.splitlines():
            name, ns, total = line.split('\t')
            least[name], sums[name] = min(float(ns), least.get(name, 1e18)), int(total)
        for peer in peers:
            peer.turn()
    for peer in peers:
        least[peer.awk] = peer.time()
        if peer.answered:
            sums[peer.awk] = peer.answered[1]
    for name in ('regexec', 'RE2', *awks):
        if name in sums and sums[name] != sums['ours']:
            print('match.py: %s: %s for `%s`: %s, not %s' % (mode, name, ere, sums[name], sums['ours']), file=sys.stderr)
    return least


def cell(time_, ours):
    return 'over' if time_ is None else '%.0f (x %.1f)' % (time_, time_ / ours)


def main():
    parser = argparse.ArgumentParser()
    parser.add_argument('--archive')
    parser.add_argument('--include')
    parser.add_argument('--libraries')
    parser.add_argument('--crates', default='/usr/share/cargo/registry')
    parser.add_argument('--rust', help='an archive of bench/match.rs that is there')
    parser.add_argument('--rounds', type=int, default=3)
    options = parser.parse_args()
    awks = [awk for awk in AWKS if shutil.which(awk)]
    with tempfile.TemporaryDirectory() as directory:
        program = build(options, directory)
        for mode in ('exists', 'find', 'split'):
            heads = None
            print('\n%s:\n' % TITLES[mode])
            for ere, texts in SEPARATORS if mode == 'split' else ERES:
                count, r, path = 20 if texts in (same, mixed) else 2000, random.Random(1), os.path.join(directory, 'texts')
                with open(path, 'w') as f:
                    f.write(''.join(texts(r) + '\n' for _ in range(count)))
                least = row(program, awks, path, count, mode, ere, options.rounds)
                if heads is None:
                    heads = [name for name in least if name != 'ours']
                    print('| ERE | texts | ours, ns | ' + ' | '.join(heads) + ' |\n|---|---|--:|' + '--:|' * len(heads))
                cells = [cell(least[name], least['ours']) for name in heads]
                print('| `%s` | %s | %.1f | ' % (ere.replace('|', '\\|'), texts.__name__, least['ours']) + ' | '.join(cells) + ' |', flush=True)


if __name__ == '__main__':
    main()
