#!/usr/bin/env python3
"""Compares `translate_of` with the reference's `translate`, by theorems that the checker computes (as tests/semantics.py does for images and runs).

    tests/translation.py [--reference DIR] [--cases N] [--seed S] [--only hand|random|cut|all] [--from I] [--to J] [--each K]
                         [--longest BYTES]

DIR has reference.py and gen.py (default: tests/reference). `hand` are the texts of filter_cases.py, `random` are N texts of the
generator, valid and damaged ones, `cut` are N valid texts, each cut off at each of its tokens; I and J take a part of the texts.
A case is a theorem `translate_of 1 text room ≡ answer`, proved by `refl`. The theorems are in modules of K cases each, in a copy
of the repository. A false theorem goes along with each module, and has to be refused.
"""
import argparse
import os
import random
import re
import shutil
import subprocess
import sys
import tempfile
import time

sys.path.insert(0, os.path.dirname(os.path.abspath(__file__)))
import filter_cases
from copying import copied, used

ROOT = os.path.dirname(os.path.dirname(os.path.abspath(__file__)))
REFERENCE = os.path.join(os.path.dirname(os.path.abspath(__file__)), 'reference')


def unfoldables():
    uses, names = [], []
    for crate in used('translation'):
        folder = os.path.join(ROOT, 'crates', crate, 'specs')
        if not os.path.isdir(folder):
            continue
        for module in sorted(f[:-5] for f in os.listdir(folder) if f.endswith('.antt')):
            found = re.findall(r'^ *unfoldable pub (\S+) :', open(os.path.join(folder, module + '.antt'), encoding='utf-8').read(), re.M)
            if found:
                here = 'translation·specs.specs' if crate == 'translation' else crate + '.specs'
                uses.append('use Rattle·%s.%s.{%s}' % (here, module, ', '.join('%s as %s-%s-%s' % (n, crate, module, n) for n in found)))
                names += ['%s-%s-%s' % (crate, module, n) for n in found]
    return '\n'.join(uses), ' '.join(names)


def numbers(values):
    return '(' + ''.join('%d ∷ ' % v for v in values) + '[])'


def case(ref, r, text, room=None):
    outcome, place, image = ref.translate(text)
    if room is None:
        room = len(image) + r.choice([0, 1, 3]) if outcome == 0 else 2
    outcome, place, image = ref.translate(text, room)
    old = [9] * room
    new = list(image) + old[len(image):] if outcome == 0 else old
    return outcome, 'translate_of 1 %s %s' % (numbers(text), numbers(old)), 'record { outcome = %d; place = %d; room = %s }' % (outcome, place, numbers(new))


def cut_off(text):
    """A text up to each place where a token may start: where the sort of byte changes, or after a byte that is an operator."""
    def sort(b):
        return 0 if b in b' \t' else 1 if chr(b).isalnum() or b == 95 else 2
    for i in range(1, len(text)):
        if sort(text[i]) == 2 or sort(text[i]) == 1 != sort(text[i - 1]):
            yield text[:i]


def main():
    parser = argparse.ArgumentParser()
    parser.add_argument('--reference', default=REFERENCE)
    parser.add_argument('--cases', type=int, default=100)
    parser.add_argument('--seed', type=int, default=1)
    parser.add_argument('--only', default='all', choices=['hand', 'random', 'cut', 'all'])
    parser.add_argument('--from', type=int, default=0, dest='first')
    parser.add_argument('--to', type=int, default=None, dest='last')
    parser.add_argument('--each', type=int, default=40)
    parser.add_argument('--longest', type=int, default=400)
    options = parser.parse_args()
    sys.path.insert(0, os.path.abspath(options.reference))
    import gen
    import reference as ref
    r = random.Random('translation %d' % options.seed)
    texts = []
    if options.only in ('all', 'hand'):
        texts += [(t, room) for t, room in filter_cases.hand_made()]
    if options.only in ('all', 'random'):
        made = 0
        while made < options.cases:
            t = gen.filter_text(r) if made % 3 else gen.program(r)
            if len(t) <= options.longest:
                texts.append((t, None))
                made += 1
    if options.only in ('all', 'cut'):
        made = 0
        while made < options.cases:
            t = gen.program(r)
            if len(t) <= options.longest // 2 and ref.translate(t)[0] == 0:
                texts += [(c, None) for c in cut_off(t)]
                made += 1
    texts = list(dict.fromkeys(texts))[options.first:options.last]
    cases = [case(ref, r, t, room) for t, room in texts]
    uses, names = unfoldables()
    scratch = tempfile.mkdtemp(prefix='translation.')
    copied('translation', scratch, 'translation: ' + ' '.join(used('translation')[:-1]))
    specs = os.path.join(scratch, 'crates', 'translation', 'specs')
    header = uses + '''
use mathlib.Core.Path.{◌≡◌, refl}
use mathlib.Core.List.{List, [], ◌∷◌}
use Prim.Native.Nat.{ℕ}
use Rattle.translation.specs.Translation.{Translation, translate_of}
'''
    with open(os.path.join(specs, 'Lib.antt'), 'a') as lib:
        for k in range(0, len(cases), options.each):
            lib.write('pub mod Cases%d\n' % k)
            with open(os.path.join(specs, 'Cases%d.antt' % k), 'w') as f:
                f.write(header)
                for i in range(k, min(k + options.each, len(cases))):
                    f.write('\ncase-%d : %s ≡ %s\nunfolding %s\ncase-%d = refl\n' % (i, cases[i][1], cases[i][2], names, i))
                f.write('\nfalse-%d : ◌≡◌ {A = ℕ} 0 1\nfalse-%d = refl\n' % (k, k))
    start = time.time()
    done = subprocess.run(['rt', 'check'], cwd=os.path.join(scratch, 'crates', 'translation'), stdout=subprocess.PIPE, stderr=subprocess.STDOUT)
    answer = done.stdout.decode('utf-8', 'replace')
    spent = time.time() - start
    refused = dict(re.findall(r'error: `((?:case|false)-[0-9]+)`: ((?:.*\n?(?!\S*antt:))*)', answer))
    wrong = [i for i in range(len(cases)) if 'case-%d' % i in refused]
    for i in wrong:
        print('REFUSED', texts[i], ref.translate(texts[i][0])[:2], refused['case-%d' % i][:300])
    falses = ['false-%d' % k for k in range(0, len(cases), options.each) if 'false-%d' % k not in refused]
    if falses:
        print('not refused:', falses, answer[-3000:])
    counts = {}
    for c in cases:
        counts[c[0]] = counts.get(c[0], 0) + 1
    print('%d cases, %d refused, %.0f s; outcomes %s' % (len(cases), len(wrong), spent, sorted(counts.items())))
    shutil.rmtree(scratch)
    sys.exit(1 if wrong or falses else 0)


if __name__ == '__main__':
    main()
