#!/usr/bin/env python3
"""Runs every comparison that is not part of the gate, one after the other, and says which of them passed.

    tests/all.py [--cases N] [--seed S] [--quick]

N (default 100,000) is the number of random cases of each script that calls the archive; the scripts by which the prover computes take theirs from
their own defaults, take over an hour together, and are left out with --quick. Needs a C compiler, `objdump` and `valgrind`. The status is 1 if a script failed, or if tests/vectors.py writes other bytes than those that
are there.
"""
import argparse
import os
import subprocess
import sys
import time

import building

RANDOM = ['match', 'split', 'images', 'translate', 'run', 'ways']
# over other archives than capi's
OTHER_ARCHIVES = ['exists', 'tokens', 'automaton']
OTHERS = ['frames', 'pool', 'believe', 'sentences', 'documents', 'edits']
# over the program ./flowawk, which they build if it is missing
PROGRAM = ['cli', 'install']
COMPUTED = ['semantics', 'translation', 'grammar', 'wrong_definitions', 'wrong_grammar']


def same_vectors():
    """Whether tests/vectors.py writes what is in the repository."""
    written = subprocess.run([sys.executable, 'tests/vectors.py'], cwd=building.ROOT).returncode == 0
    return written and not subprocess.run(['git', 'status', '--porcelain', 'crates/vectors'], cwd=building.ROOT, check=True,
                                          stdout=subprocess.PIPE).stdout


def passes(script, *words):
    return subprocess.run([sys.executable, os.path.join('tests', script + '.py'), *words], cwd=building.ROOT).returncode == 0


def main():
    parser = argparse.ArgumentParser()
    parser.add_argument('--cases', type=int, default=100000)
    parser.add_argument('--seed', type=int, default=1)
    parser.add_argument('--quick', action='store_true')
    options = parser.parse_args()
    archive = building.archive('capi')
    drawn = ['--cases', str(options.cases), '--seed', str(options.seed)]
    jobs = [('vectors', same_vectors)]
    jobs += [(name, lambda name=name: passes(name, *drawn, '--archive', archive)) for name in RANDOM]
    jobs += [(name, lambda name=name: passes(name, *drawn)) for name in OTHER_ARCHIVES]
    jobs += [('layers', lambda: passes('layers', '--check'))]
    jobs += [('examples', lambda: passes('examples', '--archive', archive))]
    jobs += [(name, lambda name=name: passes(name)) for name in PROGRAM + OTHERS + ([] if options.quick else COMPUTED)]
    failed = []
    for name, job in jobs:
        start = time.time()
        print('== %s' % name, flush=True)
        if not job():
            failed.append(name)
        print('== %s: %s, %d s' % (name, 'FAILED' if name in failed else 'passed', time.time() - start), flush=True)
    print('%d scripts, %d failed%s' % (len(jobs), len(failed), ''.join(' ' + name for name in failed)))
    sys.exit(1 if failed else 0)


if __name__ == '__main__':
    main()
