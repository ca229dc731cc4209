#!/usr/bin/env python3
"""Compares the lexer (crate program_lexer) with the reference's, on random texts.

    tests/tokens.py [--reference DIR] [--cases N] [--seed S]

DIR has reference.py and gen.py (default: tests/reference). The lexer has no entry for C: the script adds a crate with one to a
copy of the repository, builds its archive there and a program of tokens.c over it. At each token of a text the token as an
operator and as an operand are compared: kind, start and stop, and for a refused token the start.
"""
import argparse
import os
import random
import re
import shutil
import struct
import subprocess
import sys
import tempfile

from copying import copied

ROOT = os.path.dirname(os.path.dirname(os.path.abspath(__file__)))
HERE = os.path.dirname(os.path.abspath(__file__))
ENTRY = '''// One entry for C, for tests/tokens.py.
#![tactic(auto)]

use edition::Edition;
use program_lexer::Token;

// The token after one of a kind that stops at a place; `operand` reads a slash again as an ERE.
#[unsafe(no_mangle)]
pub extern "C" fn lexer_next(text: &[u8], kind: u64, stop: u64, operand: u64, out: &mut [u64]) {
    if out.len() != 3 {
        return;
    }
    let edition = Edition { number: 1 };
    let before = Token { start: 0, kind, stop: stop as usize };
    let mut t = program_lexer::token_after(text, before, edition);
    if operand == 1 {
        let k = t.kind;
        let start = t.start;
        if k < 76 {
            if start <= text.len() {
                t = program_lexer::as_operand(text, t, edition);
            }
        }
    }
    out[0] = t.kind;
    out[1] = t.start as u64;
    out[2] = t.stop as u64;
}
'''


def source(module):
    return open(os.path.join(ROOT, 'crates', 'program_tokens', 'specs', module + '.antt'), encoding='utf-8').read()


RANKS = {k: int(n) for k, n in re.findall(r'^rank (\S+) = (\d+)', source('Kinds'), re.M)}
WORDS = dict(re.findall(r'word "([^"]*)" ([\w-]+)', source('Words')))
# what the reference calls a word of each kind; each other word of the table is one that 01 leaves out
CALLED = {'FUNC': ('LENGTH', 'INDEX', 'SUBSTR', 'MATCH'), 'NAME': ('user_name', 'variable', 'fixed_variable')}


def expected(ref, text, after, stop, ere):
    """Kind, start and stop of a token; the stop of a refused one is left open."""
    if after == RANKS['user_name'] and text[stop:stop + 1] == b'(':
        return RANKS['call_paren'], stop, stop + 1
    try:
        t = ref._lex(text, stop, ere)
    except ref.Refusal as r:
        return RANKS['bad' if r.outcome == 3 else 'bad-ere'], r.place, None
    plain = {'EOF': 'text_end', 'NEWLINE': 'newline', 'NUMBER': 'NUMBER', 'STRING': 'STRING', 'ERE': 'ERE'}.get(t.kind)
    kind = plain or WORDS.get(text[t.start:t.end].decode('latin1'), 'user_name')
    if t.kind in CALLED:
        assert kind in CALLED[t.kind], (t.kind, kind)
    return RANKS[kind], t.start, t.end


def drawn(r, gen):
    k = r.randrange(5)
    if k == 4:
        return ''.join(r.choice(list(WORDS)) + r.choice(['', ' ', '(', '1']) for _ in range(r.randrange(1, 12))).encode('latin1')
    if k == 0:
        return bytes(r.choice(b'ab_1 .\t"\\/\n=+-*[]{}#|&!~<>$\0\x80') for _ in range(r.randrange(1, 40)))
    if k == 1:
        return gen.soup(r)
    text = gen.filter_text(r)
    return text[:r.randrange(1, 120)]


def program(scratch):
    copied('program_lexer', scratch, 'lexer_entries staticlib: edition program_lexer')
    os.makedirs(os.path.join(scratch, 'crates', 'lexer_entries', 'src'))
    with open(os.path.join(scratch, 'crates', 'lexer_entries', 'src', 'lib.rt'), 'w', encoding='utf-8') as f:
        f.write(ENTRY)
    crate = os.path.join(scratch, 'crates', 'lexer_entries')
    subprocess.run(['rt', 'lib'], cwd=crate, check=True, stdout=subprocess.DEVNULL)
    made = os.path.join(scratch, 'tokens')
    subprocess.run([os.environ.get('CC', 'cc'), '-std=gnu99', '-O2', '-Wall', '-Wextra', '-Werror', '-I', os.path.join(ROOT, 'include'),
                    os.path.join(HERE, 'tokens.c'), os.path.join(crate, 'out', 'liblexer_entries.a'), '-o', made], check=True)
    return made


def main():
    parser = argparse.ArgumentParser()
    parser.add_argument('--reference', default=os.path.join(HERE, 'reference'))
    parser.add_argument('--cases', type=int, default=10000)
    parser.add_argument('--seed', type=int, default=1)
    options = parser.parse_args()
    sys.path.insert(0, os.path.abspath(options.reference))
    import gen
    import reference as ref
    r = random.Random('tokens %d' % options.seed)
    cases = [(drawn(r, gen), r.getrandbits(32)) for _ in range(options.cases)]
    scratch = tempfile.mkdtemp(prefix='tokens.')
    try:
        given = b''.join(struct.pack('<II', len(t), c) + t for t, c in cases)
        lines = subprocess.run([program(scratch)], input=given, stdout=subprocess.PIPE, check=True).stdout.decode().split('\n')
    finally:
        shutil.rmtree(scratch)
    wrong, seen = 0, {}
    for (text, choices), line in zip(cases, lines):
        numbers = [int(x) for x in line.split()]
        kind = stop = 0
        for i in range(len(numbers) // 6):
            for operand in (0, 1):
                got = tuple(numbers[6 * i + 3 * operand:][:3])
                want = expected(ref, text, kind, stop, operand == 1)
                seen[want[0]] = seen.get(want[0], 0) + 1
                if got[:2] != want[:2] or want[2] not in (None, got[2]):
                    wrong += 1
                    print('DIFFERS', text, 'token', i, 'operand', operand, 'lexer', got, 'reference', want)
            kind, _, stop = numbers[6 * i + 3 * (choices >> i % 32 & 1):][:3]
        if kind not in (RANKS['text_end'], RANKS['bad'], RANKS['bad-ere']):
            wrong += 1
            print('NO END', text)
    missing = sorted(k for k, n in RANKS.items() if n not in seen)
    print('%d texts, %d tokens, %d wrong; kinds never met: %s' % (len(cases), sum(seen.values()), wrong, ' '.join(missing) or 'none'))
    sys.exit(1 if wrong or len(lines) != len(cases) + 1 else 0)


if __name__ == '__main__':
    main()
