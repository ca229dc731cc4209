#!/usr/bin/env python3
"""Runs the grammar of crates/program_grammar/specs/Grammar.antt, read from that file, as a context-free grammar (Earley), and
compares what it takes with the reference.

    tests/grammar.py [--reference DIR] [--cases N] [--seed S]

DIR has reference.py and gen.py (default: tests/reference).

Each constructor is a rule. For each text: the tokens are read as Viable.antt says (`/` as an ERE exactly where the kinds so far
and ERE are viable), the first token that is bad or not viable has to be the reference's refusal (3, 5, 4) and place; a text that
the reference takes (or refuses for a size only) has to be a sentence. Short sentences have to have one derivation only.
"""
import argparse
import functools
import os
import random
import re
import sys

ROOT = os.path.dirname(os.path.dirname(os.path.abspath(__file__)))
sys.path.insert(0, os.path.dirname(os.path.abspath(__file__)))
import filter_cases


def source(crate, module):
    text = open(os.path.join(ROOT, 'crates', crate, 'specs', module + '.antt'), encoding='utf-8').read()
    return '\n'.join(l for l in text.split('\n') if not l.strip().startswith('--'))


KINDS = re.findall(r'^rank (\S+) = ', source('program_tokens', 'Kinds'), re.M)
SETS = dict(re.findall(r'^(\w+) = ((?:[\w-]+ ∷ )+\[\])$', source('program_grammar', 'Sets'), re.M))
FUNCTIONS = {k: tuple(x.strip() for x in s.split('∷')[:-1]) for k, s in re.findall(r'kind = (\w+); shapes = ([^;]*);', source('program_tree', 'Functions'))}
VALUES = {'Place': ['in_print', 'elsewhere'], 'End': ['needs_end', 'ended'], 'Else': ['takes_else', 'whole']}


def kinds_of(text):
    text = text.strip().strip('()')
    if text in SETS:
        text = SETS[text]
    out = set()
    for part in text.split('∷'):
        part = part.strip()
        if part in SETS:
            out |= kinds_of(part)
        elif part != '[]':
            assert part in KINDS, part
            out.add(part)
    return frozenset(out)


def split_top(text, sep):
    out, depth, cur = [], 0, ''
    for c in text:
        depth += (c in '({') - (c in ')}')
        if c == sep and depth == 0:
            out.append(cur)
            cur = ''
        else:
            cur += c
    return [x.strip() for x in out + [cur]]


def term(text):
    """An application or a list of shapes, as nested tuples."""
    text = text.strip()
    while text.startswith('(') and text.endswith(')') and len(split_top(text, '\0')) == 1 and balanced(text[1:-1]):
        text = text[1:-1].strip()
    if '∷' in text and len(split_top(text, '∷')) > 1:
        return ('list',) + tuple(term(x) for x in split_top(text, '∷'))
    words = split_top(text, ' ')
    words = [w for w in words if w]
    return words[0] if len(words) == 1 else tuple(term(w) for w in words)


def balanced(text):
    depth = 0
    for c in text:
        depth += (c == '(') - (c == ')')
        if depth < 0:
            return False
    return True


def symbols(text):
    """A list of kinds: `a ++ (b ∷ c)` as [a, b, c]."""
    text = text.strip()
    while text.startswith('(') and text.endswith(')') and balanced(text[1:-1]):
        text = text[1:-1].strip()
    for sep in ('++', '∷'):
        parts = split_top(text.replace('++', '\1'), '\1' if sep == '++' else sep)
        if len(parts) > 1:
            return [y for x in parts for y in symbols(x.replace('\1', '++'))]
    return [] if text == '[]' else [text]


def last_argument(text):
    words = [w for w in split_top(text, ' ') if w]
    return ' '.join(words[:-1]), words[-1]


RULES = {}
grammar = source('program_grammar', 'Grammar').replace('→ Expression ', '→ Form (expression elsewhere) ')
for data in re.split(r'\n\s*pub data ', grammar)[1:]:
    head = data.split('\n', 1)[0]
    name = head.split()[0]
    if name in ('OneOf', 'Place', 'Compares', 'Part', 'End', 'Else'):
        continue
    body = re.split(r'\n *(?:mutual|abbrev|module)', data.split('\n', 1)[1])[0]
    for rule in re.split(r'\n\s+(?=[\w-]+ : )', '\n' + body)[1:]:
        rname, sig = rule.split(' : ', 1)
        RULES.setdefault(name, []).append((rname.strip(), ' '.join(sig.split())))


def binders(sig):
    types = {}
    for group in re.findall(r'\{([^}]*)\}', sig):
        names, t = group.split(' : ')
        for n in names.split():
            types[n] = t
    return types, re.sub(r'\{[^}]*\}', '', sig).strip().lstrip('→').strip()


def unify(p, g, env):
    """A pattern with variables against a closed term."""
    if isinstance(p, str):
        if p in env and env[p] is not None:
            return env if env[p] == g else None
        if p in env:
            return dict(env, **{p: g})
        return env if p == g else None
    if p[0] == 'list':
        if g == '[]' or g[0] != 'list':
            return None
        for x in p[1:-1]:
            if g == '[]':
                return None
            env = unify(x, g[1], env)
            g = ('list',) + g[2:] if len(g) > 3 else g[2]
            if env is None:
                return None
        return unify(p[-1], g, env)
    if not isinstance(g, tuple) or len(g) != len(p):
        return None
    for x, y in zip(p, g):
        env = unify(x, y, env)
        if env is None:
            return None
    return env


def closed(p, env):
    if isinstance(p, str):
        return env.get(p, p) if env.get(p, p) is not None else p
    if p[0] == 'list':
        tail = closed(p[-1], env)
        return ('list',) + tuple(closed(x, env) for x in p[1:-1]) + (tail[1:] if isinstance(tail, tuple) and tail[0] == 'list' else (tail,))
    return tuple(closed(x, env) for x in p)


@functools.lru_cache(None)
def productions(key, first):
    """Right sides for a nonterminal whose first token is one of some kinds (None: any)."""
    name = key if isinstance(key, str) else key[0]
    out = []
    for rname, sig in RULES[name]:
        types, sig = binders(sig)
        parts = split_top(sig, '→')
        target, shape = last_argument(parts[-1])
        env = {n: None for n, t in types.items() if t not in ('Kind', 'List Kind', 'Function')}
        env['in_main'] = None
        env = unify(term(target), key, env)
        if env is None:
            continue
        free = [n for n, v in env.items() if v is None and types.get(n) in VALUES]
        envs = [env]
        for n in free:
            envs = [dict(e, **{n: v}) for e in envs for v in VALUES[types[n]]]
        for e in envs:
            options = [e]
            if 'function_of' in sig:
                options = [dict(e, **{'f-kind': k, 'f-shapes': s}) for k, s in FUNCTIONS.items()]
            for o in options:
                made = expand(parts[:-1], shape, o, types)
                if made is not None:
                    out.append((rname, made))
    if first is not None:
        narrowed = []
        for rname, rhs in out:
            if not rhs:
                continue
            s = rhs[0]
            if s[0] == 't':
                if s[1] & first:
                    narrowed.append((rname, (('t', s[1] & first),) + rhs[1:]))
            else:
                narrowed.append((rname, (('n', s[1], first if s[2] is None else first & s[2]),) + rhs[1:]))
        out = narrowed
    return tuple(out)


def expand(premises, shape, env, types):
    kinds = {n: frozenset(KINDS) for n, t in types.items() if t == 'Kind'}
    lists, joined = {}, {}
    for p in premises:
        if p.startswith('OneOf '):
            s, k = last_argument(p[6:])
            kinds[k] &= kinds_of(s)
        elif p.startswith('among ') and p.endswith(' k ≡ false'):
            kinds['k'] -= kinds_of(p[6:-len(' k ≡ false')])
        elif p.startswith('Compares '):
            kinds['k'] &= kinds_of('comparisons') - (frozenset(['greater']) if env['p'] == 'in_print' else frozenset())
        elif p.startswith('function_of '):
            kinds['k'] &= frozenset([env['f-kind']])
        elif p == 'in_main ≡ true':
            if env['in_main'] != 'true':
                return None
        else:
            head, what = last_argument(p)
            t = closed(term(head.replace('(f .shapes)', 'SHAPES')), env)
            if 'SHAPES' in head.replace('(f .shapes)', 'SHAPES'):
                t = tuple(tuple(('list',) + env['f-shapes'] + ('[]',) if y == 'SHAPES' else y for y in x) if isinstance(x, tuple) else x for x in t)
            vs = symbols(what)
            if len(vs) == 2:
                joined[tuple(vs)] = t
            elif vs and vs[0] in types:
                lists[vs[0]] = t
            else:
                raise SystemExit('premise ' + p)
    seq, i = symbols(shape), 0
    rhs = []
    while i < len(seq):
        pair = tuple(seq[i:i + 2])
        if pair in joined:
            rhs.append(('n', joined[pair], kinds[pair[0]]))
            i += 2
            continue
        s = seq[i]
        if s in lists:
            rhs.append(('n', lists[s], None))
        elif s in kinds:
            rhs.append(('t', kinds[s]))
        else:
            assert s in KINDS, (s, shape)
            rhs.append(('t', frozenset([s])))
        i += 1
    return tuple(rhs)


START = 'Sentence'


@functools.lru_cache(None)
def nullable(key):
    return any(all(s[0] == 'n' and nullable(s[1]) for s in rhs) for _, rhs in productions(key, None) if all(s[0] == 'n' and s[1] != key for s in rhs))


class Earley:
    def __init__(self):
        self.sets = [self.close([(START, None, r, 0, 0) for r in productions(START, None)], 0, [])]
        self.tokens = []

    def close(self, items, at, sets):
        seen, todo = set(items), list(items)
        waiting = {}
        while todo:
            item = todo.pop()
            key, first, rule, dot, origin = item
            rhs = rule[1]
            new = []
            if dot < len(rhs):
                s = rhs[dot]
                if s[0] == 'n':
                    new += [(s[1], s[2], r, 0, at) for r in productions(s[1], s[2])]
                    if s[2] is None and nullable(s[1]):
                        new.append((key, first, rule, dot + 1, origin))
            elif origin < at:
                for k2, f2, r2, d2, o2 in sets[origin]:
                    if d2 < len(r2[1]) and r2[1][d2] == ('n', key, first):
                        new.append((k2, f2, r2, d2 + 1, o2))
            for n in new:
                if n not in seen:
                    seen.add(n)
                    todo.append(n)
        return seen

    def takes(self, kind):
        return any(d < len(r[1]) and r[1][d][0] == 't' and kind in r[1][d][1] for _, _, r, d, _ in self.sets[-1])

    def push(self, kind):
        moved = [(k, f, r, d + 1, o) for k, f, r, d, o in self.sets[-1] if d < len(r[1]) and r[1][d][0] == 't' and kind in r[1][d][1]]
        self.tokens.append(kind)
        self.sets.append(self.close(moved, len(self.sets), self.sets))

    def done(self):
        return any(k == START and d == len(r[1]) and o == 0 for k, _, r, d, o in self.sets[-1])


def derivations(tokens):
    @functools.lru_cache(None)
    def nt(key, first, i, j):
        return sum(seq(rhs, i, j) for _, rhs in productions(key, first))

    @functools.lru_cache(None)
    def seq(rhs, i, j):
        if not rhs:
            return int(i == j)
        s = rhs[0]
        if s[0] == 't':
            return seq(rhs[1:], i + 1, j) if i < j and tokens[i] in s[1] else 0
        if len(rhs) == 1:
            return nt(s[1], s[2], i, j)
        total = 0
        for m in range(i if s[2] is None and nullable(s[1]) else i + 1, j + 1):
            rest = seq(rhs[1:], m, j)
            if rest:
                total += rest * nt(s[1], s[2], i, m)
        return total
    return nt(START, None, 0, len(tokens))


WORDS = {}
for w, k in re.findall(r'word "((?:[^"\\]|\\.)*)" ([\w-]+)', source('program_tokens', 'Words')):
    WORDS[w] = k


def judged(ref, text):
    """Outcome (0, 3, 4, 5), place and kinds of a text by the grammar."""
    e = Earley()
    at = 0
    while True:
        after_user = e.tokens[-1:] == ['user_name']
        if after_user and text[at:at + 1] == b'(':
            return 4, at, e.tokens                    # call_paren: no rule has it
        try:
            ere = e.takes('ERE')
            t = ref._lex(text, at, ere)
        except ref.Refusal as r:
            return r.outcome, r.place, e.tokens
        spelled = text[t.start:t.end].decode('latin1')
        kind = {'EOF': 'text_end', 'NEWLINE': 'newline', 'NUMBER': 'NUMBER', 'STRING': 'STRING', 'ERE': 'ERE'}.get(t.kind) or WORDS.get(spelled, 'user_name')
        if not e.takes(kind):
            return 4, t.start, e.tokens
        e.push(kind)
        if kind == 'text_end':
            assert e.done()
            return 0, len(text), e.tokens
        at = t.end


def main():
    parser = argparse.ArgumentParser()
    parser.add_argument('--reference', default=os.path.join(os.path.dirname(os.path.abspath(__file__)), 'reference'))
    parser.add_argument('--cases', type=int, default=1000)
    parser.add_argument('--seed', type=int, default=1)
    options = parser.parse_args()
    sys.path.insert(0, os.path.abspath(options.reference))
    import gen
    import reference as ref
    r = random.Random(options.seed)
    texts = [t for t, _ in filter_cases.hand_made() if len(t) < 1500] + [gen.filter_text(r) for _ in range(options.cases)]
    texts = [t for t in dict.fromkeys(texts) if 0 not in t and len(t) < 1500]
    wrong = counted = sentences = 0
    refused = {}
    for t in texts:
        outcome, place, _ = ref.translate(t)
        o, p, kinds = judged(ref, t)
        fine = (o, p) == (outcome, place) if outcome in (3, 4, 5) else o == 0 if outcome in (0, 7) or place == len(t) else o == 0 or p > place
        refused[o] = refused.get(o, 0) + 1
        if not fine:
            wrong += 1
            print('DIFFERS', t, (outcome, place), (o, p), kinds[-5:])
        if o == 0:
            sentences += 1
            if len(kinds) <= 45:
                counted += 1
                n = derivations(tuple(kinds))
                if n != 1:
                    wrong += 1
                    print('DERIVATIONS', n, t)
    print('%d rules; %d texts, %d sentences, %d of them counted, outcomes %s; %d wrong' % (sum(map(len, RULES.values())), len(texts), sentences, counted, sorted(refused.items()), wrong))
    sys.exit(1 if wrong else 0)


if __name__ == '__main__':
    main()
