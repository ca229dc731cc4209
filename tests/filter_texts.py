"""Filter texts drawn at random: programs, damaged ones, sizes at and over their limits, divisions and EREs and conditions mixed.

`gen` is the module gen.py; the functions that need it take it.
"""
import filter_cases

HAND_MADE = [t.encode('latin1') if isinstance(t, str) else t for t in filter_cases.TEXTS]
SECTIONS = ['{ %s }', 'BEGIN { %s }', 'END { %s }']


def names(r, more):
    """Users' names: 25 and some more."""
    all_names = ['n%d' % i for i in range(25 + more)]
    r.shuffle(all_names)
    items = ['{ %s = %s }', 'BEGIN { %s = %s }', 'END { print %s, %s }', '%s ~ /a/ && %s']
    return '\n'.join(r.choice(items) % (a, r.choice(all_names)) for a in all_names)


def constants(r, more):
    all_constants = [r.choice(['%d', '"%d"', '"\\/%d"', '"/%d"', '00%d']) % i for i in range(64 + more)]
    all_constants += [r.choice(all_constants) for _ in range(10)]
    r.shuffle(all_constants)
    return '\n'.join(r.choice(['{ x = %s }', 'BEGIN { x = %s }', 'END { x = %s }', '%s']) % c for c in all_constants)


def eres(r, more):
    all_eres = ['/e%s/' % ('a' * i) for i in range(16 + more)]
    all_eres += [r.choice(all_eres) for _ in range(6)]
    r.shuffle(all_eres)
    items = ['%s', 'BEGIN { x = %s }', 'END { x = match(y, %s) }', 'x !~ %s { if (x) %s; else /ea/ }']
    return '\n'.join(r.choice(items).replace('%s', e) for e in all_eres)


def instructions(r, more):
    left, out = 1023 + more, []
    while left >= 2:
        out.append('1')
        left -= 2
    text = r.choice(SECTIONS) % ';'.join(out)
    return text.replace('1;', '-1;', 1) if left else text


def depth(r, more):
    return r.choice(SECTIONS).replace('%s', 'print %s') % ', '.join(r.choice(['1', 'a', '$1']) for _ in range(32 + more))


def long_text(r, more):
    return '{ x = "%s" }' % ''.join(r.choice(['a', '\\n', 'b', '\\/', '/']) for _ in range(512 + more))


def long_texts(r, more):
    n = r.choice([0, 1, 127, 128, 129, 511, 512])
    return 'x = "%s" "%s"' % ('a' * n, 'a' * n)


def long_name(r, more):
    return 'x' * r.choice([1, 8, 9, 513, 8191, 8192, 8193, 9000])


def long_filter(r, more):
    return ('{ x = 1 } #' + 'c' * 9000)[:8192 + more]


SIZES = [names, constants, eres, instructions, depth, long_text, long_texts, long_name, long_filter]


def operand(r, depth):
    if depth <= 0 or r.random() < .4:
        return r.choice(['a', 'b', 'c%d' % r.randrange(4), 'NF', '1', '"x / y"', '(a)', '$b', 'length(b)', '/p/', '/ q /'])
    return r.choice(['(%s)', 'length((%s))', '-%s', '!%s', 'match(%s, /r\\/s/)', '$(%s)']) % expression(r, depth - 1)


def expression(r, depth):
    out = operand(r, depth)
    while r.random() < .5:
        out += r.choice([' / ', '/', ' ~ /t/ && ', ' + ', ' * ', ' || ', ' && /u v/ || ', '\t/ ']) + operand(r, depth - 1)
    return out


def statement(r, depth):
    kind = r.randrange(9)
    if kind == 0 and depth:
        return 'if (%s) %s' % (expression(r, 2), statement(r, depth - 1))
    if kind == 1 and depth:
        return 'if (%s)%s; else %s' % (expression(r, 2), statement(r, 0), statement(r, depth - 1))
    if kind == 2 and depth:
        return 'while ((%s)) %s' % (expression(r, 2), statement(r, depth - 1))
    if kind == 3:
        return '{ %s }' % statement(r, max(0, depth - 1))
    if kind == 4:
        return 'print %s, %s' % (expression(r, 1), expression(r, 1))
    if kind == 5:
        return '/w/'
    return '%s = %s' % (r.choice(['a', 'd', 'e%d' % r.randrange(3), '$1']), expression(r, 2))


def item(r):
    return r.choice(['%s { %s }' % (expression(r, 2), statement(r, 2)), '{ %s }' % statement(r, 3), 'BEGIN { %s }' % statement(r, 2),
                     'END { %s # f\n }' % statement(r, 2), expression(r, 2)])


def slashes(r):
    """Divisions, EREs and conditions, with names and EREs that look like them."""
    return r.choice(['', '\n', '# a /b/ c\n']) + '\n'.join(item(r) for _ in range(r.randrange(1, 5)))


def draw(r, gen):
    kind = r.random()
    if kind < .02:
        return r.choice(HAND_MADE)
    if kind < .45:
        return gen.filter_text(r)
    if kind < .6:
        return gen.program(r)
    if kind < .8:
        return slashes(r).encode('latin1')
    if kind < .85:
        return r.choice(SIZES)(r, r.choice([-1, 0, 0, 1, 1, 2])).encode('latin1')
    return b'\n'.join(gen.program(r) for _ in range(r.randrange(1, 6)))
